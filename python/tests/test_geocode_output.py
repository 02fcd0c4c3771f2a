"""The files of matches: the Census Bureau's columns, and points."""

import csv
from collections.abc import Iterator
from pathlib import Path

import pytest
from test_main import layer
from tigerline.geocoding.address_output import Form, write_matches
from tigerline.interrupts import Interrupts
from tigerline.output import pending_file
from tigerline.geocoding import Address, Candidate, Match, Reason, Status

HEAD = "id,address,match,exact,matched_address,coordinates,tlid,side"
FOUND = (-87.5, 33.25, 7, "L", "01001")
MATCHES = [
    Match(Address("1", "8 Oak St", "A", "AL", "2"), Status.MATCH, (), "8 OAK ST", *FOUND),
    Match(
        Address("2", " 8 Elm"),
        Status.TIE,
        (Reason.TIE,),
        candidates=(
            Candidate((Reason.TYPE,), "8 ELM ST", -87.0, 33.0, 8, "R", "01001"),
            Candidate((), "8 ELM", -86.0, 33.0, 9, "L", "01001"),
        ),
    ),
    Match(Address("", "x\r\0"), Status.NO_MATCH, (Reason.NO_SUCH_STREET,), hint="OAK"),
]
MATCH_LINE = "1;8 Oak St, A, AL, 2;Match;Exact;8 OAK ST;-87.500000,33.250000;7;L"
# Whether there are a head line, reasons and candidates, and the lines.
FORMS = [
    ((False, False, False), [MATCH_LINE, "2;8 Elm, , , ;Tie", ";x, , , ;No_Match"]),
    ((False, True, False), [f"{MATCH_LINE};;", "2;8 Elm, , , ;Tie;;;;;;tie;", ";x, , , ;No_Match;;;;;;no_such_street;OAK"]),
    ((True, True, False), [
        f"{HEAD},reason,hint,longitude,latitude".replace(",", ";"),
        f"{MATCH_LINE};;;-87.500000;33.250000",
        "2;8 Elm, , , ;Tie;;;;;;tie;;;",
        ";x, , , ;No_Match;;;;;;no_such_street;OAK;;",
    ]),
    ((False, False, True), [
        MATCH_LINE,
        "2;8 Elm, , , ;Tie",
        "2;8 Elm, , , ;Candidate;Non_Exact;8 ELM ST;-87.000000,33.000000;8;R",
        "2;8 Elm, , , ;Candidate;Exact;8 ELM;-86.000000,33.000000;9;L",
        ";x, , , ;No_Match",
    ]),
]  # fmt: skip
SUMMARY = "3 addresses: 1 matched, 1 of them exactly; 1 tied, 1 not matched"


@pytest.fixture
def interrupts() -> Iterator[Interrupts]:
    with Interrupts() as held:
        yield held


def written(path: Path, form: Form, interrupts: Interrupts) -> str:
    with pending_file(path, overwrite=False) as file:
        said = write_matches(file, iter(MATCHES), form, interrupts)
        file.publish(interrupts)
    return said


@pytest.mark.parametrize(("form", "expected"), FORMS)
def test_census_columns(
    tmp_path: Path, interrupts: Interrupts, form: tuple[bool, bool, bool], expected: list[str]
) -> None:
    assert written(tmp_path / "a.csv", Form(*form), interrupts) == SUMMARY
    with open(tmp_path / "a.csv", newline="") as file:
        assert [";".join(row).replace("\r\0", "") for row in csv.reader(file)] == expected


@pytest.mark.usefixtures("gdal")
@pytest.mark.parametrize(
    ("suffix", "found", "said"),
    [
        ("gpkg", ["1 Match", "2 Tie", "2 Candidate", "2 Candidate", " No_Match"], ""),
        ("geojson", ["1 Match", "2 Tie", "2 Candidate", "2 Candidate", " No_Match"], ""),
        (
            "fgb",
            ["1 Match", "2 Candidate", "2 Candidate"],
            "; FlatGeobuf has no features without a place, so 2 left out",
        ),
    ],
)
def test_points(tmp_path: Path, interrupts: Interrupts, suffix: str, found: list[str], said: str) -> None:
    assert written(tmp_path / f"a.{suffix}", Form(False, False, True), interrupts) == SUMMARY + said
    rows = layer(tmp_path / f"a.{suffix}")
    assert sorted(f"{row['id']} {row['match']}" for row in rows) == sorted(found)
    by_tlid = {row["tlid"]: row for row in rows}
    assert [float(by_tlid["7"][name]) for name in ("longitude", "latitude")] == [-87.5, 33.25]
    assert by_tlid["7"]["WKT"] == "POINT (-87.5 33.25)" and by_tlid["8"]["reason"] == "type"
    assert [row["hint"] for row in rows if row["hint"]] == ["OAK"] * (suffix != "fgb")
