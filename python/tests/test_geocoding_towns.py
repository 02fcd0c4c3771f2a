"""Towns of addresses: a place in another state, ZIP Code or city is no match, and nothing is copied from the input."""

from pathlib import Path

import pytest
import tigerline
from counties import CODE, write_empty
from tigerline.geocoding.towns import city_key, state_of
from towns import write_cities

pytestmark = pytest.mark.usefixtures("extractd", "scratch")

GEORGIA = "13001"  # a county in another state
# Segments 1, 2, ...: the county, the name, the ZIP Code, the codes of the place and the county subdivision. All have
# houses 1 to 99.
SEGMENTS = """
01001 | Oak   | 36001 | 10001 | 20001
01001 | Oak   | 36002 | 10002 | 20001
01001 | Elm   | 36002 |       | 20001
01001 | Elm   | 36003 |       | 20009
01001 | Pine  |       | 10002 | 20001
01001 | Pine  |       |       | 20009
01001 | Ash   | 36003 | 10003 | 20001
01001 | La Cañada | 36003 | 10003 | 20001
13001 | Gum   | 31501 | 10002 | 20001
"""
CITIES = [
    ("10001", "P", "Saint Paul"),
    ("10002", "P", "Mayhew"),
    ("20001", "M", "Kelso"),
    ("10003", "P", "La Ca\xf1ada"),
]

# Street, city, state, ZIP Code; the status, the reasons and the matched address, or the candidates' TLIDs.
ADDRESSES = """
5 Oak St  |                 | AL      | 36001 | Match    |            | 5 OAK ST, SAINT PAUL, AL, 36001
5 Oak St  | Chicago         | AL      | 36001 | Match    |            | 5 OAK ST, SAINT PAUL, AL, 36001
5 Oak St  | Chicago         | IL      | 36001 | No_Match | other_state |
5 Oak St  | Chicago         | Klingon | 36001 | No_Match | other_state |
5 Oak St  | St. Paul        | Alabama | 60601 | Match    | other_zip  | 5 OAK ST, SAINT PAUL, AL, 36001
5 Oak St  | City of Mayhew  | Ala.    | 60601 | Match    | other_zip  | 5 OAK ST, MAYHEW, AL, 36002
5 Oak St  | Kelso           |         | 60601 | Tie      | tie        | 1 2
5 Oak St  | Selby           |         | 60601 | No_Match | other_zip  | 1 2
5 Oak St  | Selby           |         |       | No_Match | other_city | 1 2
5 Oak St  | MAYHEW          |         |       | Match    | no_zip     | 5 OAK ST, MAYHEW, AL, 36002
5 Oak St  |                 |         |       | Tie      | tie        | 1 2
5 Elm St  | Kelso           |         |       | Match    | no_zip     | 5 ELM ST, KELSO, AL, 36002
5 Elm St  | Selby           |         | 36003 | Match    |            | 5 ELM ST, , AL, 36003
5 Elm St  | Selby           |         | 36009 | No_Match | other_zip  | 3 4
5 Pine St | Mayhew          |         | 36009 | Match    | no_zip     | 5 PINE ST, MAYHEW, AL,
5 Pine St | Selby           |         | 36009 | No_Match | other_city | 5
5 Ash St  | La Ca\xf1ada    |         |       | Match    | no_zip     | 5 ASH ST, LA CA\xd1ADA, AL, 36003
5 La Cañada St  |            |    | 36003 | Match    |            | 5 LA CAÑADA ST, LA CAÑADA, AL, 36003
5 la can\u0303ada st  |     |    | 36003 | Match    |            | 5 LA CAÑADA ST, LA CAÑADA, AL, 36003
5 LA CAÑADA ST  | LA CAN\u0303ADA | |     | Match   | no_zip     | 5 LA CAÑADA ST, LA CAÑADA, AL, 36003
5 La Canada St  |            |    | 36003 | Match    | spelling   | 5 LA CAÑADA ST, LA CAÑADA, AL, 36003
5 La €añada St  |            |    | 36003 | Match    | spelling   | 5 LA CAÑADA ST, LA CAÑADA, AL, 36003
5 La €€ada St   |            |    | 36003 | No_Match | no_such_street |
9 Fig St  | Kelso           | AL      | 36001 | No_Match | no_such_street |
5 Gum St  | Mayhew          | GA      | 31501 | Match    |            | 5 GUM ST, MAYHEW, GA, 31501
5 Gum St  | Mayhew          | AL      | 31501 | No_Match | other_state | 9
500 Ash St |                | AL      |       | No_Match | no_such_number_on_street |
500 Ash St |                | GA      |       | No_Match | no_such_street |
""".replace(
    "\\xf1", "\xf1"
)


def rows(text: str) -> list[list[str]]:
    return [[cell.strip() for cell in row.split("|")] for row in text.strip().splitlines()]


def write_counties(folder: Path, with_cities: bool = True) -> Path:
    lines: dict[str, list[str]] = {CODE: [], GEORGIA: []}
    for tlid, (code, name, zip_code, place, subdivision) in enumerate(rows(SEGMENTS), start=1):
        head = f"10006{tlid:10}{'':4}{name:30}St    A41{1:>11}{99:>11}{'':22}0000{zip_code:5}".ljust(140)
        areas = f"{subdivision:5}".ljust(20) + f"{place:5}"
        ends = f"{-86_000_000 - tlid:+010}{32_000_000:+09}" * 2
        lines[code].append((head + areas).ljust(190) + ends + "\n")
    for code, records in lines.items():
        (folder / f"TGR{code}.RT1").write_text("".join(records), encoding="latin-1")
        write_empty(folder, code)
        if with_cities:
            write_cities(folder / f"tgr{code}.rtc", code, CITIES)
    return folder


def found(match: tigerline.Match) -> list[str]:
    places = match.matched or " ".join(str(candidate.tlid) for candidate in match.candidates)
    return [str(match.status), " ".join(match.reasons), places]


def test_towns(tmp_path: Path) -> None:
    write_counties(tmp_path)
    given = rows(ADDRESSES)
    matches = tigerline.geocode([("", *row[:4]) for row in given], tmp_path)
    assert [[*row[:4], *map(str.strip, found(match))] for row, match in zip(given, matches)] == given


def test_without_cities(tmp_path: Path) -> None:
    """Without the file, a warning comes once, and only ZIP Codes count."""
    write_counties(tmp_path, with_cities=False)
    addresses = [("", "5 Oak St", "Mayhew", "AL", code) for code in ("36001", "36009", "")]
    with pytest.warns(UserWarning, match="TGR01001.RTC is missing: cities can't be compared") as warned:
        matches = [found(match) for match in tigerline.geocode(addresses, tmp_path)]
    assert len(warned) == 1
    assert matches == [
        ["Match", "", "5 OAK ST, , AL, 36001"],
        ["No_Match", "other_zip", "1 2"],
        ["No_Match", "no_zip", "1 2"],
    ]


def test_faulty_cities(tmp_path: Path) -> None:
    path = write_counties(tmp_path) / f"tgr{CODE}.rtc"
    path.write_bytes(path.read_bytes() + b"C0006\n")
    with pytest.raises(OSError, match=f"{path}: line 5 isn't a record of type C"):
        list(tigerline.geocode([("", "5 Oak St", "Mayhew", "AL", "")], tmp_path))


@pytest.mark.parametrize(
    ("written", "state"),
    [("n.y.", "NY"), ("New  York", "NY"), ("N. Y.", "NY"), ("", ""), ("Fla.", "FL"), ("Fl0", "FL0")],
)
def test_states(written: str, state: str) -> None:
    assert state_of(written) == state


@pytest.mark.parametrize(
    ("one", "other"),
    [
        ("St. Louis", "SAINT LOUIS"),
        ("Town of Ft Payne", "Fort Payne"),
        ("Mt Vernon", "mount vernon"),
        ("O'Fallon", "O\u2019Fallon"),
    ],
)
def test_same_city(one: str, other: str) -> None:
    assert city_key(one) == city_key(other)
