"""Hyphenated house numbers such as `164-20` match ranges whose ends are written so, and no others."""

from pathlib import Path

import pytest
import tigerline
from counties import CODE
from tigerline.geocoding.hyphens import hyphenated, is_range, plain_number
from towns import write_cities

pytestmark = pytest.mark.usefixtures("extractd", "scratch")

# Segments 1, 2, ...: the name, and the ends of the ranges on the left and on the right. Each goes 0.098 degrees to the east.
SEGMENTS = """
Main     | 164-01 | 164-99 | 164-02 | 164-98
Main     | 166-99 | 166-01 | 166-98 | 166-2
Main     | 167-01 | 168-99 | 169-01 | 169
Main     | 171-1  | 171-99 | 172-01 | 172-98
Elm      | 1      | 99     | 2      | 98
Oak      | 11-01  | 11-99  | 11     | 99
Oak      | 97-001 | 97-099 | 3-3    | 3-3
""".strip().splitlines()
# Further ranges of segment 1, of record type 6.
FURTHER = ("165-01", "165-99", "2", "98")

# An address, its status, the reasons, the matched address, and the segment, the side and thousandths of a degree from its start.
ADDRESSES = """
164-01 Main St      | Match    |               | 164-01 MAIN ST, KELSO, AL, 36001  | 1 L 0
164-21 Main St      | Match    |               | 164-21 MAIN ST, KELSO, AL, 36001  | 1 L 20
164-50 Main St      | Match    |               | 164-50 MAIN ST, KELSO, AL, 36001  | 1 R 49
164-00 Main St      | No_Match | no_such_number_on_street | |
164-100 Main St     | No_Match | no_such_number_on_street | |
163-21 Main St      | No_Match | no_such_number_on_street | |
165-21 Main St      | Match    |               | 165-21 MAIN ST, KELSO, AL, 36001  | 1 L 20
165-22 Main St      | No_Match | no_such_number_on_street | |
166-21 Main St      | Match    |               | 166-21 MAIN ST, KELSO, AL, 36001  | 2 L 78
166-50 Main St      | Match    |               | 166-50 MAIN ST, KELSO, AL, 36001  | 2 R 49
167-21 Main St      | No_Match | no_such_number_on_street | |
169-01 Main St      | No_Match | no_such_number_on_street | |
171-50 Main St      | No_Match | no_such_number_on_street | |
172-50 Main St      | Match    |               | 172-50 MAIN ST, KELSO, AL, 36001  | 4 R 50
16421 Main St       | No_Match | no_such_number_on_street | |
16400021 Main St    | No_Match | no_such_number_on_street | |
164 Main St         | No_Match | no_such_number_on_street | |
50 Main St          | Match    |               | 50 MAIN ST, KELSO, AL, 36001      | 1 R 49
50-2 Main St        | No_Match | no_such_number_on_street | |
11-13 Elm St        | Match    | number_suffix | 11 ELM ST, KELSO, AL, 36001       | 5 L 10
11-13 Oak St        | Match    |               | 11-13 OAK ST, KELSO, AL, 36001    | 6 L 12
15-17 Oak St        | Match    | number_suffix | 15 OAK ST, KELSO, AL, 36001       | 6 R 4
97-050 Oak St       | No_Match | no_such_number_on_street | |
97-51 Oak St        | Match    |               | 97-51 OAK ST, KELSO, AL, 36001    | 7 L 50
3-3 Oak St          | Match    |               | 3-3 OAK ST, KELSO, AL, 36001      | 7 R 0
164 - 21 Main St    | Match    |               | 164-21 MAIN ST, KELSO, AL, 36001  | 1 L 20
164-21A Main St     | Match    | number_suffix | 164-21 MAIN ST, KELSO, AL, 36001  | 1 L 20
164-21 1/2 Main St  | Match    | number_suffix | 164-21 MAIN ST, KELSO, AL, 36001  | 1 L 20
Apt 4, 164-21 Main St | Match  | extra_words   | 164-21 MAIN ST, KELSO, AL, 36001  | 1 L 20
164-21 Mian St      | Match    | spelling      | 164-21 MAIN ST, KELSO, AL, 36001  | 1 L 20
164-21 Main Ave     | Match    | type          | 164-21 MAIN ST, KELSO, AL, 36001  | 1 L 20
164-21 Broadway     | Match    |               | 164-21 BROADWAY, KELSO, AL, 36001 | 1 L 20
164-21 Fig St       | No_Match | no_such_street | |
164-21              | No_Match | no_street     | |
164-123456 Main St  | No_Match | hyphenated_number | |
164A-21 Main St     | No_Match | hyphenated_number | |
""".strip().splitlines()


def cells(row: str) -> list[str]:
    return [cell.strip() for cell in row.split("|")]


def write_county(folder: Path) -> None:
    lines = []
    for tlid, (name, *ends) in enumerate(map(cells, SEGMENTS), start=1):
        head = f"10006{tlid:10}{'':4}{name:30}St    A41{''.join(f'{end:>11}' for end in ends)}00003600136001".ljust(140)
        places = f"{-86_000_000:+010}{32_000_000 + tlid:+09}{-85_902_000:+010}{32_000_000 + tlid:+09}"
        lines.append((head + "2000120001").ljust(190) + places + "\n")
    types = {
        "1": "".join(lines),
        "4": f"40006{1:10}  1{9:8}".ljust(58) + "\n",
        "5": f"50006{'':5}{9:8}  Broadway".ljust(56) + "\n",
        "6": f"60006{1:10}  1{''.join(f'{end:>11}' for end in FURTHER)}00003600136001\n",
    }
    for record_type, text in types.items():
        (folder / f"TGR{CODE}.RT{record_type}").write_text(text)
    write_cities(folder / f"TGR{CODE}.RTC", CODE, [("20001", "M", "Kelso")])


def test_hyphenated_numbers(tmp_path: Path) -> None:
    write_county(tmp_path)
    matches = tigerline.geocode([("", cells(row)[0], "Kelso", "AL", "36001") for row in ADDRESSES], tmp_path)
    found = [[str(one.status), " ".join(one.reasons), one.matched or "", place(one)] for one in matches]
    assert [[cells(row)[0], *result] for row, result in zip(ADDRESSES, found, strict=True)] == list(
        map(cells, ADDRESSES)
    )


def place(match: tigerline.Match) -> str:
    if match.longitude is None:
        return ""
    return f"{match.tlid} {match.side} {round((match.longitude + 86) * 1000)}"


@pytest.mark.parametrize(
    ("first", "second", "number", "may_be_range"),
    [("164", "20", "164-20", False), ("0", "5", "0-05", True), ("593", "595", "593-595", True), ("12", "12", "12-12", False),
     ("99999", "99999", "99999-99999", False), ("1", "100000", None, False), ("100000", "1", None, False)],
)  # fmt: skip
def test_numbers(first: str, second: str, number: str | None, may_be_range: bool) -> None:
    plain = plain_number(first, second)
    assert (plain and hyphenated(str(plain)), is_range(first, second)) == (number, may_be_range)
    assert plain is None or (len(str(plain)) <= 10 and plain % 2 == int(second) % 2)


def test_faulty_county(tmp_path: Path) -> None:
    """Messages name the files of the county, not those of its copy."""
    write_county(tmp_path)
    path = tmp_path / f"TGR{CODE}.RT1"
    path.write_text(path.read_text() + "10006\n")
    with pytest.raises(tigerline.RefusedError, match="refused 1 rt1 line 8 WrongLength"):
        list(tigerline.geocode([("", "164-20 Main St", "", "AL", "36001")], tmp_path))
