"""Crossings: where segments of both streets share an end, in the town of the address."""

from pathlib import Path

import pytest
import tigerline
from counties import CODE, write_empty
from towns import write_cities

pytestmark = pytest.mark.usefixtures("extractd", "scratch")

# Segments 1, 2, ...: direction, name and type, the ZIP Code, and the ends as places on a grid.
SEGMENTS = """
-     | Main     | St | 36001 | 0,0 | 1,0
-     | Main     | St | 36001 | 1,0 | 2,0
N     | Oak      | Ave | 36001 | 1,0 | 1,1
S     | Oak      | Ave | 36001 | 1,0 | 1,-1
-     | Elm      | Rd | 36001 | 2,0 | 2,1
-     | Elm      | Rd | 36001 | 0,0 | 0,1
-     | Pine     | Rd | 36001 | 5,5 | 5,6
-     | Main     | St | 36002 | 7,7 | 8,7
-     | Oak      | Ave | 36002 | 8,7 | 8,8
-     | Fir      | St | 36001 | 3,3 | 4,3
-     | Fir      | St | 36001 | 4,3 | 5,3
-     | Gum      | Ave | 36001 | 3,3 | 3,4
N     | Gum      | Ave | 36001 | 5,3 | 5,4
""".strip().splitlines()

# The crossing, the city, the ZIP Code, the result, the reasons, the place on the grid and the matched address. Kelso is the
# city of all. Of the two crossings of Fir with Gum, one lacks a type alone, and the other a direction, too.
CROSSINGS = """
Main St & N Oak Ave       | Kelso | 36001 | Match    | intersection           | 1,0 | MAIN ST & N OAK AVE, KELSO, AL, 36001
N Oak Ave and Main St     | Kelso | 36001 | Match    | intersection           | 1,0 | N OAK AVE & MAIN ST, KELSO, AL, 36001
Main St at Oak            | Kelso | 36001 | Match    | intersection direction type | 1,0 | MAIN ST & N OAK AVE, KELSO, AL, 36001
Main Street @ Oak Avenue  | Kelso | 36002 | Match    | intersection           | 8,7 | MAIN ST & OAK AVE, KELSO, AL, 36002
Main St/Oak Ave, Kelso    | Kelso | 36002 | Match    | intersection           | 8,7 | MAIN ST & OAK AVE, KELSO, AL, 36002
Fir & Gum Ave             | Kelso | 36001 | Match    | intersection type      | 3,3 | FIR ST & GUM AVE, KELSO, AL, 36001
Main St & Elm Rd          | Kelso | 36001 | Tie      | tie                    |     |
Main St & Pine Rd         | Kelso | 36001 | No_Match | intersection           |     |
Main St & Fig Rd          | Kelso | 36001 | No_Match | no_such_street         |     |
Main St & N Oak Ave       | Kelso | 36009 | Match    | other_zip intersection | 1,0 | MAIN ST & N OAK AVE, KELSO, AL, 36001
Main St & N Oak Ave       | Selby | 36009 | No_Match | other_zip              |     |
Main St & N Oak Ave       | Selby |       | No_Match | other_city             |     |
A & B & C                 | Kelso | 36001 | No_Match | intersection           |     |
5 Main St & Oak Ave       | Kelso | 36001 | No_Match | intersection           |     |
""".strip().splitlines()


def write_county(folder: Path) -> None:
    lines = []
    for tlid, row in enumerate(SEGMENTS, start=1):
        predir, name, kind, zip_code, *ends = (cell.strip() for cell in row.split("|"))
        head = (
            f"10006{tlid:10}  {predir.replace('-', ''):2}{name:30}{kind:4}  A41{'':44}0000{zip_code}{zip_code}".ljust(
                140
            )
        )
        places = "".join(
            f"{-86_000_000 + 1000 * int(east):+010}{32_000_000 + 1000 * int(north):+09}"
            for east, north in (end.split(",") for end in ends)
        )
        lines.append((head + "2000120001").ljust(190) + places + "\n")
    (folder / f"TGR{CODE}.RT1").write_text("".join(lines))
    write_empty(folder)
    write_cities(folder / f"TGR{CODE}.RTC", CODE, [("20001", "M", "Kelso")])


def test_crossings(tmp_path: Path) -> None:
    write_county(tmp_path)
    rows = [[cell.strip() for cell in row.split("|")] for row in CROSSINGS]
    matches = tigerline.geocode([("", row[0], row[1], "AL", row[2]) for row in rows], tmp_path)
    found = [
        [*row[:3], str(match.status), " ".join(match.reasons), on_grid(match), match.matched or ""]
        for row, match in zip(rows, matches)
    ]
    assert found == rows


def on_grid(match: tigerline.Match) -> str:
    if match.longitude is None or match.latitude is None:
        return ""
    return f"{round((match.longitude + 86) * 1000)},{round((match.latitude - 32) * 1000)}"
