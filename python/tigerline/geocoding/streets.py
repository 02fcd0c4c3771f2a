"""Reads the streets of a county: their names, their lines and the house numbers on their sides.

`extractd` writes the segments. The ranges of record type 6 here aren't proved.
"""

from collections import defaultdict
from collections.abc import Collection, Mapping
from pathlib import Path
from typing import NamedTuple

from ..extract import Output, types_for, with_own_paths
from ..interrupts import Interrupts
from ..layout import LAYOUTS, number
from ..program import run
from ..sources import County, opened_county
from ..tuples import Line, Point, read_lines
from .towns import Cities

STREETS = "CFCC LIKE 'A%' AND FENAME IS NOT NULL"
COLUMNS = (
    "TLID", "FEDIRP", "FENAME", "FETYPE", "FEDIRS", "FRADDL", "TOADDL", "FRADDR", "TOADDR", "ZIPL", "ZIPR", "COUSUBL",
    "COUSUBR", "PLACEL", "PLACER",
)  # fmt: skip

_FURTHER = LAYOUTS["6"]


class Range(NamedTuple):
    """The ends of a range of house numbers, and the ZIP Code of its side. None is an end without a number."""

    first: int | None
    last: int | None
    zip: str


class Side(NamedTuple):
    """The ranges of a side, and its city, which is empty if none is known."""

    ranges: tuple[Range, ...]
    city: str


class Street(NamedTuple):
    """A segment of a road with a name. `line` has no point twice in a row, and at least two."""

    county: str
    tlid: int
    name: str
    line: tuple[Point, ...]
    left: Side
    right: Side


# A range of the left and one of the right side.
Ranges = tuple[Range, Range]


def read_streets(program: str, county: County, interrupts: Interrupts) -> list[Street]:
    """Returns the streets of a county that have coordinates, with shape points if it has a file of type 2."""
    output = Output(COLUMNS, "auto").for_county(county)
    with opened_county(county, types_for([output]) + "C", interrupts) as files:
        command = [program, "select", f"--where={STREETS}", "--data", str(files["1"].parent)]
        try:
            table = run([*command, *output.options, county.code], interrupts, county=county.code)
        except OSError as error:
            raise with_own_paths(error, county, files) from None
        found = [(dict(zip(COLUMNS, cells)), line) for _, cells, line in read_lines(table, COLUMNS)]
        further = further_ranges(files["6"], {int(row["TLID"]) for row, _ in found}) if "6" in files else {}
        cities = Cities(files.get("C"), str(county.files.get("C") or county.archive))
    interrupts.check()
    streets = (_street(county.code, row, line, further, cities) for row, line in found)
    return [street for street in streets if street is not None]


def further_ranges(path: Path, chosen: Collection[int]) -> Mapping[int, list[Ranges]]:
    """Returns the ranges of these TLIDs from a file of record type 6, which `extractd` has accepted."""
    found: defaultdict[int, list[Ranges]] = defaultdict(list)
    with open(path, encoding="latin-1", newline="\n") as file:
        for record in file:
            tlid = number(record[_FURTHER["TLID"]])
            if tlid is not None and tlid in chosen:
                found[tlid].append((_further_range(record, "L"), _further_range(record, "R")))
    return found


def _further_range(record: str, side: str) -> Range:
    first, last, zip_code = (record[_FURTHER[f"{name}{side}"]] for name in ("FRADD", "TOADD", "ZIP"))
    return Range(number(first), number(last), zip_code.strip(" "))


def _street(
    county: str, row: Mapping[str, str], line: Line, further: Mapping[int, list[Ranges]], cities: Cities
) -> Street | None:
    """Returns the street of a segment, or None if it has no line with a length."""
    if line is None:
        return None
    points = tuple(point for at, point in enumerate(line) if at == 0 or point != line[at - 1])
    if len(points) < 2:
        return None
    tlid = int(row["TLID"])
    own = [Range(number(row[f"FRADD{side}"]), number(row[f"TOADD{side}"]), row[f"ZIP{side}"]) for side in "LR"]
    ranges = zip(own, *further.get(tlid, ()))
    sides = [Side(found, _city(cities, row[f"PLACE{side}"], row[f"COUSUB{side}"])) for found, side in zip(ranges, "LR")]
    name = " ".join(filter(None, (row[part] for part in COLUMNS[1:5])))
    return Street(county, tlid, name, points, *sides)


def _city(cities: Cities, place: str, subdivision: str) -> str:
    """Returns the name of a place, or else of a county subdivision."""
    names = cities.of((place.encode("latin-1"), subdivision.encode("latin-1")))
    return names[0] if names else ""
