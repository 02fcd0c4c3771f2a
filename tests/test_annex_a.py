"""Asks segments what the abstract tests of CQL2 (21-065r2, annex A) ask of places, countries and rivers: by `extractd select`, SQLite and shapely.

The predicates are those of the standard's tables, about columns of the example county, 01001, and of the town, 01007, in the rows of annex_a.txt. SQLite must
find the row's number of segments, with shapely for the geometries, and `select` must write that many rows.
"""

import re
import sqlite3
import subprocess
from collections.abc import Iterator
from contextlib import suppress
from decimal import Decimal
from functools import cache, lru_cache
from typing import Any, NamedTuple

import pytest
from filter_counties import Segment, database_of
from harness.program import TOP
from harness.tables import rows_of

# The tests are left out without it.
with suppress(ImportError):
    from shapely.geometry import LineString, MultiPoint, MultiPolygon, Point, Polygon, box

TABLE = TOP / "tests/annex_a.txt"
FOLDERS = {"01001": TOP / "examples", "01007": TOP / "examples/town"}

SHAPE = r"[A-Z]+\([-0-9., ()]*\)"
SPATIAL = re.compile(
    rf'(S_INTERSECTS|S_DISJOINT|S_WITHIN|STARTS_IN)\((?:"?geometry"?, )?({SHAPE})(?:, "?geometry"?)?\)'
)
PATTERN = re.compile(r"LIKE (?:\w+\()*'(?:[^']|'')*'\)*")

# ---- Geometries, in millionths of a degree


def millionths(degrees: str) -> int:
    """Rounds half to even, as `quantize` does by default."""
    return int((Decimal(degrees) * 10**6).quantize(Decimal(1)))


def points(text: str) -> list[tuple[int, int]]:
    pairs = (pair.split() for pair in text.strip("() ").split(","))
    return [(millionths(longitude), millionths(latitude)) for longitude, latitude in pairs]


def polygon(text: str) -> Any:
    ring, *holes = map(points, re.split(r"\)\s*,\s*\(", text))
    return Polygon(ring, holes)


@lru_cache
def shape(text: str) -> Any:
    tag, inside = text.split("(", 1)
    match tag:
        case "BBOX":
            return box(*map(millionths, inside.strip("() ").split(",")))
        case "POINT":
            return Point(points(inside)[0])
        case "LINESTRING":
            return LineString(points(inside))
        case "POLYGON":
            return polygon(inside)
    return MultiPolygon([polygon(part) for part in re.split(r"\)\s*\)\s*,\s*\(\s*\(", inside)])


def segment(ends: tuple[int | None, ...]) -> Any:
    """Returns the line from a longitude and a latitude to others, or nothing if one of them is NULL."""
    start, end = ends[:2], ends[2:]
    if None in ends:
        return None
    return LineString([start, end]) if start != end else MultiPoint([start])


def intersects(text: str, *ends: int | None) -> bool | None:
    given = segment(ends)
    return None if given is None else bool(shape(text).intersects(given))


def is_within(text: str, *ends: int | None) -> bool | None:
    """Returns whether a line lies in a box; its edge belongs to the box."""
    given = segment(ends)
    return None if given is None else bool(shape(text).covers(given))


# ---- Rows


class Row(NamedTuple):
    county: str
    segments: int
    filter: str
    sql: str

    def difference(self, database: sqlite3.Connection) -> str | None:
        """Returns what SQLite or `select` says instead of the count, or None."""
        ((counted,),) = database.execute(f"SELECT count(*) FROM segments WHERE {self.sql}")
        if counted != self.segments:
            return f"SQLite finds {counted}"
        language = ["--filter-lang", "cql2-json"] if self.filter.startswith("{") else []
        command = [
            "extractd",
            "select",
            f"--where={self.filter}",
            *language,
            "--data",
            str(FOLDERS[self.county]),
            self.county,
        ]
        ran = subprocess.run(command, stdin=subprocess.DEVNULL, capture_output=True)
        if ran.returncode != 0 or ran.stderr:
            return f"status {ran.returncode}: {ran.stderr.decode(errors='replace').strip()}"
        written = ran.stdout.count(b"\n")
        return None if written == self.segments else f"select writes {written}"


def asked_by_sql(found: re.Match[str]) -> str:
    name, text = found.groups()
    function = "is_within" if name == "S_WITHIN" else "intersects"
    ends = "FRLONG, FRLAT, FRLONG, FRLAT" if name == "STARTS_IN" else "FRLONG, FRLAT, TOLONG, TOLAT"
    return f"{'NOT ' if name == 'S_DISJOINT' else ''}{function}('{text}', {ends})"


def in_sql(text: str) -> str:
    """Translates what SQLite writes in another way: the escape character, whole quotients, and geometries."""
    text = PATTERN.sub(lambda found: f"{found[0]} ESCAPE '\\'", text)
    return SPATIAL.sub(asked_by_sql, text.replace(" div ", " / "))


def rows() -> Iterator[Any]:
    for line, text in rows_of(TABLE):
        county, count, asked, *sql = text.split("; ")
        yield pytest.param(Row(county, int(count), asked, in_sql(sql[0] if sql else asked)), id=f"line {line}")


@cache
def database(county: str) -> sqlite3.Connection:
    lines = (FOLDERS[county] / f"TGR{county}.RT1").read_bytes().splitlines()
    made = database_of([Segment(record, [], []) for record in lines])
    made.create_function("intersects", 5, intersects, deterministic=True)
    made.create_function("is_within", 5, is_within, deterministic=True)
    return made


@pytest.mark.needs("python3-shapely")
@pytest.mark.usefixtures("extractd")
@pytest.mark.parametrize("row", rows())
def test_predicates(row: Row) -> None:
    difference = row.difference(database(row.county))
    assert difference is None, f"{row.county}; {row.segments}; {row.filter}: {difference}"
