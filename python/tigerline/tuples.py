"""Reads tables of `extractd` as typed tuples, with the standard library alone.

Data frames are made of these rows, too: pandas would end a text at NUL, and numpy would need four times the code.
"""

import csv
from collections.abc import Callable, Iterable, Iterator
from typing import Any

from .extract import Output, Request, extract
from .layout import FIELDS, NAMES, Kind, Row
from .program import PathLike

Point = tuple[float, float]
Line = tuple[Point, ...] | None

SCORE = "score"
LINE_COLUMN = "WKT"

_READ: dict[Kind, Callable[[str], object]] = {Kind.NUMBER: int, Kind.COORDINATE: float}
# The places of the numbers among the cells of all columns.
_NUMBERS = tuple((place, _READ[field.kind]) for place, field in enumerate(FIELDS) if field.kind in _READ)


def rows(
    where: str | None = None,
    data: PathLike = ".",
    counties: str | Iterable[str] | None = None,
    *,
    program: PathLike | bytes | None = None,
    score: str | None = None,
    signed: bool = False,
    progress: bool = False,
    extractd: PathLike | None = None,
) -> Iterator[Row]:
    """Yields the selected segments as typed tuples. It needs the standard library alone.

    The arguments are those of `select`. The rows of a county follow after `extractd` has ended for it with status 0, so
    a failure raises its exception before the first of them.
    """
    request = Request(where, data, counties, program, score, extractd)
    found = extract(request, [Output(NAMES)], progress=progress)
    return (row for county in found for row in read_rows(county.county, county.texts[0], signed))


def read_rows(county: str, table: bytes, signed: bool) -> Iterator[Row]:
    """Reads a table of all columns without geometry. Raises OSError if the text isn't one."""
    for score, cells in _read_cells(_lines_of(table, NAMES), len(NAMES)):
        fields: list[Any] = [cell or None for cell in cells]
        for place, read in _NUMBERS:
            if cells[place]:
                fields[place] = read(cells[place])
        yield Row._make((county, score_of(score, signed), *fields))


def read_lines(table: bytes, names: tuple[str, ...]) -> Iterator[tuple[int, list[str], Line]]:
    """Reads the score, the cells and the line of each segment of a table with geometry.

    The line is None for a segment without coordinates.
    """
    halves = [_halves(text) for text in _lines_of(table, (*names, LINE_COLUMN))]
    for (score, cells), (_, points) in zip(_read_cells((cells for cells, _ in halves), len(names)), halves):
        yield score, cells, _points(points) if points else None


def _lines_of(table: bytes, names: tuple[str, ...]) -> list[str]:
    """Returns the lines after the header. A cell has no line feed, which ends a record in the county's file."""
    try:
        header, *lines = table.decode().split("\n")
    except UnicodeDecodeError as error:
        raise no_table(str(error)) from None
    if header != ",".join((SCORE, *names)) or lines[-1:] != [""]:
        raise no_table(header)
    return lines[:-1]


def _read_cells(lines: Iterable[str], count: int) -> Iterator[tuple[int, list[str]]]:
    try:
        for cells in csv.reader(lines, strict=True):
            if len(cells) != count + 1 or not cells[0].isdecimal():
                raise no_table(",".join(cells))
            yield int(cells.pop(0)), cells
    except csv.Error as error:
        raise no_table(str(error)) from None


def _halves(text: str) -> tuple[str, str]:
    """Splits a line before its geometry, which may be longer than a cell that the module csv reads."""
    cells, found, points = text.rpartition(',"LINESTRING (')
    if found and points.endswith(')"'):
        return cells, points[:-2]
    if found or not text.endswith(","):
        raise no_table(text)
    return text[:-1], ""


def _points(text: str) -> tuple[Point, ...]:
    pairs = (pair.split(" ") for pair in text.split(","))
    return tuple((float(longitude), float(latitude)) for longitude, latitude in pairs)


def no_table(text: str) -> OSError:
    return OSError(f"extractd wrote something that isn't a table: {text[:40]!r}")


def score_of(score: int, signed: bool) -> int:
    """Returns the score, or the signed number with the same 64 bits."""
    return score - (1 << 64) if signed and score >= 1 << 63 else score
