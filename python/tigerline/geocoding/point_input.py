"""Reads points from CSV files."""

import math
from collections.abc import Iterator
from dataclasses import dataclass
from typing import NamedTuple

from ..interrupts import Interrupts
from .table_input import TableFile

POINT_COLUMNS = {
    "id": ("id", "uniqueid", "pointid", "recordid", "objectid", "fid"),
    "longitude": ("longitude", "lon", "lng", "long", "x"),
    "latitude": ("latitude", "lat", "y"),
}
Place = tuple[float, float]


def checked(point: Place) -> Place:
    """Returns a point. Raises ValueError if its longitude or its latitude isn't one."""
    longitude, latitude = point
    for name, degrees, limit in (("longitude", longitude, 180), ("latitude", latitude, 90)):
        if not abs(degrees) <= limit:
            raise ValueError(f"a {name} is between -{limit} and {limit}, and {degrees} isn't")
    return point


class GivenPoint(NamedTuple):
    """A point of a file: its id and its place."""

    id: str
    place: Place


@dataclass(frozen=True)
class PointFile:
    """A CSV file of points, with a head line or with longitude and latitude, or id, longitude and latitude."""

    table: TableFile
    named: dict[str, str]

    def points(self, interrupts: Interrupts) -> Iterator[GivenPoint]:
        """Yields the points. Raises OSError with the line and the cell if a line isn't a point."""
        columns: dict[str, int] = {}
        for line, row in self.table.rows(interrupts):
            if not columns:
                columns, is_head = self._columns(row, line)
                if is_head:
                    continue
            identifier = row[columns["id"]] if columns.get("id", len(row)) < len(row) else str(line)
            yield GivenPoint(identifier, self._place(row, columns, line))

    def _columns(self, first: list[str], line: int) -> tuple[dict[str, int], bool]:
        """Returns the places of the columns, and whether the first line is a head line."""
        columns = self.table.places(first, line, POINT_COLUMNS, self.named)
        if {"longitude", "latitude"} <= columns.keys():
            return columns, True
        names = tuple(POINT_COLUMNS)[-len(first) :]
        if len(first) not in (2, 3) or not all(map(_is_number, first[-2:])):
            raise OSError(
                f"{self.table.name}: line {line} has no columns longitude and latitude, but {', '.join(first)}: "
                "name them, as in --columns longitude=X,latitude=Y"
            )
        return {name: at for at, name in enumerate(names)}, False

    def _place(self, row: list[str], columns: dict[str, int], line: int) -> Place:
        degrees = []
        for name in ("longitude", "latitude"):
            cell = row[columns[name]] if columns[name] < len(row) else ""
            if not _is_number(cell):
                raise OSError(f"{self.table.name}: line {line}: the {name} {cell!r} isn't a number of degrees")
            degrees.append(float(cell))
        try:
            return checked((degrees[0], degrees[1]))
        except ValueError as error:
            raise OSError(f"{self.table.name}: line {line}: {error}") from None


def _is_number(cell: str) -> bool:
    try:
        return math.isfinite(float(cell))
    except ValueError:
        return False
