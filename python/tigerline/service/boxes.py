"""Finds the lines that meet a box, exactly: coordinates are millionths of a degree, and the box has fractions.

`extractd` can't do this, as its filters see the ends of a segment but not its shape.
"""

import math
from array import array
from collections.abc import Iterable
from dataclasses import dataclass
from fractions import Fraction
from functools import cached_property

from .geojson import Line

MICRODEGREES = 1_000_000
ALL_AROUND = 360 * MICRODEGREES
# More degrees than any coordinate has: they have up to nine digits, of which six are decimals.
FAR = 1000
# The bounds of a feature without geometry are from the most to the least, so they meet no box.
LEAST, MOST = -(2**31), 2**31 - 1
OUTSIDE, UNDECIDED, INSIDE = range(3)

Extent = tuple[float, float, float, float]


@dataclass(frozen=True)
class BBox:
    """A box of degrees, edges included. It crosses the 180th meridian if `west` > `east`."""

    west: Fraction
    south: Fraction
    east: Fraction
    north: Fraction

    def plain(self) -> list["PlainBox"]:
        """Returns the boxes that this one consists of: two if it crosses the 180th meridian."""
        if self.west <= self.east:
            return [self._between(self.west, self.east)]
        return [self._between(self.west, Fraction(FAR)), self._between(Fraction(-FAR), self.east)]

    def _between(self, west: Fraction, east: Fraction) -> "PlainBox":
        numbers = (west, self.south, east, self.north)
        units = math.lcm(MICRODEGREES, *(number.denominator for number in numbers))
        return PlainBox(units // MICRODEGREES, *(int(number * units) for number in numbers))


@dataclass(frozen=True)
class PlainBox:
    """A box in whole numbers that doesn't cross the 180th meridian. A millionth of a degree is `scale` of its units."""

    scale: int
    west: int
    south: int
    east: int
    north: int

    def microdegrees(self) -> tuple[int, int, int, int]:
        """Returns the west, south, east and north of the points in the box that are whole millionths of a degree."""
        west, south = (-(-number // self.scale) for number in (self.west, self.south))
        return west, south, self.east // self.scale, self.north // self.scale

    def meets(self, line: Line) -> bool:
        """Returns whether a line has a point in the box."""
        xs, ys = line if self.scale == 1 else ([self.scale * number for number in numbers] for numbers in line)
        west, south, east, north = self.west, self.south, self.east, self.north
        return any(
            self._meets_edge(x1, y1, x2, y2)
            for x1, y1, x2, y2 in zip(xs, ys, xs[1:], ys[1:])
            # Otherwise both ends are beyond the same side. Most edges are, so this is first.
            if (x1 >= west or x2 >= west)
            and (x1 <= east or x2 <= east)
            and (y1 >= south or y2 >= south)
            and (y1 <= north or y2 <= north)
        )

    def _meets_edge(self, x1: int, y1: int, x2: int, y2: int) -> bool:
        """Returns whether an edge meets the box if their bounds do: not all corners are on one side of the edge."""
        corners = [(x, y) for x in (self.west, self.east) for y in (self.south, self.north)]
        sides = [(x2 - x1) * (y - y1) - (y2 - y1) * (x - x1) for x, y in corners]
        return min(sides) <= 0 <= max(sides)


class Bounds:
    """The bounds of features in millionths of a degree: west, south, east and north, 16 bytes for each feature."""

    def __init__(self) -> None:
        self._numbers = array("i")
        # The longitudes next to the prime meridian of lines that cross it.
        self._last_negative, self._first_positive = LEAST, MOST

    def add(self, lines: Iterable[Line | None]) -> None:
        """Adds the bounds of the next features."""
        for line in lines:
            if line is None:
                self._numbers.extend((MOST, MOST, LEAST, LEAST))
            else:
                self._add(*line)

    def _add(self, longitudes: list[int], latitudes: list[int]) -> None:
        west, east = min(longitudes), max(longitudes)
        self._numbers.extend((west, min(latitudes), east, max(latitudes)))
        if west < 0 <= east:
            self._last_negative = max(self._last_negative, _last_negative(longitudes))
            self._first_positive = min(self._first_positive, _first_positive(longitudes))

    def marks(self, box: BBox) -> bytes:
        """Returns whether each feature is OUTSIDE of a box, INSIDE or UNDECIDED."""
        marks = [self._marks(plain) for plain in box.plain()]
        return marks[0] if len(marks) == 1 else bytes(map(max, *marks))

    def _marks(self, box: PlainBox) -> bytes:
        """Returns the marks for a box. A line has no gaps, so it meets the box if it leaves it along one axis alone."""
        west, south, east, north = box.microdegrees()
        first_x, first_y, last_x, last_y = self._edges
        if last_x < west or first_x > east or last_y < south or first_y > north:
            return bytes([OUTSIDE]) * (len(self._numbers) // 4)
        return bytes(
            OUTSIDE
            if last_x < west or x > east or last_y < south or y > north
            else INSIDE
            if west <= x and last_x <= east or south <= y and last_y <= north
            else UNDECIDED
            for x, y, last_x, last_y in zip(*[iter(self._numbers)] * 4)
        )

    @cached_property
    def _edges(self) -> tuple[int, int, int, int]:
        """The west, south, east and north of all features, when all are added."""
        west, south = (min(self._numbers[place::4], default=MOST) for place in (0, 1))
        east, north = (max(self._numbers[place::4], default=LEAST) for place in (2, 3))
        return west, south, east, north

    def extent(self) -> Extent | None:
        """Returns the west, south, east and north of all lines, or None if there are none.

        For points on both sides of the 180th meridian there are two such boxes. The second crosses it and has its
        west > east. This is the smaller one.
        """
        west, south, east, north = self._edges
        if west > east:
            return None
        last_negative = max(self._last_negative, _last_negative(self._numbers[2::4]))
        first_positive = min(self._first_positive, _first_positive(self._numbers[0::4]))
        if west < 0 <= east and last_negative + ALL_AROUND - first_positive < east - west:
            west, east = first_positive, last_negative
        return west / MICRODEGREES, south / MICRODEGREES, east / MICRODEGREES, north / MICRODEGREES


def extent_of(extents: Iterable[Extent | None]) -> Extent | None:
    """Returns the extent of several counties."""
    bounds = Bounds()
    for extent in filter(None, extents):
        west, south, east, north = (round(degrees * MICRODEGREES) for degrees in extent)
        if west > east:
            bounds.add([([west, ALL_AROUND // 2], [south, north]), ([-ALL_AROUND // 2, east], [south, north])])
        else:  # A box has all that is between its edges.
            bounds.add([([west, *((-1, 0) if west < 0 <= east else ()), east], [south, north])])
    return bounds.extent()


def _last_negative(longitudes: Iterable[int]) -> int:
    return max((number for number in longitudes if number < 0), default=LEAST)


def _first_positive(longitudes: Iterable[int]) -> int:
    return min((number for number in longitudes if number >= 0), default=MOST)
