"""Finds the street next to a point, and the house number there. Nothing here is proved."""

import math
import warnings
from collections.abc import Sequence
from itertools import pairwise
from typing import Any, NamedTuple

from ..optional import required
from ..tuples import Point
from .streets import Range, Street

CENTIMETER = 0.01  # less than a piece of a street


class Beside(NamedTuple):
    """A street beside a point.

    `distance` is in meters, and `share` is the part of the street before the place that is nearest. `offset` is the
    distance from the street if it went straight on: of two streets that meet in a corner, and are equally near because
    the corner is, the point lies rather beside the one with the larger offset.
    """

    distance: float
    offset: float
    is_left: bool
    share: float
    street: Street

    @property
    def order(self) -> tuple[int, float]:
        """The nearest street has the least order. Distances are compared in centimeters."""
        return round(100 * self.distance), -self.offset


class StreetIndex:
    """The streets of a county by their places."""

    def __init__(self, streets: Sequence[Street]) -> None:
        self._streets = streets
        self._line: Any = required("shapely.geometry").LineString
        with warnings.catch_warnings():
            warnings.simplefilter("ignore")  # Shapely 1.8 announces the tree of Shapely 2.
            tree: Any = required("shapely.strtree").STRtree([self._line(street.line) for street in streets])
        # Both return the places of streets whose boxes meet that of a line.
        self._near: Any = getattr(tree, "query_items", tree.query)

    def nearest(self, point: Point, distance: float) -> Beside | None:
        """Returns the street that is nearest to a point, or None if none is within the distance in meters."""
        longitude, latitude = point
        scales = meters_per_degree(latitude)
        east, north = distance / scales[0], distance / scales[1]
        box = self._line([(longitude - east, latitude - north), (longitude + east, latitude + north)])
        best: Beside | None = None
        for at in sorted(self._near(box)):
            beside = _beside(self._streets[at], point, scales, distance if best is None else best.distance + CENTIMETER)
            if beside is not None and (best is None or beside.order < best.order):
                best = beside
        return best


def meters_per_degree(latitude: float) -> tuple[float, float]:
    """Returns the lengths of a degree of longitude and of latitude, by the usual series for the ellipsoid."""
    # Exact enough within a few hundred meters, and no projection has to be chosen.
    angle = math.radians(latitude)
    longitude = 111_412.84 * math.cos(angle) - 93.5 * math.cos(3 * angle) + 0.118 * math.cos(5 * angle)
    return max(longitude, 1.0), 111_132.92 - 559.82 * math.cos(2 * angle) + 1.175 * math.cos(4 * angle)


def _beside(street: Street, point: Point, scales: tuple[float, float], distance: float) -> Beside | None:
    """Returns how a street lies beside a point, or None if it is further away than the distance."""
    line = [((x - point[0]) * scales[0], (y - point[1]) * scales[1]) for x, y in street.line]
    pieces, length = [], 0.0
    for (x, y), end in pairwise(line):
        size = math.dist((x, y), end)
        east, north = (end[0] - x) / size, (end[1] - y) / size
        along = min(max(-x * east - y * north, 0.0), size)
        foot = x + along * east, y + along * north
        pieces.append((math.hypot(*foot), length + along, foot, (east, north)))
        length += size
    nearest, before, (x, y), _ = min(pieces)
    if nearest > distance:
        return None
    # At a bend, the direction is the mean of those of both pieces.
    directions = [direction for _, place, _, direction in pieces if abs(place - before) < CENTIMETER]
    east, north = map(sum, zip(*directions))
    left = (north * x - east * y) / (math.hypot(east, north) or 1)  # how far the origin is to the left
    return Beside(nearest, abs(left), left >= 0, before / length, street)


def house_number(ranges: Sequence[Range], share: float) -> tuple[int | None, str]:
    """Returns the house number after a share of a street, and the ZIP Code, by the first of the ranges with numbers.

    It has the parity of the ends if these have the same. Without such a range the number is None.
    """
    for first, last, zip_code in ranges:
        if first is not None and last is not None:
            step = 2 if (last - first) % 2 == 0 else 1
            return first + step * math.floor((last - first) / step * share + 0.5), zip_code
    return None, next((found.zip for found in ranges if found.zip), "")
