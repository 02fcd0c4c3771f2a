"""Shapes of the filters that are compared: where a segment's line meets them, by whole numbers, by fractions, and by shapely.

Lines and shapes of a small grid mostly touch: they share vertices, run along one another or cross in a vertex. shapely says nothing of polygons that aren't
valid, such as those that cross themselves. A coordinate is a whole number of millionths of a degree.
"""

from collections.abc import Iterator
from contextlib import suppress
from fractions import Fraction
from functools import cached_property
from itertools import pairwise, product
from random import Random
from typing import Any

# The tests that need shapely are left out without it.
with suppress(ImportError):
    from shapely.geometry import LineString, MultiPoint, Polygon
    from shapely.prepared import prep

Point = tuple[int, int]
Edge = tuple[Point, Point]
# A ring's last point isn't its first one.
Ring = list[Point]
Place = tuple[Fraction, Fraction]


def ring_edges(rings: list[Ring]) -> list[Edge]:
    return [edge for ring in rings for edge in zip(ring, ring[1:] + ring[:1])]


# ---- By whole numbers


def turn(start: Point, end: Point, point: Point) -> int:
    """Returns a number above 0 if the point is to the left of the line from start to end, and below 0 if it is to the right."""
    return (end[0] - start[0]) * (point[1] - start[1]) - (end[1] - start[1]) * (point[0] - start[0])


def is_on(point: Point, edge: Edge) -> bool:
    """The point is on the edge's line, and the directions to both ends aren't the same."""
    (x, y), ((x1, y1), (x2, y2)) = point, edge
    return turn(*edge, point) == 0 and (x1 - x) * (x2 - x) + (y1 - y) * (y2 - y) <= 0


def edges_meet(one: Edge, other: Edge) -> bool:
    """An end of one is on the other, or the ends of each are on both sides of the other."""
    if is_on(one[0], other) or is_on(one[1], other) or is_on(other[0], one) or is_on(other[1], one):
        return True
    return turn(*other, one[0]) * turn(*other, one[1]) < 0 and turn(*one, other[0]) * turn(*one, other[1]) < 0


def is_inside(point: Point, rings: list[Ring]) -> bool:
    """By the even-odd rule: a ray to the east crosses an odd number of edges. The point is on no edge."""
    x, y = point
    crossed = 0
    for (x1, y1), (x2, y2) in ring_edges(rings):
        if y1 <= y < y2 or y2 <= y < y1:
            crossed += ((y - y1) * (x2 - x1) - (x - x1) * (y2 - y1)) * (y2 - y1) > 0
    return crossed % 2 == 1


# ---- By fractions


def place(line: Edge, along: Fraction) -> Place:
    (x1, y1), (x2, y2) = line
    return x1 + along * (x2 - x1), y1 + along * (y2 - y1)


def share(line: Edge, point: Point) -> Fraction:
    """Returns how far along the line a point of its straight line is: 0 at its start, 1 at its end."""
    (x1, y1), (x2, y2) = line
    return Fraction(point[0] - x1, x2 - x1) if x1 != x2 else Fraction(point[1] - y1, y2 - y1)


def shares_met(line: Edge, edge: Edge) -> list[Fraction]:
    """Returns how far along the line the places are where it can begin or end to meet an edge. The line has a length."""
    (x1, y1), (x2, y2) = line
    (x3, y3), (x4, y4) = edge
    across = (x2 - x1) * (y4 - y3) - (y2 - y1) * (x4 - x3)
    if across != 0:
        return [Fraction((x3 - x1) * (y4 - y3) - (y3 - y1) * (x4 - x3), across)]
    return [share(line, point) for point in edge] if turn(*line, edge[0]) == 0 else []


def has_place(edge: Edge, at: Place) -> bool:
    (x, y), ((x1, y1), (x2, y2)) = at, edge
    within = min(x1, x2) <= x <= max(x1, x2) and min(y1, y2) <= y <= max(y1, y2)
    return within and (x - x1) * (y2 - y1) == (y - y1) * (x2 - x1)


def is_place_inside(at: Place, rings: list[Ring]) -> bool:
    """By the even-odd rule: a ray to the north crosses an odd number of edges. The place is on no edge."""
    x, y = at
    edges = (edge for edge in ring_edges(rings) if (edge[0][0] < x) != (edge[1][0] < x))
    return sum(y1 + (x - x1) * Fraction(y2 - y1, x2 - x1) > y for (x1, y1), (x2, y2) in edges) % 2 == 1


# ---- Shapes


class Shape:
    """A point, a line through points, or polygons. A polygon's rings bound it, whichever of them is the outer one.

    `scale` of its units are a millionth of a degree.
    """

    def __init__(self, path: list[Point], polygons: list[list[Ring]], scale: int = 1) -> None:
        self.scale = scale
        self.polygons = polygons
        self.edges = (
            [(path[0], path[0]), *pairwise(path)]
            if path
            else [edge for rings in polygons for edge in ring_edges(rings)]
        )
        self.path = path

    def meets(self, line: Edge) -> bool:
        if any(edges_meet(line, edge) for edge in self.edges):
            return True
        return any(is_inside(line[0], rings) for rings in self.polygons)

    def has(self, at: Place) -> bool:
        return any(has_place(edge, at) for edge in self.edges) or any(
            is_place_inside(at, rings) for rings in self.polygons
        )

    def meets_by_fractions(self, line: Edge) -> bool:
        """Looks at the places of the line where it can begin or end to meet the shape, and at one between each two of them."""
        shares = {Fraction(0), Fraction(1)}
        if line[0] != line[1]:
            shares.update(share for edge in self.edges for share in shares_met(line, edge) if 0 < share < 1)
        ordered = sorted(shares)
        between = [(before + after) / 2 for before, after in pairwise(ordered)]
        return any(self.has(place(line, share)) for share in [*ordered, *between])

    def shapely_parts(self) -> Iterator[Any]:
        if self.path:
            yield LineString(self.path) if len(set(self.path)) > 1 else MultiPoint(self.path[:1])
        for first, *others in self.polygons:
            yield Polygon(first, others)

    @cached_property
    def prepared(self) -> list[Any]:
        """The shape for shapely, in parts; nothing if one isn't valid, such as a polygon that crosses itself, or if its numbers are too large to be exact."""
        parts = list(self.shapely_parts()) if self.scale == 1 else []
        return list(map(prep, parts)) if all(part.is_valid for part in parts) else []

    def meets_by_shapely(self, line: Edge) -> bool | None:
        """Returns nothing if shapely doesn't know such shapes."""
        given = LineString(line) if line[0] != line[1] else MultiPoint(line[:1])
        return any(part.intersects(given) for part in self.prepared) if self.prepared else None


# ---- Comparing them

GRID: list[Point] = list(product(range(4), range(4)))


def draw_ring(dice: Random) -> Ring:
    return dice.sample(GRID, dice.randint(3, 5))


def draw_shape(dice: Random) -> Shape:
    """Draws a point, a line, a polygon with holes, or two polygons. Many of them cross themselves or one another."""
    kind = dice.randrange(4)
    if kind < 2:
        return Shape(dice.choices(GRID, k=kind * dice.randint(1, 3) + 1), [])
    return Shape([], [[draw_ring(dice) for _ in range(dice.choice((1, 1, 2, 3)))] for _ in range(kind - 1)])


def opinions(shape: Shape, line: Edge) -> list[bool | None]:
    """Returns whether a line meets a shape by whole numbers, by fractions, and by shapely, which may have no opinion."""
    return [shape.meets(line), shape.meets_by_fractions(line), shape.meets_by_shapely(line)]
