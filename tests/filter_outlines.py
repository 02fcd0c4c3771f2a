"""Shapes of the filters that are compared: how they are drawn near the lines of segments, how they are written, and whether a line meets them."""

from functools import cached_property, lru_cache
from math import atan2, gcd
from random import Random

from filter_counties import BY_NAME, County
from filter_geometry import Edge, Point, Ring, Shape
from filter_numbers import NumberDice
from filter_terms import WHITE_SPACE, in_degrees

# Femtodegrees in a millionth of a degree. The bounds of boxes are exact.
FEMTODEGREES = 10**9
# One in this many lines is also compared by fractions.
COMPARED_BY_FRACTIONS = 200

# The shapes of a filter, which SQL has by their numbers.
shapes: list[Shape] = []
# The shapes and lines of which shapely says something else than whole numbers and fractions do, and those of which fractions do.
slips: list[tuple[Shape, Edge]] = []
mistakes: list[tuple[Shape, Edge]] = []


@lru_cache(10_000)
def meets(shape: Shape, line: Edge) -> bool:
    """Returns whether a line meets a shape, and notes other opinions."""
    start, end = [(x * shape.scale, y * shape.scale) for x, y in line]
    line = (start, end)
    found = shape.meets(line)
    is_doubted = shape.meets_by_shapely(line) == (not found)
    if is_doubted or hash((len(shape.edges), line)) % COMPARED_BY_FRACTIONS == 0:
        if shape.meets_by_fractions(line) != found:
            mistakes.append((shape, line))
        elif is_doubted:
            slips.append((shape, line))
    return found


def sql_meets(number: int, *ends: int | None) -> bool | None:
    """Returns whether the line from a longitude and a latitude to others, or this point, meets a shape; NULL if one of them is."""
    known = [millionths for millionths in ends if millionths is not None]
    return meets(shapes[number], ((known[0], known[1]), (known[-2], known[-1]))) if len(known) == len(ends) else None


def sql_lies_in(west: int, south: int, east: int, north: int, *ends: int | None) -> bool | None:
    """Returns whether all points lie in a box, whose bounds are in femtodegrees; NULL if a longitude or a latitude is."""
    known = [millionths * FEMTODEGREES for millionths in ends if millionths is not None]
    inside = all(west <= x <= east for x in known[::2]) and all(south <= y <= north for y in known[1::2])
    return inside if len(known) == len(ends) else None


class MappedCounty(County):
    """A county whose SQL compares lines with shapes and boxes."""

    def __init__(self, dice: Random, code: str) -> None:
        super().__init__(dice, code)
        self.database.create_function("meets", -1, sql_meets, deterministic=True)
        self.database.create_function("lies_in", -1, sql_lies_in, deterministic=True)


def known_lines(county: County) -> list[Edge]:
    lines = []
    for segment in county.segments:
        ends = [BY_NAME[name].value(segment.line) for name in ("FRLONG", "FRLAT", "TOLONG", "TOLAT")]
        known = [end for end in ends if isinstance(end, int)]
        if len(known) == 4:
            lines.append(((known[0], known[1]), (known[2], known[3])))
    return lines or [((-86_500_000, 32_500_000), (-86_400_000, 32_600_000))]


class ShapeDice(NumberDice):
    """Draws shapes. Most of them touch the lines of some segments, or nearly do."""

    def __init__(self, dice: Random, county: County) -> None:
        super().__init__(dice, county)
        # Earlier filters have been evaluated.
        shapes.clear()

    @cached_property
    def lines(self) -> list[Edge]:
        return known_lines(self.county)

    # Points

    def point_along(self, line: Edge) -> Point:
        """Draws a point of a line, or now and then one beyond its ends, if it has such points in whole millionths."""
        (x1, y1), (x2, y2) = line
        steps = gcd(x2 - x1, y2 - y1) or 1
        step = self.dice.randint(0, steps) if self.chance(75) else self.dice.randint(-steps, 2 * steps)
        return in_degrees(x1 + (x2 - x1) // steps * step), in_degrees(y1 + (y2 - y1) // steps * step)

    def point(self) -> Point:
        line = self.dice.choice(self.lines)
        x, y = self.dice.choice((*line, line[0])) if self.chance(45) else self.point_along(line)
        if self.chance(20):
            x, y = x + self.dice.randrange(-9, 10) * 10 ** self.dice.randrange(6), y + self.dice.randrange(
                -9, 10
            ) * 10 ** self.dice.randrange(6)
        if self.chance(12):
            x, y = x + self.dice.randint(-1, 1), y + self.dice.randint(-1, 1)
        if self.chance(1):
            x, y = self.dice.choice((x, -(10**9), 10**9)), self.dice.choice((y, -(10**9), 10**9))
        return in_degrees(x), in_degrees(y)

    def points(self, least: int, most: int) -> list[Point]:
        return [self.point() for _ in range(self.dice.randint(least, most))]

    # Rings

    def rectangle(self) -> Ring:
        (x1, y1), (x2, y2) = self.point(), self.point()
        return [(x1, y1), (x2, y1), (x2, y2), (x1, y2)]

    def star(self) -> Ring:
        """Draws a ring around a middle, which mostly doesn't cross itself."""
        ring = list(dict.fromkeys(self.points(4, 9)))
        x, y = sum(point[0] for point in ring) // len(ring), sum(point[1] for point in ring) // len(ring)
        return sorted(ring, key=lambda point: atan2(point[1] - y, point[0] - x)) if len(ring) > 2 else self.rectangle()

    def ring(self) -> Ring:
        """Draws a ring, now and then with a vertex that is there twice, or with one on an edge."""
        drawn = self.dice.randrange(100)
        ring = (
            self.star()
            if drawn < 50
            else self.points(3, 3)
            if drawn < 65
            else self.rectangle()
            if drawn < 80
            else self.points(4, 8)
        )
        at = self.dice.randrange(len(ring))
        if self.chance(12):
            ring.insert(at, ring[at])
        if self.chance(12):
            ring.insert(at, self.point_along((ring[at - 1], ring[at])))
        return ring if self.chance(50) else ring[::-1]

    def hole(self, ring: Ring) -> Ring:
        """Draws a hole: mostly the outer ring, drawn together around one of its vertices or around its middle."""
        if self.chance(25):
            return self.ring()
        x, y = sum(point[0] for point in ring) // len(ring), sum(point[1] for point in ring) // len(ring)
        x, y = self.dice.choice(ring) if self.chance(30) else (x, y)
        part = self.dice.randint(1, 9)
        return [(x + (point[0] - x) * part // 10, y + (point[1] - y) * part // 10) for point in ring]

    def rings(self) -> list[Ring]:
        ring = self.ring()
        return [ring, *(self.hole(ring) for _ in range(self.dice.choice((0, 0, 1, 1, 2))))]

    # Shapes as tokens

    def pair(self, point: Point) -> str:
        between = " " if self.chance(80) else self.dice.choice(WHITE_SPACE)
        return between.join(map(self.rounded_degrees, point))

    def rounded_degrees(self, millionths: int) -> str:
        """Writes degrees, now and then with decimals that are rounded half to even."""
        if self.chance(80):
            return self.spelled_degrees(millionths)
        more = self.dice.randint(1, 6)
        half = 10**more // 2
        farthest = half - millionths % 2
        distance = self.dice.choice((-farthest, farthest, self.dice.randint(-farthest, farthest)))
        parts = abs(millionths * 10**more + distance)
        sign = "-" if (millionths or distance) < 0 else ""
        return f"{sign}{parts // 10 ** (6 + more)}.{parts % 10 ** (6 + more):0{6 + more}}"

    def listed_points(self, points: list[Point]) -> list[str]:
        tokens = [token for point in points for token in (",", self.pair(point))]
        return ["(", *tokens[1:], ")"]

    def listed_rings(self, rings: list[Ring]) -> list[str]:
        tokens = [token for ring in rings for token in (",", *self.listed_points([*ring, ring[0]]))]
        return ["(", *tokens[1:], ")"]

    def box(self) -> tuple[list[str], Shape]:
        (x1, y1), (x2, y2) = self.point(), self.point()
        west, east, south, north = *self.bounds(x1, x2), *self.bounds(y1, y2)
        ring = [(west, south), (east, south), (east, north), (west, north)]
        return self.box_tokens(west, south, east, north), Shape([], [[ring]], FEMTODEGREES)

    def bounds(self, *millionths: int) -> list[int]:
        """Draws two bounds in femtodegrees, the lesser one first: these millionths of a degree, or numbers near them."""
        return sorted(self.nearby(number) for number in millionths)

    def nearby(self, millionths: int) -> int:
        if self.chance(60):
            return millionths * FEMTODEGREES
        unit: int = 10 ** self.dice.randrange(9)
        rest = self.dice.choice((1, self.dice.randrange(FEMTODEGREES // unit))) * unit
        return millionths * FEMTODEGREES + self.dice.choice((rest, -rest))

    def box_tokens(self, *sides: int) -> list[str]:
        tokens = [token for side in sides for token in (",", self.exact_degrees(side))]
        return ["BBOX", "(", *tokens[1:], ")"]

    def exact_degrees(self, femtodegrees: int) -> str:
        """Writes degrees with up to 15 decimals."""
        millionths, rest = divmod(abs(femtodegrees), FEMTODEGREES)
        if rest == 0:
            return self.spelled_degrees(femtodegrees // FEMTODEGREES)
        decimals = f"{millionths % 10**6:06}{rest:09}"
        return f"{'-' if femtodegrees < 0 else ''}{millionths // 10**6}.{decimals.rstrip('0') if self.chance(50) else decimals}"

    def line(self) -> list[Point]:
        """Draws a line through points, now and then along a segment's line, or with a point that is there twice."""
        along = self.dice.choice(self.lines)
        points = (
            [self.point_along(along) for _ in range(self.dice.randint(2, 3))] if self.chance(25) else self.points(2, 6)
        )
        return [points[0], *points] if self.chance(10) else points

    def shape(self) -> tuple[list[str], Shape]:
        drawn = self.dice.randrange(100)
        if drawn < 12:
            point = self.point()
            return ["POINT", *self.listed_points([point])], Shape([point], [])
        if drawn < 35:
            line = self.line()
            return ["LINESTRING", *self.listed_points(line)], Shape(line, [])
        return self.box() if drawn < 50 else self.polygons()

    def polygons(self) -> tuple[list[str], Shape]:
        """Draws a polygon or several."""
        if self.chance(60):
            rings = self.rings()
            return ["POLYGON", *self.listed_rings(rings)], Shape([], [rings])
        polygons = [self.rings() for _ in range(self.dice.randint(1, 3))]
        tokens = [token for rings in polygons for token in (",", *self.listed_rings(rings))]
        return ["MULTIPOLYGON", "(", *tokens[1:], ")"], Shape([], polygons)
