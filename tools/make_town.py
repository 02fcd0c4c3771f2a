#!/usr/bin/env python3
"""Writes a made-up county with a town in it: record types 1, 2, 4, 5 and 6 as TGR01007.RT1 to .RT6.

    python3 tools/make_town.py [--seed N] [--code CODE] [FOLDER]

The files go into FOLDER, by default `examples/town`. The county has a bent street grid, a river, creeks, a
lake, a railroad, an interstate and rural roads. Streets, streams and boundaries are drawn as lines first. Then all
lines are cut where they cross, so every segment ends at a node, as in the Bureau's files. Points between the two ends
are shape points, record type 2.

The same seed writes the same bytes on every machine: numbers come from make_county's generator, and curves need only
+ - * / and square roots. Nothing in the files describes a real place.
"""
# Needs only Python 3.11 or later.

import argparse
import math
import re
from collections import Counter, defaultdict
from collections.abc import Iterable, Iterator, Sequence
from dataclasses import dataclass, field, replace
from itertools import combinations, cycle, pairwise
from pathlib import Path

from make_county import LINE_END, Dice, record

TOP = Path(__file__).resolve().parent.parent
CODE = "01007"
SEED = 2006
FIRST_TLID = 207000000

# Points are east and north of the county's southwest corner, in tenths of a meter.
Point = tuple[int, int]
WEST, SOUTH = -87_170_000, 32_930_000  # of that corner, in millionths of a degree
LONGITUDE_STEP, LATITUDE_STEP = 1.07, 0.9  # millionths of a degree per tenth of a meter, at 33 degrees north
SNAP = 150  # a crossing this close to a point of a line is at that point
SIDE = 150  # how far from a segment its left and right areas are looked up

TOWN = (37_000, 30_000)  # the corner of Main and Broad Street
BLOCK_WIDTH, BLOCK_HEIGHT = 1180, 1050
COLUMNS, ROWS = 11, 8  # blocks from that corner to the grid's end: east and west, north and south

NORTH_STREETS = ("Washington", "Jefferson", "Madison", "Franklin", "Lincoln", "Jackson", "Highland", "Monroe")
SOUTH_STREETS = ("2nd", "3rd", "4th", "5th", "6th", "7th", "8th", "9th")
WEST_AVENUES = "Oak, Elm, Maple, Cedar, Pine, Walnut, Chestnut, Hickory, Sycamore, Spruce, Willow".split(", ")
EAST_AVENUES = "Church, Court, College, Market, Depot, Spring, Mill, Park, Union, Locust, Poplar".split(", ")
FARM_ROADS = (
    "Smith, Johnson, Miller, Davis, Wilson, Taylor, Moore, Clark, Lewis, Walker, Hall, Young, King, Wright, Hill, "
    "Green, Baker, Nelson, Carter, Mitchell, Turner, Parker, Collins, Morris, Cook, Rogers, Reed, Bailey, Bell, "
    "Cooper, Howard, Ward, Cox, Gray, James, Watson, Brooks, Kelly, Sanders, Price, Bennett, Wood, Barnes, Ross, "
    "Henderson, Coleman, Jenkins, Perry, Powell, Long, Patterson, Hughes, Butler, Simmons, Foster, Bryant"
).split(", ")
FARM_TYPES = [
    *(("", kind) for kind in ("Rd", "Rd", "Ln", "Dr")),
    *((middle, "Rd") for middle in ("Farm", "Hollow", "Ridge", "Chapel")),
]
COURTS = (
    "Heron, Fox, Quail, Meadow, Stone, Deer, Robin, Brook, Valley, Orchard, Sunset, Rolling, Timber, Willow Run, "
    "Laurel, Holly, Dogwood, Magnolia, Birch, Aspen, Juniper, Redbud, Cardinal, Bluebird, Partridge, Summit, Clover, "
    "Briar, Ivy, Fern, Hazel, Peach, Acorn, Falcon, Lark, Wren, Plum, Maplewood, Cherry, Lilac, Primrose, Ridgeway, "
    "Creekside, Pinecrest, Woodland, Fairway, Sandstone, Bayberry, Cottonwood, Foxglove, Gardenia, Jasmine"
).split(", ")
COURT_TYPES = ("Ct", "Ct", "Ln", "Pl", "Cir", "Way")


@dataclass(frozen=True)
class Name:
    """A name with its type and the direction before it, such as N Broad St."""

    name: str = ""
    type: str = ""
    prefix: str = ""

    def fields(self) -> dict[str, str]:
        return {"FEDIRP": self.prefix, "FENAME": self.name, "FETYPE": self.type}


@dataclass
class Line:
    """A street, stream or boundary, or a part of one; `numbers` has the house number at each point."""

    name: Name
    cfcc: str
    points: list[Point]
    numbers: list[float] = field(default_factory=list)
    others: tuple[Name, ...] = ()


# Points are in rows, not each on a line.
# fmt: off
BORDER: list[Point] = [(0, 0), (52_000, 0), (52_000, 600), (80_000, 600), (80_000, 60_000), (12_000, 60_000),
    (12_000, 58_800), (0, 58_800)]
# fmt: on
MAIN = Name("Main", "St")
BROAD = Name("Broad", "St")
US_31 = Name("US Hwy 31")
STATE_25 = Name("State Hwy 25")


# Geometry


def distance(a: Point, b: Point) -> float:
    return math.sqrt((a[0] - b[0]) ** 2 + (a[1] - b[1]) ** 2)


def curve(controls: Sequence[Point], pieces: int = 5) -> list[Point]:
    """Returns a smooth line through all control points, a Catmull-Rom spline."""
    padded = [controls[0], *controls, controls[-1]]
    points = [controls[0]]
    for four in zip(padded, padded[1:], padded[2:], padded[3:]):
        easts, norths = zip(*four)
        points += [(spline(easts, step / pieces), spline(norths, step / pieces)) for step in range(1, pieces + 1)]
    return points


def spline(values: Sequence[int], t: float) -> int:
    """Returns a value of the spline between the second and the third of four values."""
    p, q, r, s = values
    return round((2 * q + (r - p) * t + (2 * p - 5 * q + 4 * r - s) * t * t + (3 * q - p - 3 * r + s) * t * t * t) / 2)


def ring(controls: Sequence[Point], pieces: int = 4) -> list[Point]:
    """Returns a smooth closed line that starts and ends at the first control point."""
    around = [controls[-1], *controls, controls[0], controls[1]]
    return curve(around, pieces)[pieces:-pieces]


def crossing(a: Point, b: Point, c: Point, d: Point) -> Point | None:
    """Returns the point where the straight pieces a-b and c-d meet, or None if they don't."""
    east, north = b[0] - a[0], b[1] - a[1]
    other_east, other_north = d[0] - c[0], d[1] - c[1]
    turn = east * other_north - north * other_east
    if turn == 0:
        return None
    along = ((c[0] - a[0]) * other_north - (c[1] - a[1]) * other_east) / turn
    other_along = ((c[0] - a[0]) * north - (c[1] - a[1]) * east) / turn
    if not (0 <= along <= 1 and 0 <= other_along <= 1):
        return None
    return round(a[0] + along * east), round(a[1] + along * north)


def crosses(a: Point, b: Point, line: Sequence[Point]) -> bool:
    return any(crossing(a, b, c, d) for c, d in pairwise(line))


def is_inside(point: Point, polygon: Sequence[Point]) -> bool:
    """Returns whether a polygon contains a point. Counts the edges that a ray to the east crosses."""
    inside = False
    for (x, y), (to_x, to_y) in pairwise([*polygon, polygon[0]]):
        if (y > point[1]) != (to_y > point[1]) and point[0] < x + (point[1] - y) * (to_x - x) / (to_y - y):
            inside = not inside
    return inside


def height_at(line: Sequence[Point], east: float) -> float:
    """Returns how far north a line is at this point. The line runs from west to east."""
    for (x, y), (to_x, to_y) in pairwise(line):
        if x <= east < to_x:
            return y + (east - x) * (to_y - y) / (to_x - x)
    return line[-1][1]


# The town's grid


def corner(column: float, row: float) -> Point:
    """Returns a corner of the grid, which is tilted by 9 in 40 and bent."""
    east = BLOCK_WIDTH * column - 14 * row * abs(row) + 3 * row * row
    north = BLOCK_HEIGHT * row + 7.5 * column * column + 0.35 * column * row * row
    return round(TOWN[0] + (40 * east - 9 * north) / 41), round(TOWN[1] + (9 * east + 40 * north) / 41)


# fmt: off
MILL_RIVER = curve([(6_000, 62_000), (8_500, 55_000), (6_500, 48_000), (10_500, 42_500), (12_500, 35_500),
    (15_500, 29_500), (19_500, 25_500), (25_000, 22_400), (31_000, 21_800), (36_500, 23_600), (42_500, 24_000),
    (48_000, 21_500), (52_500, 16_500), (58_500, 14_500), (64_000, 16_500), (70_000, 14_000), (74_500, 9_000),
    (82_000, 7_500)], 6)
RAILROAD = curve([(-2_000, 33_500), (8_000, 31_500),
    (17_000, 30_000), corner(-11, 1.5), corner(-5, 1.5), corner(0, 1.5), corner(5, 1.5), corner(11, 1.5),
    (56_500, 42_000), (67_000, 47_000), (82_000, 49_500)], 6)
# fmt: on
PARK = (-10, -7, -4, -2)  # first and last column, first and last row
CEMETERY = (3, 5, 6, 7)


def has_block(column: int, row: int, to_column: int, to_row: int, dice: Dice) -> bool:
    """Returns whether the grid has a street between these two neighboring corners."""
    middle = (column + to_column) / 2, (row + to_row) / 2
    for west, east, south, north in (PARK, CEMETERY):
        if west < middle[0] < east and south < middle[1] < north:
            return False
    on_axis = middle[0] == 0 or middle[1] == 0
    if on_axis:
        return True
    size = (middle[0] / 11.2) ** 2 + (middle[1] / 8.2) ** 2
    if size > 1 or (size > 0.72 and dice.once_in(4)) or dice.once_in(14):
        return False
    a, b = corner(column, row), corner(to_column, to_row)
    if crosses(a, b, MILL_RIVER):
        return column == to_column and column in (-4, 5)
    return not crosses(a, b, RAILROAD) or column % 3 != 1


def runs(corners: Sequence[tuple[int, int]], dice: Dice) -> Iterator[list[tuple[int, int]]]:
    """Yields the parts of a street that the grid has, as lists of neighboring corners."""
    run: list[tuple[int, int]] = []
    for a, b in pairwise(corners):
        if has_block(*a, *b, dice):
            run = [*run, b] if run else [a, b]
        elif run:
            yield run
            run = []
    if run:
        yield run


def grid_street(line: Line, corners: Sequence[tuple[int, int]], dice: Dice) -> Iterator[Line]:
    """Yields the parts of a street from an axis of the grid outwards, with 100 house numbers per block."""
    for run in runs(corners, dice):
        blocks = [column if run[0][1] == run[1][1] else row for column, row in run]
        yield replace(line, points=[corner(*at) for at in run], numbers=[100.0 * (1 + abs(block)) for block in blocks])


def grid(dice: Dice) -> Iterator[Line]:
    for row in range(-ROWS, ROWS + 1):
        street = Line(MAIN, "A21", [], others=(US_31,))
        if row:
            name = Name((NORTH_STREETS if row > 0 else SOUTH_STREETS)[abs(row) - 1], "St")
            street = Line(name, "A41", [], others=(Name("Martin Luther King Jr", "Dr"),) if row == -3 else ())
        for prefix, sign in (("W", -1), ("E", 1)):
            corners = [(sign * column, row) for column in range(COLUMNS + 1)]
            yield from grid_street(replace(street, name=replace(street.name, prefix=prefix)), corners, dice)
    for column in range(-COLUMNS, COLUMNS + 1):
        avenue = Line(BROAD, "A31", [], others=(STATE_25,))
        if column:
            name = Name((WEST_AVENUES if column < 0 else EAST_AVENUES)[abs(column) - 1], "Ave")
            avenue = Line(name, "A41", [], others=(Name("Old Ferry", "Rd"),) if column == -4 else ())
        for prefix, sign in (("S", -1), ("N", 1)):
            corners = [(column, sign * row) for row in range(ROWS + 1)]
            yield from grid_street(replace(avenue, name=replace(avenue.name, prefix=prefix)), corners, dice)


def block_ring(area: tuple[int, int, int, int]) -> list[Point]:
    """Returns the edge of an area of whole blocks, slightly inside of its streets."""
    west, east, south, north = area
    west_end, east_end, south_end, north_end = west + 0.14, east - 0.14, south + 0.14, north - 0.14
    points = [corner(east, north) for north in (south_end, north_end) for east in (west_end, east_end)]
    return [points[0], points[1], points[3], points[2], points[0]]


# Around the town

# fmt: off
WEST_31 = curve([corner(-11, 0), (19_000, 25_900), (11_000, 24_000), (4_000, 20_500), (-2_000, 20_000)])
EAST_31 = curve([corner(11, 0), (55_500, 35_200), (61_000, 35_800), (66_000, 35_600), (73_000, 37_500),
    (82_000, 38_500)])
HIGHWAY_31 = [*WEST_31[::-1], *(corner(column, 0) for column in range(1 - COLUMNS, COLUMNS)), *EAST_31]
INTERSTATE = curve([(68_500, 62_000), (66_500, 52_000), (64_000, 43_500), (62_800, 35_600), (63_500, 27_000),
    (66_500, 18_000), (67_000, 8_000), (64_500, -2_000)], 6)
COUNTY_ROADS: tuple[tuple[str, str, tuple[Point, ...]], ...] = (
    ("12", "Centerville", (corner(-9, 4), (22_500, 33_600), (18_500, 38_500), (13_500, 40_500), (6_000, 40_000),
         (-2_000, 42_000))),
    ("7", "Lake Ferry", (corner(4, 7), (37_500, 46_000), (35_500, 52_000), (38_000, 62_000))),
    ("46", "Quarry", (corner(10, -3), (54_000, 28_500), (59_000, 25_500), (64_000, 24_000), (71_000, 24_500),
         (82_000, 22_500))),
    ("29", "Gristmill", (corner(-4, -8), (33_500, 15_500), (26_500, 12_500), (22_500, 8_000), (15_500, 4_500),
         (11_000, -2_000))),
    ("63", "Pleasant Hill", (EAST_31[-6], (74_000, 43_500), (72_500, 52_000), (74_500, 62_000))),
    ("64", "Shiloh", (EAST_31[-6], (73_500, 31_000), (71_000, 24_500), (72_500, 17_500), (76_500, 12_000),
         (76_000, -2_000))),
    ("18", "Bethel", (WEST_31[11], (9_000, 16_500), (12_500, 10_500), (15_500, 4_500))),
    ("33", "Old Stage", (corner(-7, 6), (23_500, 41_500), (20_500, 47_000), (22_500, 53_500), (20_500, 62_000))),
)
LAKE = ((47_500, 46_000), (50_500, 45_600), (52_800, 47_200), (54_600, 50_200), (52_700, 52_000), (50_600, 51_300),
    (48_800, 53_400), (46_600, 52_200), (47_400, 49_400), (46_000, 47_800))
LAKE_DRIVE = ((45_400, 44_600), (50_600, 43_900), (54_400, 46_000), (56_900, 50_600), (53_600, 54_000),
    (48_800, 55_600), (44_900, 53_400), (45_300, 49_800), (44_200, 47_000))
SUBDIVISIONS: tuple[tuple[str, tuple[Point, ...]], ...] = (
    ("Country Club", (corner(11, -1), (53_800, 31_500), (56_500, 32_800), (59_500, 31_800), (59_000, 28_800),
         (56_500, 28_300), (54_000, 28_500))),
    ("Riverbend", (corner(-2, -8), (39_500, 16_800), (43_500, 17_500), (47_000, 15_500), (46_000, 11_500),
         (42_500, 11_500), (40_500, 14_000))),
    ("Stonebridge", (corner(-6, 7), (26_000, 43_000), (29_000, 46_200), (33_000, 46_000), (36_200, 47_500))),
)
CREEKS: tuple[tuple[Name, str, tuple[Point, ...]], ...] = (
    (Name("Mill", "Crk"), "H11", (LAKE[2], (57_000, 44_500), (56_800, 40_000), (54_000, 35_500), (52_600, 30_500),
         (52_000, 25_500), (48_800, 21_000))),
    (Name("Mill", "Crk"), "H11", ((54_000, 62_000), (55_500, 57_500), (53_000, 55_500), LAKE[4])),
    (Name("Sandy", "Br"), "H12", ((26_500, 62_000), (27_000, 55_000), (24_500, 49_000), (16_500, 46_500),
         (9_800, 43_500))),
    (Name("Turkey", "Crk"), "H11", ((82_000, 30_500), (76_000, 28_500), (70_500, 30_500), (66_000, 27_000),
         (63_000, 20_500), (62_500, 16_200))),
    (Name("Beaver", "Br"), "H12", ((2_500, -2_000), (5_000, 7_000), (12_500, 13_500), (20_500, 17_000),
     MILL_RIVER[42])),
)
# fmt: on


def numbered(points: Sequence[Point], first: int, length: int) -> list[float]:
    """Returns the house numbers along a road: 100 for each `length`."""
    numbers = [float(first)]
    for a, b in pairwise(points):
        numbers.append(numbers[-1] + 100 * distance(a, b) / length)
    return numbers


def road(name: Name, cfcc: str, points: list[Point], first: int, length: int, others: tuple[Name, ...] = ()) -> Line:
    return Line(name, cfcc, points, numbered(points, first, length), others)


def highways() -> Iterator[Line]:
    memorial = (Name("Veterans Memorial", "Pkwy"),)
    yield road(US_31, "A21", WEST_31, 1300, 1600, memorial)
    yield road(US_31, "A21", EAST_31, 1300, 1600, memorial)
    for prefix, points in (
        ("N", curve([corner(0, 8), (30_500, 44_500), (29_000, 51_000), (31_500, 62_000)])),
        ("S", curve([corner(0, -8), (40_500, 14_000), (37_500, 7_000), (41_000, -2_000)])),
    ):
        yield road(replace(STATE_25, prefix=prefix), "A31", points, 1000, 1600, (Name("Broad", "St", prefix),))
    yield Line(Name("I-65"), "A11", INTERSTATE)
    for on_interstate, on_31, side in ((14, 10, -1), (14, 14, 1), (22, 10, -1), (22, 14, 1)):
        beside = INTERSTATE[(on_interstate + 18) // 2]
        bend = beside[0] + side * 550, beside[1]
        yield Line(Name(), "A63", curve([INTERSTATE[on_interstate], bend, EAST_31[on_31]], 4))
    for number, other, controls in COUNTY_ROADS:
        yield road(Name(f"County Road {number}"), "A31", curve(controls), 1400, 1600, (Name(other, "Rd"),))


def spurs(
    line: Line, every: int, lengths: tuple[int, int], dice: Dice, names: Iterator[Name], others: list[Line]
) -> list[Line]:
    """Adds to `others` the dead ends that leave a line, alternately to its left and right, and cross no other line."""
    added = []
    for number, place in enumerate(range(every, len(line.points) - 2, every)):
        start, next_point = line.points[place : place + 2]
        scale = dice.between(*lengths) / max(distance(start, next_point), 1)
        east, north = (next_point[0] - start[0]) * scale, (next_point[1] - start[1]) * scale
        if number % 2:
            east, north = -east, -north
        lean = dice.between(-45, 45) / 100
        middle = round(start[0] - north * 0.5 + east * lean * 0.3), round(start[1] + east * 0.5 + north * lean * 0.3)
        end = round(start[0] - north + east * lean), round(start[1] + east + north * lean)
        points = curve([start, middle, end], 3)
        beyond = round(end[0] + (end[0] - middle[0]) * 0.3), round(end[1] + (end[1] - middle[1]) * 0.3)
        pieces = list(pairwise([*points[1:], beyond]))
        if is_inside(end, BORDER) and not any(crosses(*piece, other.points) for piece in pieces for other in others):
            added.append(road(next(names), "A41", points, 100, 1000))
            others.append(added[-1])
    return added


def suburbs(dice: Dice, others: list[Line]) -> None:
    """Adds winding roads with courts along them."""
    names = cycle([Name(name, dice.one_of(COURT_TYPES)) for name in COURTS])
    others.append(road(Name("Lake", "Rd"), "A41", curve([corner(8, 5), (45_600, 41_800), LAKE_DRIVE[0]]), 900, 1200))
    loops = [road(Name("Lakeview", "Dr"), "A41", ring(LAKE_DRIVE), 100, 1200)]
    loops += [road(Name(name, "Dr"), "A41", curve(controls), 1200, 1200) for name, controls in SUBDIVISIONS]
    others += loops
    for loop in loops:
        spurs(loop, 2, (900, 1400), dice, names, others)


def farm_roads(roads: Iterable[Line], dice: Dice, others: list[Line]) -> None:
    """Adds dead ends along the county roads and highways, and tracks at some of their ends."""
    kinds = [dice.one_of(FARM_TYPES) for _ in FARM_ROADS]
    names = [Name(f"{name} {middle}".strip(), kind) for name, (middle, kind) in zip(FARM_ROADS, kinds)]
    dice.shuffle(names)
    around = cycle(names)
    for line in roads:
        for spur in spurs(line, 5, (3500, 9000), dice, around, others):
            if dice.once_in(4):
                start, end = spur.points[0], spur.points[-1]
                track_end = end[0] + (end[1] - start[1]) // 2, end[1] + (start[0] - end[0]) // 2
                others.append(Line(Name(), "A51", [end, track_end]))


def waters() -> Iterator[Line]:
    yield Line(Name("Mill", "Riv"), "H11", MILL_RIVER)
    for name, cfcc, controls in CREEKS:
        yield Line(name, cfcc, curve(controls))
    shore = ring(LAKE)
    for first in range(0, 40, 20):
        yield Line(Name("Mirror", "Lake"), "H31", shore[first : first + 21])


def drawn(dice: Dice) -> list[Line]:
    """Returns all lines of the county before they are cut."""
    roads = list(highways())
    lines = [*waters(), *grid(dice), *roads]
    lines.append(Line(Name("Central Valley", "Rlwy"), "B11", RAILROAD, others=(Name("Mill River", "Line"),)))
    spur = curve([RAILROAD[36], corner(7, 0.4), corner(9, -2.4), (52_000, 27_500)])
    lines.append(Line(Name("Central Valley", "Rlwy"), "B21", spur))
    suburbs(dice, lines)
    farm_roads([line for line in roads if line.cfcc in ("A21", "A31")], dice, lines)
    lines.append(Line(Name("Riverside", "Park"), "D85", block_ring(PARK)))
    lines.append(Line(Name("Oakwood", "Cem"), "D82", block_ring(CEMETERY)))
    lines.append(Line(Name(), "F10", [*BORDER, BORDER[0]]))
    return [reversed_line(line) if line.cfcc[0] == "A" and dice.once_in(6) else line for line in lines]


def reversed_line(line: Line) -> Line:
    return replace(line, points=line.points[::-1], numbers=line.numbers[::-1])


# Nodes


def pieces_by_cell(lines: Sequence[Line]) -> Iterator[list[tuple[int, int]]]:
    """Yields the straight pieces in each square of the county, by line and place."""
    cells: dict[Point, list[tuple[int, int]]] = defaultdict(list)
    for number, line in enumerate(lines):
        for place, (a, b) in enumerate(pairwise(line.points)):
            for east in range(min(a[0], b[0]) // 2000, max(a[0], b[0]) // 2000 + 1):
                for north in range(min(a[1], b[1]) // 2000, max(a[1], b[1]) // 2000 + 1):
                    cells[east, north].append((number, place))
    yield from cells.values()


def cut_points(lines: Sequence[Line]) -> dict[tuple[int, int], set[Point]]:
    """Returns the points to insert into each straight piece, so that lines meet at points that both have."""
    cuts: dict[tuple[int, int], set[Point]] = defaultdict(set)
    for pieces in pieces_by_cell(lines):
        for one, other in combinations(pieces, 2):
            if one[0] == other[0]:
                continue
            ends = [lines[number].points[place : place + 2] for number, place in (one, other)]
            at = crossing(*ends[0], *ends[1])
            if at is None or set(ends[0]) & set(ends[1]):
                continue
            near = [end for pair in ends for end in pair if distance(at, end) <= SNAP]
            if near:
                at = near[-1] if lines[other[0]].cfcc[0] == "A" and near[-1] in ends[1] else near[0]
            for piece, pair in zip((one, other), ends):
                if at not in pair:
                    cuts[piece].add(at)
    return cuts


def with_cuts(line: Line, cuts: Sequence[set[Point]]) -> Line:
    """Returns the line with the cuts of each of its pieces as further points."""
    points, numbers = line.points[:1], line.numbers[:1]
    for place, (a, b) in enumerate(pairwise(line.points)):
        inserted = sorted(cuts[place], key=lambda point: (distance(a, point), point))
        points += [*inserted, b]
        if line.numbers:
            first, last = line.numbers[place : place + 2]
            numbers += [*(first + (last - first) * distance(a, point) / distance(a, b) for point in inserted), last]
    return replace(line, points=points, numbers=numbers)


def segments_of(lines: Sequence[Line]) -> Iterator[Line]:
    """Yields the lines cut at their nodes, without parts outside of the county."""
    cuts = cut_points(lines)
    cut_lines = []
    for number, line in enumerate(lines):
        cut_lines.append(with_cuts(line, [cuts[number, place] for place in range(len(line.points) - 1)]))
    lines_at = Counter(point for line in cut_lines for point in set(line.points))
    for line in cut_lines:
        first = 0
        for last in range(1, len(line.points)):
            if last < len(line.points) - 1 and lines_at[line.points[last]] == 1:
                continue
            part = replace(line, points=line.points[first : last + 1], numbers=line.numbers[first : last + 1])
            first = last
            if line.cfcc[0] == "F" or all(is_inside(side, BORDER) for side in sides(part.points)):
                yield part


def sides(points: Sequence[Point]) -> tuple[Point, Point]:
    """Returns a point to the left of the middle of a segment, and one to the right."""
    a, b = points[len(points) // 2 - 1 : len(points) // 2 + 1]
    scale = SIDE / max(distance(a, b), 1)
    east, north = round((b[0] - a[0]) * scale), round((b[1] - a[1]) * scale)
    middle = (a[0] + b[0]) // 2, (a[1] + b[1]) // 2
    return (middle[0] - north, middle[1] + east), (middle[0] + north, middle[1] - east)


# Records


def area_fields(code: str, side: str, at: Point) -> dict[str, str]:
    """Returns the areas around a point. Field names end with the side's letter. `code` is the county's."""
    if not is_inside(at, BORDER):
        return {}
    in_town = ((at[0] - TOWN[0]) / 17_500) ** 2 + ((at[1] - TOWN[1]) / 13_500) ** 2 < 1
    quarter = 1 + (at[0] > TOWN[0]) + 2 * (at[1] > TOWN[1])
    tract = quarter if in_town else quarter + 4
    fields = {
        "STATE": code[:2],
        "COUNTY": code[2:],
        "COUSUB": "90477" if at[0] > INTERSTATE[18][0] else "90315",
        "PLACE": "13264" if in_town else "",
        "TRACT": f"01{tract:02}00",
        "BLOCK": f"{1000 + at[0] // 2500 * 37 % 40 + at[1] // 2500 * 40}",
    }
    return {name + side: text for name, text in fields.items()}


def zip_code(at: Point) -> str:
    """Returns the ZIP Code of a point: east of the interstate, or north or south of US 31 and Main Street."""
    if at[0] > INTERSTATE[18][0]:
        return "35184"
    return "35042" if at[1] > height_at(HIGHWAY_31, at[0]) else "35034"


def range_fields(low: int, high: int, is_rising: bool, zips: Sequence[str], sides_with: str = "LR") -> dict[str, str]:
    """Returns the house numbers from `low` (even) to `high` (odd). If they rise, odd ones are on the left."""
    fields = {}
    for side, zip_text in zip("LR", zips):
        if side in sides_with:
            parity = 1 if (side == "L") == is_rising else 0
            ends = (low + parity, high - 1 + parity)
            fields["FRADD" + side], fields["TOADD" + side] = map(str, ends if is_rising else ends[::-1])
            fields["FRIADD" + side] = fields["TOIADD" + side] = "0"
            fields["ZIP" + side] = zip_text
    return fields


def house_numbers(segment: Line, dice: Dice) -> tuple[dict[str, str], list[dict[str, str]]]:
    """Returns the fields of a segment's own range and of its further ranges."""
    if not segment.numbers:
        return {}, []
    low, high = sorted(2 * round(number / 2) for number in (segment.numbers[0], segment.numbers[-1]))
    if high - low < 8:
        return {}, []
    zips = [zip_code(side) for side in sides(segment.points)]
    is_rising = segment.numbers[0] < segment.numbers[-1]
    present = dice.one_of(["L", "R"]) if segment.cfcc == "A41" and dice.once_in(14) else "LR"
    if not dice.once_in(16):
        return range_fields(low, high - 1, is_rising, zips, present), []
    half = low + (high - low) // 4 * 2
    further = [range_fields(half + 2 if half + 2 < high - 2 else half, high - 1, is_rising, zips, present)]
    if dice.once_in(3):
        old = 2000 + 20 * dice.between(1, 90)
        further.append(range_fields(old, old + 19, is_rising, [dice.one_of(["35034", "35042"])] * 2, present))
    return range_fields(low, half - 1, is_rising, zips, present), further


def shape_records(tlid: str, points: Sequence[Point]) -> Iterator[bytes]:
    """Yields the lines of type 2: ten shape points each, and zeros after the last point."""
    for first in range(0, len(points), 10):
        ten = [degrees(point) for point in points[first : first + 10]]
        ten += [(0, 0)] * (10 - len(ten))
        coordinates = "".join(f"{longitude:+010d}{latitude:+09d}" for longitude, latitude in ten)
        yield f"20006{tlid:>10}{first // 10 + 1:3}{coordinates}".encode("ascii")


def degrees(point: Point) -> tuple[int, int]:
    """Returns longitude and latitude in millionths of a degree."""
    return round(WEST + point[0] * LONGITUDE_STEP), round(SOUTH + point[1] * LATITUDE_STEP)


class Names:
    """Numbers the names of the county, for type 5."""

    def __init__(self, dice: Dice) -> None:
        self.dice = dice
        self.numbers: dict[Name, int] = {}

    def number(self, name: Name) -> int:
        if name not in self.numbers:
            self.numbers[name] = max(self.numbers.values(), default=0) + self.dice.between(1, 5)
        return self.numbers[name]

    def records(self, code: str) -> list[bytes]:
        head = {"RT": "5", "VERSION": "0006", "FILE": code}
        return [record({**head, "FEAT": str(number), **name.fields()}) for name, number in self.numbers.items()]


def type_1(code: str, segment: Line, tlid: str, numbers: dict[str, str]) -> bytes:
    left, right = sides(segment.points)
    (longitude, latitude), (to_longitude, to_latitude) = degrees(segment.points[0]), degrees(segment.points[-1])
    return record(
        {
            "RT": "1",
            "VERSION": "0006",
            "TLID": tlid,
            "SIDE1": "1" if segment.cfcc[0] == "F" else "",
            "SOURCE": "A",
            "CFCC": segment.cfcc,
            **segment.name.fields(),
            **numbers,
            **area_fields(code, "L", left),
            **area_fields(code, "R", right),
            "FRLONG": f"{longitude:+010d}",
            "FRLAT": f"{latitude:+09d}",
            "TOLONG": f"{to_longitude:+010d}",
            "TOLAT": f"{to_latitude:+09d}",
        }
    )


def county(seed: int, code: str) -> dict[str, list[bytes]]:
    """Returns the lines of each record type."""
    dice = Dice(seed)
    segments = list(segments_of(drawn(dice)))
    names, tlid = Names(dice), FIRST_TLID
    types: dict[str, list[bytes]] = {number: [] for number in "12456"}
    for segment in segments:
        tlid += dice.between(1, 9)
        own, further = house_numbers(segment, dice)
        head = {"VERSION": "0006", "TLID": str(tlid)}
        types["1"].append(type_1(code, segment, str(tlid), own))
        types["2"] += shape_records(str(tlid), segment.points[1:-1])
        if segment.name.name:
            names.number(segment.name)
        if segment.others:
            feats = {f"FEAT{which}": str(names.number(name)) for which, name in enumerate(segment.others, start=1)}
            types["4"].append(record({"RT": "4", **head, "RTSQ": "1", **feats}))
        for which, fields in enumerate(further, start=1):
            types["6"].append(record({"RT": "6", **head, "RTSQ": str(which), **fields}))
    types["5"] = names.records(code)
    return types


def files_of(seed: int, code: str) -> dict[str, bytes]:
    """Returns the files of a county by their names."""
    types = county(seed, code)
    return {f"TGR{code}.RT{number}": b"".join(line + LINE_END for line in lines) for number, lines in types.items()}


def main() -> None:
    parser = argparse.ArgumentParser(description="Writes a made-up county with a town in it, as TIGER/Line files.")
    add, town = parser.add_argument, TOP / "examples" / "town"
    add("folder", nargs="?", type=Path, default=town, help="where the files go (default: examples/town)")
    add("--seed", type=int, default=SEED, help="another seed draws another county (default: %(default)s)")
    add("--code", default=CODE, help="the county's code, five digits (default: %(default)s)")
    arguments = parser.parse_args()
    if not re.fullmatch("[0-9]{5}", arguments.code):
        parser.error(f"a code is five digits, and {arguments.code!r} isn't")
    arguments.folder.mkdir(parents=True, exist_ok=True)
    for name, content in files_of(arguments.seed, arguments.code).items():
        (arguments.folder / name).write_bytes(content)


if __name__ == "__main__":
    main()
