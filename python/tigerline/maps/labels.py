"""The names on a map: one place for each name, without overlaps."""

import math
from collections import defaultdict
from collections.abc import Iterator, Sequence
from dataclasses import dataclass
from functools import cached_property

from matplotlib.font_manager import FontProperties
from matplotlib.textpath import text_to_path
from shapely.geometry import CAP_STYLE, LineString, MultiLineString, MultiPoint, Polygon, box
from shapely.ops import linemerge
from shapely.prepared import prep

from .layers import Group, Layer
from .view import WIDTH, Position

MOST_NAMES = 100  # more would hide the lines
NAME_SIZE = 6.0
FONT = FontProperties(size=NAME_SIZE)
NARROWEST = 0.3 * NAME_SIZE  # of all letters on average
MARGIN = 1.15  # a line is this much longer than its name
STRAIGHT = 0.97  # the distance between the ends of a name, as a part of the line between them
SHARES = (0.5, 0.4, 0.6, 0.3, 0.7, 0.2, 0.8, 0.1, 0.9)  # where on a line a name is tried, as a part of its length
DOT = 3.2  # the radius of a dot
BESIDE = DOT + 1  # from the middle of a dot to its name

Line = Sequence[Position]


@dataclass(frozen=True)
class Label:
    """A name, and the line that it is written along."""

    text: str
    layer: Layer
    start: Position
    end: Position

    @property
    def angle(self) -> float:
        """The direction in degrees, counterclockwise from the east."""
        return math.degrees(math.atan2(self.end[1] - self.start[1], self.end[0] - self.start[0]))

    @property
    def middle(self) -> Position:
        """The middle of the text."""
        return (self.start[0] + self.end[0]) / 2, (self.start[1] + self.end[1]) / 2

    @cached_property
    def area(self) -> Polygon:
        """The rectangle around the text."""
        return LineString([self.start, self.end]).buffer(0.6 * NAME_SIZE, cap_style=CAP_STYLE.flat)

    def overlaps(self, other: "Label") -> bool:
        """Returns whether another name is too close."""
        reach = (math.dist(self.start, self.end) + math.dist(other.start, other.end)) / 2 + 2 * NAME_SIZE
        return math.dist(self.middle, other.middle) < reach and bool(self.area.intersects(other.area))


def labels_of(groups: Sequence[Group], height: float) -> list[Label]:
    """Returns a place for each name that has one, those of the groups on top and of long lines first.

    The points of the groups are on paper. No name hides a dot, and no name in the background the line of a selected segment.
    """
    sheet = prep(box(0, 0, WIDTH, height))
    dots = [segment.points[0] for layer, segments in groups if layer.is_dot for segment in segments]
    chosen = [one.points for layer, segments in groups if not layer.is_pale | layer.is_dot for one in segments]
    spots, selected = prep(MultiPoint(dots).buffer(DOT)), prep(MultiLineString(chosen))
    labels: list[Label] = []
    for layer, text, lines in _named_lines(groups):
        if len(labels) == MOST_NAMES:
            break
        width = MARGIN * text_to_path.get_text_width_height_descent(text, FONT, ismath=False)[0]
        for start, end in _places(lines, width, layer):
            label = Label(text, layer, start, end)
            hides = spots.intersects(label.area) or (layer.is_pale and selected.intersects(label.area))
            if sheet.contains(label.area) and not hides and not any(map(label.overlaps, labels)):
                labels.append(label)
                break
    return labels


def _named_lines(groups: Sequence[Group]) -> Iterator[tuple[Layer, str, list[Line]]]:
    """Yields the lines of each name, without those that are certainly shorter than the name.

    That of an address ends before its city.
    """
    for layer, segments in reversed(groups):
        found: dict[str, list[Line]] = defaultdict(list)
        for segment in segments:
            found[segment.name.partition(",")[0]].append(segment.points)
        lengths = {
            name: sum(math.dist(*ends) for line in found[name] for ends in zip(line, line[1:])) for name in found
        }
        for name in sorted(found, key=lambda name: -lengths[name]):
            if name and (layer.is_dot or lengths[name] > NARROWEST * len(name)):
                yield layer, name, found[name]


def _places(lines: Sequence[Line], width: float, layer: Layer) -> Iterator[tuple[Position, Position]]:
    """Yields the places of a text of this width: beside dots, in an area, or along straight parts of lines."""
    if layer.is_dot:
        for ((x, y),) in lines:
            yield (x + BESIDE, y), (x + BESIDE + width, y)
            yield (x - BESIDE - width, y), (x - BESIDE, y)
        return
    merged = linemerge(MultiLineString(lines))
    for line in sorted(getattr(merged, "geoms", [merged]), key=lambda line: -line.length):
        if layer.fill and line.is_ring:
            yield from _inside(Polygon(line), width)
        for middle in (share * line.length for share in SHARES):
            if width / 2 < min(middle, line.length - middle):
                start, end = sorted(line.interpolate(middle + side * width / 2).coords[0] for side in (-1, 1))
                if math.dist(start, end) > STRAIGHT * width:
                    yield start, end


def _inside(area: Polygon, width: float) -> Iterator[tuple[Position, Position]]:
    x, y = area.representative_point().coords[0]
    place = (x - width / 2, y), (x + width / 2, y)
    if area.contains(LineString(place)):
        yield place
