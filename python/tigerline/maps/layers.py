"""The rows of a map's legend: by class of feature or by score, from the bottom of the map to its top."""

from bisect import bisect_left, bisect_right
from collections.abc import Callable, Sequence
from dataclasses import dataclass, replace
from functools import cache
from typing import NamedTuple

from .view import MapSegment

SCORE_CLASSES = 5
INK, PALE_INK, PALE = "#26241f", "#a39c8c", "#d8d3c6"


@dataclass(frozen=True)
class Layer:
    """How the segments of one row of the legend look, on a map of a town. Widths are in points."""

    label: str
    prefixes: tuple[str, ...] = ()
    color: str = INK
    width: float = 1
    casing: str = ""  # the color of the edges, for lines with edges
    dashes: tuple[float, ...] = ()
    pale: str = PALE  # the color in the background
    fill: str = ""  # the color of areas
    names: str = INK
    is_dot: bool = False
    is_pale: bool = False

    @property
    def paler(self) -> "Layer":
        """How the segments look in the background."""
        fill = f"{self.fill}80" if self.fill else ""
        line = replace(self, color=self.pale, width=0.6 * self.width, casing="", dashes=(), fill=fill)
        return replace(line, names=PALE_INK, is_pale=True)


# From the bottom to the top. Roads differ by brightness and width as well as by hue, so that color-blind readers can
# tell them apart.
LAYERS = (
    Layer("Intermittent stream", ("H02", "H12", "H22"), "#3f86b5", 1, "", (4, 2), "#c3dcea", names="#1d5c86"),
    Layer("Water", ("H",), "#3f86b5", 1.4, pale="#c3dcea", fill="#b5d9ec", names="#1d5c86"),
    Layer("Landmark", ("D",), "#6f9e5a", 0.9, pale="#cddcc2", fill="#d5e6c7", names="#3f6a2c"),
    Layer("Boundary", ("F",), "#8a6a9c", 1, dashes=(5, 2, 1, 2), pale="#d3c9da"),
    Layer("Other feature", ("",), "#8b7355", 0.9, dashes=(1.5, 1.5)),
    Layer("Railroad", ("B",), "#fdfcf8", 0.9, "#3a3a3a", (4, 4), "#cbc8c0"),
    Layer("Trail or alley", ("A5", "A7"), "#5f4f3a", 1, dashes=(3, 1.5)),
    Layer("Local road", ("A",), "#57524a", 1.3),
    Layer("Ramp", ("A63",), "#f3d3a2", 1.5, "#8f6a2c"),
    Layer("State or county road", ("A3",), "#f7cf5c", 2.4, "#6d4f0e"),
    Layer("US highway", ("A2",), "#e2762b", 3, "#6b3007"),
    Layer("Interstate", ("A1",), "#34528f", 3.8, "#182a52"),
)
REST = Layer("", color=PALE, width=1.4)
PLACE_OF_PREFIX = {prefix: place for place, layer in enumerate(LAYERS) for prefix in layer.prefixes}
SCORE_COLORS = ("#efc94c", "#e8893f", "#cb4b64", "#85338f", "#36206f")
AREA_CLASSES = ("H3", "H4", "H5", "H6", "D8")


class Group(NamedTuple):
    """A row of the legend: its look, and its segments."""

    layer: Layer
    segments: list[MapSegment]


@cache
def class_place(cfcc: str) -> int:
    """Returns the place of the layer with the longest prefix of the class."""
    return next(PLACE_OF_PREFIX[cfcc[:length]] for length in (3, 2, 1, 0) if cfcc[:length] in PLACE_OF_PREFIX)


def by_class(segments: Sequence[MapSegment]) -> list[Group]:
    """Sorts segments into the classes that they have."""
    return _groups(segments, LAYERS, lambda segment: class_place(segment.cfcc))


def by_score(segments: Sequence[MapSegment]) -> list[Group]:
    """Sorts segments by score. Few scores are a class each; many form classes of about equal size."""
    scores = sorted(segment.score for segment in segments)
    starts = sorted(set(scores))
    if len(starts) > SCORE_CLASSES:
        starts = sorted({scores[len(scores) * place // SCORE_CLASSES] for place in range(SCORE_CLASSES)})
    ends = [scores[bisect_left(scores, start) - 1] for start in starts[1:]] + scores[-1:]
    layers = []
    for place, (start, end) in enumerate(zip(starts, ends)):
        color = SCORE_COLORS[place * (SCORE_CLASSES - 1) // max(len(starts) - 1, 1)]
        label = f"{start:,}" if start == end else f"{start:,} to {end:,}"
        layers.append(Layer(label, color=color, width=1.4 + 0.4 * place, casing="#3a3733"))
    return _groups(segments, layers, lambda segment: bisect_right(starts, segment.score) - 1)


def _groups(segments: Sequence[MapSegment], layers: Sequence[Layer], place: Callable[[MapSegment], int]) -> list[Group]:
    """Returns the groups that have segments, from the bottom of the map to its top."""
    groups = [Group(layer, []) for layer in layers]
    for segment in segments:
        groups[place(segment)].segments.append(segment)
    return [group for group in groups if group.segments]
