"""The segments of a map, and the view that places them on paper."""

import math
from collections.abc import Sequence
from dataclasses import dataclass
from typing import NamedTuple

Position = tuple[float, float]

# Lengths on paper are in points, 1/72 inch.
WIDTH, SMALLEST_HEIGHT, LARGEST_HEIGHT = 400, 180, 450
AROUND = 0.08  # how far the map extends around the segments, as a part of their larger extent
SMALLEST_EXTENT = 0.002  # degrees, so that a short segment isn't magnified too much
KILOMETERS_PER_DEGREE = 111.195  # of latitude, on a sphere of 6,371 km


class MapSegment(NamedTuple):
    """A segment to draw: class, full name, score, and its points as longitude and latitude in degrees."""

    cfcc: str
    name: str
    score: int
    points: tuple[Position, ...]


@dataclass(frozen=True)
class View:
    """Places degrees on paper, with the origin at the lower left.

    A degree of longitude is as wide as it is at the middle latitude, which suits a county or a state.
    """

    middle: Position
    height: int
    across: float  # points per degree of longitude
    up: float  # points per degree of latitude

    def line(self, points: Sequence[Position]) -> tuple[Position, ...]:
        """Returns where a line is, to a hundredth of a point. It may cross the 180th meridian."""
        return tuple(
            (
                round(WIDTH / 2 + ((longitude - self.middle[0] + 180) % 360 - 180) * self.across, 2),
                round(self.height / 2 + (latitude - self.middle[1]) * self.up, 2),
            )
            for longitude, latitude in points
        )

    def shows(self, points: Sequence[Position]) -> bool:
        """Returns whether the box around a line touches the view."""
        xs, ys = zip(*self.line(points))
        return bool(min(xs) <= WIDTH and max(xs) >= 0 and min(ys) <= self.height and max(ys) >= 0)

    @property
    def points_per_kilometer(self) -> float:
        """The scale."""
        return self.up / KILOMETERS_PER_DEGREE


def view_of(segments: Sequence[MapSegment]) -> View:
    """Returns the view of segments and of a margin around them, on the side of the Earth where they are closest."""
    positions = [position for segment in segments for position in segment.points] or [(0.0, 0.0)]
    south, north = min(y for _, y in positions), max(y for _, y in positions)
    sides = [[x for x, _ in positions], [x % 360 for x, _ in positions]]
    west, east = min(((min(xs), max(xs)) for xs in sides), key=lambda ends: ends[1] - ends[0])
    middle = (west + east) / 2, (south + north) / 2
    aspect = max(math.cos(math.radians(middle[1])), 0.01)
    wide, high = (east - west) * aspect, north - south
    margin = 2 * AROUND * max(wide, high, SMALLEST_EXTENT)
    up = min(WIDTH / (wide + margin), LARGEST_HEIGHT / (high + margin))
    return View(middle, max(round((high + margin) * up), SMALLEST_HEIGHT), up * aspect, up)
