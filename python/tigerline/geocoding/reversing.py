"""Finds the streets next to points.

`extractd` selects the streets. Which one is nearest, its side and the house number there aren't proved. A street needs
a name but no house numbers, as the nearest one with numbers may be across a highway.
"""

from collections.abc import Iterable, Iterator, Sequence
from dataclasses import dataclass
from itertools import islice

from ..extract import active_interrupts
from ..interrupts import Interrupts
from ..optional import required
from ..program import PathLike, find_program
from ..progress import with_progress
from ..sources import counties_in
from .nearest import Beside, StreetIndex, house_number, meters_per_degree
from .point_input import Place, checked
from .streets import Street, read_streets
from .towns import state_of_county

DISTANCE = 100.0  # meters
# The number of points that are in memory. The counties are loaded again for each such part.
POINTS_AT_ONCE = 100_000


@dataclass(frozen=True, slots=True)
class Nearest:
    """The street that is nearest to a point, and the house number there.

    `street` has the data's spelling, and `number` is None if that side has no house numbers. `city` is empty if it isn't
    known. `distance` is in meters.
    """

    street: str
    number: int | None
    city: str
    state: str
    zip: str
    county: str
    tlid: int
    side: str
    distance: float

    @property
    def address(self) -> str:
        """The address in capitals, as `Match.matched` has it."""
        street = self.street if self.number is None else f"{self.number} {self.street}"
        return ", ".join((street, self.city, self.state, self.zip)).upper()


def reverse(
    points: Iterable[Place],
    data: PathLike,
    counties: str | Iterable[str] | None = None,
    *,
    distance: float = DISTANCE,
    extractd: PathLike | None = None,
) -> Iterator[Nearest | None]:
    """Yields the nearest street for each point, in order, or None if none with a name is within the distance.

    A point is its longitude and its latitude in degrees (NAD 83), and the distance is in meters. `data`, `counties` and
    `extractd` are those of `select`. Many points are looked up at once, so the first street comes late. Needs shapely.
    """
    required("shapely")
    check_distance(distance)
    return streets_of(map(checked, points), data, counties, distance, extractd, None)


def check_distance(distance: float) -> None:
    if not 0 < distance <= 100_000:
        raise ValueError(f"a distance is between 0 and 100,000 meters, and {distance} isn't")


def streets_of(
    points: Iterable[Place],
    data: PathLike,
    counties: str | Iterable[str] | None,
    distance: float,
    extractd: PathLike | None,
    interrupts: Interrupts | None,
    progress: bool = False,
) -> Iterator[Nearest | None]:
    """Yields the streets. Without `interrupts`, delays signals separately for each part of the points."""
    with active_interrupts(interrupts) as held:
        program = find_program(extractd, held)
        chosen = counties_in(data, counties)
    remaining = iter(points)
    while part := list(islice(remaining, POINTS_AT_ONCE)):
        best: list[Beside | None] = [None] * len(part)
        for county in with_progress(chosen, len(chosen), "county", progress):
            with active_interrupts(interrupts) as held:
                _find(part, best, read_streets(program, county, held), distance, held)
        yield from map(_nearest, best)


def _find(
    points: Sequence[Place], best: list[Beside | None], streets: list[Street], distance: float, interrupts: Interrupts
) -> None:
    """Replaces the streets of points by nearer ones of a county."""
    chosen = _points_near(points, streets, distance)
    if not chosen:
        return
    index = StreetIndex(streets)
    for at in chosen:
        interrupts.check()
        found, before = index.nearest(points[at], distance), best[at]
        if found is not None and (before is None or found.order < before.order):
            best[at] = found


def _points_near(points: Sequence[Place], streets: Sequence[Street], distance: float) -> list[int]:
    """Returns the places of the points that are within the distance of the box around all streets."""
    ends = [place for street in streets for place in street.line]
    if not ends:
        return []
    west, east = min(x for x, _ in ends), max(x for x, _ in ends)
    south, north = min(y for _, y in ends), max(y for _, y in ends)
    widths = [meters_per_degree(latitude) for latitude in (south, north)]
    x, y = distance / min(width for width, _ in widths), distance / min(height for _, height in widths)
    return [
        at
        for at, (longitude, latitude) in enumerate(points)
        if west - x <= longitude <= east + x and south - y <= latitude <= north + y
    ]


def _nearest(beside: Beside | None) -> Nearest | None:
    if beside is None:
        return None
    street = beside.street
    side = street.left if beside.is_left else street.right
    number, zip_code = house_number(side.ranges, beside.share)
    town = side.city, state_of_county(street.county), zip_code, street.county
    return Nearest(street.name, number, *town, street.tlid, "L" if beside.is_left else "R", beside.distance)
