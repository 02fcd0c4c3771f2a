"""Finds crossings such as `Main St & Broad St`: where segments of both streets share an end. Nothing here is proved.

The files are read here, as `geocode-batch` doesn't write the ends of segments.
"""

from collections import defaultdict
from collections.abc import Iterable, Sequence
from pathlib import Path
from typing import NamedTuple

from ..layout import PLACES, coordinate
from .addresses import Crossing, Reading, Reason
from .choice import Answer, Found, Hit, compare_street
from .street_names import AREAS, STREET, TLID, StreetName, other_names, records, street_name
from .towns import Cities

_CFCC = PLACES["CFCC"].start
_ROAD = ord("A")
_ENDS = tuple((PLACES[f"{end}LONG"], PLACES[f"{end}LAT"]) for end in ("FR", "TO"))

Place = tuple[str, str]


class End(NamedTuple):
    """An end of a segment: a name of it, its TLID, and the ZIP Codes and cities on both sides."""

    name: StreetName
    tlid: str
    zips: tuple[str, ...]
    cities: tuple[str, ...]


class Meeting(NamedTuple):
    """An end of a street, what its reading lacks, and how much."""

    end: End
    lacks: tuple[Reason, ...]
    missing: int


Ends = dict[str, list[tuple[Place, End]]]


def read_ends(files: dict[str, Path], cities: Cities, names: set[str]) -> Ends:
    """Returns the ends of the roads that have one of these names in capitals, by name."""
    found: Ends = defaultdict(list)
    others = other_names(files)
    known: dict[bytes, StreetName | None] = {}
    for record in records(files, "1"):
        if record[_CFCC] != _ROAD:
            continue
        for field in (record[STREET], *others.get(record[TLID], ())):
            if field not in known:
                name = street_name(field)
                known[field] = name if name.name.upper() in names else None
            if wanted := known[field]:
                end = _end_of(record, wanted, cities)
                found[wanted.name.upper()] += [(place, end) for place in _places_of(record)]
    return found


def _end_of(record: bytes, name: StreetName, cities: Cities) -> End:
    zips = tuple(code for areas in AREAS if (code := record[areas[0]].decode("latin-1").strip()))
    names = [city for _, place, subdivision in AREAS for city in cities.of((record[place], record[subdivision]))]
    return End(name, record[TLID].decode("latin-1").strip(), zips, tuple(dict.fromkeys(names)))


def _places_of(record: bytes) -> list[Place]:
    """Returns the longitude and the latitude of both ends, without those that are blank."""
    numbers = [[coordinate(record[field].decode("latin-1")) for field in end] for end in _ENDS]
    return [(f"{end[0]:.6f}", f"{end[1]:.6f}") for end in numbers if end[0] is not None and end[1] is not None]


def add_crossings(asked: Sequence[tuple[Crossing, Answer]], ends: Ends, county: str, county_order: int) -> None:
    """Adds the places where both streets of a crossing have an end."""
    for crossing, answer in asked:
        first, second = (_meetings(readings, ends) for readings in crossing.streets)
        if first and second and not answer.excuse:
            answer.excuse = Reason.INTERSECTION
        for place in [place for place in first if place in second]:
            one, other = first[place], second[place]
            lacks = tuple(dict.fromkeys((Reason.INTERSECTION, *one.lacks, *other.lacks)))
            hit = _hit(place, one.end, other.end, answer, county)
            answer.include(Found((county_order, 0), hit, lacks), 0, one.missing + other.missing)


def _meetings(readings: Iterable[Reading], ends: Ends) -> dict[Place, Meeting]:
    """Returns the ends of a street by their places. Of several readings, the one that lacks least counts."""
    found: dict[Place, Meeting] = {}
    for reading in readings:
        for place, end in ends.get(reading.name.upper(), ()):
            difference = compare_street(reading, end.name.predir, end.name.type, end.name.sufdir)
            if difference is not None:
                lacks, unconfirmed = difference
                missing = 1 + unconfirmed if lacks else 0
                if place not in found or missing < found[place].missing:
                    found[place] = Meeting(end, lacks, missing)
    return found


def _hit(place: Place, one: End, other: End, answer: Answer, county: str) -> Hit:
    """Returns a crossing as a hit. Any ZIP Code and any city around it may be that of the address."""
    zips = dict.fromkeys((*one.zips, *other.zips))
    zip_code = answer.wanted.zip if answer.wanted.zip in zips else next(iter(zips), "")
    streets = " & ".join(" ".join(filter(None, end.name)) for end in (one, other))
    cities = tuple(dict.fromkeys((*one.cities, *other.cities)))
    return Hit(*place, one.tlid, "", "", streets, "", "", zip_code, county, "", "", cities)
