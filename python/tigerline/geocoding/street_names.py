"""Reads which streets each town of a county has, to find readings that are near to what is written.

Nothing here is proved. It only suggests what to ask of `extractd geocode-batch`.
"""

from collections import defaultdict
from collections.abc import Iterator
from functools import cached_property
from pathlib import Path
from typing import NamedTuple

from ..layout import LAYOUTS, PLACES
from .addresses import Reading, Reason, Stage
from .choice import Answer, compare_street
from .near_names import NearNames
from .towns import Cities, city_key
from .words import same_type

TLID = PLACES["TLID"]
STREET = slice(PLACES["FEDIRP"].start, PLACES["FEDIRS"].stop)
_RANGES = slice(PLACES["FRADDL"].start, PLACES["TOADDR"].stop)
AREAS = tuple(tuple(PLACES[name + side] for name in ("ZIP", "PLACE", "COUSUB")) for side in "LR")
# Of types 4, 5 and 6: the numbers of alternate names, a name with its number, and the ZIP Codes of a further range.
_FEATURES = tuple(LAYOUTS["4"][f"FEAT{at}"] for at in range(1, 6))
_NAME = PLACES["FENAME"]
_FEATURE, _FEATURE_NAME = LAYOUTS["5"]["FEAT"], LAYOUTS["5"]["FENAME"]
_FEATURE_STREET = slice(LAYOUTS["5"]["FEDIRP"].start, LAYOUTS["5"]["FEDIRS"].stop)
_FURTHER_ZIPS = (LAYOUTS["6"]["ZIPL"], LAYOUTS["6"]["ZIPR"])


OTHER_NAMES = b""  # the key of names that are not ASCII


def name_key(name: str) -> bytes:
    """Returns what equal names have in common: capitals, as far as they are ASCII."""
    return name.upper().encode() if name.isascii() else OTHER_NAMES


def street_names(files: dict[str, Path]) -> set[bytes]:
    """Returns the keys of the names in a county, or of more. `extractd` finds no street with any other name."""
    own = {record[_NAME] for record in records(files, "1")}
    return {name.rstrip(b" ").upper() for name in own | {record[_FEATURE_NAME] for record in records(files, "5")}}


class StreetName(NamedTuple):
    """The fields of a street's name."""

    predir: str
    name: str
    type: str
    sufdir: str


def street_name(field: bytes) -> StreetName:
    """Returns the four fields FEDIRP to FEDIRS."""
    text = field.decode("latin-1")
    return StreetName(text[:2].strip(), text[2:32].strip(), text[32:36].strip(), text[36:].strip())


class TownStreets:
    """The streets of a ZIP Code or a city, by their names in capitals."""

    def __init__(self) -> None:
        self.streets: dict[str, set[StreetName]] = defaultdict(set)

    @cached_property
    def near(self) -> NearNames:
        """The names near to others."""
        return NearNames(self.streets)

    def spellings(self, name: str) -> list[str]:
        """Returns the spellings of a name in capitals, if there are letters whose case counts."""
        return [name] if name.isascii() else sorted({street.name for street in self.streets.get(name, ())})


class Streets:
    """The streets with house numbers of a county, by ZIP Code and by the key of a city."""

    def __init__(self, files: dict[str, Path], cities: Cities) -> None:
        self._towns: dict[str, TownStreets] = defaultdict(TownStreets)
        names: dict[bytes, StreetName] = {}
        keys: dict[tuple[bytes, bytes, bytes], list[str]] = {}
        for field, areas in set(_streets_of(files)):
            name = names.setdefault(field, street_name(field))
            if areas not in keys:
                zip_code = areas[0].decode("latin-1").strip()
                keys[areas] = [key for key in (zip_code, *map(city_key, cities.of(areas[1:]))) if key]
            for key in keys[areas] if name.name else ():
                self._towns[key].streets[name.name.upper()].add(name)

    def town(self, key: str) -> TownStreets:
        """Returns a town, which may have no street."""
        return self._towns.get(key) or TownStreets()

    def further(self, readings: tuple[Reading, ...], answer: Answer) -> Iterator[Reading]:
        """Yields readings of another spelling, type or direction. Notes in the answer what there is several times."""
        for key in filter(None, (answer.wanted.zip, answer.wanted.city)):
            town = self.town(key)
            yield from _of_other_case(readings, town)
            if not any(reading.name.upper() in town.streets for reading in readings):
                for reading in readings:
                    for name in town.near.of(reading.name.upper()):
                        for spelled in town.spellings(name):
                            yield reading.changed(Reason.SPELLING, Stage.SPELLING)._replace(name=spelled)
                    answer.hint = answer.hint or town.near.hint(reading.name.upper())
        # What is in another town exactly as it is written has a wrong ZIP Code rather than a wrong type.
        town = self.town(answer.wanted.zip)
        for reading in (*readings, *_of_other_case(readings, town)) if not answer.refused else ():
            streets = town.streets.get(reading.name.upper(), set())
            if answer.wanted.zip and streets:
                yield from _of_other_parts(reading, sorted(streets), answer)


def _of_other_case(readings: tuple[Reading, ...], town: TownStreets) -> Iterator[Reading]:
    """Yields the readings with a letter beyond ASCII as the town spells them. The program tells the case of these letters apart."""
    for reading in readings:
        if not reading.name.isascii():
            yield from (reading._replace(name=name) for name in town.spellings(reading.name.upper()))


def _of_other_parts(reading: Reading, streets: list[StreetName], answer: Answer) -> Iterator[Reading]:
    """Yields the reading with the type or the direction of the streets that have its name, if there is only one."""
    if any(_fits(reading, street) for street in streets):
        return
    types = {street.type.upper(): reading._replace(type=street.type) for street in streets if street.type}
    types = {type_: other for type_, other in types.items() if any(_fits(other, street) for street in streets)}
    if reading.type and len(types) == 1:
        yield from (other.changed(Reason.TYPE, Stage.OTHER_PART) for other in types.values())
    elif reading.type and types:
        answer.excuse = Reason.OTHER_TYPE
    sides = {(street.predir, street.sufdir) for street in streets if same_type(reading.type, street.type)}
    if len(sides) == 1:
        predir, sufdir = sides.pop()
        yield reading._replace(predir=predir, sufdir=sufdir).changed(Reason.DIRECTION, Stage.OTHER_PART)
    elif sides:
        answer.excuse = Reason.OTHER_DIRECTION


def _fits(reading: Reading, street: StreetName) -> bool:
    return compare_street(reading, street.predir, street.type, street.sufdir) is not None


def _streets_of(files: dict[str, Path]) -> Iterator[tuple[bytes, tuple[bytes, bytes, bytes]]]:
    """Yields the name of each segment with house numbers, with the ZIP Code, the place and the subdivision of a side."""
    others = other_names(files)
    further = _further_zips(files)
    for record in records(files, "1"):
        tlid = record[TLID]
        if not record[_RANGES].strip() and tlid not in further:
            continue
        for side, (zip_code, place, subdivision) in enumerate(AREAS):
            for one in {record[zip_code], *(both[side] for both in further.get(tlid, ()))}:
                areas = one, record[place], record[subdivision]
                yield record[STREET], areas
                for name in others.get(tlid, ()):
                    yield name, areas


def records(files: dict[str, Path], record_type: str) -> Iterator[bytes]:
    """Yields the lines of a file, or nothing if the county lacks it."""
    if record_type in files:
        with open(files[record_type], "rb") as lines:
            yield from lines


def other_names(files: dict[str, Path]) -> dict[bytes, list[bytes]]:
    """Returns the alternate names of segments, by TLID: the fields FEDIRP to FEDIRS."""
    features = {record[_FEATURE]: record[_FEATURE_STREET] for record in records(files, "5")}
    found: dict[bytes, list[bytes]] = defaultdict(list)
    for record in records(files, "4"):
        numbers = [record[place] for place in _FEATURES]
        found[record[TLID]] += [features[number] for number in numbers if number in features]
    return found


def _further_zips(files: dict[str, Path]) -> dict[bytes, list[tuple[bytes, bytes]]]:
    found: dict[bytes, list[tuple[bytes, bytes]]] = defaultdict(list)
    for record in records(files, "6"):
        left, right = _FURTHER_ZIPS
        found[record[TLID]].append((record[left], record[right]))
    return found
