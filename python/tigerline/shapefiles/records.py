"""Writes the lines of record types 1, 2, 4, 5, 6 and C."""

import struct
from collections.abc import Iterator, Mapping, Sequence
from contextlib import ExitStack, contextmanager
from functools import lru_cache
from itertools import zip_longest
from pathlib import Path
from typing import BinaryIO, NamedTuple, TypeVar

from ..layout import LAYOUTS, PLACES
from .losses import Loss, Losses
from .names import Name

VERSION = "0006"
LINE_END = b"\r\n"
MOST_LINES = 1000  # of a TLID in a file of type 2, 4 or 6, as extractd has it
POINTS = 10  # of points in a line of type 2
FEATURES = 5  # of names in a line of type 4
HOUSE_NUMBER_LENGTH = PLACES["FRADDL"].stop - PLACES["FRADDL"].start
AREA_FIELDS = ("STATE", "COUNTY", "COUSUB", "PLACE", "TRACT", "BLOCK")
# Numbers and house numbers end at the end of their fields; all other texts begin at its beginning.
_RIGHT = ("TLID", "RTSQ", "FEAT", "FRADD", "TOADD")
_POINT = "%+010d%+09d"  # a longitude and a latitude in millionths of a degree
_SRID, _LINE_STRING = 0x20000000, 2

Area = tuple[str, ...]
Item = TypeVar("Item")
NO_AREA: Area = ("",) * len(AREA_FIELDS)


class Range(NamedTuple):
    """A range of house numbers of a side, its ZIP Code, and whether its ends are imputed: 0 or 1."""

    first: str
    last: str
    zip: str
    flags: str = "00"

    def fits(self) -> bool:
        """Returns whether the fields of house numbers hold it."""
        first, last = self[:2]
        return len(first) <= HOUSE_NUMBER_LENGTH >= len(last) and (first + last).isascii()


NO_RANGE = Range("", "", "", "  ")


class Segment(NamedTuple):
    """A segment: its names, the primary one first, its line in millionths of a degree, and its ranges, areas and ZIP Codes by side."""

    tlid: int
    names: list[Name]
    points: tuple[int, ...]
    ranges: tuple[list[Range], list[Range]]
    areas: tuple[Area | None, Area | None]
    zips: tuple[str, str]
    cfcc: str


class Form:
    """The lines of a record type: the fields that are filled in, in the order of a line. `FEDIRP-FEDIRS` is several in one text."""

    def __init__(self, record_type: str, fields: str, **constants: str) -> None:
        self._record_type, places = record_type, LAYOUTS[record_type]
        self._length = max(place.stop for place in places.values())
        filled = {name: _span(places, name) for name in fields.split()}
        self._widths = {name: _width(place) for name, place in filled.items()}
        text, at = "", 0
        for name, place in sorted(((filled | {name: places[name] for name in constants}).items()), key=_start):
            text += " " * (place.start - at)
            form = f"%{'' if name.startswith(_RIGHT) else '-'}{_width(place)}s"
            text += constants.get(name, form)
            at = place.stop
        self._template = text + " " * (self._length - at)

    def line(self, values: tuple[object, ...]) -> bytes:
        """Returns the line with these values. Raises OSError for one that its field can't hold."""
        text: str = self._template % values
        if len(text) != self._length or not text.isascii():
            self._check(values)
        return text.encode("latin-1") + LINE_END

    def _check(self, values: Sequence[object]) -> None:
        for (name, width), value in zip(self._widths.items(), values, strict=True):
            if len(str(value)) > width or any(letter > "\u00ff" for letter in str(value)):
                what = f"{name} of record type {self._record_type}"
                raise OSError(f"{what} has {width} bytes in Latin-1, and can't be {value!r}")


def _span(places: Mapping[str, slice], name: str) -> slice:
    first, _, last = name.partition("-")
    return slice(places[first].start, places[last or first].stop)


def _start(field: tuple[str, slice]) -> int:
    return int(field[1].start)


def points_of(wkb: str) -> tuple[int, ...]:
    """Returns the longitudes and latitudes of a line in millionths of a degree, or nothing for another geometry."""
    data = bytes.fromhex(wkb)
    kind = int.from_bytes(data[1:5], "little")
    if kind & ~_SRID != _LINE_STRING:
        return ()
    start = 9 if kind & _SRID else 5
    count = int.from_bytes(data[start : start + 4], "little")
    return tuple([round(degrees * 1e6) for degrees in struct.unpack_from(f"<{2 * count}d", data, start + 4)])


class CountyFiles:
    """The files of a county that are being written."""

    def __init__(self, code: str, files: dict[str, BinaryIO], losses: Losses) -> None:
        self._files, self._losses = files, losses
        self._features: dict[Name, int] = {}
        self.segments = self.ranges = 0
        fields = {
            "1": "TLID SIDE1 FEDIRP FENAME FETYPE FEDIRS CFCC FRADDL TOADDL FRADDR TOADDR FRIADDL-TOIADDL FRIADDR-TOIADDR "
            "ZIPL ZIPR STATEL-COUSUBR PLACEL-BLOCKR FRLONG-FRLAT TOLONG-TOLAT",
            "2": "TLID RTSQ LONG1-LAT10",
            "4": "TLID RTSQ FEAT1 FEAT2 FEAT3 FEAT4 FEAT5",
            "5": "FEAT FEDIRP FENAME FETYPE FEDIRS",
            "6": "TLID RTSQ FRADDL TOADDL FRADDR TOADDR FRIADDL-TOIADDL FRIADDR-TOIADDR ZIPL ZIPR",
            "C": "DATAYR FIPS ENTITY NAME",
        }
        of_type = {"1": {"SOURCE": "A"}, "5": {"FILE": code}, "C": {"FILE": code}}
        self._forms = {
            one: Form(one, text, RT=one, VERSION=VERSION, **of_type.get(one, {})) for one, text in fields.items()
        }

    def _write(self, record_type: str, *values: object) -> None:
        self._files[record_type].write(self._forms[record_type].line(values))

    def add(self, segment: Segment) -> None:
        """Writes the lines of a segment."""
        tlid, names, points, (lefts, rights), (left_area, right_area), zips, cfcc = segment
        left, right = lefts[0] if lefts else NO_RANGE, rights[0] if rights else NO_RANGE
        numbers = left.first, left.last, right.first, right.last, left.flags, right.flags
        single = "1" if (left_area is None) != (right_area is None) else ""
        areas, ends = area_codes(left_area, right_area), (_POINT % points[:2], _POINT % points[-2:])
        self._write(
            "1", tlid, single, *names[0], cfcc, *numbers, zips[0] or left.zip, zips[1] or right.zip, *areas, *ends
        )
        self.segments += 1
        self.ranges += min(len(lefts), MOST_LINES + 1) + min(len(rights), MOST_LINES + 1)
        if len(points) > 4:
            self._add_points(tlid, points[2:-2])
        if len(names) > 1:
            self._add_names(tlid, names[1:])
        if len(lefts) > 1 or len(rights) > 1:
            self._add_ranges(tlid, lefts[1:], rights[1:])

    def _add_points(self, tlid: int, points: tuple[int, ...]) -> None:
        if len(points) > 2 * MOST_LINES * POINTS:
            self._losses.add(Loss.POINTS, tlid)
            points = _thinned(points)
        for number, part in _lines(points, 2 * POINTS):
            padded = (*part, *[0] * (2 * POINTS - len(part)))
            self._write("2", tlid, number, _POINT * POINTS % padded)

    def _add_names(self, tlid: int, names: Sequence[Name]) -> None:
        if (lost := len(names) - MOST_LINES * FEATURES) > 0:
            self._losses.add(Loss.NAMES, tlid, lost)
        numbers = [self._feature(name) for name in names[: MOST_LINES * FEATURES]]
        for number, part in _lines(numbers, FEATURES):
            self._write("4", tlid, number, *part, *[""] * (FEATURES - len(part)))

    def _feature(self, name: Name) -> int:
        """Returns the number of a name, and writes one that has none yet."""
        if name not in self._features:
            self._features[name] = len(self._features) + 1
            self._write("5", self._features[name], *name)
        return self._features[name]

    def _add_ranges(self, tlid: int, left: Sequence[Range], right: Sequence[Range]) -> None:
        for side in (left, right):
            if (lost := len(side) - MOST_LINES) > 0:
                self._losses.add(Loss.RANGES, tlid, lost)
        pairs = [*zip_longest(left[:MOST_LINES], right[:MOST_LINES], fillvalue=NO_RANGE)]
        for number, ((one, other),) in _lines(pairs, 1):
            numbers = one.first, one.last, other.first, other.last
            self._write("6", tlid, number, *numbers, one.flags, other.flags, one.zip, other.zip)

    def add_place(self, year: str, fips: str, entity: str, name: str) -> None:
        """Writes the name of an area."""
        self._write("C", year, fips, entity, name)


def _lines(items: Sequence[Item], size: int) -> Iterator[tuple[int, Sequence[Item]]]:
    """Yields the numbers and the parts of lines. They are counted from 1, or from 0 if there are a thousand: RTSQ has three digits."""
    starts = range(0, len(items), size)
    first = 1 if len(starts) < MOST_LINES else 0
    yield from ((number, items[start : start + size]) for number, start in enumerate(starts, first))


def _thinned(points: tuple[int, ...]) -> tuple[int, ...]:
    """Returns some of the points, evenly, as many as a shape may have."""
    pairs = list(zip(points[::2], points[1::2]))
    step = -(-len(pairs) // (MOST_LINES * POINTS))
    return tuple(number for pair in pairs[::step] for number in pair)


@lru_cache(maxsize=10_000)
def area_codes(left: Area | None, right: Area | None) -> tuple[str, str]:
    """Returns the codes of both sides as record type 1 has them, before and after the fields without names."""
    pairs = [*zip(AREA_FIELDS, left or NO_AREA, right or NO_AREA)]
    texts = [code.ljust(_width(PLACES[f"{name}L"])) for name, *sides in pairs for code in sides]
    return "".join(texts[:6]), "".join(texts[6:])


def _width(place: slice) -> int:
    return int(place.stop - place.start)


@contextmanager
def opened_files(first: Path, code: str, losses: Losses) -> Iterator[CountyFiles]:
    """Opens the files of a county next to that of type 1."""
    with ExitStack() as files:
        suffixes = {record_type: f".RT{record_type}" for record_type in LAYOUTS if record_type != "1"}
        paths = {"1": first} | {record_type: first.with_suffix(suffix) for record_type, suffix in suffixes.items()}
        yield CountyFiles(code, {one: files.enter_context(open(path, "wb")) for one, path in paths.items()}, losses)
