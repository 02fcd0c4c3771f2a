"""Joins the shapefiles of a county. Edges, names and ranges are read side by side in the order of TLID, and not kept.

ogr2ogr sorts them, which also shows a repeated TLID, and writes text for COPY: reading WKT takes five times as long.
"""

from collections.abc import Iterable, Iterator
from contextlib import ExitStack, contextmanager
from dataclasses import dataclass
from functools import cached_property
from itertools import groupby
from operator import itemgetter
from pathlib import Path
from typing import Generic

from ..interrupts import Interrupts
from .files import Source, opened_rows
from .losses import Loss, Losses, unknown_class
from .names import Names
from .records import AREA_FIELDS, Area, Range, Segment, points_of
from .rules import (
    CLASSES,
    AddressRange,
    AnyOwned,
    AnyRow,
    CountyName,
    Edge,
    Face,
    FeatureName,
    Kind,
    PlaceName,
    SubdivisionName,
    class_of,
)

LARGEST_TLID = 9_999_999_999
FARTHEST_EAST, FARTHEST_NORTH = 180_000_000, 90_000_000
BY_TLID = "TLID, FID"
# Whether the ends of a range are imputed, by FROMTYP and TOTYP.
FLAGS = {("I", "I"): "11", ("I", ""): "10", ("", "I"): "01"}
COUNTY_FIPS = "99"  # before the number of a county, among the codes of places


class Owned(Generic[AnyOwned]):
    """The rows of a table in the order of TLID, which are taken a segment at a time."""

    def __init__(self, rows: Iterator[AnyOwned], place: str, losses: Losses) -> None:
        self._groups: Iterator[tuple[str, Iterable[AnyOwned]]] = groupby(rows, itemgetter(0))
        self._place, self._losses = place, losses
        self._rows: list[AnyOwned] = []
        self._tlid = self._taken = self._skipped = 0
        self._advance()

    def _advance(self) -> None:
        """Goes on to the next TLID."""
        text, rows = next(self._groups, ("", ()))
        self._rows = list(rows)
        self._tlid = tlid_of(text, self._place, self._tlid) if self._rows else LARGEST_TLID + 1

    def take(self, tlid: int) -> list[AnyOwned]:
        """Returns the rows of a segment. Those of lesser TLIDs that weren't taken have no segment."""
        while self._tlid < tlid:
            self._skipped += len(self._rows)
            self._losses.add(Loss.NO_SEGMENT, self._tlid, len(self._rows))
            self._advance()
        if self._tlid > tlid:
            return []
        found = self._rows
        self._taken += len(found)
        self._advance()
        return found

    def end(self) -> None:
        """Counts what is left over. Raises OSError if no row has a segment: then the file is of another county."""
        self.take(LARGEST_TLID + 1)
        if self._skipped and not self._taken:
            raise OSError(f"{self._place} is of another county: none of its TLIDs is in edges")


def tlid_of(text: str, place: str, before: int) -> int:
    """Returns a TLID that comes after another one. Raises OSError for what the field TLID can't hold."""
    tlid = int(text) if text.isdecimal() else 0
    if before <= tlid <= LARGEST_TLID and tlid:
        return tlid
    if 0 < tlid < before:
        raise OSError(f"{place}: the column TLID isn't numeric")
    raise OSError(f"{place}: {text!r} isn't a TLID, which is a number of up to 10 digits")


@contextmanager
def opened_county(source: Source, scratch: Path, losses: Losses, interrupts: Interrupts) -> Iterator["County"]:
    """Yields a county, and ends what reads its shapefiles."""
    with ExitStack() as cleanup:
        yield County(source, scratch, losses, interrupts, cleanup)


@dataclass(frozen=True)
class County:
    """The shapefiles of a county, joined."""

    source: Source
    scratch: Path
    losses: Losses
    interrupts: Interrupts
    cleanup: ExitStack

    @cached_property
    def names(self) -> Names:
        """The names that segments have, as far as they are read."""
        return Names(self.losses)

    @cached_property
    def areas(self) -> dict[str, Area]:
        """The areas of the county by their TFID."""
        place, known, found = self._place(Kind.FACES), dict[Area, Area](), {}
        for face in self._rows(Kind.FACES, Face):
            self._check(face, "TFID", face.TFID, place)
            area: Area = face[1:]
            found[face.TFID] = known.setdefault(area, area)
        return found

    def _place(self, kind: Kind) -> str:
        return str(self.source.files[kind].place) if kind in self.source.files else ""

    def _rows(self, kind: Kind, row: type[AnyRow], order: str = "") -> Iterator[AnyRow]:
        """Returns the rows of a kind of file in some order, or nothing if it isn't there."""
        if kind not in self.source.files:
            return iter(())
        rows = opened_rows(self.source.files[kind], row, self.scratch, self.interrupts, order)
        return self.cleanup.enter_context(rows)

    def _check(self, row: Edge | Face, column: str, number: str, place: str) -> None:
        if row.STATEFP + row.COUNTYFP != self.source.code:
            raise OSError(
                f"{place}: {column} {number} is of county {row.STATEFP}{row.COUNTYFP}, not of {self.source.code}"
            )

    def places(self) -> Iterator[tuple[str, str, str]]:
        """Yields the codes, kinds and names of the county, and of its places and county subdivisions."""
        state, county = self.source.code[:2], self.source.code[2:]
        codes = {name: {area[at] for area in self.areas.values()} for at, name in enumerate(AREA_FIELDS)}
        for own in self._rows(Kind.COUNTY, CountyName):
            if own.STATEFP + own.COUNTYFP == self.source.code:
                yield COUNTY_FIPS + county, "C", own.NAME
        for place in self._rows(Kind.PLACE, PlaceName):
            if place.STATEFP == state and place.PLACEFP in codes["PLACE"]:
                yield place.PLACEFP, "P", place.NAME
        for cousub in self._rows(Kind.COUSUB, SubdivisionName):
            if cousub.STATEFP + cousub.COUNTYFP == self.source.code and cousub.COUSUBFP in codes["COUSUB"]:
                yield cousub.COUSUBFP, "M", cousub.NAME

    def segments(self) -> Iterator[Segment]:
        """Yields the segments in the order of TLID."""
        # All of them are sorted while the areas are read.
        edges, names_found = self._rows(Kind.EDGES, Edge, BY_TLID), self._rows(Kind.FEATNAMES, FeatureName, BY_TLID)
        ranges_found = self._rows(Kind.ADDR, AddressRange, BY_TLID)
        areas, place, tlid = self.areas, self._place(Kind.EDGES), 0
        featnames = Owned(names_found, self._place(Kind.FEATNAMES), self.losses)
        addr = Owned(ranges_found, self._place(Kind.ADDR), self.losses)
        for edge in edges:
            before, tlid = tlid, tlid_of(edge.TLID, place, tlid)
            if tlid == before:
                raise OSError(f"{place}: TLID {tlid} is there twice")
            self._check(edge, "TLID", edge.TLID, place)
            names = self.names.of(featnames.take(tlid), edge.FULLNAME, tlid)
            if edge.MTFCC not in CLASSES:
                self.losses.add(unknown_class(edge.MTFCC), tlid)
            yield Segment(
                tlid,
                names,
                line_of(edge.GEOMETRY, tlid, place),
                ranges_of(edge, addr.take(tlid), tlid, self.losses),
                (areas.get(edge.TFIDL), areas.get(edge.TFIDR)),
                (edge.ZIPL, edge.ZIPR),
                class_of(edge.MTFCC, names[0].name),
            )
        if not tlid:
            raise OSError(f"{place}: it has no line")
        featnames.end()
        addr.end()


def line_of(wkb: str, tlid: int, place: str) -> tuple[int, ...]:
    """Returns the line of a segment in millionths of a degree. Raises OSError for one that a segment can't have."""
    points = points_of(wkb) if wkb else ()
    if len(points) < 4:
        raise OSError(f"{place}: TLID {tlid} isn't a line of at least two points")
    north = points[1::2]
    if not (max(points) <= FARTHEST_EAST >= -min(points) and max(north) <= FARTHEST_NORTH >= -min(north)):
        raise OSError(f"{place}: TLID {tlid} has coordinates that aren't degrees")
    if 0 in points and (0, 0) in [*zip(points[2:-2:2], points[3:-2:2])]:
        raise OSError(f"{place}: TLID {tlid} has a point at 0, 0, which ends a shape in record type 2")
    return points


def ranges_of(edge: Edge, rows: list[AddressRange], tlid: int, losses: Losses) -> tuple[list[Range], list[Range]]:
    """Returns the ranges of both sides: those of addr, or else the one that edges has."""
    sides: tuple[list[Range], list[Range]] = [], []
    for _, first, last, side, zip_code, first_kind, last_kind in rows:
        if side not in ("L", "R"):
            losses.add(Loss.NO_SIDE, tlid)
        elif first or last:
            flags = FLAGS.get((first_kind, last_kind), "00")
            sides[side == "R"].append(Range(first, last, zip_code, flags))
    left, right = sides
    if not left and (edge.LFROMADD or edge.LTOADD):
        left.append(Range(edge.LFROMADD, edge.LTOADD, edge.ZIPL))
    if not right and (edge.RFROMADD or edge.RTOADD):
        right.append(Range(edge.RFROMADD, edge.RTOADD, edge.ZIPR))
    return _fitting(left, tlid, losses), _fitting(right, tlid, losses)


def _fitting(ranges: list[Range], tlid: int, losses: Losses) -> list[Range]:
    """Returns the ranges whose house numbers fit."""
    if all(map(Range.fits, ranges)):
        return ranges
    fitting = [one for one in ranges if one.fits()]
    losses.add(Loss.HOUSE_NUMBER, tlid, len(ranges) - len(fitting))
    return fitting
