"""Writes the matches of addresses: the Census Bureau's columns, or points."""

from collections import Counter
from collections.abc import Iterable, Iterator, Sequence
from typing import NamedTuple

from ..cells import write_csv
from ..gdal import DRIVERS
from ..interrupts import Interrupts
from ..output import PendingFile
from .match import Candidate, Match
from .point_output import Point, write_points

# The columns of the Census Bureau's batch geocoder.
CENSUS_COLUMNS = ("id", "address", "match", "exact", "matched_address", "coordinates", "tlid", "side")
REASON_COLUMNS = ("reason", "hint")
PLACE_COLUMNS = ("longitude", "latitude")


class Form(NamedTuple):
    """Whether the lines have a head line, reasons, and those of candidates after them, and no cell is a formula."""

    has_head: bool
    has_reasons: bool
    has_candidates: bool
    safe_cells: bool = False


class Line(NamedTuple):
    """A match or a candidate as texts. Without a place the texts from `exact` to `county` are empty."""

    id: str
    address: str
    match: str
    exact: str = ""
    matched_address: str = ""
    longitude: str = ""
    latitude: str = ""
    tlid: str = ""
    side: str = ""
    county: str = ""
    reason: str = ""
    hint: str = ""

    @property
    def point(self) -> Point:
        """The line as a point."""
        return Point(self, (float(self.longitude), float(self.latitude)) if self.longitude else None)


def write_matches(file: PendingFile, matches: Iterable[Match], form: Form, interrupts: Interrupts) -> str:
    """Writes the matches in the format of the file's suffix, and returns a summary."""
    counts: Counter[str] = Counter()
    lines = (line for match in _counted(matches, counts) for line in lines_of(match, form.has_candidates))
    if file.kind not in DRIVERS:
        rows = _census_rows(lines, form)
        write_csv(file.path, rows, interrupts, safe_cells=form.safe_cells, quotes_all=True)
        return _summary(counts)
    left_out = write_points(file, Line._fields, (line.point for line in lines), "match", interrupts)
    return _summary(counts) + (
        f"; FlatGeobuf has no features without a place, so {left_out} left out" if left_out else ""
    )


def lines_of(match: Match, has_candidates: bool) -> Iterator[Line]:
    """Yields the line of a match, and those of its candidates."""
    address = ", ".join(cell.strip() for cell in match.address[1:])
    line = Line(match.address.id, address, match.status.value, reason=" ".join(match.reasons))
    yield _with_place(line._replace(hint=match.hint or ""), match, match.is_exact)
    if has_candidates:
        for candidate in match.candidates:
            reason = " ".join(candidate.reasons)
            yield _with_place(line._replace(match="Candidate", reason=reason), candidate, not candidate.reasons)


def _with_place(line: Line, found: Match | Candidate, is_exact: bool) -> Line:
    if found.longitude is None or found.latitude is None:
        return line
    return line._replace(
        exact="Exact" if is_exact else "Non_Exact",
        matched_address=found.matched or "",
        longitude=f"{found.longitude:.6f}",
        latitude=f"{found.latitude:.6f}",
        tlid="" if found.tlid is None else str(found.tlid),
        side=found.side or "",
        county=found.county or "",
    )


def _census_rows(lines: Iterable[Line], form: Form) -> Iterator[Sequence[str]]:
    if form.has_head:
        yield (*CENSUS_COLUMNS, *(REASON_COLUMNS if form.has_reasons else ()), *PLACE_COLUMNS)
    yield from (census_row(line, form) for line in lines)


def census_row(line: Line, form: Form) -> list[str]:
    """Returns a row of the Census Bureau's batch geocoder, which has three columns if there is no match.

    With reasons or under a head line it has all columns, and under a head line also those of the place.
    """
    row = [line.id, line.address, line.match]
    if line.longitude:
        row += [line.exact, line.matched_address, f"{line.longitude},{line.latitude}", line.tlid, line.side]
    elif form.has_head or form.has_reasons:
        row += [""] * (len(CENSUS_COLUMNS) - len(row))
    if form.has_reasons:
        row += [line.reason, line.hint]
    if form.has_head:
        row += [line.longitude, line.latitude]
    return row


def _counted(matches: Iterable[Match], counts: Counter[str]) -> Iterator[Match]:
    """Yields the matches, and counts each kind."""
    for match in matches:
        counts["exact" if match.is_exact else match.status.value] += 1
        yield match


def _summary(counts: Counter[str]) -> str:
    """Returns how many addresses have each kind of match."""
    matched = counts["exact"] + counts["Match"]
    addresses = f"{counts.total():,} address{'' if counts.total() == 1 else 'es'}"
    return (
        f"{addresses}: {matched:,} matched, {counts['exact']:,} of them exactly; "
        f"{counts['Tie']:,} tied, {counts['No_Match']:,} not matched"
    )
