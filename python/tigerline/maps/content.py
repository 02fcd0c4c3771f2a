"""The segments of a map: the selected ones, and those around them.

Those around them are all segments without the selection's lines, so `extractd` alone reads records.
"""

import warnings
from collections.abc import Iterable, Iterator

from ..interrupts import Interrupts
from ..tuples import read_lines, score_of
from .drawing import Drawing
from .layers import by_class, by_score
from .view import MapSegment, View, view_of

MOST_SEGMENTS = 500_000  # about a small state; drawing more takes long, and so does opening the map
# The columns of what is drawn. The TLID tells segments apart.
DRAWN = ("TLID", "FEDIRP", "FENAME", "FETYPE", "FEDIRS", "CFCC")


def map_segments(table: bytes, signed: bool = False) -> Iterator[MapSegment]:
    """Yields the segments of a table of these columns. A segment without coordinates has no points."""
    for score, (_, *name, cfcc), line in read_lines(table, DRAWN):
        yield MapSegment(cfcc, " ".join(part for part in name if part), score_of(score, signed), line or ())


def without(table: bytes, other: bytes) -> bytes:
    """Returns a table without the segments of another one. Their scores don't matter."""
    known = {line.partition(b",")[2] for line in other.split(b"\n")[1:]}
    header, *lines = table.split(b"\n")
    rest = [line for line in lines if line.partition(b",")[2] not in known]
    return b"".join(line + b"\n" for line in (header, *filter(None, rest)))


def shown(segments: Iterable[MapSegment], view: View, interrupts: Interrupts) -> Iterator[MapSegment]:
    """Yields the segments in a view."""
    for segment in segments:
        interrupts.check()
        if segment.points and view.shows(segment.points):
            yield segment


class MapContent:
    """Collects the segments that a map shows: the selected ones, and the others of counties with selected ones."""

    def __init__(self, signed: bool = False) -> None:
        self.selected: list[MapSegment] = []
        self._signed = signed
        self._others: list[bytes] = []
        self._count = 0

    def add_county(self, selected: bytes = b"", everything: bytes = b"") -> None:
        """Adds the segments of a county: its selected ones, and the others, from tables that may be empty.

        If there are too many others in total, none is kept.
        """
        if selected:
            self.selected += map_segments(selected, self._signed)
        if everything:
            rest = without(everything, selected)
            self._count += rest.count(b"\n") - 1
            self._others = [*self._others, rest] if self._count <= MOST_SEGMENTS else []

    def drawing(self, caption: str, score: str | None, interrupts: Interrupts) -> Drawing:
        """Returns the map of the selection, or of everything if nothing is selected. Colors stand for classes or scores.

        `score` names the scores.
        """
        if self._count > MOST_SEGMENTS:
            warnings.warn(
                f"the map shows the selection alone: its counties have more than {MOST_SEGMENTS:,} other segments",
                stacklevel=2,
            )
        others = [segment for table in self._others for segment in map_segments(table)]
        view = view_of([segment for segment in self.selected if segment.points] or others)
        count = f"{len(self.selected):,} segment{'' if len(self.selected) == 1 else 's'}"
        groups = by_class(self.selected) if score is None else by_score(self.selected)
        background = by_class(list(shown(others, view, interrupts)))
        return Drawing(view, groups, background, caption, f"{count} by {score or 'class'}", score)
