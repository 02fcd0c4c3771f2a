"""Draws the places of addresses over the segments around them."""

import warnings
from collections.abc import Iterable, Iterator
from dataclasses import replace
from itertools import islice

from ..extract import ALL_SEGMENTS, Output, extract
from ..interrupts import Interrupts
from ..maps.content import DRAWN, MOST_SEGMENTS, map_segments, shown
from ..maps.drawing import Drawing
from ..maps.layers import Group, Layer, by_class
from ..maps.view import MapSegment, View, view_of
from ..program import PathLike
from .match import Match

CANDIDATE = Layer("Candidate", color="#8b7355", is_dot=True)
NON_EXACT = Layer("Match that isn't exact", color="#e2762b", is_dot=True)
EXACT = Layer("Exact match", color="#34528f", is_dot=True)
KINDS = (CANDIDATE, NON_EXACT, EXACT)  # from the bottom of the map to its top


class Dots:
    """Collects the places of matches as segments of a map that are one point, with the address there as the name."""

    def __init__(self, has_candidates: bool) -> None:
        self.groups = [Group(kind, []) for kind in KINDS]
        self.counties: dict[str, None] = {}
        self._has_candidates = has_candidates

    def watched(self, matches: Iterable[Match]) -> Iterator[Match]:
        """Yields the matches, and adds the place of each."""
        for match in matches:
            if match.longitude is not None and match.latitude is not None:
                kind = EXACT if match.is_exact else NON_EXACT
                self._add(kind, match.matched, (match.longitude, match.latitude), match.county)
            if self._has_candidates:
                for candidate in match.candidates:
                    place = candidate.longitude, candidate.latitude
                    self._add(CANDIDATE, candidate.matched, place, candidate.county)
            yield match

    def _add(self, kind: Layer, matched: str | None, place: tuple[float, float], county: str | None) -> None:
        self.groups[KINDS.index(kind)].segments.append(MapSegment("", matched or "", 0, (place,)))
        if county:
            self.counties[county] = None

    def drawing(self, caption: str, data: PathLike, extractd: PathLike | None, interrupts: Interrupts) -> Drawing:
        """Returns the map of the places, with the segments of their counties around them."""
        places = [place for group in self.groups for place in group.segments]
        view = view_of(places)
        background: list[MapSegment] = []
        if self.counties:
            background = list(islice(self._around(view, data, extractd, interrupts), MOST_SEGMENTS + 1))
        if len(background) > MOST_SEGMENTS:
            around = f"around them are more than {MOST_SEGMENTS:,} segments"
            warnings.warn(f"the map shows the places alone: {around}", stacklevel=2)
            background = []
        groups = [group for group in self.groups if group.segments]
        title = f"{len(places):,} place{'' if len(places) == 1 else 's'}"
        return Drawing(view, groups, by_class(background), caption, title, rest_label="Segment")

    def _around(
        self, view: View, data: PathLike, extractd: PathLike | None, interrupts: Interrupts
    ) -> Iterator[MapSegment]:
        request = replace(ALL_SEGMENTS, data=data, counties=list(self.counties), extractd=extractd)
        with warnings.catch_warnings():
            warnings.simplefilter("ignore")  # Missing files were reported before.
            for county in extract(request, [Output(DRAWN, "auto")], interrupts=interrupts):
                yield from shown(map_segments(county.texts[0]), view, interrupts)
