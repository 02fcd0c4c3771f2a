"""What pages ask besides segments: the places of addresses, and the program of a filter."""

from collections.abc import Sequence
from dataclasses import dataclass
from typing import Any

from ..geocoding.address_input import Address
from ..geocoding.geocoder import matches_of
from ..geocoding.match import Match
from ..geocoding.one_line import parts_of
from ..program import PathLike, RefusedError, run
from .problems import bad_parameter, refused_county, refused_filter
from .query import CQL2_JSON
from .selections import Processes, Watch

MOST_ADDRESSES = 20
LONGEST_ADDRESS = 200

Document = dict[str, Any]


@dataclass(frozen=True)
class Lookups:
    """Runs the program over the data of the service, within its limits."""

    program: str
    data: PathLike
    processes: Processes

    def places(self, text: str, counties: Sequence[str], watch: Watch) -> Document:
        """Returns the places of addresses, one on each line, as features. Those that aren't found have no geometry."""
        lines = [line.strip() for line in text.splitlines() if line.strip()]
        if len(lines) > MOST_ADDRESSES or any(len(line) > LONGEST_ADDRESS for line in lines):
            raise bad_parameter("address", f"it is up to {MOST_ADDRESSES} lines of up to {LONGEST_ADDRESS} characters")
        addresses = [Address(str(number), *parts_of(line)) for number, line in enumerate(lines, start=1)]
        if not lines:
            return {"type": "FeatureCollection", "features": []}
        with self.processes.watched(watch):
            try:
                matches = list(matches_of(addresses, self.data, counties, self.program, watch))
            except RefusedError as refused:
                raise refused_county(refused, refused.county or "") from None
        return {"type": "FeatureCollection", "features": list(map(_feature, matches, lines))}

    def listing(self, text: str, is_json: bool, watch: Watch) -> bytes:
        """Returns the program of a filter as `extractd explain` lists it. Raises ProblemError if it is refused."""
        options = ["--filter-lang", CQL2_JSON] if is_json else []
        with self.processes.watched(watch):
            try:
                words = run([self.program, "compile", "--filter", "-", *options], watch, standard_input=text.encode())
            except RefusedError as refused:
                raise refused_filter(refused) from None
            return run([self.program, "explain", "--program", "/dev/stdin"], watch, standard_input=words)


def _feature(match: Match, text: str) -> Document:
    """Returns the feature of an address. Its candidates are the places of a tie, or those in other towns."""
    properties = {
        "address": text,
        "match": match.status,
        "exact": match.is_exact,
        "matched_address": match.matched,
        "tlid": match.tlid,
        "side": match.side,
        "county": match.county,
        "reasons": match.reasons,
        "hint": match.hint,
        "candidates": [candidate._asdict() for candidate in match.candidates],
    }
    point = {"type": "Point", "coordinates": [match.longitude, match.latitude]}
    geometry = None if match.longitude is None else point
    return {"type": "Feature", "id": match.address.id, "properties": properties, "geometry": geometry}
