"""The result for an address: a match, a tie or none."""

from dataclasses import dataclass
from enum import StrEnum
from typing import NamedTuple

from .address_input import Address
from .addresses import Reason


class Status(StrEnum):
    """The result for an address, in the words of the Census Bureau's batch geocoder."""

    MATCH = "Match"
    TIE = "Tie"
    NO_MATCH = "No_Match"


class Candidate(NamedTuple):
    """A place that an address may mean: one of several, or one in a town that doesn't agree with the address.

    `reasons` says what the address lacks for an exact match there. The rest is as in a match.
    """

    reasons: tuple[Reason, ...]
    matched: str
    longitude: float
    latitude: float
    tlid: int
    side: str
    county: str


@dataclass(frozen=True, slots=True)
class Match:
    """The result for an address.

    For a match, `matched` is the address in the data's spelling, and the place is in degrees (NAD 83). `reasons` says
    why there is no match, or what is missing for an exact one. `candidates` are the places of a tie, or those that were
    found in another town. `hint` is the name in the town that is nearest to that of a street that isn't there.
    """

    address: Address
    status: Status
    reasons: tuple[Reason, ...] = ()
    matched: str | None = None
    longitude: float | None = None
    latitude: float | None = None
    tlid: int | None = None
    side: str | None = None
    county: str | None = None
    candidates: tuple[Candidate, ...] = ()
    hint: str | None = None

    @property
    def is_exact(self) -> bool:
        """Returns whether the address has the same direction, name, type and ZIP Code as the data."""
        return self.status is Status.MATCH and not self.reasons
