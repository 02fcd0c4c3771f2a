"""Chooses among the hits of `extractd geocode-batch` for an address.

Of a stated ZIP Code and city, the data has to confirm one, or an address would get another town's place. Equal hits at
different places are a tie, as a guess would look like an answer.
"""

from collections.abc import Iterable
from dataclasses import dataclass, field
from functools import lru_cache
from typing import NamedTuple

from .addresses import Reading, Reason
from .towns import Town, Wanted, compare_towns, state_of_county
from .words import same_type


class Hit(NamedTuple):
    """A line of `geocode-batch`: a range with the house number, and the name of its segment that matches.

    `cities` are the names of the place and the county subdivision on this side, as far as they are known.
    """

    longitude: str
    latitude: str
    tlid: str
    side: str
    fedirp: str
    fename: str
    fetype: str
    fedirs: str
    zip: str
    county: str
    first: str
    last: str
    cities: tuple[str, ...] = ()

    @property
    def place(self) -> tuple[str, str] | None:
        """The longitude and the latitude, or None if the segment has no coordinates."""
        return (self.longitude, self.latitude) if self.longitude else None

    @property
    def street(self) -> str:
        """The street in the data's spelling."""
        return " ".join(part for part in (self.fedirp, self.fename, self.fetype, self.fedirs) if part)

    @property
    def town(self) -> str:
        """The city, the state and the ZIP Code in the data, each empty if it isn't known."""
        return ", ".join((self.cities[0] if self.cities else "", state_of_county(self.county), self.zip))


class Found(NamedTuple):
    """A hit that an address may mean, and what the address lacks for an exact match."""

    order: tuple[int, int]
    hit: Hit
    lacks: tuple[Reason, ...]


Rank = tuple[int, int, int]
_WORST: Rank = (9, 9, 9)
_IN_OTHER_STATE = 8


@dataclass(slots=True)
class Answer:
    """The best hits of one address, as they are found, and the best of those in a town that doesn't agree.

    `found` has the hits with the least rank, and `refused` those that are refused for `refusal`. `street_exists` says
    that a segment has the name, the directions and the type of a reading.
    """

    wanted: Wanted
    found: list[Found] = field(default_factory=list)
    rank: Rank = _WORST
    refused: list[Found] = field(default_factory=list)
    refused_rank: Rank = _WORST
    street_exists: bool = False
    hint: str = ""
    excuse: Reason | None = None

    @property
    def best(self) -> Found:
        """The first of the best hits, in the order of counties, readings and the program."""
        return min(self.found, key=lambda found: found.order)

    @property
    def places(self) -> set[tuple[str, str] | None]:
        """The places of the best hits."""
        return {found.hit.place for found in self.found}

    def may_be_in(self, county: str) -> bool:
        """Returns whether the address may be in a county, by its state."""
        return not self.wanted.state or self.wanted.state == state_of_county(county)

    def add(self, reading: Reading, hits: Iterable[Hit], order: tuple[int, int]) -> None:
        """Adds the hits that agree with the reading, and drops those that agree less. `order`: county and reading."""
        known: dict[tuple[str, str, str], tuple[tuple[Reason, ...], int] | None] = {}
        for hit in hits:
            parts = hit.fedirp, hit.fetype, hit.fedirs
            if parts not in known:
                known[parts] = compare_street(reading, *parts)
            difference = known[parts]
            if difference is not None:
                lacks, unconfirmed = difference
                self.include(Found(order, hit, lacks), reading.stage, 1 + unconfirmed if lacks else 0)

    def include(self, found: Found, stage: int, missing: int) -> None:
        """Adds what is found if its town agrees. `missing` says how much the address lacks for an exact match."""
        hit = found.hit
        if not self.may_be_in(hit.county):
            self._refuse((_IN_OTHER_STATE, 0, 0), found, (Reason.OTHER_STATE,))
            return
        town = compare_towns(self.wanted, hit.zip, hit.cities)
        if town > Town.NOT_STATED:  # A place in such a town can't be that of the address.
            self._refuse((town, stage, missing), found, self._of_town(town, hit) + found.lacks)
            return
        rank = (stage, town.rank, missing)
        if rank > self.rank:
            return
        if rank < self.rank:
            self.found, self.rank = [], rank
        self.found.append(found._replace(lacks=self._of_town(town, hit) + found.lacks))

    def _refuse(self, rank: Rank, found: Found, lacks: tuple[Reason, ...]) -> None:
        """Notes what is in another town, which only counts if nothing else is found."""
        if self.found or rank > self.refused_rank:
            return
        if rank < self.refused_rank:
            self.refused, self.refused_rank = [], rank
        self.refused.append(found._replace(lacks=lacks))

    def _of_town(self, town: Town, hit: Hit) -> tuple[Reason, ...]:
        """Returns what an address lacks if its town agrees so far."""
        if town <= Town.SAME_ZIP:
            return ()
        if town is Town.OTHER_CITY:
            return (Reason.OTHER_CITY,)
        return (Reason.OTHER_ZIP,) if self.wanted.zip and hit.zip else (Reason.NO_ZIP,)

    @property
    def reason(self) -> Reason:
        """The reason why there is no hit in the town of the address."""
        if self.refused:
            return self.refused[0].lacks[0]
        if self.excuse:
            return self.excuse
        return Reason.NO_SUCH_NUMBER_ON_STREET if self.street_exists else Reason.NO_SUCH_STREET


def compare_street(reading: Reading, fedirp: str, fetype: str, fedirs: str) -> tuple[tuple[Reason, ...], int] | None:
    """Returns the parts that only one of the two states, and how many are the reading's, or None if they contradict.

    A direction on the other side of the name is the same direction: `Main St W` may be `W Main St`, but not `E Main St`.
    """
    compared = _compare_parts(reading.parts, fedirp, fetype, fedirs)
    if compared is None or not reading.changes:
        return compared
    lacks, unconfirmed = compared
    return tuple(dict.fromkeys((*lacks, *reading.changes))), unconfirmed + len(reading.changes)


@lru_cache(maxsize=20_000)
def _compare_parts(
    parts: tuple[str, str, str], fedirp: str, fetype: str, fedirs: str
) -> tuple[tuple[Reason, ...], int] | None:
    predir, type_, sufdir = parts
    lacks = []
    stated, found = (predir, sufdir), (fedirp.upper(), fedirs.upper())
    if any(one and other and one != other for one, other in zip(stated, found)):
        return None
    if any(stated) and any(found) and not {*stated} & {*found} - {""}:
        return None
    if stated != found:
        lacks.append(Reason.DIRECTION)
    unconfirmed = sum(1 for direction in stated if direction and direction not in found)
    if bool(type_) != bool(fetype):
        lacks.append(Reason.TYPE)
        unconfirmed += bool(type_)
    elif not same_type(type_, fetype):
        return None
    return tuple(lacks), unconfirmed
