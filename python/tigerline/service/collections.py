"""The collections of the service: each county, each state, and all counties.

A state is its counties one after the other, so nothing grows with the nation.
"""

from collections.abc import Iterable
from dataclasses import dataclass
from functools import cached_property

from ..sources import STATES, County

ALL = "us"


@dataclass(frozen=True, eq=False)
class Collection:
    """Counties whose segments are served together, in the order of their codes."""

    id: str
    title: str
    counties: tuple[County, ...]

    @property
    def is_county(self) -> bool:
        """Returns whether this is a county, not a state with a single one."""
        return self.id.isdecimal()

    @cached_property
    def parts(self) -> tuple["Collection", ...]:
        """The collections of the counties."""
        return (self,) if self.is_county else tuple(map(_of_county, self.counties))


def _of_county(county: County) -> Collection:
    return Collection(county.code, f"County {county.code}", (county,))


def collections_of(counties: Iterable[County]) -> dict[str, Collection]:
    """Returns the collections of counties by their names: the counties, their states and all of them."""
    ordered = sorted(counties, key=lambda county: county.code)
    found = [_of_county(county) for county in ordered]
    for state, code in STATES.items():
        if inside := tuple(county for county in ordered if county.code.startswith(code)):
            found.append(Collection(state.lower(), f"State {state}", inside))
    return {collection.id: collection for collection in (*found, Collection(ALL, "All counties", tuple(ordered)))}
