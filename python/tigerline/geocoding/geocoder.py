"""Geocodes addresses with the program `extractd`.

Only `extractd geocode-batch` finds positions and the segments with a house number. This module parses street strings
and chooses among the hits.
"""

import re
from collections.abc import Iterable, Iterator, Sequence
from itertools import islice

from ..extract import active_interrupts
from ..interrupts import Interrupts
from ..program import PathLike, find_program
from ..sources import counties_in
from .address_input import COLUMNS, Address
from .addresses import Crossing, Reason, Street, parse_street
from .choice import Answer, Found
from .lookup import Lookup
from .match import Candidate, Match, Status
from .towns import Wanted, city_key, state_of, state_of_county

# The number of addresses whose readings and hits are in memory. The counties are loaded again for each such part.
ADDRESSES_AT_ONCE = 20_000
_ZIP = re.compile(r"([0-9]{3,5})(?:[- ]?[0-9]{4})?(?:\.0*)?")


def geocode(
    addresses: Iterable[Sequence[str]],
    data: PathLike,
    counties: str | Iterable[str] | None = None,
    *,
    extractd: PathLike | None = None,
) -> Iterator[Match]:
    """Yields a match for each address, in order. Needs only the standard library.

    An address is an `Address`, or its id, street, city, state and zip as strings; the last three are optional. `data`,
    `counties` and `extractd` are those of `select`. Many addresses are looked up at once, so the first match comes late.
    """
    return matches_of(map(_checked, addresses), data, counties, extractd, None)


def _checked(address: Sequence[str]) -> Address:
    if isinstance(address, str) or not 2 <= len(address) <= len(COLUMNS):
        raise ValueError(f"an address has {', '.join(COLUMNS[:-1])} and {COLUMNS[-1]}, and {address!r} hasn't")
    return Address(*address)


def matches_of(
    addresses: Iterable[Address],
    data: PathLike,
    counties: str | Iterable[str] | None,
    extractd: PathLike | None,
    interrupts: Interrupts | None,
) -> Iterator[Match]:
    """Yields the matches. Without `interrupts`, delays signals separately for each part of the addresses."""
    with active_interrupts(interrupts) as held:
        program = find_program(extractd, held)
        chosen = counties_in(data, counties)
    states = {state_of_county(county.code) for county in chosen}
    remaining = iter(addresses)
    lookup = Lookup(program, chosen)
    while part := list(islice(remaining, ADDRESSES_AT_ONCE)):
        taken = [(_street_of(address, states), Answer(_wanted(address))) for address in part]
        asked = [(form, answer) for street, answer in taken if isinstance(street, Street) for form in street.forms]
        crossings = [(street, answer) for street, answer in taken if isinstance(street, Crossing)]
        with active_interrupts(interrupts) as held:
            held.check()
            lookup.answer(asked, crossings, held)
        yield from map(_match, part, *zip(*taken))


def _street_of(address: Address, states: set[str]) -> Street | Crossing | Reason:
    """Returns the number and the readings of an address, or the reason for which it isn't looked up."""
    state = state_of(address.state)
    street = parse_street(address.street, state, (address.city, address.state, address.zip))
    return Reason.OTHER_STATE if not isinstance(street, Reason) and state and state not in states else street


def _wanted(address: Address) -> Wanted:
    return Wanted(zip_of(address.zip), city_key(address.city), state_of(address.state))


def zip_of(cell: str) -> str:
    """Returns the five digits of a ZIP Code, or an empty string. Spreadsheets drop leading zeros, and write 35042.0."""
    found = _ZIP.fullmatch(cell.strip())
    return found[1].zfill(5) if found and found[1].isascii() else ""


def _match(address: Address, street: Street | Crossing | Reason, answer: Answer) -> Match:
    """Returns the result for an address."""
    if isinstance(street, Reason):
        return Match(address, Status.NO_MATCH, (street,))
    if not answer.found:
        hint = answer.hint if answer.reason is Reason.NO_SUCH_STREET else None
        candidates = _candidates(street, answer.refused)
        return Match(address, Status.NO_MATCH, (answer.reason,), candidates=candidates, hint=hint or None)
    if len(answer.places) > 1:
        return Match(address, Status.TIE, (Reason.TIE,), candidates=_candidates(street, answer.found))
    if answer.best.hit.place is None:
        return Match(address, Status.NO_MATCH, (Reason.NO_COORDINATES,))
    found = answer.best
    return Match(address, Status.MATCH, found.lacks, *_candidate(street, found)[1:])


def _candidates(street: Street | Crossing, found: Iterable[Found]) -> tuple[Candidate, ...]:
    """Returns the places of hits, each once."""
    first: dict[tuple[str, str], Found] = {}
    for one in sorted(found, key=lambda one: one.order):
        if one.hit.place:
            first.setdefault(one.hit.place, one)
    return tuple(_candidate(street, one) for one in first.values())


def _candidate(street: Street | Crossing, found: Found) -> Candidate:
    hit = found.hit
    number = street.written("-" in hit.first) + " " if isinstance(street, Street) else ""
    place = float(hit.longitude), float(hit.latitude), int(hit.tlid), hit.side, hit.county
    return Candidate(found.lacks, f"{number}{hit.street}, {hit.town}".upper(), *place)
