"""Takes addresses apart that are on one line, such as `801 N Broad St, Milford, AL 35042`."""

import re
from collections.abc import Sequence

from ..sources import STATE_NAMES
from .words import DIRECTIONS, PARTS_OF_HOUSES, TYPES, UNITS, word_keys

LONGEST_STATE = 3  # words
# Types that end a street, and are hardly ever in the name of a city.
_ENDS = {
    word
    for word, kind in TYPES.items()
    if kind in "Aly Ave Blvd Cir Ct Dr Hwy Ln Pike Pkwy Pl Rd St Ter Trl Way".split()
}
_COUNTRY = re.compile(r"[\s,]+(?:U\.?S\.?A\.?|United States(?: of America)?)\.?$", re.IGNORECASE)
_ZIP = re.compile(r"(?<![0-9-])([0-9]{5}(?:[- ]?[0-9]{4})?)(?:\.0+)?$")
_ROUTE_NUMBER = re.compile(r"[0-9]{1,4}[A-Z]?")


def parts_of(text: str) -> tuple[str, str, str, str]:
    """Returns the street, the city, the state and the ZIP Code of an address; those that it doesn't have are empty.

    What is behind the last comma is the city. Without a comma, the city begins behind the last word that is a type such
    as `St` or `Rd`, the directions and the unit; an address without such a word has no city.
    """
    rest = _COUNTRY.sub("", " ".join(text.split()).strip(" ,;"))
    found = _ZIP.search(rest)
    zip_code = found[1] if found and found.start() > 0 else ""
    if found and zip_code:
        rest = rest[: found.start()].rstrip(" ,;")
    rest, state = _without_state(rest)
    pieces = [piece.strip() for piece in rest.split(",") if piece.strip()]
    if len(pieces) > 1:
        is_unit = _unit_length(word_keys(pieces[-1].split())) > 0
        street, city = (pieces, "") if is_unit else (pieces[:-1], pieces[-1])
        return ", ".join(street), city, state, zip_code
    words = rest.split()
    end = _end_of_street(word_keys(words))
    return " ".join(words[:end]), " ".join(words[end:]), state, zip_code


def _without_state(text: str) -> tuple[str, str]:
    """Returns a text without the state at its end, and the state."""
    words = text.split()
    for count in range(LONGEST_STATE, 0, -1):
        before, last = words[:-count], words[-count:]
        key = " ".join(word_keys(last))
        if before and key in STATE_NAMES and _is_no_type(key, before):
            return " ".join(before).rstrip(" ,;"), " ".join(last).strip(",;")
    return text, ""


def _is_no_type(key: str, before: Sequence[str]) -> bool:
    """Returns whether a word such as CT or NE is a state: behind a comma, or if a street ends before it."""
    if key not in TYPES and key not in DIRECTIONS:
        return True
    return bool(before) and (before[-1].endswith(",") or any(word in _ENDS for word in word_keys(before)[2:]))


def _end_of_street(keys: Sequence[str]) -> int:
    """Returns the number of words of a street with its number, in front of a city."""
    ends = [at for at, key in enumerate(keys) if at > 1 and key in _ENDS]
    # `Oak Ave St Louis` ends with Ave.
    if len(ends) > 1 and keys[ends[-1]] == "ST" and ends[-1] + 1 < len(keys) and ends[-2] >= ends[-1] - 2:
        ends.pop()
    if not ends:
        return len(keys)
    end = ends[-1] + 1
    if end < len(keys) and _ROUTE_NUMBER.fullmatch(keys[end]):
        end += 1
    if end < len(keys) and keys[end] in DIRECTIONS and len(keys[end]) <= 2:
        end += 1
    while length := _unit_length(keys[end:]):
        end += length
    return end


def _unit_length(keys: Sequence[str]) -> int:
    """Returns the number of words of a unit at the start."""
    if not keys:
        return 0
    if keys[0].startswith("#"):
        return 2 if keys[0] == "#" else 1
    if keys[0] in UNITS and len(keys) > 1 and (len(keys[1]) == 1 or any(map(str.isdigit, keys[1]))):
        return 2
    return int(keys[0] in PARTS_OF_HOUSES)
