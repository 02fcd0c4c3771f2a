"""Takes away from a street string what doesn't belong to the number and the street."""

import re
from collections.abc import Sequence
from typing import NamedTuple

from .words import UNITS, word_keys

LONGEST = 300  # Longer strings are no addresses, and the patterns would take long.
_FRACTIONS = "¼½¾⅓⅔⅛⅜⅝⅞"
_UNIT = "|".join(sorted(UNITS - {"FL", "BOX"}))
_BUILDINGS = "BLDG|BUILDING|CENTER|CENTRE|CHURCH|COURTHOUSE|HALL|HOSPITAL|HOTEL|LIBRARY|MALL|PLAZA|SCHOOL|TOWER|TOWERS"
_CARE_OF = re.compile(r"(?:^|[\s,])(?:c/o|attn\b|attention\b)[^,0-9]*(?:,|(?=[0-9])|$)", re.IGNORECASE)
_PARENTHESES = re.compile(r"\([^()]*\)")
_NUMBER_SIGN = re.compile(r"^\s*(?:#|no\.?\s)\s*(?=[0-9]+[A-Z]?\s+\S*[A-Z])", re.IGNORECASE)
_NUMBER_AT_END = re.compile(
    r"(?<!road)(?<!\brd)(?<!highway)(?<!hwy)(?<!route)(?<!rte)(?<!\brt)[\s,]+no\.?\s*[0-9]+[A-Z]?\s*$", re.IGNORECASE
)
# What a string has in it if one of these patterns may be found.
_MAY_HAVE_MORE = re.compile(r"^\s*[^0-9\s]|\(|c/o|att|\bno(?![a-z])", re.IGNORECASE)
_HOUSE = "[0-9]+(?:-[0-9]+)?[A-Z]?"
_UNIT_FIRST = re.compile(rf"^\s*(?:(?:{_UNIT})\.?\s*#?\s*|#\s*)[0-9A-Z-]+\s*,?\s+(?={_HOUSE}\s)", re.IGNORECASE)
_BUILDING_FIRST = re.compile(rf"^[^0-9&@/]*[A-Z][^0-9&@/]*(?:,|\b(?:{_BUILDINGS}))\s+(?={_HOUSE}\s+\S)", re.IGNORECASE)
_NUMBER = re.compile(
    r"^\s*(?P<number>[0-9]+)(?:\s*-\s*(?P<second>[0-9]+))?"
    rf"(?P<suffix>\s?[{_FRACTIONS}]|[\s-]+[0-9]+/[0-9]+|\s*-\s*[A-Z]|[A-Z](?<![NSEW]))?(?!\S)",
    re.IGNORECASE,
)


class Cleaned(NamedTuple):
    """A street string that begins with a plain number, and what was dropped from it.

    `second` is the second part of a hyphenated number, and the string begins with the first part.
    """

    text: str
    has_extra_words: bool = False
    has_number_suffix: bool = False
    second: str = ""


def cleaned(text: str) -> Cleaned:
    """Returns the string without words for the postman, and without letters and fractions behind the number."""
    if len(text) > LONGEST:
        return Cleaned(text)
    kept = text.translate({ord("’"): "'", ord("‘"): "'", ord("`"): "'"})
    plain = _without_more(kept) if _MAY_HAVE_MORE.search(kept) else kept.strip()
    found = _NUMBER.match(plain)
    number = f"{found['number']}{plain[found.end():]}" if found else plain
    suffix, second = (found["suffix"], found["second"]) if found else (None, None)
    return Cleaned(number, plain != kept.strip(), suffix is not None, second or "")


def _without_more(text: str) -> str:
    """Returns the string without words for the postman."""
    plain = _NUMBER_SIGN.sub("", text)
    for pattern in (_PARENTHESES, _CARE_OF, _UNIT_FIRST, _BUILDING_FIRST, _NUMBER_AT_END):
        plain = pattern.sub(" ", plain).strip()
    return plain


def without_town(words: list[str], town: Sequence[str]) -> list[str]:
    """Returns the words without the city, state and ZIP Code of the address, as far as they are repeated at the end."""
    count = len(words)
    for cell in reversed(town):
        repeated = word_keys(cell.split())
        if repeated and count - len(repeated) > 1 and word_keys(words[count - len(repeated) : count]) == repeated:
            count -= len(repeated)
    return words[:count]
