"""Parses street strings such as `123 N Main St Apt 4`. A string has several readings, and only the data decides."""

import re
import unicodedata
from collections.abc import Iterator, Sequence
from enum import IntEnum, StrEnum
from functools import lru_cache
from typing import NamedTuple

from .clean import cleaned, without_town
from .hyphens import is_range, plain_number
from .words import DIRECTIONS, PARTS_OF_HOUSES, TYPES, UNITS, other_spellings, route_names, word_key, word_keys

LONGEST_NAME = 30  # characters of the field FENAME
LONGEST_NUMBER = 11  # digits


class Reason(StrEnum):
    """Why an address has no match, or what a match that isn't exact lacks."""

    NO_HOUSE_NUMBER = "no_house_number"
    NO_STREET = "no_street"
    HYPHENATED_NUMBER = "hyphenated_number"
    FRACTIONAL_NUMBER = "fractional_number"
    NUMBER_TOO_LONG = "number_too_long"
    GRID_ADDRESS = "grid_address"
    INTERSECTION = "intersection"
    PO_BOX_OR_RURAL_ROUTE = "po_box_or_rural_route"
    NO_SUCH_STREET = "no_such_street"
    NO_SUCH_NUMBER_ON_STREET = "no_such_number_on_street"
    NO_COORDINATES = "no_coordinates"
    TIE = "tie"
    OTHER_STATE = "other_state"
    OTHER_ZIP = "other_zip"
    OTHER_CITY = "other_city"
    NO_ZIP = "no_zip"
    DIRECTION = "direction"
    TYPE = "type"
    ROUTE = "route"
    SPELLING = "spelling"
    NUMBER_SUFFIX = "number_suffix"
    EXTRA_WORDS = "extra_words"
    OTHER_TYPE = "other_type"
    OTHER_DIRECTION = "other_direction"


class Stage(IntEnum):
    """When a reading is tried: those of a later stage only count if none of an earlier one has a hit."""

    AS_WRITTEN = 0
    SPELLING = 1
    OTHER_PART = 2


class Reading(NamedTuple):
    """A street as the fields FENAME, FEDIRP, FETYPE and FEDIRS would have it. Missing parts are empty.

    `changes` says what the address has differently: a route for `State Hwy 17` if `SR 17` is written. Readings of a
    lower `stage` come first.
    """

    name: str
    predir: str = ""
    type: str = ""
    sufdir: str = ""
    changes: tuple[Reason, ...] = ()
    stage: int = 0  # A Stage; the hash of an Enum takes long.

    @property
    def parts(self) -> tuple[str, str, str]:
        """The direction before the name, the type, and the direction after it."""
        return self.predir, self.type, self.sufdir

    def changed(self, reason: Reason, stage: Stage) -> "Reading":
        """Returns the reading for a later stage, with a further reason why it isn't what is written."""
        return self._replace(changes=(*self.changes, reason), stage=int(stage))


class Street(NamedTuple):
    """A house number and the readings of the rest: those without units first, and then those that state the most.

    A number such as `164-20` is `hyphenated`, and `number` is what stands for it in questions. `593-595` may also be a
    range, and `as_range` then has the number where it starts.
    """

    number: int
    readings: tuple[Reading, ...]
    hyphenated: str = ""
    as_range: "Street | None" = None

    @property
    def forms(self) -> tuple["Street", ...]:
        """The street with each number that it may have."""
        return (self, self.as_range) if self.as_range else (self,)

    def written(self, is_hyphenated: bool) -> str:
        """Returns the number as it was found: with the hyphen, or the start of a range."""
        street = self if is_hyphenated or not self.as_range else self.as_range
        return street.hyphenated or str(street.number)


class Crossing(NamedTuple):
    """The readings of two streets that cross."""

    streets: tuple[tuple[Reading, ...], tuple[Reading, ...]]


_BOX = re.compile(
    r"(?:(?:P ?O|POST OFFICE) ?BOX\b|GENERAL DELIVERY\b"
    r"|(?:P ?O ?B|BOX|R ?R|RURAL ROUTE|HC|HIGHWAY CONTRACT|STAR ROUTE) ?#?[0-9]).*",
    re.DOTALL,
)
_CROSSING = re.compile(r"[&@]|(?<=[A-Z0-9]) ?/ ?(?=[0-9]*[A-Z])| AND | AT ")
_BETWEEN = re.compile(r"\s*[&@/]\s*|\s+(?:and|at)\s+", re.IGNORECASE)
_FRACTION = re.compile(r"[0-9]+/[0-9]+|[¼½¾⅓⅔⅛⅜⅝⅞]")
# Kinds of first words; the first match counts. A letter after the number is removed like a unit, except N, S, E and W.
_FIRST_WORDS = (
    (Reason.FRACTIONAL_NUMBER, re.compile(r"[0-9]+(?:-?[0-9]+/[0-9]+|/[0-9]+|[¼½¾⅓⅔⅛⅜⅝⅞])")),
    (Reason.HYPHENATED_NUMBER, re.compile(r"[0-9]+[A-Z]?-+[0-9A-Z]+")),
    (Reason.GRID_ADDRESS, re.compile(r"[NSEW][0-9]+[NSEW0-9-]*|[0-9]+[NSEW](?:[0-9].*)?")),
)
_NUMBER = re.compile(r"([0-9]+)[A-Z]?")
_ORDINAL = re.compile(r"[0-9]+(?:ST|ND|RD|TH)")
_JOINED_UNIT = re.compile(rf"(?:{'|'.join(sorted(UNITS - {'FL', 'BOX'}))})#?[0-9]+[A-Z]?")
_UNIT_VALUE = re.compile(r"#?[0-9A-Z]+(?:[-/][0-9A-Z]+)*")


def parse_street(text: str, state: str = "", town: tuple[str, ...] = ()) -> Street | Crossing | Reason:
    """Returns the house number and the readings of a street string, or a crossing, or the reason why it is neither.

    `state` is a postal abbreviation, for roads such as `AL 25`. `town` has the city, the state and the ZIP Code, which may be
    repeated in the string.
    """
    clean = cleaned(unicodedata.normalize("NFC", text))
    given = re.sub(r"#\s+", "#", re.sub(r"(?<=\w)#", " #", clean.text)) if "#" in clean.text else clean.text
    pairs = [(word, key) for word in given.replace(",", ", ").split() if (key := word_key(word))]
    words, keys = [word for word, _ in pairs], [key for _, key in pairs]
    if _BOX.fullmatch(" ".join(keys)):
        return Reason.PO_BOX_OR_RURAL_ROUTE
    if not keys:
        return Reason.NO_HOUSE_NUMBER
    number = _number(keys)
    if number is Reason.INTERSECTION:
        return _crossing(" ".join(without_town(words, town)), state) or number
    if isinstance(number, Reason):
        return number
    extra = (Reason.EXTRA_WORDS,) if clean.has_extra_words else ()
    suffix = (Reason.NUMBER_SUFFIX,) if clean.has_number_suffix or not keys[0].isdigit() else ()
    street = Street(number, _all_readings(words[1:], state, town, (*extra, *suffix)))
    if not clean.second:
        return street
    if not is_range(keys[0], clean.second):
        return _hyphenated(keys[0], clean.second, street, None)
    start = Street(number, _all_readings(words[1:], state, town, (*extra, Reason.NUMBER_SUFFIX)))
    return _hyphenated(keys[0], clean.second, street, start)


def _hyphenated(first: str, second: str, street: Street, start: Street | None) -> Street | Reason:
    """Returns the street with a hyphenated number. `start` is the street with the start of a range."""
    number = plain_number(first, second)
    if number is None:
        return start or Reason.HYPHENATED_NUMBER
    return Street(number, street.readings, f"{first}-{second}", start)


def _all_readings(
    words: list[str], state: str, town: tuple[str, ...], dropped: tuple[Reason, ...]
) -> tuple[Reading, ...]:
    """Returns the readings of the words behind the number."""
    readings = (
        reading._replace(changes=(*dropped, *further, *reading.changes)) if dropped or further else reading
        for way, further in _streets(words, town)
        for reading in _readings(tuple(way), state)
    )
    return tuple(dict.fromkeys(readings))


def _streets(words: list[str], town: tuple[str, ...]) -> Iterator[tuple[list[str], tuple[Reason, ...]]]:
    """Yields the words that may be the street, and what is dropped: a letter behind the number, or the town."""
    yield from ((way, ()) for way in _ways(words))
    alone = without_town(words, town)
    if len(alone) < len(words):
        yield from ((way, (Reason.EXTRA_WORDS,)) for way in _ways(alone))
    if len(words) > 1 and re.fullmatch(r"[A-Z](?<![NSEW])", word_key(words[0])):
        yield from ((way, (Reason.NUMBER_SUFFIX,)) for way in _ways(words[1:]))


def _crossing(text: str, state: str) -> Crossing | None:
    """Returns the streets of a crossing, or None if the string has a house number or isn't two streets."""
    parts = [part.replace(",", ", ").split() for part in _BETWEEN.split(text)]
    if len(parts) != 2 or not all(parts) or parts[0][0].isdigit():
        return None
    first, second = (_readings(tuple(part), state) for part in parts)
    return Crossing((first, second)) if first and second else None


def _number(keys: list[str]) -> int | Reason:
    """Returns the house number of the words of a street string."""
    first, rest = keys[0], keys[1:]
    found = _NUMBER.fullmatch(first)
    text = f" {' '.join(keys)} "
    if ("&" in text or "@" in text) or (not found and _CROSSING.search(text)):
        return Reason.INTERSECTION
    for reason, pattern in _FIRST_WORDS if not first.isdigit() else ():
        if pattern.fullmatch(first):
            return reason
    if not found:
        return Reason.NO_HOUSE_NUMBER
    if rest and _FRACTION.fullmatch(rest[0]):
        return Reason.FRACTIONAL_NUMBER
    if not rest or not _without_unit(rest):
        return Reason.NO_STREET
    digits = found[1].lstrip("0") or "0"
    return int(digits) if len(digits) <= LONGEST_NUMBER else Reason.NUMBER_TOO_LONG


def _ways(words: list[str]) -> Iterator[list[str]]:
    """Yields the words of a street without its units, and then with them, since a street may be called `Lot 5`."""
    count = _without_unit(word_keys(words))
    yield words[:count]
    if count < len(words) and not any("#" in word for word in words[count:]):
        yield words


def _without_unit(keys: list[str]) -> int:
    """Returns the number of words before the units. One always remains, unless it begins with #."""
    count = len(keys)
    while cut := _unit_at_end(keys[:count]):
        count -= cut
    return count


def _unit_at_end(keys: list[str]) -> int:
    """Returns the number of words at the end that are a unit."""
    if keys and keys[-1].startswith("#"):
        return 2 if len(keys) > 2 and keys[-2] in UNITS else 1
    if len(keys) > 2 and keys[-2] in UNITS and _is_unit_value(keys[-1]):
        before = keys[1:-2] if keys[-2] == "BOX" else []
        return 4 if before[-2:] == ["P", "O"] else 3 if before[-1:] == ["PO"] else 2
    if len(keys) > 2 and keys[-1] in ("FL", "FLOOR") and _ORDINAL.fullmatch(keys[-2]):
        return 2
    return int(len(keys) > 1 and (keys[-1] in PARTS_OF_HOUSES or bool(_JOINED_UNIT.fullmatch(keys[-1]))))


def _is_unit_value(key: str) -> bool:
    if not _UNIT_VALUE.fullmatch(key):
        return False
    is_word = key in TYPES or (len(key) > 1 and key in DIRECTIONS)
    return any(character.isdigit() for character in key) or key in PARTS_OF_HOUSES or (len(key) <= 2 and not is_word)


@lru_cache(maxsize=10_000)
def _readings(words: tuple[str, ...], state: str) -> tuple[Reading, ...]:
    """Returns the readings of a street without number and unit, starting with those that state the most parts."""
    keys = word_keys(words)
    found = []
    for predir, first in _directions_at_start(keys):
        for sufdir, after in _directions_at_end(keys):
            for type_, last in _type_at_end(keys[:after]):
                found += [
                    Reading(name, predir, type_, sufdir, (Reason.ROUTE,) if is_other else ())
                    for name, is_other in _names(words[first:last], state)
                    if len(name) <= LONGEST_NAME
                ]
    return tuple(sorted(found, key=lambda reading: -sum(map(bool, reading.parts))))


def _directions_at_start(keys: list[str]) -> Iterator[tuple[str, int]]:
    """Yields the directions that the first words may be, and where the rest begins."""
    for count in (2, 1):
        if direction := DIRECTIONS.get(" ".join(keys[:count])):
            yield direction, count
    yield "", 0


def _directions_at_end(keys: list[str]) -> Iterator[tuple[str, int]]:
    """Yields the directions that the last words may be, and where the rest ends."""
    for count in (2, 1):
        if len(keys) > count and (direction := DIRECTIONS.get(" ".join(keys[-count:]))):
            yield direction, len(keys) - count
    yield "", len(keys)


def _type_at_end(keys: list[str]) -> Iterator[tuple[str, int]]:
    """Yields the type that the last word may be, and where the rest ends."""
    if len(keys) > 1 and keys[-1] in TYPES:
        yield TYPES[keys[-1]], len(keys) - 1
    yield "", len(keys)


def _names(words: Sequence[str], state: str) -> Iterator[tuple[str, bool]]:
    """Yields possible contents of FENAME, and whether each is another word for a numbered road."""
    if not words or len(words) > LONGEST_NAME:
        return
    name = " ".join(word.strip(",;") for word in words)
    yield name, False
    if "." in name:
        yield name.replace(".", ""), False
    for text in other_spellings([word.strip(",;.") for word in words]):
        yield text, False
    same, other = route_names(" ".join(word_keys(words)), state)
    for text in same:
        yield text, False
    for text in other:
        yield text, True
