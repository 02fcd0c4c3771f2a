"""Tells whether an address and a segment are in the same town, by their states, ZIP Codes and cities.

Nothing here is proved. `extractd` reads no record of type C, which has the names of cities.
"""

import re
import unicodedata
from collections.abc import Collection
from enum import IntEnum
from functools import lru_cache
from pathlib import Path
from typing import NamedTuple

from ..layout import LAYOUTS, PLACES, number
from ..sources import STATE_NAMES, STATES

_FIPS, _NAME = LAYOUTS["C"]["FIPS"], LAYOUTS["C"]["NAME"]
NAME_LENGTH = _NAME.stop
_TLID = PLACES["TLID"]
_CITY_CODES = tuple((PLACES[f"PLACE{side}"], PLACES[f"COUSUB{side}"]) for side in "LR")

_POSTAL = {code: postal for postal, code in STATES.items()}
_SHORT_WORDS = {"SAINT": "ST", "FORT": "FT", "MOUNT": "MT"}


class Town(IntEnum):
    """How the town of a segment's side agrees with that of an address, best first."""

    SAME = 0
    SAME_ZIP = 1
    SAME_CITY = 2
    NOT_STATED = 3
    OTHER_ZIP = 4
    OTHER_CITY = 5
    NOT_KNOWN = 6

    @property
    def rank(self) -> int:
        """The order of towns. A ZIP Code of one city and the name of another one count the same."""
        return Town.SAME_ZIP if self is Town.SAME_CITY else self


class Wanted(NamedTuple):
    """The town of an address: five digits, the key of its city, and its state's postal abbreviation. May be empty."""

    zip: str = ""
    city: str = ""
    state: str = ""


@lru_cache(maxsize=100_000)
def city_key(text: str) -> str:
    """Returns what two spellings of a city have in common: `City of Saint Paul` and `St. Paul` become `ST PAUL`."""
    words = re.sub(r"[.'’]", "", unicodedata.normalize("NFC", text)).upper().replace("-", " ").split()
    if words[:2] == ["CITY", "OF"] or words[:2] == ["TOWN", "OF"]:
        words = words[2:]
    return " ".join(_SHORT_WORDS.get(word, word) for word in words)


def state_of(text: str) -> str:
    """Returns the postal abbreviation of a state, or what is written if it is none that is known."""
    written = " ".join(text.replace(".", "").upper().split())
    return STATE_NAMES.get(written, STATE_NAMES.get(written.replace(" ", ""), written))


def state_of_county(code: str) -> str:
    """Returns the postal abbreviation of the state in a county's code."""
    return _POSTAL.get(code[:2], "")


@lru_cache(maxsize=20_000)
def compare_towns(wanted: Wanted, zip_code: str, cities: tuple[str, ...]) -> Town:
    """Compares the town of an address with the ZIP Code and the cities of a segment's side.

    An address that states a ZIP Code or a city has to agree in one of them, since post offices also serve places outside
    of their city.
    """
    is_in_city = bool(wanted.city) and wanted.city in map(city_key, cities)
    if wanted.zip and wanted.zip == zip_code:
        return Town.SAME if is_in_city or not wanted.city or not cities else Town.SAME_ZIP
    if is_in_city:
        return Town.SAME_CITY
    if not wanted.zip and not wanted.city:
        return Town.NOT_STATED
    if wanted.zip and zip_code:
        return Town.OTHER_ZIP
    return Town.OTHER_CITY if wanted.city and cities else Town.NOT_KNOWN


class Cities:
    """The names of the cities of a county: record type C, which may be missing.

    The codes of places and of county subdivisions are of one list, so the kind of entity needs no look.
    """

    def __init__(self, path: Path | None, name: str) -> None:
        """Reads the names. Raises OSError for a line that isn't a record of type C, with the name of its file."""
        self._names: dict[bytes, str] = {}
        if path is None:
            return
        with open(path, "rb") as lines:
            for at, line in enumerate(lines, start=1):
                record = line.rstrip(b"\r\n")
                if len(record) != NAME_LENGTH or not record.startswith(b"C"):
                    raise OSError(f"{name}: line {at} isn't a record of type C, which has {NAME_LENGTH} bytes")
                code, text = record[_FIPS], record[_NAME].decode("latin-1").strip()
                if code.strip() and text:
                    self._names[code] = text

    def of(self, codes: tuple[bytes, ...]) -> tuple[str, ...]:
        """Returns the names that belong to the codes of a place and a county subdivision, the place's first."""
        return tuple(dict.fromkeys(self._names[code] for code in codes if code in self._names))

    def of_segments(self, path: Path, segments: Collection[str]) -> dict[tuple[str, str], tuple[str, ...]]:
        """Returns the cities of both sides of these segments of a type 1 file, by TLID and side."""
        found = {}
        with open(path, "rb") as records:
            for record in records if self._names else ():
                tlid = str(number(record[_TLID].decode("latin-1")))
                if tlid in segments:
                    for side, codes in zip("LR", _CITY_CODES):
                        found[tlid, side] = self.of(tuple(record[code] for code in codes))
        return found
