"""The names of segments and places as the fields of record types 1, 5 and C have them.

A name that doesn't fit is cut and counted, as refusing it would lose its county.
"""

import unicodedata
from collections.abc import Iterable
from typing import NamedTuple

from ..layout import LAYOUTS, PLACES
from .losses import Loss, Losses
from .rules import FeatureName

PRIMARY = "P"


def _width(field: slice) -> int:
    return int(field.stop - field.start)


NAME_LENGTH, TYPE_LENGTH, DIRECTION_LENGTH = (_width(PLACES[name]) for name in ("FENAME", "FETYPE", "FEDIRP"))
PLACE_LENGTH = _width(LAYOUTS["C"]["NAME"])


class Name(NamedTuple):
    """The fields FEDIRP, FENAME, FETYPE and FEDIRS."""

    predir: str
    name: str
    type: str = ""
    sufdir: str = ""


NO_NAME = Name("", "")
NO_PARTS = ("",) * 7


class Names:
    """Fits names into their fields, each distinct one once, and counts what doesn't fit."""

    def __init__(self, losses: Losses) -> None:
        self._losses = losses
        self._known: dict[tuple[str, ...], tuple[Name, tuple[Loss, ...]]] = {}

    def __len__(self) -> int:
        """The number of distinct names."""
        return len({name for name, _ in self._known.values() if name.name})

    def of(self, rows: list[FeatureName], fullname: str, tlid: int) -> list[Name]:
        """Returns the distinct names of a segment, the primary one first. One without a row has its full name."""
        if not rows:
            return [self._fitted((fullname, *NO_PARTS), tlid)]
        if len(rows) > 1:
            rows.sort(key=_is_alternate)
        found = dict.fromkeys([self._fitted(row[1:-1], tlid) for row in rows])
        return [name for name in found if name.name] or [NO_NAME]

    def _fitted(self, columns: tuple[str, ...], tlid: int) -> Name:
        if (known := self._known.get(columns)) is None:
            known = self._known[columns] = fit(*columns)
        for loss in known[1]:
            self._losses.add(loss, tlid)
        return known[0]


def _is_alternate(row: FeatureName) -> bool:
    return row.PAFLAG != PRIMARY


def fit(
    full: str, predir: str, prequal: str, pretype: str, name: str, sufqual: str, suftype: str, sufdir: str
) -> tuple[Name, tuple[Loss, ...]]:
    """Returns the fields of a name in its parts, and in which ways they don't hold it."""
    if not name.strip():
        predir, prequal, pretype, name, sufqual, suftype, sufdir = "", "", "", full, "", "", ""
    losses = []
    before, after = [prequal, pretype, name, sufqual], []
    if len(suftype) > TYPE_LENGTH:
        losses.append(Loss.LONG_TYPE)
        after, suftype = [suftype], ""
    if len(predir) > DIRECTION_LENGTH:
        losses.append(Loss.LONG_DIRECTION)
        before, predir = [predir, *before], ""
    if len(sufdir) > DIRECTION_LENGTH:
        losses.append(Loss.LONG_DIRECTION)
        after, sufdir = [*after, sufdir], ""
    joined = " ".join(part.strip() for part in (*before, *after) if part.strip())
    parts = [in_latin_1(part) for part in (predir, joined, suftype, sufdir)]
    if any(is_changed for _, is_changed in parts):
        losses.append(Loss.LETTERS)
    if len(parts[1][0]) > NAME_LENGTH:
        losses.append(Loss.LONG_NAME)
    fitted = Name(*(text for text, _ in parts))
    return fitted._replace(name=fitted.name[:NAME_LENGTH].rstrip()), tuple(losses)


def in_latin_1(text: str) -> tuple[str, bool]:
    """Returns a text in letters of Latin-1, and whether it had others. A letter loses its accents, or is a question mark."""
    if text.isascii():
        return text, False
    composed = unicodedata.normalize("NFC", text)
    letters = [letter if letter < "\u0100" else _plain(letter) for letter in composed]
    return "".join(letters), any(letter > "\u00ff" for letter in composed)


def _plain(letter: str) -> str:
    first = unicodedata.normalize("NFKD", letter)[0]
    return first if first < "\u0100" else "?"


def fit_place(name: str, code: str, losses: Losses) -> str:
    """Returns the name of a place as record type C has it."""
    text, is_changed = in_latin_1(name.strip())
    if is_changed:
        losses.add(Loss.LETTERS, code)
    if len(text) > PLACE_LENGTH:
        losses.add(Loss.LONG_PLACE, code)
    return text[:PLACE_LENGTH].rstrip()
