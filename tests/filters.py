"""Compares filters with SQL: draws filters, and runs each by `extractd select` and by SQLite.

The counties have a few hundred segments, with blank fields, fields without a number, alternate names and further ranges. Each segment is also a row of a
table in SQLite, and each filter is also an SQL expression. SQL has the same three-valued logic as CQL2. `select` must write the rows of the segments that
SQLite selects, byte for byte. A few filters have a number that may be too great, or is too deep; `select` must refuse those. Whether a segment meets a
shape is computed by whole numbers, with which shapely has to agree (filter_outlines.py).
"""

import re
import sqlite3
import subprocess
from collections.abc import Callable
from pathlib import Path
from random import Random
from typing import NamedTuple

from filter_counties import NUMERIC, Column, County, chance
from filter_dice import FilterDice
from filter_numbers import NUMBER_RANGE, TOO_DEEP
from filter_outlines import MappedCounty
from filter_terms import WHITE_SPACE

CODES = ("00001", "00002")
REFUSALS = {NUMBER_RANGE: b"NumberRange", TOO_DEEP: b"TooDeep"}

# ---- Texts

KEYWORDS = set(
    "AND OR NOT TRUE FALSE IS NULL LIKE BETWEEN IN DIV CASEI ACCENTI HAS_NUMBER HAS_NAME STARTS_IN BBOX "
    "S_INTERSECTS S_DISJOINT S_WITHIN POINT LINESTRING POLYGON MULTIPOLYGON".split()
)


def is_name_byte(character: str) -> bool:
    return character.isascii() and (character.isalnum() or character == "_")


def spelled(dice: Random, tokens: list[str]) -> str:
    """Writes tokens with single blanks between them, or with white space only where it is needed and in a few other places."""
    if chance(dice, 60):
        return " ".join(tokens)
    text = ""
    for token in tokens:
        is_parted = text and is_name_byte(text[-1]) and is_name_byte(token[0])
        text += dice.choice(WHITE_SPACE) if is_parted or chance(dice, 20) else ""
        text += dice.choice((token.capitalize(), token.lower(), token.upper())) if token.upper() in KEYWORDS else token
    return text


class Trial(NamedTuple):
    """A filter and a score, the counties to try them on, and the expected rows, or the refusals of which one is expected."""

    text: str
    score: Column | None
    codes: list[str]
    rows: bytes
    refusals: frozenset[int]

    def command(self, folder: Path) -> list[bytes]:
        score = ["--score", self.score.name] if self.score else []
        words = ["extractd", "select", f"--where={self.text}", *score, "--data", str(folder), *self.codes]
        return [word.encode() for word in words]

    def is_expected(self, ran: subprocess.CompletedProcess[bytes]) -> bool:
        if not self.refusals:
            return ran.returncode == 0 and ran.stdout == self.rows and not ran.stderr
        lines = [b"refused %d line [0-9]+ column [0-9]+ %s\n" % (number, REFUSALS[number]) for number in self.refusals]
        return ran.returncode == 1 and not ran.stdout and any(re.match(line, ran.stderr) for line in lines)

    def difference(self, folder: Path) -> str | None:
        """Returns how the program's rows differ from the expected ones, or None."""
        ran = subprocess.run(self.command(folder), stdin=subprocess.DEVNULL, capture_output=True)
        if self.is_expected(ran):
            return None
        wanted, written = lines_of(self.rows), lines_of(ran.stdout)
        shown = [
            f"FAILED: {self.text!r}",
            f"    of {' '.join(self.codes)}, with the score {self.score.name if self.score else None}",
            f"    status {ran.returncode} {ran.stderr.decode(errors='replace').strip()}",
            *(f"    must be refused {number}" for number in sorted(self.refusals)),
            *(f"    missing {row!r}" for row in wanted if row not in written),
            *(f"    unexpected {row!r}" for row in written if row not in wanted),
        ]
        return "\n".join(shown[:9])


def lines_of(rows: bytes) -> list[bytes]:
    return rows.split(b"\n")


class Makers(NamedTuple):
    """What makes counties, and filters about one of them."""

    county: Callable[[Random, str], County] = MappedCounty
    dice: Callable[[Random, County], FilterDice] = FilterDice


def draw_trial(dice: Random, makers: Makers, counties: list[County]) -> Trial:
    drawn = makers.dice(dice, dice.choice(counties)).filter()
    score = dice.choice(NUMERIC) if chance(dice, 30) else None
    asked = dice.sample(counties, dice.randint(1, len(counties)))
    try:
        rows = b"" if drawn.refusals else b"".join(county.rows(drawn.sql, score) for county in asked)
    except sqlite3.OperationalError as error:
        if "parser stack overflow" not in str(error):
            raise
        return draw_trial(dice, makers, counties)  # SQLite takes fewer nested parentheses than a filter may have.
    return Trial(spelled(dice, drawn.tokens), score, [county.code for county in asked], rows, drawn.refusals)


def draw_trials(dice: Random, makers: Makers, count: int, folder: Path) -> list[Trial]:
    """Draws filters on a pair of counties, whose files are written to a folder."""
    counties = [makers.county(dice, code) for code in CODES]
    for county in counties:
        county.write(folder)
    return [draw_trial(dice, makers, counties) for _ in range(count)]
