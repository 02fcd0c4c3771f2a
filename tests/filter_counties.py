"""Counties for the comparison of filters with SQL: columns and their values, segments that are drawn, files and tables of them."""

import re
import sqlite3
import unicodedata
from collections.abc import Iterator
from enum import Enum
from pathlib import Path
from random import Random
from typing import NamedTuple

WORD = 1 << 64

# ---- Columns and their values


class Kind(Enum):
    NUMBER = "number"
    COORDINATE = "coordinate"
    TEXT = "text"


class Column(NamedTuple):
    """A column with its first and last place in record type 1, counted from 1."""

    name: str
    kind: Kind
    first: int
    last: int

    @property
    def width(self) -> int:
        return self.last - self.first + 1

    @property
    def is_right_justified(self) -> bool:
        """Whether it is a house number as a text. The columns of their numbers have the same fields."""
        return self.name.endswith("_TEXT")

    def field(self, line: bytes) -> bytes:
        return line[self.first - 1 : self.last]

    def value(self, line: bytes) -> int | str | None:
        """Returns the column's value in a record, or None for NULL."""
        if self.kind is Kind.TEXT:
            return text_of(self.field(line).lstrip(b" ") if self.is_right_justified else self.field(line))
        return number_of(self.field(line)) if self.kind is Kind.NUMBER else coordinate_of(self.field(line))


LAYOUT = """
TLID number 6 15; FRADDL number 59 69; TOADDL number 70 80; FRADDR number 81 91; TOADDR number 92 102; ZIPL number 107 111; ZIPR number 112 116;
STATEL number 131 132; STATER number 133 134; COUNTYL number 135 137; COUNTYR number 138 140; PLACEL number 161 165; PLACER number 166 170;
TRACTL number 171 176; TRACTR number 177 182; BLOCKL number 183 186; BLOCKR number 187 190;
FRLONG coordinate 191 200; FRLAT coordinate 201 209; TOLONG coordinate 210 219; TOLAT coordinate 220 228;
RT text 1 1; VERSION text 2 5; SIDE1 text 16 16; SOURCE text 17 17; FEDIRP text 18 19; FENAME text 20 49; FETYPE text 50 53; FEDIRS text 54 55;
CFCC text 56 58; FRADDL_TEXT text 59 69; TOADDL_TEXT text 70 80; FRADDR_TEXT text 81 91; TOADDR_TEXT text 92 102;
FRIADDL text 103 103; TOIADDL text 104 104; FRIADDR text 105 105; TOIADDR text 106 106; COUSUBL text 141 145; COUSUBR text 146 150
"""


def read_layout() -> list[Column]:
    rows = (row.split() for row in LAYOUT.split(";"))
    return [Column(name, Kind(kind), int(first), int(last)) for name, kind, first, last in rows]


COLUMNS = read_layout()
BY_NAME = {column.name: column for column in COLUMNS}
TEXTS = [column for column in COLUMNS if column.kind is Kind.TEXT]
NUMERIC = [column for column in COLUMNS if column.kind is not Kind.TEXT]
FIELDS = [column for column in COLUMNS if not column.is_right_justified]
# The address fields of record types 1 and 6, in order.
RANGE_FIELDS = ("FRADDL", "TOADDL", "FRADDR", "TOADDR")


def number_of(field: bytes) -> int | None:
    digits = field.strip(b" ")
    return int(digits) if re.fullmatch(rb"[0-9]{1,11}", digits) else None


def coordinate_of(field: bytes) -> int | None:
    """Returns millionths of a degree. 0 is NULL."""
    digits = field.strip(b" ")
    return (int(digits) or None) if re.fullmatch(rb"[+-]?[0-9]{1,9}", digits) else None


def text_of(field: bytes) -> str | None:
    return field.rstrip(b" ").decode("latin-1") or None


# ---- Letters that are the same but for their case or their diacritics


def without_case(text: str | None) -> str | None:
    """Folds all letters of Latin-1, as CASEI does. The capitals of ÿ and µ aren't in Latin-1, and ß has none."""
    return None if text is None else text.lower()


def unaccented(character: str) -> str:
    """Takes the diacritic off. Unicode has none on Ø, Æ, Ð, Þ and ß."""
    return unicodedata.normalize("NFD", character)[0]


def without_accents(text: str | None) -> str | None:
    """Takes the diacritics off, as ACCENTI does."""
    return None if text is None else "".join(map(unaccented, text))


def read_families() -> dict[str, str]:
    """Returns the letters of Latin-1 that are the same but for their diacritics, by each of them."""
    families: dict[str, str] = {}
    for letter in filter(str.isalpha, map(chr, range(256))):
        base = unaccented(letter)
        families[base] = families.get(base, "") + letter
    return {letter: family for family in families.values() for letter in family}


FAMILIES = read_families()
LOOKALIKES = dict(zip("ØøÆæÐðµ", "OoAaDdu"))
# Characters that CASEI or ACCENTI may mistake for others, and those others.
MISTAKABLE = "×÷ßÿÞþØøÆæÐðµ"


def swapped(text: str) -> str:
    """Swaps capital and small letters, except those whose other case isn't a character of Latin-1."""
    others = ((character, character.swapcase()) for character in text)
    return "".join(other if len(other) == 1 and other <= "\xff" else character for character, other in others)


def reaccented(dice: Random, text: str) -> str:
    """Draws other diacritics, or none, for some letters."""
    return "".join(
        dice.choice(FAMILIES.get(character, character)) if chance(dice, 60) else character for character in text
    )


def mistaken(character: str) -> str:
    """Returns a character that only a mistake takes for the same: a letter without what no diacritic is, or a code that differs as those of letters do."""
    return LOOKALIKES.get(character, chr(ord(character) ^ 32))


# ---- Counties

# Characters that fields often have, and some that a literal can't have.
USUAL = "aAbBmMnNzZ059 '%_\\-.\"~¡\xa0" + "aeiouyncAEIOUYNCàÁâãÄåçÇÈéÉêëìÍîñÑòÓôõÖøØùÚÛüýÝÿßæÆðÐþÞµ×÷"
UNSPELLABLE = "\t\r\x01\x1f\x7f\x80\x9f"
# What the texts of a column consist of.
ALPHABETS = (USUAL, USUAL, USUAL, "an", "Aàn ", MISTAKABLE + "[{@`yYý")
FAULTY_NUMBERS = ("1 2", "1-4", "x", "+5", "-1", "5.")
HOUSE_NUMBER_ENDS = ("-20", "-20", "-2", "-20A", "A", "B", "b", " 1/2")
FAULTY_COORDINATES = ("+", "+-1", "86.5", "1 1", "12x", "+0", "-000000", "0")
EXTREME_COORDINATES = ("999999999", "-99999999", "-999999999")
ALTERNATE_NAMES = (0, 0, 0, 0, 1, 2, 3, 5, 8)
MANY_NAMES = (62, 63, 64, 65, 90)
FURTHER_RANGES = (0, 0, 0, 0, 1, 2, 4, 7)
MANY_RANGES = (15, 16, 31, 64)


def chance(dice: Random, percent: int) -> bool:
    return dice.randrange(100) < percent


def justified(dice: Random, text: str, width: int) -> str:
    """Pads with blanks on the left, as the Bureau's files do, or now and then on the right or on both sides."""
    if chance(dice, 80):
        return text.rjust(width)
    return text.ljust(width) if chance(dice, 50) else text.center(width)


def draw_number(dice: Random, width: int) -> str:
    if chance(dice, 15):
        return " " * width
    if chance(dice, 8):
        return dice.choice(FAULTY_NUMBERS)[:width].rjust(width)
    digits = "9" * min(width, 11) if chance(dice, 4) else str(dice.randrange(10 ** dice.randint(1, min(width, 11))))
    return digits.zfill(width) if chance(dice, 15) else justified(dice, digits, width)


def draw_house_number(dice: Random) -> str:
    """Draws a house number, now and then one with a hyphen, a letter or a fraction, which is a text only."""
    if chance(dice, 25):
        return justified(dice, f"{dice.randrange(60)}{dice.choice(HOUSE_NUMBER_ENDS)}", 11)
    return justified(dice, str(dice.randrange(60)), 11) if chance(dice, 70) else draw_number(dice, 11)


def draw_coordinate(dice: Random, column: Column) -> str:
    if chance(dice, 15):
        return " " * column.width
    if chance(dice, 8):
        return dice.choice(FAULTY_COORDINATES)[: column.width].rjust(column.width)
    if chance(dice, 2):
        return dice.choice(EXTREME_COORDINATES)[: column.width].rjust(column.width)
    middle = -86_500_000 if column.name.endswith("LONG") else 32_500_000
    millionths = middle + dice.randrange(-9, 10) * 10 ** dice.randrange(6)
    return justified(dice, str(millionths), column.width) if chance(dice, 20) else f"{millionths:+0{column.width}d}"


def draw_texts(dice: Random, width: int, count: int, stems: list[str]) -> list[str]:
    """Draws texts of a column. Many of them begin alike, or as one of the stems does."""
    texts: list[str] = []
    while len(texts) < count:
        stem = dice.choice(texts + stems) if texts + stems and chance(dice, 60) else ""
        stem = swapped(stem) if chance(dice, 20) else stem
        stem = reaccented(dice, stem) if chance(dice, 20) else stem
        characters = USUAL + UNSPELLABLE if chance(dice, 10) else dice.choice(ALPHABETS)
        more = "".join(dice.choices(characters, k=dice.randint(0, width)))
        text = (stem[: dice.randint(0, width)] + more)[:width]
        texts.append("" if chance(dice, 15) else text)
    return texts


class Segment(NamedTuple):
    """A record of type 1, its alternate names, and the address fields of each further range."""

    line: bytes
    names: list[str]
    ranges: list[list[str]]


class Pools:
    """The values of a county's segments. Many segments have the same ones, and so have many columns."""

    def __init__(self, dice: Random) -> None:
        self.dice = dice
        self.names = draw_texts(dice, 30, 12, [])
        self.numbers = [str(dice.randrange(100)) for _ in range(4)]
        self.fields = {column.name: self.draw_fields(column) for column in FIELDS}

    def draw_fields(self, column: Column) -> list[str]:
        count = self.dice.randint(2, 12)
        if column.name in RANGE_FIELDS:
            return [draw_house_number(self.dice) for _ in range(20)]
        if column.name == "RT":
            return ["1"]
        if column.name == "FENAME":
            return self.names
        if column.kind is Kind.TEXT:
            return draw_texts(self.dice, column.width, count, self.names)
        if column.kind is Kind.COORDINATE:
            return [draw_coordinate(self.dice, column) for _ in range(count)]
        shared = self.dice.sample(self.numbers, 2)
        return [draw_number(self.dice, column.width) for _ in range(count)] + [
            digits.rjust(column.width) for digits in shared
        ]

    def record(self, tlid: int) -> bytes:
        line = [" "] * 228
        for column in FIELDS:
            text = str(tlid).rjust(10) if column.name == "TLID" else self.dice.choice(self.fields[column.name])
            line[column.first - 1 : column.last] = text.ljust(column.width)
        for start, end in (("FRLONG", "TOLONG"), ("FRLAT", "TOLAT")):
            if chance(self.dice, 20):
                line[BY_NAME[end].first - 1 : BY_NAME[end].last] = line[BY_NAME[start].first - 1 : BY_NAME[start].last]
        return "".join(line).encode("latin-1")

    def segment(self, tlid: int) -> Segment:
        names = self.dice.choice(MANY_NAMES if chance(self.dice, 3) else ALTERNATE_NAMES)
        ranges = self.dice.choice(MANY_RANGES if chance(self.dice, 3) else FURTHER_RANGES)
        return Segment(
            self.record(tlid),
            self.dice.choices(self.names, k=names),
            [[draw_house_number(self.dice) for _ in RANGE_FIELDS] for _ in range(ranges)],
        )


class County:
    """The segments of a county, as its four files and as tables."""

    def __init__(self, dice: Random, code: str) -> None:
        self.code = code
        self.pools = Pools(dice)
        tlids = sorted(dice.sample(range(1, 10 ** dice.randint(4, 10)), dice.randint(50, 300)))
        self.segments = [self.pools.segment(tlid) for tlid in tlids]
        self.feats = {name: number for number, name in enumerate(dict.fromkeys(self.pools.names), 7)}
        self.database = database_of(self.segments)

    def type_4(self) -> Iterator[str]:
        for segment in self.segments:
            feats = [f"{self.feats[name]:8}" for name in segment.names]
            for at in range(0, len(feats), 5):
                yield f"40006{segment.line[5:15].decode()}  1{''.join(feats[at : at + 5]):40}"

    def type_5(self) -> Iterator[str]:
        for name, feat in self.feats.items():
            yield f"50006{self.code}{feat:8}  {name:30}      "

    def type_6(self) -> Iterator[str]:
        for segment in self.segments:
            for fields in segment.ranges:
                yield f"60006{segment.line[5:15].decode()}  1{''.join(fields)}{'':14}"

    def write(self, folder: Path) -> None:
        type_1 = (segment.line.decode("latin-1") for segment in self.segments)
        for number, lines in (("1", type_1), ("4", self.type_4()), ("5", self.type_5()), ("6", self.type_6())):
            text = "".join(line + "\r\n" for line in lines)
            (folder / f"TGR{self.code}.RT{number}").write_bytes(text.encode("latin-1"))

    def number(self, sql: str, identity: int) -> int | None:
        """Returns the value of a numeric expression on a segment."""
        ((value,),) = self.database.execute(f"SELECT {sql} FROM segments WHERE id = ?", (identity,))
        return value if isinstance(value, int) else None

    def rows(self, sql: str, score: Column | None) -> bytes:
        """Returns the rows of the segments for which an expression is true."""
        selected = self.database.execute(f"SELECT id FROM segments WHERE {sql} ORDER BY id")
        return b"".join(row_of(self.segments[identity].line, score) for (identity,) in selected)


def row_of(line: bytes, score: Column | None) -> bytes:
    value = score.value(line) if score else None
    return b"%d\t%s\n" % (value % WORD if isinstance(value, int) else 0, line)


def database_of(segments: list[Segment]) -> sqlite3.Connection:
    """Returns the segments as a table, with two more tables for their names and the sides of their ranges."""
    database = sqlite3.connect(":memory:")
    database.execute("PRAGMA case_sensitive_like = ON")
    database.create_function("casei", 1, without_case, deterministic=True)
    database.create_function("accenti", 1, without_accents, deterministic=True)
    database.execute(f"CREATE TABLE segments (id INTEGER PRIMARY KEY, {', '.join(column.name for column in COLUMNS)})")
    database.execute("CREATE TABLE names (segment, number, name)")
    database.execute("CREATE TABLE sides (segment, start, finish)")
    for identity, segment in enumerate(segments):
        values = [identity, *(column.value(segment.line) for column in COLUMNS)]
        database.execute(f"INSERT INTO segments VALUES ({', '.join('?' * len(values))})", values)
        names = [BY_NAME["FENAME"].value(segment.line), *(name.rstrip(" ") for name in segment.names)]
        database.executemany(
            "INSERT INTO names VALUES (?, ?, ?)", ((identity, number, name) for number, name in enumerate(names))
        )
        own = [BY_NAME[name].field(segment.line) for name in RANGE_FIELDS]
        further = (field.encode() for fields in segment.ranges for field in fields)
        numbers = [number_of(field) for field in (*own, *further)]
        sides = ((identity, start, finish) for start, finish in zip(numbers[::2], numbers[1::2]))
        database.executemany("INSERT INTO sides VALUES (?, ?, ?)", sides)
    for table in ("names", "sides"):
        database.execute(f"CREATE INDEX {table}_of_segment ON {table} (segment)")
    return database
