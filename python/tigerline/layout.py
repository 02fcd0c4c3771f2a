"""The fields of record type 1 (docs/records.md) and a row of them, and the numbers and coordinates in fields."""

import re
from enum import Enum
from typing import Annotated, NamedTuple, get_args

RECORD_LENGTH = 228

# The fields of the other record types with their places, and lengths of lines. Those of type C are TIGER/Line's own.
_OTHER_LAYOUTS = {
    "2": "RT 1, VERSION 2-5, TLID 6-15, RTSQ 16-18, "
    + ", ".join(
        f"LONG{at + 1} {19 * at + 19}-{19 * at + 28}, LAT{at + 1} {19 * at + 29}-{19 * at + 37}" for at in range(10)
    ),
    "4": "RT 1, VERSION 2-5, TLID 6-15, RTSQ 16-18, FEAT1 19-26, FEAT2 27-34, FEAT3 35-42, FEAT4 43-50, FEAT5 51-58",
    "5": "RT 1, VERSION 2-5, FILE 6-10, FEAT 11-18, FEDIRP 19-20, FENAME 21-50, FETYPE 51-54, FEDIRS 55-56",
    "6": "RT 1, VERSION 2-5, TLID 6-15, RTSQ 16-18, FRADDL 19-29, TOADDL 30-40, FRADDR 41-51, TOADDR 52-62, "
    "FRIADDL 63, TOIADDL 64, FRIADDR 65, TOIADDR 66, ZIPL 67-71, ZIPR 72-76",
    "C": "RT 1, VERSION 2-5, FILE 6-10, DATAYR 11-14, FIPS 15-19, ENTITY 25, NAME 63-122",
}


def _places(text: str) -> dict[str, slice]:
    rows = [row.replace("-", " ").split() for row in text.split(", ")]
    return {name: slice(int(places[0]) - 1, int(places[-1])) for name, *places in rows}


class Kind(Enum):
    """How a field is read. In filters, TEXT columns are texts and the others are numbers or coordinates."""

    NUMBER = "number"
    TEXT = "text"
    CODE = "code"
    COORDINATE = "coordinate"


class Field(NamedTuple):
    """A field of record type 1. Places are counted from 1 and include both ends."""

    name: str
    first: int
    last: int
    kind: Kind

    @property
    def bytes(self) -> slice:
        """The field's bytes in a record."""
        return slice(self.first - 1, self.last)


class Row(NamedTuple):
    """A selected segment: its county, its score, and the fields of record type 1 by their TIGER names.

    Codes and house numbers are strings, since they may have leading zeros or hyphens. Coordinates are in degrees, in
    NAD 83. None is a missing value. Each field has its first and last place and how it is read.
    """

    county: str
    score: int
    RT: Annotated[str | None, 1, 1, Kind.TEXT]
    VERSION: Annotated[str | None, 2, 5, Kind.TEXT]
    TLID: Annotated[int | None, 6, 15, Kind.NUMBER]
    SIDE1: Annotated[str | None, 16, 16, Kind.TEXT]
    SOURCE: Annotated[str | None, 17, 17, Kind.TEXT]
    FEDIRP: Annotated[str | None, 18, 19, Kind.TEXT]
    FENAME: Annotated[str | None, 20, 49, Kind.TEXT]
    FETYPE: Annotated[str | None, 50, 53, Kind.TEXT]
    FEDIRS: Annotated[str | None, 54, 55, Kind.TEXT]
    CFCC: Annotated[str | None, 56, 58, Kind.TEXT]
    FRADDL: Annotated[str | None, 59, 69, Kind.CODE]
    TOADDL: Annotated[str | None, 70, 80, Kind.CODE]
    FRADDR: Annotated[str | None, 81, 91, Kind.CODE]
    TOADDR: Annotated[str | None, 92, 102, Kind.CODE]
    FRIADDL: Annotated[str | None, 103, 103, Kind.TEXT]
    TOIADDL: Annotated[str | None, 104, 104, Kind.TEXT]
    FRIADDR: Annotated[str | None, 105, 105, Kind.TEXT]
    TOIADDR: Annotated[str | None, 106, 106, Kind.TEXT]
    ZIPL: Annotated[str | None, 107, 111, Kind.CODE]
    ZIPR: Annotated[str | None, 112, 116, Kind.CODE]
    STATEL: Annotated[str | None, 131, 132, Kind.CODE]
    STATER: Annotated[str | None, 133, 134, Kind.CODE]
    COUNTYL: Annotated[str | None, 135, 137, Kind.CODE]
    COUNTYR: Annotated[str | None, 138, 140, Kind.CODE]
    COUSUBL: Annotated[str | None, 141, 145, Kind.TEXT]
    COUSUBR: Annotated[str | None, 146, 150, Kind.TEXT]
    PLACEL: Annotated[str | None, 161, 165, Kind.CODE]
    PLACER: Annotated[str | None, 166, 170, Kind.CODE]
    TRACTL: Annotated[str | None, 171, 176, Kind.CODE]
    TRACTR: Annotated[str | None, 177, 182, Kind.CODE]
    BLOCKL: Annotated[str | None, 183, 186, Kind.CODE]
    BLOCKR: Annotated[str | None, 187, 190, Kind.CODE]
    FRLONG: Annotated[float | None, 191, 200, Kind.COORDINATE]
    FRLAT: Annotated[float | None, 201, 209, Kind.COORDINATE]
    TOLONG: Annotated[float | None, 210, 219, Kind.COORDINATE]
    TOLAT: Annotated[float | None, 220, 228, Kind.COORDINATE]


FIELDS = tuple(Field(name, *hint.__metadata__) for name, hint in Row.__annotations__.items() if get_args(hint))
# The house numbers as texts, which only filters name.
HOUSE_NUMBER_TEXTS = tuple(
    field._replace(name=f"{field.name}_TEXT", kind=Kind.TEXT) for field in FIELDS if field.name[2:5] == "ADD"
)
NAMES = tuple(field.name for field in FIELDS)
PLACES = {field.name: field.bytes for field in FIELDS}
# The bytes of each field, by record type.
LAYOUTS = {"1": PLACES} | {record_type: _places(text) for record_type, text in _OTHER_LAYOUTS.items()}

_NUMBER = re.compile(r" *([0-9]{1,11}) *")
_COORDINATE = re.compile(r" *([+-]?[0-9]{1,9}) *")


def number(field: str) -> int | None:
    """Returns the number in a field, or None if there is none."""
    found = _NUMBER.fullmatch(field)
    return int(found[1]) if found else None


def coordinate(field: str) -> float | None:
    """Returns the coordinate in a field in degrees, or None if there is none."""
    found = _COORDINATE.fullmatch(field)
    return int(found[1]) / 1_000_000 if found else None


def text(field: str) -> str | None:
    """Returns a text, a code or a house number without blanks around it, or None if the field is blank."""
    return field.strip(" ") or None


def chosen_names(columns: list[str] | tuple[str, ...] | None) -> tuple[str, ...]:
    """Returns the names of the requested columns in capitals, each once; None means all.

    Raises ValueError if no column has such a name.
    """
    if columns is None:
        return NAMES
    names = tuple(dict.fromkeys(name.upper() for name in columns))
    for name in names:
        if name not in NAMES:
            raise ValueError(f"no column has the name {name}; the columns are {', '.join(NAMES)}")
    return names
