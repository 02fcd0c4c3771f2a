"""Reads addresses from CSV files: as the Census Bureau's batch geocoder takes them, with a head line, or as lines."""

import warnings
from collections.abc import Iterator, Mapping, Sequence
from dataclasses import dataclass, field, replace
from typing import NamedTuple

from ..interrupts import Interrupts
from .one_line import parts_of
from .table_input import TableFile, key_of

WHOLE_LINE = "\x1f"  # a delimiter that no file has


class Address(NamedTuple):
    """An address: its id, the street with the house number, and the rest."""

    id: str
    street: str
    city: str = ""
    state: str = ""
    zip: str = ""


COLUMNS = Address._fields
ONE_LINE_COLUMNS = ("id", "address")
_IDS = ("id", "uniqueid", "addressid", "recordid", "objectid", "key", "fid")
# The usual names of columns, without blanks and punctuation.
USUAL_NAMES: Mapping[str, Sequence[str]] = {
    "id": _IDS,
    "street": (
        "street", "streetaddress", "address", "address1", "addressline1", "addressline", "streetline1", "street1",
        "addr", "addr1", "line1", "siteaddress", "propertyaddress", "mailingaddress",
    ),
    "city": ("city", "town", "cityname", "citytown", "municipality", "locality", "placename", "place"),
    "state": ("state", "statecode", "stateabbreviation", "stateabbr", "statename", "stateprovince", "st"),
    "zip": ("zip", "zipcode", "zip5", "zipcode5", "postcode", "postalcode", "postal", "zippostalcode", "zippostcode"),
}  # fmt: skip
USUAL_ONE_LINE_NAMES: Mapping[str, Sequence[str]] = {
    "id": _IDS,
    "address": (
        "address", "fulladdress", "onelineaddress", "singlelineaddress", "singleline", "oneline", "wholeaddress",
        "completeaddress", "location", "siteaddress", "propertyaddress", "mailingaddress",
    ),
}  # fmt: skip


@dataclass(frozen=True)
class AddressFile:
    """A CSV file of addresses.

    With a head line, `named` has names of columns that were given, and the others are found by their usual names. An
    address on one line is in the column `address`; without a head line and a delimiter it is the whole line.
    """

    table: TableFile
    has_head: bool = False
    is_one_line: bool = False
    named: Mapping[str, str] = field(default_factory=dict)

    def addresses(self, interrupts: Interrupts) -> Iterator[Address]:
        """Yields the addresses. Raises OSError with the line's number if a line isn't an address."""
        columns = self._columns()
        count, places = len(columns), {name: at for at, name in enumerate(columns)}
        for at, (line, row) in enumerate(self._table(count).rows(interrupts)):
            if at == 0 and self.has_head:
                count, places = len(row), self._places(row, line)
                continue
            while len(row) > count and not row[-1].strip():
                row.pop()
            is_head = at == 0 and _looks_like_head(row)
            if len(row) != count:
                raise OSError(f"{self.table.name}: line {line} has {self._wrong_count(row, count, is_head)}")
            if is_head:
                warnings.warn(
                    f"{self.table.name}: line {line} was taken for an address; is it a head line (--header)?",
                    stacklevel=2,
                )
            yield self._address(row, line, places)

    def _columns(self) -> tuple[str, ...]:
        """Returns the columns of a file without a head line."""
        if not self.is_one_line:
            return COLUMNS
        return ONE_LINE_COLUMNS if self.table.delimiter else ONE_LINE_COLUMNS[1:]

    def _table(self, count: int) -> TableFile:
        if self.has_head:
            return self.table
        is_whole_line = self.is_one_line and not self.table.delimiter
        return replace(self.table, columns=(count,), delimiter=WHOLE_LINE if is_whole_line else self.table.delimiter)

    def _places(self, head: list[str], line: int) -> dict[str, int]:
        """Returns the places of the columns of an address in the rows."""
        usual, required = (USUAL_ONE_LINE_NAMES, "address") if self.is_one_line else (USUAL_NAMES, "street")
        places = self.table.places(head, line, usual, self.named)
        if required not in places:
            raise OSError(
                f"{self.table.name}: line {line}, the head line, has no column {required}, but {', '.join(head)}: "
                f"name it by --columns {required}=NAME"
            )
        return places

    def _wrong_count(self, row: list[str], count: int, is_head: bool) -> str:
        """Returns what is wrong with a row that has another number of columns, and what helps."""
        found = _counted(len(row))
        if self.has_head:
            return f"{found}, not {count} as the head line"
        columns = self._columns()
        expected = f"{found}, not {count}: {', '.join(columns[:-1])} and {columns[-1]}"
        if is_head:
            return f"{expected}; it looks like a head line (--header)"
        if len(row) == 1:
            return f"{expected}; is it a whole address (--one-line), or the delimiter another one (--delimiter)?"
        if len(row) > count:
            return f"{expected}; a cell with the delimiter in it needs quotation marks"
        return expected

    def _address(self, row: list[str], line: int, places: Mapping[str, int]) -> Address:
        """Returns the address of a row. Without an id, the line's number is the id."""
        cells = {name: row[at] for name, at in places.items()}
        identifier = cells.get("id", str(line))
        if self.is_one_line:
            return Address(identifier, *parts_of(cells["address"]))
        return Address(identifier, *(cells.get(name, "") for name in COLUMNS[1:]))


def _looks_like_head(row: Sequence[str]) -> bool:
    """Returns whether a row without a house number has the usual name of a street's or of an address's column."""
    usual = {*USUAL_NAMES["street"], *USUAL_ONE_LINE_NAMES["address"]}
    return any(key_of(cell) in usual for cell in row)


def _counted(columns: int) -> str:
    return f"{columns} column{'' if columns == 1 else 's'}"
