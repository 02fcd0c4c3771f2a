"""Reads rows of `extractd` into columns of data frames."""

import re
from collections.abc import Callable
from typing import Any

import numpy as np
import pandas as pd

from .layout import FIELDS, RECORD_LENGTH, Field, Kind, coordinate, number, text

# A row is a score, a tab, a record and LF. A record may contain any other byte.
_ROW = re.compile(rb"([0-9]{1,20})\t([^\n]{%d})\n" % RECORD_LENGTH)
# How a field is read, and the type of its column.
_READ: dict[Kind, tuple[Callable[[str], object], str]] = {
    Kind.NUMBER: (number, "Int64"),
    Kind.TEXT: (text, "string"),
    Kind.CODE: (text, "string"),
    Kind.COORDINATE: (coordinate, "float64"),
}


def split(rows: bytes) -> tuple[Any, str]:
    """Returns the scores, and the records one after the other. Raises OSError if the data isn't rows."""
    found = _ROW.findall(rows)
    scores = [score for score, _ in found]
    if sum(map(len, scores)) + len(found) * (RECORD_LENGTH + 2) != len(rows):
        raise OSError("extractd wrote something that isn't rows")
    records = b"".join(record for _, record in found)
    return np.array([int(score) for score in scores], np.uint64), records.decode("latin-1")


def columns_of(records: str, names: tuple[str, ...]) -> dict[str, Any]:
    """Returns the named columns of the records: TLID as Int64, coordinates as floats, the others as strings."""
    fields = {field.name: field for field in FIELDS}
    return {name: _column(records, fields[name]) for name in names}


def _column(records: str, field: Field) -> Any:
    """Reads each distinct field once."""
    read, kind = _READ[field.kind]
    width = field.last - field.first + 1
    cells = [records[at : at + width] for at in range(field.first - 1, len(records), RECORD_LENGTH)]
    places = {cell: place for place, cell in enumerate(dict.fromkeys(cells))}
    return pd.array([read(cell) for cell in places], kind).take([places[cell] for cell in cells])
