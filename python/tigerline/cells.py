"""Writes CSV files, also without cells that a spreadsheet takes for formulas."""

import csv
import re
from collections.abc import Iterable
from pathlib import Path

from .interrupts import Interrupts

MARK = "'"
# A number with a sign isn't a formula.
_FORMULA = re.compile(r"[=@\t\r]|[+-](?![0-9]*\.?[0-9]*$)")
# Cells of a table, but only the quoted ones and those that begin as a formula may.
_CELL = re.compile(rb'"(?:[^"]|"")*"|(?<![^,\n])[=@\t\r+-][^,\n]*')


def safe_cell(cell: str) -> str:
    """Returns a cell with an apostrophe before it if it may be a formula."""
    return MARK + cell if _FORMULA.match(cell) else cell


def write_csv(
    path: Path,
    rows: Iterable[Iterable[object]],
    interrupts: Interrupts,
    *,
    safe_cells: bool = False,
    quotes_all: bool = False,
) -> None:
    """Writes rows to a file in UTF-8."""
    with open(path, "w", encoding="utf-8", errors="replace", newline="") as file:
        quoting = csv.QUOTE_ALL if quotes_all else csv.QUOTE_MINIMAL
        writer = csv.writer(file, quoting=quoting, lineterminator="\n")
        for row in rows:
            interrupts.check()
            writer.writerow([safe_cell(cell) if isinstance(cell, str) else cell for cell in row] if safe_cells else row)


def safe_table(table: bytes) -> bytes:
    """Returns a table of `extractd` with safe cells."""
    return _CELL.sub(_safe, table)


def _safe(found: re.Match[bytes]) -> bytes:
    cell = found[0].decode(errors="replace")
    is_quoted = cell.startswith('"')
    text = cell[1:] if is_quoted else cell
    return found[0] if safe_cell(text) == text else f'"{MARK}{text}'.encode() if is_quoted else MARK.encode() + found[0]
