"""Cells that a spreadsheet takes for formulas."""

import csv
from pathlib import Path

import pytest
from tigerline.cells import safe_cell, safe_table, write_csv
from tigerline.interrupts import Interrupts

CELLS = [
    ("=1+1", "'=1+1"),
    ("@SUM(A1)", "'@SUM(A1)"),
    ("+A1", "'+A1"),
    ("-2+3", "'-2+3"),
    ("-", "-"),
    ("\tx", "'\tx"),
    ("\rx", "'\rx"),
    ("-86.7", "-86.7"),
    ("+032400000", "+032400000"),
    ("A=1", "A=1"),
    ("", ""),
    ("'=1", "'=1"),
]


@pytest.mark.parametrize(("cell", "expected"), CELLS)
def test_cells(cell: str, expected: str) -> None:
    assert safe_cell(cell) == expected


@pytest.mark.parametrize(("safe_cells", "expected"), [(True, "'=1,5,x,\n"), (False, "=1,5,x,\n")])
def test_file(tmp_path: Path, safe_cells: bool, expected: str) -> None:
    write_csv(tmp_path / "a.csv", [["=1", 5, "x", None]], Interrupts(), safe_cells=safe_cells)
    assert (tmp_path / "a.csv").read_text() == expected


@pytest.mark.parametrize(
    ("table", "expected"),
    [
        (
            b'1,=1+1,"=a,b","x,=y",-86.7,"LINESTRING (-86.7 32.4,-86.6 32.5)"\n',
            ["1", "'=1+1", "'=a,b", "x,=y", "-86.7"],
        ),
        (b'1,"say ""=1"", please",+A1\n', ["1", 'say "=1", please', "'+A1"]),
        (b'=1,"=""a"""\n', ["'=1", '\'="a"']),
        (b"1,a-b,\n", ["1", "a-b", ""]),
    ],
)
def test_tables(table: bytes, expected: list[str]) -> None:
    rows = list(csv.reader(safe_table(table).decode().splitlines()))
    assert [cell for cell in rows[0] if not cell.startswith("LINESTRING")] == expected
    assert safe_table(table * 3) == safe_table(table) * 3
