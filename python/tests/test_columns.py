"""Rows as columns and tables as tuples, with arbitrary bytes."""

from pathlib import Path
from tempfile import TemporaryDirectory

import pytest
from counties import JOINED
from tigerline import layout
from tigerline.extract import ALL_SEGMENTS, ROWS, Output, county_texts
from tigerline.interrupts import Interrupts
from tigerline.tuples import read_lines, read_rows
from tigerline.sources import County

pytest.importorskip("hypothesis", reason="no hypothesis")
pytest.importorskip("pandas", reason="no pandas")
import pandas as pd  # noqa: E402
from hypothesis import given, settings  # noqa: E402
from hypothesis import strategies as st  # noqa: E402
from tigerline import columns  # noqa: E402

TYPES = f"1{JOINED}"


def records_of(alphabet: bytes) -> st.SearchStrategy[bytes]:
    """Returns records of only these bytes."""
    table = bytes(alphabet[byte % len(alphabet)] for byte in range(256))
    return st.binary(min_size=228, max_size=228).map(lambda record: record.translate(table))


BYTES = records_of(bytes(byte for byte in range(256) if byte != 10))
FIELDS = records_of(b" 0123456789+-\t\r\0A\xff")
SPARSE = records_of(b"       0123456789-")
SCORES = st.sampled_from([0, 1, 9, 10, 2**31, 2**63 - 1, 2**63, 2**64 - 1]) | st.integers(0, 2**64 - 1)
ROWS_OF_ANY_BYTES = st.lists(st.tuples(SCORES, BYTES | FIELDS | SPARSE), max_size=12)


def encoded(rows: list[tuple[int, bytes]]) -> bytes:
    return b"".join(b"%d\t%s\n" % row for row in rows)


@settings(max_examples=100)
@given(ROWS_OF_ANY_BYTES)
def test_rows_are_split(rows: list[tuple[int, bytes]]) -> None:
    scores, records = columns.split(encoded(rows))
    assert scores.tolist() == [score for score, _ in rows]
    assert records.encode("latin-1") == b"".join(record for _, record in rows)


@settings(max_examples=60)
@given(st.lists(BYTES | FIELDS | SPARSE, min_size=1, max_size=12))
def test_columns_are_those_of_the_table(extractd: str, found: list[bytes]) -> None:
    """The fields that are read in Python are those of the program's table."""
    lines = [b"1%b%10d%b9\r\n" % (record[1:5], at, record[15:227]) for at, record in enumerate(found)]
    with TemporaryDirectory() as folder, Interrupts() as interrupts:
        files = {record_type: Path(folder) / f"TGR01001.RT{record_type}" for record_type in TYPES}
        for record_type, path in files.items():
            path.write_bytes(b"".join(lines) if record_type == "1" else b"")
        county = County("01001", Path(folder), files)
        rows, table = county_texts(extractd, ALL_SEGMENTS, county, [ROWS, Output(layout.NAMES)], interrupts).texts
    found_columns = columns.columns_of(columns.split(rows)[1], layout.NAMES)
    tuples = list(read_rows("01001", table, signed=False))
    for name in layout.NAMES:
        expected = [getattr(row, name) for row in tuples]
        assert [None if pd.isna(value) else value for value in found_columns[name]] == expected


@pytest.mark.parametrize(
    ("score", "signed"), [(0, 0), (2**63 - 1, 2**63 - 1), (2**63, -(2**63)), (2**64 - 1, -1)]
)
def test_signed_scores(score: int, signed: int) -> None:
    table = ",".join(("score", *layout.NAMES)) + f"\n{score}" + "," * len(layout.NAMES) + "\n"
    assert [[row.score for row in read_rows("01001", table.encode(), is_signed)] for is_signed in (False, True)] == [
        [score],
        [signed],
    ]


def test_lines() -> None:
    table = 'score,CFCC,WKT\n0,A41,"LINESTRING (-86.500000 32.400000,1.000000 2.000000)"\n7,"a"",b",\n'
    assert list(read_lines(table.encode(), ("CFCC",))) == [
        (0, ["A41"], ((-86.5, 32.4), (1.0, 2.0))),
        (7, ['a",b'], None),
    ]


def test_many_distinct_values() -> None:
    rows = [(index % 11, b"1" + b"%227d" % (index * 7919)) for index in range(5000)]
    scores, records = columns.split(encoded(rows))
    names = columns.columns_of(records, ("TOLAT", "BLOCKR", "FENAME"))
    assert [str(text) for text in names["BLOCKR"]] == ["<NA>"] * 5000
    assert names["TOLAT"].tolist() == [index * 7919 / 1e6 for index in range(5000)]
    assert scores.tolist() == [index % 11 for index in range(5000)]


@pytest.mark.parametrize(
    "rows",
    [
        b"0\t" + b"1" * 227 + b"\n",
        b"0\t" + b"1" * 229 + b"\n",
        b"0\t" + b"1" * 228,
        b"\t" + b"1" * 228 + b"\n",
        b"x\t" + b"1" * 228 + b"\n",
        b"0 " + b"1" * 228 + b"\n",
        b"\n",
        b"1" * 21 + b"\t" + b"1" * 228 + b"\n",
        b"0\t" + b"1" * 228 + b"\n\n",
        b"0\t" + b"1" * 100 + b"\n" + b"1" * 127 + b"\n",
    ],
)
def test_what_is_no_row(rows: bytes) -> None:
    good = b"0\t" + b"1" * 228 + b"\n"
    for text in (rows, good + rows, rows + good):
        with pytest.raises(OSError, match="extractd wrote something"):
            columns.split(text)


@pytest.mark.parametrize(
    "table",
    [
        "",
        "score,CFCC\n",
        "score,CFCC,WKT\n0,A41,",
        "score,CFCC,WKT\n0,A41\n",
        "score,CFCC,WKT\n0,A41,x\n",
        "score,CFCC,WKT\n,A41,\n",
        "score,CFCC,WKT\n-1,A41,\n",
        "score,CFCC,WKT\n0,A41,A42,\n",
        'score,CFCC,WKT\n0,"A41,\n',
        'score,CFCC,WKT\n0,A41,"LINESTRING (1 2,3 4\n',
    ],
)
def test_what_is_no_table(table: str) -> None:
    with pytest.raises(OSError, match="extractd wrote something that isn't a table"):
        list(read_lines(table.encode(), ("CFCC",)))
