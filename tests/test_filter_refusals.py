"""What `compile` says about filters that it refuses: the place, and the text that says why. Places count characters from 1."""

import subprocess
from pathlib import Path
from typing import NamedTuple

import pytest
from harness.program import TOP

# A filter; the refusal; the text below it.
TEXTS = r"""
FENAME = 'abc€'; 90 line 1 column 14 Syntax; expected a character of Latin-1
FENAME = 'é€'; 90 line 1 column 12 Syntax; expected a character of Latin-1
FENAME IN ('a', 'bc€'); 90 line 1 column 20 Syntax; expected a character of Latin-1
FENAME LIKE 'ab€%'; 90 line 1 column 16 Syntax; expected a character of Latin-1
FENAME LIKE 'a\€'; 90 line 1 column 16 Syntax; expected a character that the backslash makes literal
ZIPL + 1 IS NULL; 92 line 1 column 13 WrongType; the column isn't of this type
FENAME = CASEI('A'); 92 line 1 column 10 WrongType; CASEI and ACCENTI have to be on both sides, with =, <>, LIKE or IN
CASEI(FENAME) = 'A'; 92 line 1 column 17 WrongType; CASEI and ACCENTI have to be on both sides, with =, <>, LIKE or IN
FENAME BETWEEN 'a' AND 'b'; 92 line 1 column 8 WrongType; the column isn't of this type
ZIPL = '36067'; 92 line 1 column 8 WrongType; the column isn't of this type: write a number, without quotes
FENAME = "Main"; 90 line 1 column 10 Syntax; expected a text in single quotes: write single quotes, since double quotes are for the name of a column
"""
# The same of JSON, which gets no hint about the quotes of the text.
JSON = """
{"op":"=","args":[{"property":"FENAME"},{"property":"Main"}]}; 90 pointer /args/1/property Syntax; expected a text in single quotes
{"op":"=","args":[{"property":"ZIPL"},"36067"]}; 92 pointer /args/1 WrongType; the column isn't of this type: write a number, without quotes
"""


class Row(NamedTuple):
    """A filter, the option for its language, and all that its refusal says."""

    filter: str
    language: str
    said: str

    def __str__(self) -> str:
        return self.filter


def rows() -> list[Row]:
    split = [(line.split("; "), "cql2-text") for line in TEXTS.strip().splitlines()]
    split += [(line.split("; "), "cql2-json") for line in JSON.strip().splitlines()]
    return [Row(text, language, f"refused {refusal}\n{why}\n") for (text, refusal, why), language in split]


def compiled(text: str, language: str, folder: Path) -> subprocess.CompletedProcess[bytes]:
    (folder / "filter").write_text(text)
    command = ["extractd", "compile", "--filter", "filter", "--filter-lang", language]
    return subprocess.run(command, cwd=folder, capture_output=True)


@pytest.mark.parametrize("row", rows(), ids=str)
def test_refusal(row: Row, tmp_path: Path) -> None:
    done = compiled(row.filter, row.language, tmp_path)
    assert (done.returncode, done.stdout, done.stderr.decode()) == (1, b"", row.said)


@pytest.mark.parametrize("length", (59_999, 60_000, 1_048_576))
def test_long_text(length: int, tmp_path: Path) -> None:
    """A filter of up to 1,048,576 bytes is compiled, whatever its length."""
    done = compiled("TRUE".ljust(length), "cql2-text", tmp_path)
    assert (done.returncode, done.stderr) == (0, b"")
    assert done.stdout == compiled("TRUE", "cql2-text", tmp_path).stdout


@pytest.mark.parametrize("length", (59_999, 60_000, 130_000))
def test_long_argument(length: int) -> None:
    """It selects what a short one does. An argument may have 131,071 bytes."""
    command = ["extractd", "select", "--data", str(TOP / "examples"), "01001", "--where"]
    short, long = (subprocess.run([*command, text], capture_output=True) for text in ("TRUE", "TRUE".ljust(length)))
    assert (long.returncode, long.stderr) == (0, b"")
    assert long.stdout == short.stdout != b""
