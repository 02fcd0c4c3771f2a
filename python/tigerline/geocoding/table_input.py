"""Reads tables as people have them: CSV in several encodings and with several delimiters, from files and pipes."""

import codecs
import csv
import os
import select
import stat
import sys
from collections.abc import Iterator, Mapping, Sequence
from contextlib import contextmanager
from dataclasses import dataclass
from pathlib import Path

from ..interrupts import Interrupts
from ..scratch import rename_errors_to, scratch_folder

STANDARD_INPUT = "-"
CHUNK = 1 << 20
POLL = 0.1  # seconds
# Of equally good delimiters, the first is taken: commas are in texts more often than the others.
DELIMITERS = {"tab": "\t", "pipe": "|", "semicolon": ";", "comma": ","}


@dataclass(frozen=True)
class TableFile:
    """A CSV file: a regular file, its name in messages, its encoding and its delimiter.

    Without an encoding, a byte order mark says whether it is UTF-16, such as Excel's Unicode Text, or UTF-8, the
    default. Without a delimiter, the first line says which one it is. `columns` are the numbers of columns that the
    file may have.
    """

    path: Path
    name: str
    encoding: str | None = None
    delimiter: str | None = None
    columns: Sequence[int] = ()

    def rows(self, interrupts: Interrupts) -> Iterator[tuple[int, list[str]]]:
        """Yields the rows that aren't empty, with the lines in which they begin.

        Raises OSError with the line's number if a line isn't CSV or isn't in the encoding.
        """
        codec, line = self._codec(), 1
        try:
            with rename_errors_to(Path(self.name)), open(self.path, encoding=codec, newline="") as file:
                reader = csv.reader(file, strict=True, delimiter=self.delimiter or self._found_delimiter(codec))
                for row in reader:
                    interrupts.check()
                    if any(cell.strip() for cell in row):
                        yield line, row
                    line = reader.line_num + 1
        except csv.Error as error:
            raise OSError(f"{self.name}: line {line} isn't CSV: {error}") from None
        except UnicodeError:
            raise OSError(
                f"{self.name}: line {self._line_of_encoding_error(codec)} isn't in {self.encoding or codec.removesuffix('-sig')}: "
                "give the encoding, such as --encoding cp1252"
            ) from None

    def _codec(self) -> str:
        """Returns the name of the codec. Excel writes a byte order mark before UTF-8 and UTF-16."""
        if self.encoding is None:
            with rename_errors_to(Path(self.name)), open(self.path, "rb") as file:
                is_utf_16 = file.read(2) in (codecs.BOM_UTF16_LE, codecs.BOM_UTF16_BE)
            return "utf-16" if is_utf_16 else "utf-8-sig"
        try:
            "".encode(self.encoding)
        except LookupError:
            raise ValueError(f"there is no encoding {self.encoding}, but utf-8, cp1252, latin-1, utf-16 ...") from None
        return "utf-8-sig" if codecs.lookup(self.encoding).name == "utf-8" else self.encoding

    def _found_delimiter(self, codec: str) -> str:
        """Returns the delimiter by which the first line has as many columns as expected, or else the most columns."""
        with open(self.path, encoding=codec, errors="replace", newline="") as file:
            lines = iter(lambda: file.readline(csv.field_size_limit()), "")
            first = next((line for line in lines if line.strip()), "")
        counts = {mark: len(next(csv.reader([first], delimiter=mark), [])) for mark in DELIMITERS.values()}
        expected = [mark for mark, count in counts.items() if count in self.columns]
        return expected[0] if expected else max(counts, key=lambda mark: (counts[mark], mark == ","))

    def _line_of_encoding_error(self, codec: str) -> int:
        """Returns the first line that can't be decoded."""
        content = self.path.read_bytes()
        try:
            content.decode(codec)
        except UnicodeDecodeError as error:
            return content.count(b"\n", 0, error.start) + 1
        return 1  # It lacks the byte order mark.

    def places(
        self, head: Sequence[str], line: int, usual: Mapping[str, Sequence[str]], named: Mapping[str, str]
    ) -> dict[str, int]:
        """Returns the places of columns by their names in the head line.

        `named` has names that were given, and `usual` has those that are looked for otherwise, the best first. Case,
        blanks and punctuation are ignored. Columns without one of their usual names are left out. Raises OSError if a
        name that was given is missing.
        """
        keys = [key_of(name) for name in head]
        places = {}
        for column, names in usual.items():
            wanted = [key_of(named[column])] if column in named else names
            if found := [name for name in wanted if name in keys]:
                places[column] = keys.index(found[0])
            elif column in named:
                raise OSError(
                    f"{self.name}: line {line}, the head line: no column has the name {named[column]!r}; "
                    f"the columns are {', '.join(head)}"
                )
        return places


def delimiter_of(text: str) -> str:
    """Returns a delimiter by its name or by itself. Raises ValueError for anything else."""
    delimiter = DELIMITERS.get(text.lower(), "\t" if text == r"\t" else text)
    if len(delimiter) != 1 or delimiter in '"\r\n\0':
        raise ValueError(f"{text!r} is neither one character nor {', '.join(DELIMITERS)}")
    return delimiter


def key_of(name: str) -> str:
    """Returns a column's name in lowercase without blanks and punctuation."""
    return "".join(character for character in name.lower() if character.isalnum()) or name.strip()


def named_columns(texts: Sequence[str], usual: Mapping[str, Sequence[str]]) -> dict[str, str]:
    """Returns the names of columns from texts such as `street="Street Address",zip=Postcode`.

    Raises ValueError for a text without an equals sign, and for other columns than the usual ones.
    """
    named = {}
    for text in texts:
        for part in next(csv.reader([text], skipinitialspace=True), []):
            column, _, name = (word.strip() for word in part.partition("="))
            if column not in usual or not name:
                raise ValueError(
                    f"--columns has {part!r}: write COLUMN=NAME, where COLUMN is one of {', '.join(usual)}"
                )
            named[column] = name
    return named


@contextmanager
def opened_input(name: str, interrupts: Interrupts) -> Iterator[Path]:
    """Yields the path of a file that can be read twice: the file itself, or a copy of standard input or of a pipe."""
    if name != STANDARD_INPUT and stat.S_ISREG(os.stat(name).st_mode):
        yield Path(name)
        return
    with scratch_folder() as folder:
        copy = folder / "table.csv"
        if name == STANDARD_INPUT:
            if sys.stdin is None:
                raise OSError("standard input is closed")
            _copy(sys.stdin.fileno(), copy, "standard input", interrupts)
        else:
            # Otherwise opening a named pipe would wait for a writer, and delay Ctrl-C.
            descriptor = os.open(name, os.O_RDONLY | os.O_NONBLOCK)
            try:
                _copy(descriptor, copy, name, interrupts)
            finally:
                os.close(descriptor)
        yield copy


def _copy(descriptor: int, copy: Path, name: str, interrupts: Interrupts) -> None:
    """Copies all input to a file. Waits only for short times, so that Ctrl-C is noticed."""
    with rename_errors_to(copy), open(copy, "wb") as file:
        while True:
            interrupts.check()
            if not select.select([descriptor], [], [], POLL)[0]:
                continue
            try:
                chunk = os.read(descriptor, CHUNK)
            except BlockingIOError:
                continue
            except OSError as error:
                raise OSError(error.errno, error.strerror, name) from None
            if not chunk:
                return
            file.write(chunk)
