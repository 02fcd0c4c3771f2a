"""A subcommand of `tigerline`, and the options that several of them have."""

import argparse
from collections.abc import Callable
from dataclasses import dataclass
from pathlib import Path

from ..gdal import DRIVERS
from ..geocoding.table_input import DELIMITERS, delimiter_of
from ..maps import PICTURES
from ..output import DATABASE, STANDARD_OUTPUT, is_file
from ..terminal import visible

DATA = "a folder with counties, searched with its subfolders, or a zip file"
COUNTIES = "01001 is a county, 01 or AL all of a state (default: all that are there)"


@dataclass(frozen=True)
class Subcommand:
    """A subcommand: what it does in a few words and in a sentence, an example, its options, and what runs it.

    `run` returns what goes to standard output.
    """

    name: str
    summary: str
    description: str
    example: str
    add_options: Callable[[argparse.ArgumentParser], None]
    run: Callable[[argparse.Namespace], bytes]


def add_data(parser: argparse.ArgumentParser) -> None:
    """Adds the option that names the data."""
    parser.add_argument("--data", metavar="DIR", required=True, help=DATA)


def add_counties(parser: argparse.ArgumentParser) -> None:
    """Adds the options that say which counties are read, and by which program."""
    parser.add_argument("--counties", metavar="CODE", nargs="+", help=COUNTIES)
    add_extractd(parser)


def add_extractd(parser: argparse.ArgumentParser) -> None:
    """Adds the option that names the program."""
    extractd = "the program (default: the variable EXTRACTD, or extractd in PATH)"
    parser.add_argument("--extractd", metavar="FILE", help=extractd)


def add_output(parser: argparse.ArgumentParser, units: str, *suffixes: str, is_optional: bool = False) -> None:
    """Adds OUT and its options. OUT is a file that GDAL writes or one with these suffixes, a database, or standard output."""
    named = ", ".join(suffix for suffix in (*DRIVERS, *suffixes) if suffix.startswith("."))
    forms = f"{named}, {DATABASE}.. for PostgreSQL, or - for CSV on standard output"

    def table(text: str) -> str:
        if is_file(text) and Path(text).suffix.lower() not in (*DRIVERS, *suffixes):
            raise argparse.ArgumentTypeError(f"{text!r} is none of {forms}")
        return text

    add = parser.add_argument
    if is_optional:
        add("out", metavar="OUT", nargs="?", default=STANDARD_OUTPUT, type=table, help=f"{forms} (default)")
    else:
        add("out", metavar="OUT", type=table, help=forms)
    add("--overwrite", action="store_true", help="replace the files if they exist")
    add("--progress", action="store_true", help=f"show on standard error how many {units} are done")
    safe = "in CSV, write an apostrophe before texts that a spreadsheet takes for formulas, such as =1+1"
    add("--safe-cells", action="store_true", help=safe)


def add_tables(parser: argparse.ArgumentParser, units: str, example: str) -> None:
    """Adds the data, OUT, and the options of the table that is read. `example` names columns."""
    add_output(parser, units, ".csv", ".txt", "", is_optional=True)
    add_data(parser)
    add_counties(parser)
    columns = f"the names of columns in the head line, if they aren't usual ones: {example}"
    parser.add_argument("--columns", metavar="COLUMN=NAME", action="append", default=[], help=columns)
    delimiter = f"the character between cells, or {', '.join(DELIMITERS)} (default: found by the first line)"
    parser.add_argument("--delimiter", metavar="CHARACTER", type=_delimiter, help=delimiter)
    encoding = "the encoding, such as cp1252 (default: utf-8, or utf-16 if the file begins with its byte order mark)"
    parser.add_argument("--encoding", metavar="NAME", help=encoding)


def _delimiter(text: str) -> str:
    try:
        return delimiter_of(text)
    except ValueError as error:
        raise argparse.ArgumentTypeError(str(error)) from None


def picture_out(text: str) -> Path:
    """Returns the path of a map."""
    if Path(text).suffix.lower() not in PICTURES:
        raise argparse.ArgumentTypeError(f"{text!r} doesn't end with {', '.join(PICTURES)}")
    return Path(text)


def number_between(low: int, high: int) -> Callable[[str], int]:
    """Returns the type of a number with limits."""

    def number(text: str) -> int:
        if not (text.isascii() and text.isdecimal() and len(text) < 10 and low <= int(text) <= high):
            raise argparse.ArgumentTypeError(f"{text!r} is no number from {low} to {high}")
        return int(text)

    return number


def counted(count: int, unit: str) -> str:
    """Returns a count with its unit."""
    return f"{count:,} {unit}{'' if count == 1 else 's'}"


def written(out: str, summary: str) -> bytes:
    """Returns the message that output is complete. Standard output has none, and that of a database no secrets."""
    if out == STANDARD_OUTPUT:
        return b""
    return f"{'the database' if out.startswith(DATABASE) else visible(out)}: {summary}\n".encode()
