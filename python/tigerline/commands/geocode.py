"""`tigerline geocode` writes where the addresses of a CSV file are, as the Census Bureau's batch geocoder does."""

import argparse
import gc
from collections.abc import Iterable
from contextlib import ExitStack
from pathlib import Path

from ..geocoding.address_input import COLUMNS, USUAL_NAMES, USUAL_ONE_LINE_NAMES, AddressFile
from ..geocoding.address_output import Form, write_matches
from ..geocoding.geocoder import matches_of
from ..geocoding.match import Match
from ..geocoding.picture import Dots
from ..geocoding.table_input import STANDARD_INPUT, TableFile, named_columns, opened_input
from ..interrupts import STOPPING, Interrupts
from ..maps import PICTURES, writer_of
from ..output import PendingFile, pending_file, pending_output
from ..progress import with_progress
from ..scratch import rename_errors_to
from .subcommand import Subcommand, add_tables, picture_out, written


def add_options(parser: argparse.ArgumentParser) -> None:
    """Adds the options of the subcommand."""
    add = parser.add_argument
    add("addresses", metavar="IN", help=f"a CSV file of {', '.join(COLUMNS)} without a head line; - is standard input")
    add_tables(parser, "addresses", 'street="Street Address",zip=Postcode')
    add("--reasons", action="store_true", help="add the reason for no match, or for one that isn't exact, and a hint")
    add("--candidates", action="store_true", help="add a line for each place of a tie, and for each in another town")
    add("--header", action="store_true", help="IN has a head line, which names the columns; write one, too")
    add("--one-line", action="store_true", help="an address is one cell, or without --header and --delimiter a line")
    add("--map", metavar="FILE", type=picture_out, help=f"also draw the places on a map: {', '.join(PICTURES)}")


def run(options: argparse.Namespace) -> bytes:
    """Writes the matches, and returns a message if they are in a file and not on standard output."""
    options.named = named_columns(options.columns, USUAL_ONE_LINE_NAMES if options.one_line else USUAL_NAMES)
    options.header = options.header or bool(options.named)
    if options.map:
        writer_of(options.map.suffix.lower())  # A missing package is an error before the search.
    with Interrupts(*STOPPING) as interrupts, ExitStack() as files:
        gc.disable()  # The search for cycles takes a fifth of the time and finds none.
        files.callback(gc.enable)
        picture = files.enter_context(pending_file(options.map, options.overwrite)) if options.map else None
        table = files.enter_context(pending_output(options.out, options.overwrite))
        with rename_errors_to(table.final):
            summary = _write(table, picture, options, interrupts)
        for file in filter(None, (table, picture)):
            file.publish(interrupts)
    return written(options.out, summary)


def _write(file: PendingFile, picture: PendingFile | None, options: argparse.Namespace, interrupts: Interrupts) -> str:
    """Writes the matches to a file, and their map to another one, and returns a summary."""
    name = "standard input" if options.addresses == STANDARD_INPUT else options.addresses
    dots = Dots(options.candidates) if picture else None
    with opened_input(options.addresses, interrupts) as source:
        table = TableFile(source, name, options.encoding, options.delimiter)
        addresses = AddressFile(table, options.header, options.one_line, options.named)
        count = sum(1 for _ in addresses.addresses(interrupts))  # Finds a faulty line before the first look-up.
        matches = matches_of(
            addresses.addresses(interrupts), options.data, options.counties, options.extractd, interrupts
        )
        shown: Iterable[Match] = with_progress(matches, count, "address", options.progress)
        form = Form(options.header, options.reasons, options.candidates, options.safe_cells)
        summary = write_matches(file, dots.watched(shown) if dots else shown, form, interrupts)
    if picture and dots:
        caption = f"{Path(name).name}: {summary}"
        with rename_errors_to(picture.final):
            picture.path.write_bytes(
                dots.drawing(caption, options.data, options.extractd, interrupts).file(picture.kind)
            )
    return summary


GEOCODE = Subcommand(
    "geocode",
    "find addresses",
    "Writes where the addresses of a CSV file are, as the Census Bureau's batch geocoder does.",
    "tigerline geocode examples/town_addresses.csv places.csv --data examples/town",
    add_options,
    run,
)
