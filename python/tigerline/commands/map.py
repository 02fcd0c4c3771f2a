"""`tigerline map` draws rows that `extractd` wrote as a picture or a page."""

import argparse
from pathlib import Path

from ..geocoding.table_input import STANDARD_INPUT, opened_input
from ..interrupts import STOPPING, Interrupts
from ..maps.rows import content_of
from ..output import STANDARD_OUTPUT, pending_output
from ..program import find_program
from ..scratch import rename_errors_to
from .subcommand import Subcommand, add_extractd, counted, picture_out, written


def add_options(parser: argparse.ArgumentParser) -> None:
    """Adds the options of the subcommand."""
    add = parser.add_argument
    add("rows", metavar="ROWS", help="rows that extractd wrote; - is standard input")
    out = "the map: .svg, .png or .pdf, or .html for a page that zooms (default: SVG to standard output)"
    add("out", metavar="OUT", nargs="?", default=STANDARD_OUTPUT, type=_out, help=out)
    county = "the type 1 file that the rows were selected from: its other segments are drawn in pale colors, and "
    county += "shape points are those of the type 2 file next to it"
    add("--county", type=Path, metavar="FILE", help=county)
    add("--caption", metavar="TEXT", default="", help="a text above the map, such as the filter")
    add("--by", choices=("class", "score"), default="class", help="what the colors stand for (default: %(default)s)")
    add("--score", metavar="NAME", default="score", help="what the scores are, for the legend (default: %(default)s)")
    add("--overwrite", action="store_true", help="replace OUT if it exists")
    add_extractd(parser)


def _out(text: str) -> str:
    return text if text == STANDARD_OUTPUT else str(picture_out(text))


def run(options: argparse.Namespace) -> bytes:
    """Draws the map, and returns a message if it is in a file and not on standard output."""
    name = "standard input" if options.rows == STANDARD_INPUT else options.rows
    with Interrupts(*STOPPING) as interrupts, pending_output(options.out, options.overwrite) as file:
        program = find_program(options.extractd, interrupts)
        with opened_input(options.rows, interrupts) as rows:
            content = content_of(program, rows.read_bytes(), name, options.county, interrupts)
        drawing = content.drawing(options.caption, options.score if options.by == "score" else None, interrupts)
        drawn = drawing.file(".svg" if options.out == STANDARD_OUTPUT else file.kind)
        with rename_errors_to(file.final):
            file.path.write_bytes(drawn)
        file.publish(interrupts)
    return written(options.out, counted(len(content.selected), "segment"))


MAP = Subcommand(
    "map",
    "draw rows of extractd",
    "Draws rows that extractd wrote as a picture or a page. `tigerline select --map` needs no rows.",
    "extractd select --where TRUE --data examples/town 01007 | tigerline map - town.svg",
    add_options,
    run,
)
