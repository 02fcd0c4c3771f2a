"""The parser of the command `tigerline`, and what runs a subcommand."""

import argparse
import sys
from collections.abc import Sequence
from typing import NoReturn

from ..terminal import visible
from ..version import __version__
from .geocode import GEOCODE
from .import_shapefiles import IMPORT
from .map import MAP
from .reverse import REVERSE
from .select import SELECT
from .serve import SERVE
from .status import STATUSES_TEXT, Status, exit_status
from .subcommand import Subcommand

SUBCOMMANDS = {command.name: command for command in (SELECT, GEOCODE, REVERSE, MAP, SERVE, IMPORT)}
# Their values may begin with a minus, which argparse takes for an option.
NUMBERS = ("--bbox",)


class Parser(argparse.ArgumentParser):
    """A parser whose messages can't control a terminal."""

    def error(self, message: str) -> NoReturn:
        super().error(visible(message))


def parsers() -> tuple[Parser, dict[str, Parser]]:
    """Returns the parser of the command line, and those of the subcommands by their names."""
    result = Parser(prog="tigerline", description="Street segments of TIGER/Line 2006, selected by extractd.")
    result.add_argument("--version", action="version", version=f"%(prog)s {__version__}")
    added = result.add_subparsers(metavar="COMMAND", required=True)
    return result, {command.name: _add(added, command) for command in SUBCOMMANDS.values()}


def _add(added: "argparse._SubParsersAction[Parser]", command: Subcommand) -> Parser:
    parser = added.add_parser(
        command.name,
        help=command.summary,
        description=command.description,
        epilog=f"example:\n  {command.example}\n\n{STATUSES_TEXT}",
        formatter_class=argparse.RawDescriptionHelpFormatter,
    )
    command.add_options(parser)
    return parser


def main(arguments: Sequence[str] | None = None) -> int:
    """Runs the command, and returns its exit status."""
    words = list(sys.argv[1:] if arguments is None else arguments)
    parser, of_subcommands = parsers()
    name = words[0] if words else ""
    if name not in SUBCOMMANDS:
        if name and not name.startswith("-"):
            parser.error(
                f"there is no command {name!r}; to write segments, write tigerline select DATA OUT --where TEXT"
            )
        parser.parse_args(words)
        return Status.USAGE
    options = of_subcommands[name].parse_intermixed_args(_with_numbers(words[1:]))
    return exit_status(lambda: SUBCOMMANDS[name].run(options))


def _with_numbers(words: Sequence[str]) -> list[str]:
    """Joins options with values that may begin with a minus."""
    result: list[str] = []
    for word in words:
        if result and result[-1] in NUMBERS:
            result[-1] += f"={word}"
        else:
            result.append(word)
    return result
