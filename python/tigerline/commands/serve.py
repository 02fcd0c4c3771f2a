"""`tigerline serve` serves street segments as OGC API - Features."""

import argparse
from dataclasses import replace
from functools import partial

from ..optional import required
from ..service.application import application
from ..service.selections import Limits
from .subcommand import Subcommand, add_counties, add_data, number_between

LARGEST = 10**6


def add_options(parser: argparse.ArgumentParser) -> None:
    """Adds the options of the subcommand."""
    add, limits = parser.add_argument, Limits()
    add_data(parser)
    add("--port", metavar="P", required=True, type=number_between(0, 65535), help="the port; 0 takes a free one")
    add("--host", metavar="HOST", default="127.0.0.1", help="the address to listen at (default: 127.0.0.1)")
    add("--url", metavar="URL", help="the public address of the service (default: by the header Host)")
    for name, metavar, default, text in (
        ("--processes", "N", limits.processes, "selections at once"),
        ("--seconds", "S", int(limits.seconds), "time of a selection"),
        ("--buffers", "MIB", limits.buffers >> 20, "room for the latest selections, in temporary files"),
        ("--page", "N", limits.page, "features in a reply"),
        ("--connections", "N", limits.connections, "connections at once"),
    ):
        add(
            name, metavar=metavar, default=default, type=number_between(1, LARGEST), help=f"{text} (default: {default})"
        )
    add_counties(parser)


def run(options: argparse.Namespace) -> bytes:
    """Serves until Ctrl-C or SIGTERM."""
    server = required("tigerline.service.server")  # This needs waitress.
    limits = replace(
        Limits(),
        processes=options.processes,
        seconds=options.seconds,
        buffers=options.buffers << 20,
        page=options.page,
        connections=options.connections,
    )
    service = application(options.data, options.counties, url=options.url, extractd=options.extractd, limits=limits)
    server.serve(service, options.host, options.port, limits, partial(print, flush=True))
    return b""


SERVE = Subcommand(
    "serve",
    "serve segments over HTTP",
    "Serves street segments as OGC API - Features, by county, by state and all together, until Ctrl-C or SIGTERM.",
    "tigerline serve --data examples --port 8080",
    add_options,
    run,
)
