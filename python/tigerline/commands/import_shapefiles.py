"""`tigerline import` writes the Census Bureau's shapefiles as TIGER/Line 2006 files, which everything else here reads."""

import argparse
import os
import warnings
from collections.abc import Generator, Sequence
from contextlib import closing, suppress
from pathlib import Path
from typing import Any

from ..cluster import scheduler, workers
from ..gdal import gdal_tool
from ..interrupts import STOPPING, Interrupts
from ..progress import with_progress
from ..scratch import rename_errors_to
from ..shapefiles.county import ImportTask, check_free
from ..shapefiles.files import Source, counties_among
from ..shapefiles.job import ProcessTask
from ..shapefiles.rules import COSTS
from .status import write_output
from .subcommand import COUNTIES, Subcommand, number_between

MOST_JOBS = 1000


def add_options(parser: argparse.ArgumentParser) -> None:
    """Adds the options of the subcommand."""
    add = parser.add_argument
    sources = "a folder with shapefiles, searched with its subfolders, or a file such as tl_2025_01001_edges.zip"
    add("sources", metavar="SOURCE", nargs="+", type=Path, help=sources)
    add("out", metavar="OUT", type=Path, help="the folder for the files of the counties, such as TGR01001.RT1")
    add("--counties", metavar="CODE", nargs="+", help=COUNTIES)
    add("--year", metavar="YYYY", help="the year of the shapefiles, if there are several")
    add("--strict", action="store_true", help="refuse a county of which anything doesn't fit")
    add("--overwrite", action="store_true", help="replace the files of a county if they exist")
    add("--progress", action="store_true", help="show on standard error how many counties are done")
    engines = parser.add_mutually_exclusive_group()
    jobs = number_between(1, MOST_JOBS)
    engines.add_argument("--jobs", metavar="N", type=jobs, default=1, help="import N counties at once on this machine")
    address = "import the counties on the workers of a dask.distributed scheduler, such as tcp://host:8786"
    engines.add_argument("--scheduler", metavar="ADDRESS", help=address)


def run(options: argparse.Namespace) -> bytes:
    """Writes the files of each county, and a line about it as soon as they are there."""
    gdal_tool("ogr2ogr")
    out, places = Path(os.path.abspath(options.out)), [Path(os.path.abspath(source)) for source in options.sources]
    found = counties_among(places, options.counties, options.year)
    for county in found:
        check_free(out, county.code, options.overwrite)
    _report_missing(found)
    is_new = not out.exists()
    tasks = [ImportTask(county, out, options.strict, options.overwrite) for county in found]
    with Interrupts(*STOPPING) as interrupts:
        with rename_errors_to(out):
            out.mkdir(exist_ok=True)
        try:
            with closing(_engine(tasks, options, interrupts)) as ran:
                for _, report in with_progress(ran, len(tasks), "county", options.progress):
                    write_output(f"{report}\n".encode())
        finally:
            if is_new:
                with suppress(OSError):
                    out.rmdir()  # It has no county.
    return b""


def _engine(
    tasks: Sequence[ImportTask], options: argparse.Namespace, interrupts: Interrupts
) -> Generator[tuple[Any, Any], None, None]:
    """Yields the tasks with their reports, here or on the workers."""
    if options.scheduler is not None:
        yield from scheduler.run_there(options.scheduler, tasks, interrupts)
    elif options.jobs > 1:
        yield from workers.run_here(options.jobs, [ProcessTask(task) for task in tasks], interrupts)
    else:
        yield from ((task, task.run(interrupts)) for task in tasks)


def _report_missing(counties: Sequence[Source]) -> None:
    """Warns once of each kind of file that counties lack, and says what that costs."""
    for kind, cost in COSTS.items():
        if lacking := [county.code for county in counties if kind not in county.files]:
            others = len(lacking) - 1
            named = f"county {lacking[0]}" + (f" and {others} other{'s' if others > 1 else ''}" if others else "")
            warnings.warn(f"{named} {'have' if others else 'has'} no {kind}: {cost}", stacklevel=2)


IMPORT = Subcommand(
    "import",
    "make counties of the Census Bureau's shapefiles",
    "Writes the Census Bureau's shapefiles, published since 2007, as TIGER/Line 2006 files, which all commands read.",
    "tigerline import examples/shapefiles imported",
    add_options,
    run,
)
