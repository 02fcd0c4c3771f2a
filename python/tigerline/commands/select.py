"""`tigerline select` writes selected segments to a file for a GIS or to a database, and draws a map of them."""

import argparse
import os
from collections.abc import Generator, Iterable, Iterator, Sequence
from contextlib import ExitStack, closing
from dataclasses import replace
from pathlib import Path
from typing import Any

from ..cluster import batch, scheduler, workers
from ..extract import CountyTexts, Output, Request, extract
from ..filters import conditions_of
from ..interrupts import STOPPING, Interrupts
from ..layout import chosen_names
from ..maps import PICTURES, MapContent, writer_of
from ..optional import required
from ..output import PendingFile, is_file, pending_file, pending_output
from ..scratch import rename_errors_to
from ..tables import Form, write_table
from .subcommand import DATA, Subcommand, add_counties, add_output, counted, number_between, picture_out, written

MOST_WORKERS = 10_000


def add_options(parser: argparse.ArgumentParser) -> None:
    """Adds the options of the subcommand."""
    add = parser.add_argument
    add("data", metavar="DATA", help=DATA)
    add_output(parser, "counties", ".csv")
    which = parser.add_mutually_exclusive_group()
    which.add_argument("--where", metavar="TEXT", help="a filter, such as \"CFCC LIKE 'A%%'\"")
    which.add_argument("--program", metavar="FILE", help="a program, as extractd asm or compile writes it")
    box = "only segments that have a point in a box of degrees"
    add("--bbox", metavar="WEST,SOUTH,EAST,NORTH", type=_box, help=box)
    add(
        "--mask",
        metavar="FILE",
        type=Path,
        help="only segments that have a point in the polygons of a vector file that GDAL reads",
    )
    add("--columns", metavar="NAME", nargs="+", help="fields of record type 1 by their TIGER names (default: all)")
    lines = "shape: with the points of type 2; line: the two ends (default: shape, or line without type 2)"
    add("--geometry", choices=("shape", "line", "none"), default="auto", help=lines)
    add("--score", metavar="COLUMN", help="the column that becomes the score of a filter")
    add("--signed", action="store_true", help="write scores as signed numbers")
    add("--map", metavar="FILE", type=picture_out, help=f"also draw a map: {', '.join(PICTURES)}")
    add("--map-by", choices=("class", "score"), default="class", help="what the map shows (default: class)")
    add("--no-background", action="store_true", help="leave other segments out of the map")
    engines = parser.add_mutually_exclusive_group()
    workers_type = number_between(1, MOST_WORKERS)
    engines.add_argument("--workers", metavar="N", type=workers_type, help="run N counties at once on this machine")
    address = "run the counties on the workers of a dask.distributed scheduler, such as tcp://host:8786"
    engines.add_argument("--scheduler", metavar="ADDRESS", help=address)
    resume = "keep finished counties in OUT.parts until OUT is written, and start with those that are there"
    add("--resume", action="store_true", help=resume)
    add_counties(parser)


def _box(text: str) -> list[float]:
    try:
        return [float(number) for number in text.split(",")]
    except ValueError:
        raise argparse.ArgumentTypeError(f"{text!r} isn't WEST,SOUTH,EAST,NORTH") from None


def run(options: argparse.Namespace) -> bytes:
    """Writes the files, and returns a message with the number of segments in them."""
    request = _request(options)
    if options.map is not None and os.path.realpath(options.map) == os.path.realpath(options.out):
        raise ValueError("OUT and the map are the same file")
    if options.map is not None:
        writer_of(options.map.suffix.lower())  # A missing package is an error before the selection.
    if (options.scheduler is not None or options.resume) and not is_file(options.out):
        raise ValueError("--scheduler and --resume need a file as OUT: its folder has the finished counties")
    with Interrupts(*STOPPING) as interrupts, ExitStack() as files:
        table = files.enter_context(pending_output(options.out, options.overwrite))
        picture = files.enter_context(pending_file(options.map, options.overwrite)) if options.map else None
        maps = picture is not None, picture is not None and not options.no_background
        form = Form(chosen_names(options.columns), options.geometry, options.signed, options.safe_cells, *maps)
        content = MapContent(options.signed)
        found = _counties(table, request, form.outputs, options, interrupts, files)
        count = write_table(table, _added(found, content), form, interrupts)
        if picture:
            _draw(picture, content, options, interrupts)
        for file in filter(None, (table, picture)):
            file.publish(interrupts)
    return written(options.out, counted(count, "segment"))


def _request(options: argparse.Namespace) -> Request:
    conditions = conditions_of(options.bbox, None if options.mask is None else _mask(options.mask))
    if options.where is None and options.program is None and not conditions:
        raise ValueError("say which segments by --where, --program, --bbox or --mask; --where TRUE selects all")
    where, data, counties, score = options.where, options.data, options.counties, options.score
    request = Request(where, data, counties, options.program, score, options.extractd, conditions)
    if options.program is None:
        return request
    # It may be a pipe of a shell, which can be read only once. Here, Ctrl-C ends the wait for it.
    return replace(request, program=Path(options.program).read_bytes())


def _mask(path: Path) -> Any:
    """Reads a vector file by GDAL. A missing file or one of another kind is an error of files."""
    path.stat()
    try:
        return required("geopandas").read_file(path)
    except ValueError as error:
        raise OSError(f"{path} can't be read by GDAL: {error}") from None


def _counties(
    table: PendingFile,
    request: Request,
    outputs: Sequence[Output],
    options: argparse.Namespace,
    interrupts: Interrupts,
    files: ExitStack,
) -> Iterator[CountyTexts]:
    """Yields what `extractd` writes about each county, here or on the workers.

    What workers write is kept until all files are published.
    """
    if not (options.workers or options.scheduler is not None or options.resume):
        return extract(request, outputs, progress=options.progress, interrupts=interrupts)
    sources = batch.county_tasks(request, outputs, interrupts)
    store = files.enter_context(batch.part_store(table.final, options.resume))
    tasks = [batch.part_task(source, store) for source in sources]
    return files.enter_context(closing(batch.run_tasks(tasks, store, _engine(options), options.progress, interrupts)))


def _engine(options: argparse.Namespace) -> batch.Engine:
    """Returns what runs the tasks, here or on the workers of a scheduler."""

    def engine(
        tasks: Sequence[batch.PartTask], interrupts: Interrupts
    ) -> Generator[tuple[batch.PartTask, str], None, None]:
        if options.scheduler is not None:
            return scheduler.run_there(options.scheduler, tasks, interrupts)
        return workers.run_here(options.workers or 1, tasks, interrupts)

    return engine


def _added(counties: Iterable[CountyTexts], content: MapContent) -> Iterator[CountyTexts]:
    """Yields the counties, and adds their segments to the map."""
    for county in counties:
        content.add_county(*county.texts[1:])
        yield county


def _draw(file: PendingFile, content: MapContent, options: argparse.Namespace, interrupts: Interrupts) -> None:
    caption = options.where or os.path.basename(options.program or "") or "TRUE"
    score = (options.score or "score").upper() if options.map_by == "score" else None
    drawn = content.drawing(caption, score, interrupts).file(file.kind)
    with rename_errors_to(file.final):
        file.path.write_bytes(drawn)


SELECT = Subcommand(
    "select",
    "write segments to a file for a GIS, and draw them",
    "Writes the segments that a filter selects to a file for a GIS, and draws a map of them.",
    "tigerline select examples roads.gpkg --where \"CFCC LIKE 'A%'\" --counties 01001",
    add_options,
    run,
)
