"""`tigerline reverse` writes the nearest street with a name, its side and the house number there for each point."""

import argparse
from collections import Counter
from functools import partial

from ..geocoding.point_input import POINT_COLUMNS, GivenPoint, PointFile
from ..geocoding.point_output import Point, write_points
from ..geocoding.reversing import DISTANCE, Nearest, check_distance, streets_of
from ..geocoding.table_input import STANDARD_INPUT, TableFile, named_columns, opened_input
from ..interrupts import STOPPING, Interrupts
from ..optional import required
from ..output import PendingFile, pending_output
from ..scratch import rename_errors_to
from .subcommand import Subcommand, add_tables, counted, written

OUTPUT_COLUMNS = (
    "id", "longitude", "latitude", "address", "number", "street", "city", "state", "zip", "county", "tlid", "side",
    "distance",
)  # fmt: skip


def add_options(parser: argparse.ArgumentParser) -> None:
    """Adds the options of the subcommand."""
    add = parser.add_argument
    add("points", metavar="POINTS", help="a CSV file with the columns longitude and latitude; - is standard input")
    add_tables(parser, "counties", "longitude=East,latitude=North,id=No")
    distance = "how far a street may be (default: %(default)g)"
    add("--distance", metavar="METERS", type=float, default=DISTANCE, help=distance)


def run(options: argparse.Namespace) -> bytes:
    """Writes the streets, and returns a message if they are in a file and not on standard output."""
    required("shapely")
    check_distance(options.distance)
    named = named_columns(options.columns, POINT_COLUMNS)
    with Interrupts(*STOPPING) as interrupts, pending_output(options.out, options.overwrite) as file:
        with rename_errors_to(file.final):
            summary = _write(file, options, named, interrupts)
        file.publish(interrupts)
    return written(options.out, summary)


def _write(file: PendingFile, options: argparse.Namespace, named: dict[str, str], interrupts: Interrupts) -> str:
    """Writes the streets to a file, and returns a summary."""
    name = "standard input" if options.points == STANDARD_INPUT else options.points
    with opened_input(options.points, interrupts) as source:
        given = PointFile(TableFile(source, name, options.encoding, options.delimiter, (2, 3)), named)
        count = sum(1 for _ in given.points(interrupts))  # Finds a faulty line before the first point is looked up.
        places = (point.place for point in given.points(interrupts))
        streets = streets_of(
            places, options.data, options.counties, options.distance, options.extractd, interrupts, options.progress
        )
        found: Counter[bool] = Counter()
        rows = map(partial(_row, found=found), given.points(interrupts), streets)
        write_points(file, OUTPUT_COLUMNS, rows, "longitude", interrupts, options.safe_cells)
    return f"{counted(count, 'point')}: {found[True]:,} with a street within {options.distance:g} m"


def _row(point: GivenPoint, street: Nearest | None, found: Counter[bool]) -> Point:
    """Returns the row of a point, and counts whether it has a street."""
    found[street is not None] += 1
    longitude, latitude = point.place
    place = point.id, f"{longitude:.6f}", f"{latitude:.6f}"
    if street is None:
        return Point([*place, *[""] * (len(OUTPUT_COLUMNS) - len(place))], point.place)
    found_there = [getattr(street, name) for name in OUTPUT_COLUMNS[len(place) : -1]]
    return Point([*place, *found_there, f"{street.distance:.1f}"], point.place)


REVERSE = Subcommand(
    "reverse",
    "find the street next to each point",
    "Writes the nearest street with a name, its side and the house number there for each point.",
    "echo -86.7,32.5 | tigerline reverse - --data examples",
    add_options,
    run,
)
