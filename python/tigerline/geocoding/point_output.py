"""Writes the results of geocoding: tables to standard output or CSV files, and points to files for a GIS."""

from collections import Counter
from collections.abc import Iterable, Iterator, Sequence
from itertools import chain
from typing import NamedTuple

from ..cells import write_csv
from ..filters import CRS
from ..gdal import DRIVERS, write_layer
from ..interrupts import Interrupts
from ..output import PendingFile
from ..scratch import rename_errors_to, scratch_folder

LAYER = "points"
GDAL_OPTIONS = (
    f"-nln {LAYER} -nlt POINT -a_srs {CRS} -oo EMPTY_STRING_AS_NULL=YES -oo GEOM_POSSIBLE_NAMES=geom"
    " -oo KEEP_GEOM_COLUMNS=NO"
)
# GDAL's types of the columns that aren't texts.
TYPES = {
    "longitude": "Real", "latitude": "Real", "distance": "Real", "number": "Integer64", "tlid": "Integer64"
}  # fmt: skip
# GDAL ends a text at NUL and reads CR as a line end.
READABLE = str.maketrans("\0\r", "??")


class Point(NamedTuple):
    """The values of a point, and its longitude and latitude, or None if it has none."""

    values: Sequence[object]
    place: tuple[float, float] | None


def write_points(
    file: PendingFile,
    columns: Sequence[str],
    points: Iterable[Point],
    full: str,
    interrupts: Interrupts,
    safe_cells: bool = False,
) -> int:
    """Writes points as CSV, or by GDAL in the format of the file. Returns how many it left out.

    FlatGeobuf has no features without a place, so these are left out. `full` is a column that has no empty cells.
    """
    if file.kind not in DRIVERS:
        rows = chain([columns], (point.values for point in points))
        write_csv(file.path, rows, interrupts, safe_cells=safe_cells)
        return 0
    counts: Counter[str] = Counter()
    with scratch_folder() as scratch:
        source = scratch / f"{LAYER}.csv"
        with rename_errors_to(source):
            rows = chain([[*columns, "geom"]], _rows_for_gdal(points, file.kind != ".fgb", counts))
            write_csv(source, rows, interrupts)
            types = [TYPES.get(column, "String") for column in (*columns, "geom")]
            source.with_suffix(".csvt").write_text(",".join(types) + "\n")
        write_layer(file, source, LAYER, full, GDAL_OPTIONS.split(), interrupts, (), lambda: counts["written"])
    return counts["left out"]


def _rows_for_gdal(points: Iterable[Point], keeps_all: bool, counts: Counter[str]) -> Iterator[Sequence[object]]:
    """Yields the values of points and their places as WKT, and counts the points."""
    for values, place in points:
        if place is None and not keeps_all:
            counts["left out"] += 1
            continue
        counts["written"] += 1
        text = f"POINT ({place[0]} {place[1]})" if place else ""
        yield [*(value.translate(READABLE) if isinstance(value, str) else value for value in values), text]
