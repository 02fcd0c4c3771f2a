"""Selected segments as data frames."""

from collections.abc import Iterable, Sequence
from typing import TYPE_CHECKING, Any, Literal

import numpy as np
import pandas as pd

from .cluster import scheduler
from .cluster.batch import CountyTask, run_task
from .columns import columns_of, split
from .extract import ROWS, CountyTexts, Output, Request, extract
from .filters import CRS, conditions_of
from .layout import chosen_names
from .optional import present, required
from .program import PathLike
from .tuples import LINE_COLUMN, SCORE, read_lines

if TYPE_CHECKING:
    import distributed
    import geopandas

Geometry = Literal["auto", "shape", "line", False]
LINES = ("TLID",)  # the columns beside the lines


def select(
    where: str | None = None,
    data: PathLike = ".",
    counties: str | Iterable[str] | None = None,
    *,
    bbox: Any = None,
    mask: Any = None,
    program: PathLike | bytes | None = None,
    columns: Iterable[str] | None = None,
    geometry: Geometry = "auto",
    score: str | None = None,
    signed: bool = False,
    progress: bool = False,
    client: "distributed.Client | None" = None,
    compute: bool = False,
    extractd: PathLike | None = None,
) -> "geopandas.GeoDataFrame":
    """Returns the segments that a filter or a program selects, by county and in the order of the files.

    `where` is a filter (docs/filters.md), and `program` the path of a program or its bytes. `data` is a folder, which is
    searched with its subfolders, or a zip file. `counties` are codes: "01001" is a county, "01" or "AL" means all
    counties of a state, and None all counties that are there.

    `bbox` and `mask` are those of `geopandas.read_file`: only segments that have a point in common with a box (west,
    south, east and north, or the bounds of shapes) or with polygons (GeoJSON, shapely or geopandas) are returned.

    `columns` are fields of record type 1 by their TIGER names; None means all. TLID is Int64, coordinates are degrees,
    and all others are strings. Blank fields are missing values. `county` and `score` are always there. `score` names
    the column that becomes the score of a filter. Scores are unsigned numbers of 64 bits, or signed with `signed`.

    `geometry` is "shape", the line of each segment with the shape points of record type 2, in NAD 83 (EPSG:4269), or
    "line", a straight one between its two ends. The default takes the shape in counties that have type 2, and warns of
    others. False returns a DataFrame.

    `client` is a dask.distributed client (docs/scale.md). With it, the result is a frame of dask_geopandas, or of
    dask.dataframe without geometry, with a partition for each county; if these aren't installed, it is a list of
    delayed frames. With `compute`, the client's workers select the counties now, and the result is the frame.

    Raises RefusedError if `extractd` refuses the filter, the program or a county's file, ValueError for arguments that
    can't be used, OSError for files, and MemoryError. Then no row is returned.
    """
    request = Request(where, data, counties, program, score, extractd, conditions_of(bbox, mask))
    if geometry not in ("auto", "shape", "line") and geometry is not False:
        raise ValueError(f'geometry is "auto", "shape", "line" or False, and {geometry!r} isn\'t')
    names = chosen_names(None if columns is None else list(columns))
    outputs = [ROWS] if geometry is False else [ROWS, Output(LINES, geometry)]
    if client is None:
        return _joined(extract(request, outputs, progress=progress), names, signed)
    if compute:
        return _joined(scheduler.extract(client, request, outputs, progress), names, signed)
    return _partitions(client, request, outputs, names, signed)


def read_county(
    data: PathLike,
    county: str,
    *,
    columns: Iterable[str] | None = None,
    geometry: Geometry = "auto",
    extractd: PathLike | None = None,
) -> "geopandas.GeoDataFrame":
    """Returns all segments of a county: those that the filter TRUE selects. The arguments are those of `select`."""
    return select("TRUE", data, [county], columns=columns, geometry=geometry, extractd=extractd)


def _joined(counties: Iterable[CountyTexts], names: tuple[str, ...], signed: bool = False) -> Any:
    frames = [_frame(county, names, signed) for county in counties]
    return frames[0] if len(frames) == 1 else pd.concat(frames, ignore_index=True)


def _partitions(client: Any, request: Request, outputs: Sequence[Output], names: tuple[str, ...], signed: bool) -> Any:
    """Returns a frame of dask with a partition for each county, or a list of them if dask has no such frames."""
    tasks = scheduler.tasks_of(client, request, outputs)
    delayed = required("dask").delayed(_partition)
    parts = [delayed(task, names, signed) for task in tasks]
    has_lines = len(outputs) > 1
    if present("dask_geopandas" if has_lines else "dask.dataframe") is None:
        return parts
    no_lines = f"{','.join((SCORE, *LINES, LINE_COLUMN))}\n".encode()
    empty = _frame(CountyTexts("", (b"", no_lines)[: len(outputs)]), names, signed)
    return required("dask.dataframe").from_delayed(parts, meta=empty, verify_meta=False)


def _partition(task: CountyTask, names: tuple[str, ...], signed: bool) -> Any:
    """Returns the frame of a county, in a process that this package didn't start."""
    return _frame(run_task(task), names, signed)


def _frame(county: CountyTexts, names: tuple[str, ...], signed: bool) -> Any:
    rows, *lines = county.texts
    scores, records = split(rows)
    codes = pd.array([county.county] * len(scores), "string")
    scores = scores.view(np.int64) if signed else scores
    frame = pd.DataFrame({"county": codes, "score": scores, **columns_of(records, names)})
    if not lines:
        return frame
    geopandas: Any = required("geopandas")
    line_string: Any = required("shapely.geometry").LineString  # GEOS takes longer to read texts.
    found = [line and line_string(line) for _, _, line in read_lines(lines[0], LINES)]
    if len(found) != len(frame):
        raise OSError("a file of the county has changed while it was read")
    shapes = np.fromiter(found, object, len(found))  # An array of a list would be one of coordinates.
    return geopandas.GeoDataFrame(frame, geometry=geopandas.array.GeometryArray(shapes, crs=CRS))
