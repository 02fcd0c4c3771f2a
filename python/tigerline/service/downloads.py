"""Selections as files: tables in CSV for spreadsheets, and GeoPackages for a GIS."""

import csv
import io
import json
import tempfile
from collections.abc import Callable, Iterable, Iterator
from typing import IO, Any
from urllib.parse import parse_qsl, urlsplit

from ..cells import safe_cell
from ..gdal import gdal_tool
from ..layout import NAMES
from ..program import run_process
from ..scratch import scratch_folder
from .selections import Processes, Watch

CSV, GEOPACKAGE = "csv", "gpkg"
MEDIA_TYPES = {CSV: "text/csv; charset=utf-8", GEOPACKAGE: "application/geopackage+sqlite3"}
LAYER = "segments"
LARGEST_PAGE = "1000000"

Feature = dict[str, Any]


def features(
    page: Callable[[dict[str, str]], bytes], given: dict[str, str], number: Callable[[str], Any]
) -> Iterator[Feature]:
    """Yields all features of a selection, or those of a page if there is a limit. Fractions become `number`."""
    is_whole = "limit" not in given
    following = [{"limit": LARGEST_PAGE, **given}]
    while following:
        document = json.loads(page(following[0]), parse_float=number)
        yield from document["features"]
        links = [link["href"] for link in document["links"] if link["rel"] == "next"]
        following = [dict(parse_qsl(urlsplit(link).query, keep_blank_values=True)) for link in links if is_whole]


def csv_file(found: Iterable[Feature]) -> IO[bytes]:
    """Returns a table of features, whose fractions are texts: ids, columns, and lines as Well-Known Text.

    No cell is a formula of a spreadsheet.
    """
    file: IO[bytes] = tempfile.TemporaryFile()
    text = io.TextIOWrapper(file, encoding="utf-8", newline="")
    writer = csv.writer(text, lineterminator="\r\n")
    names: Iterable[str] = NAMES
    for at, feature in enumerate(found):
        if at == 0:
            writer.writerow(("id", *(names := feature["properties"]), "WKT"))
        writer.writerow((feature["id"], *map(_cell, feature["properties"].values()), _line(feature["geometry"])))
    if not text.tell():
        writer.writerow(("id", *names, "WKT"))
    text.detach()
    file.seek(0)
    return file


def _cell(value: object) -> object:
    return safe_cell(value) if isinstance(value, str) else value


def _line(geometry: dict[str, Any] | None) -> str:
    """Returns a line as Well-Known Text, or an empty text if there is none."""
    points = geometry["coordinates"] if geometry else []
    return f"LINESTRING ({','.join(map(' '.join, points))})" if points else ""


def geopackage(found: Iterable[Feature], processes: Processes, watch: Watch) -> IO[bytes]:
    """Returns a layer of features that ogr2ogr has written. The file has no name any longer. Raises OSError."""
    ogr2ogr = gdal_tool("ogr2ogr")
    with scratch_folder() as folder:
        source, target = folder / f"{LAYER}.geojson", folder / f"{LAYER}.gpkg"
        with open(source, "w", encoding="utf-8") as file:
            file.write('{"type":"FeatureCollection","features":[')
            file.writelines(f"{',' * bool(at)}\n{json.dumps(feature)}" for at, feature in enumerate(found))
            file.write("]}")
        command = [ogr2ogr, "-f", "GPKG", str(target), str(source), "-nln", LAYER, "-a_srs", "EPSG:4269"]
        with processes.watched(watch):
            status, _, said = run_process(command, watch)
        if status != 0:
            raise OSError(f"ogr2ogr can't write a GeoPackage: {said[:200]}")
        return open(target, "rb")
