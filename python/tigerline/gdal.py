"""Has GDAL's ogr2ogr read files, and write files for a GIS and tables of PostgreSQL."""

import os
import re
import shutil
from collections.abc import Callable, Iterable, Iterator, Sequence
from contextlib import contextmanager
from pathlib import Path

from .interrupts import Interrupts
from .output import DATABASE, PendingFile
from .program import feed_process, read_process, run_process

DRIVERS = {
    ".gpkg": "GPKG",
    ".geojson": "GeoJSON",
    ".fgb": "FlatGeobuf",
    ".shp": "ESRI Shapefile",
    ".parquet": "Parquet",
    DATABASE: "PostgreSQL",
}
OPTIONS = {".shp": ["-lco", "ENCODING=UTF-8"], DATABASE: ["-ds_transaction", "-lco", "GEOMETRY_NAME=geom"]}
NAMED_AS_THE_FILE = (".shp", ".parquet")  # formats whose layer has the name of the file
NO_DRIVER = "Unable to find driver"
GEOJSON_END = b"]\n}\n"
# The text that PostgreSQL's COPY reads: of GDAL's formats that go through a pipe the quickest, with lines in WKB.
COPY_END = b"\n\\."
COPY_TEXT = [
    "-f",
    "PGDump",
    "-dim",
    "XY",
    "-lco",
    "LAUNDER=NO",
    "-lco",
    "CREATE_TABLE=OFF",
    "--config",
    "PG_USE_COPY",
    "YES",
]
_COPY_HEAD = re.compile(rb'^COPY .* \((".*")\) FROM STDIN;(?:\n|$)', re.MULTILINE)
_ESCAPED = re.compile(r"\\(.)", re.DOTALL)
_ERROR = re.compile(r"^ERROR [0-9]+: (.*)", re.MULTILINE)

Rows = list[list[str]]


def gdal_tool(name: str, instead: str = "") -> str:
    """Returns the path of a tool. Raises OSError if it isn't installed, with what may be done instead."""
    found = shutil.which(name)
    if found is None:
        raise FileNotFoundError(f"there is no program {name}: install gdal-bin{instead}")
    return found


@contextmanager
def read_layer(path: Path, query: str, named: str, interrupts: Interrupts) -> Iterator[Iterator[Rows]]:
    """Has ogr2ogr read the features that a query in OGR SQL finds, and yields blocks of them, while it goes on.

    The first block has the names of the columns alone. The geometry is in a column of its own in front, in hexadecimal WKB,
    and "" is a missing value. Without features there is nothing. Blocks raise OSError with what ogr2ogr says and `named`,
    the file in messages.
    """

    def check(status: int, said: str) -> None:
        if status != 0 or _ERROR.search(said):
            raise OSError(f"{named}: ogr2ogr can't read it: {_reason(status, said)}")

    command = [gdal_tool("ogr2ogr"), *COPY_TEXT, "/vsistdout/", str(path), "-sql", query]
    with read_process(command, interrupts, check) as blocks:
        yield _copied(blocks)


def _copied(blocks: Iterable[bytes]) -> Iterator[Rows]:
    """Yields the names of columns and the rows in a text for COPY."""
    before, is_inside = b"", False
    for block in blocks:
        lines, before = _cut(before + block)
        if not is_inside and (head := _COPY_HEAD.search(lines)):
            yield [head[1].decode("utf-8", "replace")[1:-1].split('", "')]
            is_inside, lines = True, lines[head.end() :]
        if is_inside and lines:
            rows, *end = (b"\n" + lines).split(COPY_END, 1)
            yield _copied_rows(rows) if rows else []
            is_inside = not end


def _cut(text: bytes) -> tuple[bytes, bytes]:
    """Returns complete lines, and the text after them. A line feed after a backslash is in a cell."""
    at = text.rfind(b"\n")
    while text[at - 1 : at] == b"\\" and at > 0:
        at = text.rfind(b"\n", 0, at)
    return text[: max(at, 0)], text[at + 1 :]


def _copied_rows(lines: bytes) -> Rows:
    """Returns the cells of rows, each after a line feed. Files without a stated encoding are in UTF-8, or else in Latin-1."""
    try:
        text = lines.decode()
    except UnicodeDecodeError:
        text = "\n".join(map(_decoded, lines.split(b"\n")))
    text = text.replace("\t\\N", "\t").replace("\n\\N", "\n")
    if "\\" in text:
        text = _ESCAPED.sub(_unescaped, text)
    return [line.split("\t") for line in text.split("\n")[1:]]


def _decoded(line: bytes) -> str:
    try:
        return line.decode()
    except UnicodeDecodeError:
        return line.decode("latin-1")


def _unescaped(found: re.Match[str]) -> str:
    """Returns a backslash, or a blank for a control character."""
    return "\\" if found[1] == "\\" else " "


def _reason(status: int, said: str) -> str:
    """Returns what ogr2ogr says about its failure."""
    error = _ERROR.search(said)
    return error[1][:200] if error else f"it ended early with status {status}"


def write_layer(
    file: PendingFile,
    source: Path,
    layer: str,
    column: str,
    options: Sequence[str],
    interrupts: Interrupts,
    chunks: Iterable[bytes],
    expected: Callable[[], int],
) -> None:
    """Has ogr2ogr write a layer, and feeds it chunks. Raises OSError with what it says.

    Also raises OSError unless all expected features are there and have a value in the column: ogr2ogr may exit with
    status 0 on a full disk.
    """
    ogr2ogr, ogrinfo = (gdal_tool(name, ", or write a .csv file") for name in ("ogr2ogr", "ogrinfo"))
    command = [ogr2ogr, "-f", DRIVERS[file.kind], *OPTIONS.get(file.kind, []), file.target, str(source), *options]
    if file.kind == DATABASE and file.overwrite:
        command.append("-overwrite")
    elif file.kind == DATABASE and run_process([ogrinfo, "-ro", "-q", "-so", file.target, layer], interrupts)[0] == 0:
        raise OSError(f"{file.final} has a table {layer}: --overwrite replaces it")
    status, has_taken_all, said = feed_process(command, chunks, interrupts)
    if status != 0 or _ERROR.search(said) or not has_taken_all:
        reason = _reason(status, said)
        if NO_DRIVER in reason:
            raise OSError(
                f"{file.final}: this GDAL has no {DRIVERS[file.kind]}: write .gpkg, or install a GDAL that has it"
            )
        raise OSError(f"{file.final}: ogr2ogr can't write it: {reason}")
    written = _features_of_geojson(file.path) if file.kind == ".geojson" else None
    if written != expected():
        name = file.path.stem if file.kind in NAMED_AS_THE_FILE else layer
        written = _count_features(ogrinfo, file.target, name, column, interrupts)
    if written != expected():
        raise OSError(f"{file.final}: ogr2ogr wrote {written or 'none'} of {expected()} {layer}; the disk may be full")


def _features_of_geojson(path: Path) -> int | None:
    """Returns the number of features in a GDAL file, one per line, if it is complete. ogrinfo takes much longer."""
    with open(path, "rb") as file:
        features = sum(line.startswith(b'{ "type": "Feature", ') for line in file)
        file.seek(-min(file.tell(), len(GEOJSON_END)), os.SEEK_END)
        return features if file.read() == GEOJSON_END else None


def _count_features(ogrinfo: str, target: str, layer: str, column: str, interrupts: Interrupts) -> int | None:
    query = f'SELECT COUNT("{column}") AS features FROM "{layer}"'
    status, output, _ = run_process([ogrinfo, "-ro", "-q", "-sql", query, target], interrupts)
    found = re.search(rb"^  features \(Integer(?:64)?\) = ([0-9]+)$", output, re.MULTILINE)
    return int(found[1]) if status == 0 and found else None
