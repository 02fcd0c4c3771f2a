"""Writes tables of `extractd` to files: CSV as it is, other formats by ogr2ogr, which reads it from a pipe.

GDAL gets CSV, as it would read GeoJSON twice.
"""

import re
from collections.abc import Iterable, Iterator
from dataclasses import dataclass
from functools import partial

from .cells import safe_table
from .extract import CountyTexts, Geometry, Output
from .filters import CRS
from .gdal import DRIVERS, write_layer
from .interrupts import Interrupts
from .layout import FIELDS, Kind
from .maps.content import DRAWN
from .output import PendingFile
from .scratch import rename_errors_to, scratch_folder
from .tuples import LINE_COLUMN, SCORE, no_table, score_of

LAYER = "segments"
NEEDS_LINES = {".fgb": "FlatGeobuf", ".shp": "A shapefile"}
LARGEST_SCORE = (1 << 64) - 1
# GDAL's integers have a sign. Those of shapefiles have 18 characters, which larger ones would be rounded to.
LARGEST_SCORES = {".shp": 10**16 - 1, ".csv": LARGEST_SCORE}
LARGEST_INTEGER = (1 << 63) - 1
COUNTY = "county"
# CSV readers, including GDAL's, end a text at NUL and read CR as a line end, so both become question marks.
READABLE = bytes.maketrans(b"\0\r", b"??")
CHUNK = 1 << 20

_LARGE_SCORE = re.compile(rb"^[0-9]{19,20}(?=,)", re.MULTILINE)


@dataclass(frozen=True)
class Form:
    """The columns and the geometry of a file, whether its scores are signed, and what a map shows beside it."""

    names: tuple[str, ...]
    geometry: Geometry
    signed: bool = False
    safe_cells: bool = False
    has_map: bool = False
    has_background: bool = False

    @property
    def has_lines(self) -> bool:
        """Whether the file has a column of lines."""
        return self.geometry != "none"

    @property
    def outputs(self) -> tuple[Output, ...]:
        """What is needed of each county: the table, the segments of the map, and those around them."""
        drawn = self.geometry if self.has_lines else "line"
        of_map = Output(DRAWN, drawn), Output(DRAWN, drawn, of_all=True)
        return (Output(self.names, self.geometry), *of_map[: self.has_map + self.has_background])


def write_table(file: PendingFile, counties: Iterable[CountyTexts], form: Form, interrupts: Interrupts) -> int:
    """Writes the tables of counties in the format of the file, and returns the number of segments."""
    counts: list[int] = []
    with rename_errors_to(file.final):
        if file.kind in DRIVERS:
            _write_by_gdal(file, counties, form, counts, interrupts)
            return sum(counts)
        with open(file.path, "wb") as output:
            for chunk in _chunks_of(counties, form, file.kind, counts):
                interrupts.check()
                output.write(chunk)
    return sum(counts)


def _write_by_gdal(
    file: PendingFile, counties: Iterable[CountyTexts], form: Form, counts: list[int], interrupts: Interrupts
) -> None:
    if file.kind in NEEDS_LINES and not form.has_lines:
        raise ValueError(f"{NEEDS_LINES[file.kind]} has no segments without geometry: use .gpkg, .geojson or .csv")
    with scratch_folder() as scratch:
        source = scratch / f"{LAYER}.vrt"
        with rename_errors_to(source):
            source.write_text(_source(form))
        chunks = _chunks_of(counties, form, file.kind, counts)
        write_layer(file, source, LAYER, SCORE, (), interrupts, chunks, lambda: sum(counts))


def _chunks_of(counties: Iterable[CountyTexts], form: Form, kind: str, counts: list[int]) -> Iterator[bytes]:
    """Yields the chunks of a table, and adds the number of segments of each county to the counts."""
    for county in counties:
        header, lines = _header_and_lines(county, form, kind)
        without_line = lines.count(b",\n") if kind in NEEDS_LINES else 0
        if without_line:
            raise ValueError(
                f"{NEEDS_LINES[kind]} has no segments without geometry, and {without_line} have no coordinates: "
                "use .gpkg, .geojson or .csv"
            )
        text = lines if counts else header + lines
        yield from (text[place : place + CHUNK] for place in range(0, len(text), CHUNK))
        counts.append(lines.count(b"\n"))


def _header_and_lines(county: CountyTexts, form: Form, kind: str) -> tuple[bytes, bytes]:
    """Returns the table of `extractd` with the county's code in front of each line."""
    header, _, lines = county.texts[0].translate(READABLE).partition(b"\n")
    names = (SCORE, *form.names, LINE_COLUMN) if form.has_lines else (SCORE, *form.names)
    if header != ",".join(names).encode() or (lines and not lines.endswith(b"\n")):
        raise no_table(header.decode(errors="replace"))
    largest = LARGEST_SCORES.get(kind, LARGEST_INTEGER)
    if form.signed or largest < LARGEST_SCORE:
        lines = _LARGE_SCORE.sub(partial(_fitting_score, largest, form.signed), lines)
    if form.safe_cells and kind not in DRIVERS:
        lines = safe_table(lines)
    code = f"{county.county},".encode()
    return f"{COUNTY},".encode() + header + b"\n", (code + lines.replace(b"\n", b"\n" + code))[: -len(code)]


def _fitting_score(largest: int, signed: bool, found: re.Match[bytes]) -> bytes:
    score = score_of(int(found[0]), signed)
    if not -largest - 1 <= score <= largest:
        advice = "" if signed else "--signed, or "
        raise ValueError(f"the score {score} is too large for this format: use {advice}.csv")
    return str(score).encode()


def _source(form: Form) -> str:
    """Returns the description of a table on standard input, for GDAL (a virtual format)."""
    types = {field.name: _TYPES.get(field.kind, "String") for field in FIELDS} | {SCORE: "Integer64", COUNTY: "String"}
    fields = "".join(f'<Field name="{name}" type="{types[name]}"/>' for name in (COUNTY, SCORE, *form.names))
    geometry = "<GeometryType>wkbNone</GeometryType>"
    if form.has_lines:
        geometry = (
            f"<GeometryType>wkbLineString</GeometryType><LayerSRS>{CRS}</LayerSRS>"
            f'<GeometryField name="geom" encoding="WKT" field="{LINE_COLUMN}"/>'
        )
    return (
        f'<OGRVRTDataSource><OGRVRTLayer name="{LAYER}"><SrcDataSource>CSV:/vsistdin/</SrcDataSource>'
        '<OpenOptions><OOI key="EMPTY_STRING_AS_NULL">YES</OOI></OpenOptions><SrcLayer>layer</SrcLayer>'
        f"{geometry}{fields}</OGRVRTLayer></OGRVRTDataSource>"
    )


_TYPES = {Kind.NUMBER: "Integer64", Kind.COORDINATE: "Real"}
