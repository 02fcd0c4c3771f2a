"""The layers of `extractd select` have what GDAL's TIGER driver reads from the same files: in CSV and as a GeoJSON sequence, with straight lines and with the
points of record type 2. GDAL reads the layers, too.

A county has the segments of the town in examples with new TLIDs, and imputed flags and 0 to 25 points that are drawn for each. `extractd` reads its lines of
type 2 in a random order; the driver takes the lines of a TLID as they follow each other.
"""

import csv
import io
import re
import subprocess
from collections.abc import Iterator
from pathlib import Path
from random import Random
from typing import NamedTuple

import pytest
from filter_counties import BY_NAME, Kind
from harness.batches import add_batches
from harness.program import TOP

BATCHES = 1
# Of a batch.
SEGMENTS = 2000
TOWN = TOP / "examples/town/TGR01007.RT1"
CODE = "01007"
POINTS_OF_A_LINE = 10
MOST_POINTS = 25
FORMATS = {"csv": ["CSV:/vsistdin/", "-oo", "KEEP_GEOM_COLUMNS=NO"], "geojsonseq": ["/vsistdin?buffer_limit=-1"]}
# The columns that the driver has, too. It makes integers of some. Its house numbers are texts.
COLUMNS = [
    name for name, column in BY_NAME.items() if column.kind is not Kind.COORDINATE and name not in ("RT", "VERSION")
]
LEADING_ZEROS = re.compile("^0+(?=[0-9])")


class Segment(NamedTuple):
    values: list[str]
    # In millionths of a degree.
    points: list[int]


def segments_with(random: Random, tlids: range) -> Iterator[bytes]:
    """Yields the town's lines with these TLIDs and any imputed flags, one after the other and then from the start."""
    lines = TOWN.read_bytes().splitlines()
    for index, tlid in enumerate(tlids):
        line = lines[index % len(lines)]
        flags = "".join(random.choices(" 01", k=4)).encode()
        yield line[:5] + b"%10d" % tlid + line[15:102] + flags + line[106:]


def shape(random: Random, tlid: int) -> Iterator[bytes]:
    """Yields the lines of type 2 of a segment."""
    count = random.randrange(MOST_POINTS + 1)
    points = [
        (random.randint(-179_999_999, 179_999_999), random.randint(-89_999_999, 89_999_999)) for _ in range(count)
    ]
    for sequence, first in enumerate(range(0, count, POINTS_OF_A_LINE), start=1):
        used = points[first : first + POINTS_OF_A_LINE]
        unused = [(0, 0)] * (POINTS_OF_A_LINE - len(used))
        text = "".join(f"{longitude:+010d}{latitude:+09d}" for longitude, latitude in used + unused)
        yield f"20006{tlid:10d}{sequence:3d}{text}".encode()


def write_lines(path: Path, lines: list[bytes]) -> None:
    path.parent.mkdir(exist_ok=True)
    path.write_bytes(b"".join(line + b"\r\n" for line in lines))


def write_counties(folder: Path, count: int, random: Random) -> None:
    """Writes the county three times: for straight lines, for the driver, and for `extractd` with the lines of type 2 in a random order."""
    tlids = range(1_000_000, 1_000_000 + count)
    segments = list(segments_with(random, tlids))
    shapes = [line for tlid in tlids for line in shape(random, tlid)]
    for name in ("straight", "ordered", "shuffled"):
        write_lines(folder / name / f"TGR{CODE}.RT1", segments)
    write_lines(folder / "ordered" / f"TGR{CODE}.RT2", shapes)
    random.shuffle(shapes)
    write_lines(folder / "shuffled" / f"TGR{CODE}.RT2", shapes)


def points_of(wkt: str) -> list[int]:
    numbers = wkt.removeprefix("LINESTRING").strip(" ()").replace(",", " ").split()
    return [round(float(number) * 1_000_000) for number in numbers]


def read(table: bytes, encoding: str) -> Iterator[Segment]:
    """Yields the segments of GDAL's output. Numbers have no leading zeros, and texts no blanks, as in the driver's."""
    for row in csv.DictReader(io.StringIO(table.decode(encoding))):
        cells = (row[name if name in row else name.removesuffix("_TEXT")] for name in COLUMNS)
        yield Segment([LEADING_ZEROS.sub("", cell.strip()) for cell in cells], points_of(row["WKT"]))


def gdal(*source: str, given: bytes | None = None) -> bytes:
    """Returns what GDAL reads, as a table. Its warnings, as of a missing file of type 2, are shown only if it fails."""
    command = ["ogr2ogr", "-f", "CSV", "-lco", "GEOMETRY=AS_WKT", "/vsistdout/", *source]
    done = subprocess.run(command, input=given, capture_output=True)
    assert done.returncode == 0, done.stderr.decode()
    return done.stdout


def layer(folder: Path, form: str, geometry: str) -> Iterator[Segment]:
    options = ["--format", form, "--geometry", geometry, "--columns", ",".join(COLUMNS)]
    command = ["extractd", "select", "--where", "TRUE", *options, "--data", str(folder), CODE]
    written = subprocess.run(command, stdout=subprocess.PIPE, check=True).stdout
    return read(gdal(*FORMATS[form], given=written), "utf-8")


# What the driver reads, and what `extractd` does, for each geometry.
GEOMETRIES = {"line": ("straight", "straight"), "shape": ("ordered", "shuffled")}


def pytest_generate_tests(metafunc: pytest.Metafunc) -> None:
    add_batches(metafunc, BATCHES)


@pytest.mark.needs("ogr2ogr")
@pytest.mark.usefixtures("extractd")
@pytest.mark.parametrize("form", FORMATS)
@pytest.mark.parametrize("geometry", GEOMETRIES)
def test_segments(batch: int, geometry: str, form: str, here: Path) -> None:
    write_counties(here, SEGMENTS, Random(batch))
    read_by_gdal, given = GEOMETRIES[geometry]
    expected = list(read(gdal(str(here / read_by_gdal / f"TGR{CODE}.RT1"), "CompleteChain"), "latin-1"))
    found = list(layer(here / given, form, geometry))
    assert len(expected) == SEGMENTS
    assert len(found) == SEGMENTS
    differing = [
        f"is to be {one}\nand is   {other}" for one, other in zip(expected, found, strict=True) if one != other
    ]
    assert not differing, f"{len(differing)} segments differ\n{differing[0]}"
