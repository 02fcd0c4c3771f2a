"""Counties for the tests: the example county, copies of it with shape points, zip files, and GDAL's reading of them."""

import csv
import io
import os
import subprocess
import zipfile
from collections.abc import Callable
from pathlib import Path

from tigerline.program import VERSION

TOP = Path(__file__).parents[2]
EXAMPLES = TOP / "examples"
TOOLS = TOP / "tools"
CODE = "01001"
# The record types that are joined to type 1. Without a file of one, there is a warning.
JOINED = "456"
SEGMENTS = 400


def copy_county(
    folder: Path, types: str = f"1{JOINED}", code: str = CODE, name: Callable[[str], str] = str.upper
) -> Path:
    """Copies the example county to a folder, under another code or with names in another case."""
    folder.mkdir(parents=True, exist_ok=True)
    for record_type in types:
        content = (EXAMPLES / f"TGR{CODE}.RT{record_type}").read_bytes()
        (folder / name(f"TGR{code}.RT{record_type}")).write_bytes(content)
    return folder


def write_empty(folder: Path, code: str = CODE) -> None:
    """Writes empty files of the joined types."""
    for record_type in JOINED:
        (folder / f"TGR{code}.RT{record_type}").touch()


def records(path: Path) -> list[bytes]:
    """Returns the lines of a file without their line ends."""
    return path.read_bytes().replace(b"\r\n", b"\n").removesuffix(b"\n").split(b"\n")


def write_shapes(folder: Path, code: str = CODE) -> Path:
    """Adds a file of type 2. The segments have 0, 1, 9, 10, 11, 20 and 23 points, one after the other."""
    lines = []
    for index, record in enumerate(records(folder / f"TGR{code}.RT1")):
        count = (0, 1, 9, 10, 11, 20, 23)[index % 7]
        points = [(-86500000 - 17 * index - point, 32400000 + 13 * index + 3 * point) for point in range(count)]
        for sequence, first in enumerate(range(0, count, 10), start=1):
            used = points[first : first + 10]
            unused = [(0, 0)] * (10 - len(used))
            text = "".join(f"{longitude:+010d}{latitude:+09d}" for longitude, latitude in used + unused)
            lines.append(b"20006" + record[5:15] + f"{sequence:3d}{text}\r\n".encode())
    path = folder / f"TGR{code}.RT2"
    path.write_bytes(b"".join(lines))
    return path


def zip_folder(folder: Path, path: Path, inside: str = "") -> Path:
    """Packs the files of a folder."""
    with zipfile.ZipFile(path, "w", zipfile.ZIP_DEFLATED) as archive:
        for file in sorted(folder.iterdir()):
            archive.write(file, inside + file.name)
    return path


def gdal_rows(path: Path, *options: str) -> list[dict[str, str]]:
    """Returns the segments of a type 1 file as GDAL's TIGER driver reads them, with their lines in the column WKT."""
    command = ["ogr2ogr", "-f", "CSV", "/vsistdout/", str(path), "CompleteChain", "-lco", "GEOMETRY=AS_WKT", *options]
    written = subprocess.run(command, stdout=subprocess.PIPE, check=True).stdout.decode("latin-1")
    return list(csv.DictReader(io.StringIO(written)))


def points_of(wkt: str) -> list[tuple[float, float]]:
    """Returns the points of a line in WKT."""
    pairs = wkt[wkt.index("(") + 1 : -1].split(",")
    return [(float(pair.split()[0]), float(pair.split()[1])) for pair in pairs]


def program_of(path: Path, script: str, version: str = f"extractd {VERSION}") -> str:
    """Writes a shell script that replaces `extractd`."""
    path.write_text(f'#!/bin/sh\n[ "$1" = --version ] && {{ echo "{version}" >&2; exit 2; }}\n{script}\n')
    os.chmod(path, 0o755)
    return str(path)
