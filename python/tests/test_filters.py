"""Filters of boxes and masks. Their texts are those of OGC CQL2 (21-065r2)."""

import json
import math
from pathlib import Path
from types import SimpleNamespace
from typing import Any

import pytest
import tigerline
from counties import CODE, EXAMPLES, gdal_rows, points_of, program_of
from tigerline.commands import main
from tigerline.filters import conditions_of, conjunction

from_text = pytest.importorskip("shapely.wkt", reason="no shapely").loads
from_geojson = pytest.importorskip("shapely.geometry", reason="no shapely").shape
SQUARE = [[-86.7, 32.4], [-86.6, 32.4], [-86.6, 32.5], [-86.7, 32.4]]
HOLE = [[-86.65, 32.41], [-86.64, 32.41], [-86.64, 32.42], [-86.65, 32.41]]
SQUARE_TEXT = "(-86.7 32.4, -86.6 32.4, -86.6 32.5, -86.7 32.4)"
HOLE_TEXT = "(-86.65 32.41, -86.64 32.41, -86.64 32.42, -86.65 32.41)"
POLYGON = {"type": "Polygon", "coordinates": [SQUARE, HOLE]}
CIRCLE = [[math.cos(at * math.tau / 1001), math.sin(at * math.tau / 1001)] for at in range(1001)]
ROUND = {"type": "Polygon", "coordinates": [[*CIRCLE, CIRCLE[0]]]}
BOX = "S_INTERSECTS(geometry, BBOX(-86.7, 32.4, -86.6, 32.5))"


def shape(**members: Any) -> SimpleNamespace:
    """Returns what has the attributes of a shape of shapely or geopandas."""
    return SimpleNamespace(**members)


@pytest.mark.parametrize(
    ("bbox", "text"),
    [
        ((-86.7, 32.4, -86.6, 32.5), "-86.7, 32.4, -86.6, 32.5"),
        (("-86.70", "32", "1e1", "40"), "-86.7, 32, 10, 40"),
        ((-86.70000000000003, 32.4, 0.0000004, 33), "-86.70000000000003, 32.4, 0.0000004, 33"),
        ((-86.700000000000003, -0.0, 1e-16, 33.5), "-86.7, 0, 0, 33.5"),
        (shape(bounds=(1, 2, 3, 4)), "1, 2, 3, 4"),
        (shape(total_bounds=[1, 2, 3, 4], bounds="of each"), "1, 2, 3, 4"),
    ],
)
def test_boxes(bbox: Any, text: str) -> None:
    assert conditions_of(bbox, None) == (f"S_INTERSECTS(geometry, BBOX({text}))",)


@pytest.mark.parametrize("bbox", [(1, 2, 3), (3, 2, 1, 4), (1, 4, 3, 2), (math.nan, 2, 3, 4), (1, 2, math.inf, 4)])
def test_no_boxes(bbox: Any) -> None:
    with pytest.raises(ValueError, match="a box is west, south, east and north in degrees"):
        conditions_of(bbox, None)


@pytest.mark.parametrize(
    ("mask", "text"),
    [
        (POLYGON, f"POLYGON({SQUARE_TEXT}, {HOLE_TEXT})"),
        (shape(__geo_interface__=POLYGON), f"POLYGON({SQUARE_TEXT}, {HOLE_TEXT})"),
        ({"type": "Feature", "geometry": POLYGON}, f"POLYGON({SQUARE_TEXT}, {HOLE_TEXT})"),
        (
            {"type": "MultiPolygon", "coordinates": [[SQUARE], [HOLE]]},
            f"MULTIPOLYGON(({SQUARE_TEXT}), ({HOLE_TEXT}))",
        ),
        (
            {"type": "FeatureCollection", "features": [{"type": "Feature", "geometry": POLYGON}] * 2},
            f"MULTIPOLYGON(({SQUARE_TEXT}, {HOLE_TEXT}), ({SQUARE_TEXT}, {HOLE_TEXT}))",
        ),
    ],
)
def test_masks(mask: Any, text: str) -> None:
    assert conditions_of(None, mask) == (f"S_INTERSECTS(geometry, {text})",)


@pytest.mark.parametrize(
    "mask", [{"type": "Point", "coordinates": [1, 2]}, {}, {"type": "FeatureCollection", "features": []}]
)
def test_no_masks(mask: Any) -> None:
    with pytest.raises(ValueError, match="a mask "):
        conditions_of(None, mask)


def test_masks_are_in_degrees() -> None:
    """A GeoDataFrame in another system is transformed to NAD 83."""
    geopandas = pytest.importorskip("geopandas", reason="no geopandas")
    box = pytest.importorskip("shapely.geometry", reason="no shapely").box
    frame = geopandas.GeoSeries([box(-86.7, 32.4, -86.6, 32.5)], crs="EPSG:4269").to_crs("EPSG:26916")
    (text,) = conditions_of(frame, None)
    numbers = [float(number) for number in text.split("BBOX(")[1].rstrip(")").split(",")]
    assert numbers == pytest.approx([-86.7, 32.4, -86.6, 32.5], abs=0.001)
    assert conditions_of(None, frame)[0].startswith("S_INTERSECTS(geometry, POLYGON((-86.")


def test_conjunctions() -> None:
    assert conjunction("A OR B", ()) == "A OR B"
    assert conjunction("", ()) == ""
    assert conjunction(None, ("C", "D")) == "C AND D"
    assert conjunction("A OR B", ("C", "D")) == "(A OR B) AND C AND D"


@pytest.mark.usefixtures("scratch")
class TestSelections:
    """A program that writes its arguments shows the filter that it gets."""

    @pytest.fixture
    def program(self, tmp_path: Path) -> str:
        said = f'for word; do case "$word" in --where=*) echo "$word" >> "{tmp_path}/filters";; esac; done'
        refuse = f'[ "$1" = compile ] && {{ cat > "{tmp_path}/compiled"; grep -q ")" "{tmp_path}/compiled" && '
        refuse += "{ echo 'refused 90 line 1 column 5 Syntax' >&2; exit 1; }; exit 0; }"
        return program_of(tmp_path / "program", f"{refuse}\n{said}")

    def test_function(self, tmp_path: Path, program: str, frames: None) -> None:
        frame = tigerline.select(
            "A", EXAMPLES, CODE, bbox=(-86.7, 32.4, -86.6, 32.5), geometry=False, columns=["TLID"], extractd=program
        )
        assert len(frame) == 0 and (tmp_path / "filters").read_text() == f"--where=(A) AND {BOX}\n"
        assert (tmp_path / "compiled").read_text() == "A"

    def test_parenthesis_in_the_filter(self, program: str, frames: None) -> None:
        """It can't close the one before the filter, since the filter is compiled alone."""
        with pytest.raises(tigerline.RefusedError, match="line 1 column 5"):
            tigerline.select("A) OR (B", EXAMPLES, CODE, bbox=(1, 2, 3, 4), geometry=False, extractd=program)

    def test_command(self, tmp_path: Path, program: str, capsys: pytest.CaptureFixture[str], frames: None) -> None:
        (tmp_path / "mask.geojson").write_text(json.dumps(POLYGON))
        words = ["select", str(EXAMPLES), str(tmp_path / "a.csv"), "--geometry", "none", "--extractd", program]
        words += ["--bbox", "-86.7,32.4,-86.6,32.5", "--mask", str(tmp_path / "mask.geojson"), "--counties", CODE]
        assert main(words) == 3 and "isn't a table" in capsys.readouterr().err
        before, text = (tmp_path / "filters").read_text().split(" AND S_INTERSECTS(geometry, ")
        assert before == f"--where={BOX}" and from_text(text[:-2]).equals(from_geojson(POLYGON))

    @pytest.mark.usefixtures("extractd", "frames", "gdal")
    @pytest.mark.parametrize(
        ("name", "crs"), [("a.geojson", 4326), ("a.gpkg", 26916), ("a.shp", 4269), ("a.shp", 5070), ("a.fgb", 4269)]
    )
    def test_masks_of_files(self, tmp_path: Path, name: str, crs: int) -> None:
        """Polygons that overlap, in several formats and systems, select what shapely selects of GDAL's segments."""
        polygons = [
            from_text(f"POLYGON(({ring}))")
            for ring in (
                "-87.14 32.94, -87.11 32.94, -87.12 32.97, -87.14 32.94",
                "-87.13 32.95, -87.1 32.95, -87.1 32.98, -87.13 32.95",
            )
        ]
        geopandas = pytest.importorskip("geopandas")
        geopandas.GeoDataFrame(geometry=polygons, crs=4269).to_crs(crs).to_file(tmp_path / name)
        town, out = EXAMPLES / "town", tmp_path / "a.csv"
        words = ["--mask", str(tmp_path / name), "--columns", "TLID", "--geometry", "none"]
        assert main(["select", str(town), str(out), *words]) == 0
        expected = []
        for row in gdal_rows(town / "TGR01007.RT1"):
            start, *_, end = points_of(row["WKT"])
            text = f"LINESTRING ({start[0]} {start[1]}, {end[0]} {end[1]})"
            line = from_text(text if start != end else f"POINT ({start[0]} {start[1]})")
            if any(polygon.intersects(line) for polygon in polygons):
                expected.append(row["TLID"])
        assert [line.split(",")[2] for line in out.read_text().splitlines()[1:]] == expected and len(expected) > 200

    @pytest.mark.usefixtures("frames")
    @pytest.mark.parametrize(
        ("name", "content", "status", "text"),
        [
            ("a.txt", "no polygon", 3, "can't be read by GDAL"),
            ("a.geojson", json.dumps({"type": "Point", "coordinates": [1, 2]}), 2, "a mask has polygons, and 'Point'"),
            ("a.geojson", json.dumps(ROUND), 2, "the mask has 1,001 vertices, and a filter 1,000 at most: ogr2ogr"),
        ],
    )
    def test_no_masks_of_files(
        self, tmp_path: Path, name: str, content: str, status: int, text: str, capsys: pytest.CaptureFixture[str]
    ) -> None:
        (tmp_path / name).write_text(content)
        assert main(["select", str(EXAMPLES), str(tmp_path / "a.csv"), "--mask", str(tmp_path / name)]) == status
        assert text in capsys.readouterr().err

    @pytest.mark.parametrize(
        ("options", "status", "text"),
        [
            (["--bbox", "1,2,3"], 2, "error: a box is west, south, east and north"),
            (["--mask", "nowhere"], 3, "error: nowhere: No such file or directory: check the path"),
            ([], 2, "error: say which segments by --where"),
        ],
    )
    def test_faults(self, options: list[str], status: int, text: str, capsys: pytest.CaptureFixture[str]) -> None:
        assert main(["select", str(EXAMPLES), "a.csv", *options]) == status
        assert capsys.readouterr().err.startswith(text)
