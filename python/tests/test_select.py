"""Data frames, compared with GDAL's TIGER driver on the same files."""

import sys
from pathlib import Path
from typing import Any, cast

import pytest
import tigerline
from counties import CODE, EXAMPLES, SEGMENTS, copy_county, gdal_rows, points_of, records, write_shapes, zip_folder
from tigerline import layout

pytestmark = pytest.mark.usefixtures("extractd", "frames", "scratch")


def test_columns() -> None:
    frame = tigerline.select("CFCC = 'A41'", EXAMPLES, CODE)
    assert list(frame.columns) == ["county", "score", *layout.NAMES, "geometry"]
    assert frame.crs.to_epsg() == 4269 and str(frame.TLID.dtype) == "Int64" and str(frame.score.dtype) == "uint64"
    first = frame.iloc[0]
    record = next(record.decode() for record in records(EXAMPLES / "TGR01001.RT1") if record[55:58] == b"A41")
    assert first.FENAME == record[19:49].rstrip() and first.TRACTL == record[170:176] and first.STATEL == "01"
    assert first.FRADDL == record[58:69].lstrip() and first.FRLAT == int(record[200:209]) / 1e6
    assert frame.PLACEL.isna().any() and not (frame.PLACEL == "").any()


def test_no_row() -> None:
    frame = tigerline.select("FALSE", EXAMPLES, CODE)
    assert list(frame.columns) == ["county", "score", *layout.NAMES, "geometry"]
    assert len(frame) == 0 and frame.crs.to_epsg() == 4269 and str(frame.TLID.dtype) == "Int64"
    assert len(tigerline.select("FALSE", EXAMPLES, CODE, geometry=False)) == 0


def test_chosen_columns_without_geometry() -> None:
    frame = tigerline.select("TRUE", EXAMPLES, CODE, columns=("cfcc", "TLID"), geometry=False)
    assert list(frame.columns) == ["county", "score", "CFCC", "TLID"] and type(frame).__name__ == "DataFrame"


def test_scores() -> None:
    frame = tigerline.select("TRUE", EXAMPLES, CODE, score="FRLONG", signed=True, columns=["FRLONG"])
    assert len(frame) == SEGMENTS and (frame.score == (frame.FRLONG * 1e6).round()).all() and (frame.score < 0).all()
    unsigned = tigerline.select("TRUE", EXAMPLES, CODE, score="FRLONG", columns=[])
    assert [int(score) - 2**64 for score in unsigned.score] == frame.score.tolist()


def test_several_counties(tmp_path: Path) -> None:
    copy_county(tmp_path, code="01003")
    copy_county(tmp_path)
    frame = tigerline.select("TRUE", tmp_path, geometry="line")
    assert frame.county.tolist() == ["01001"] * SEGMENTS + ["01003"] * SEGMENTS
    assert frame.index.tolist() == list(range(2 * SEGMENTS)) and frame.crs.to_epsg() == 4269
    assert str(frame.TLID.dtype) == "Int64" and str(frame.score.dtype) == "uint64"


def test_missing_coordinates(tmp_path: Path) -> None:
    lines = records(EXAMPLES / "TGR01001.RT1")[:2]
    lines[0] = lines[0][:190] + b" " * 10 + lines[0][200:]
    (tmp_path / "TGR01001.RT1").write_bytes(b"\n".join(lines))
    with pytest.warns(UserWarning, match="has no TGR01001.RT4"):
        frame = tigerline.read_county(tmp_path, CODE)
    assert frame.geometry.isna().tolist() == [True, False] and frame.FRLONG.isna().tolist() == [True, False]


def test_any_byte(tmp_path: Path) -> None:
    """Bytes that no real file has are kept by the program and by the frame."""
    odd = bytes(byte for byte in range(256) if byte != 10)
    lines = []
    for shift in range(40):
        record = (odd * 2)[shift * 5 : shift * 5 + 228]
        # A CR at the end would belong to the line end.
        lines.append(b"1" + record[1:5] + b"%10d" % (1000 + shift) + record[15:227] + b"9")
    (tmp_path / "TGR01001.RT1").write_bytes(b"\n".join(lines) + b"\n")
    with pytest.warns(UserWarning):
        frame = tigerline.read_county(tmp_path, CODE)
        rows = list(tigerline.rows("TRUE", tmp_path))
    for record, name, row in zip(lines, frame.FENAME, rows, strict=True):
        assert name == row.FENAME == record[19:49].decode("latin-1").rstrip(" ")


@pytest.mark.parametrize("geometry", ["", "Line", True, None])
def test_other_geometry(geometry: Any) -> None:
    with pytest.raises(ValueError, match="geometry is"):
        tigerline.select("TRUE", EXAMPLES, CODE, geometry=geometry)


def test_forms_are_the_same(tmp_path: Path) -> None:
    write_shapes(copy_county(tmp_path / "plain"))
    write_shapes(copy_county(tmp_path / "lower")).rename(tmp_path / "lower/TGR01001.RT2")
    for file in (tmp_path / "lower").iterdir():
        file.rename(file.with_name(file.name.lower()))
    archive = zip_folder(tmp_path / "plain", tmp_path / "TGR01001.ZIP")
    frames = [
        tigerline.read_county(data, CODE, geometry="shape")
        for data in (tmp_path / "plain", tmp_path / "lower", archive)
    ]
    for other in frames[1:]:
        assert frames[0].drop(columns="geometry").equals(other.drop(columns="geometry"))
        assert frames[0].geometry.geom_equals_exact(other.geometry, 0).all()


@pytest.mark.usefixtures("gdal")
class TestAgainstGdal:
    """GDAL's TIGER driver reads the same files independently."""

    def test_all_segments_and_shapes(self, tmp_path: Path) -> None:
        path = write_shapes(copy_county(tmp_path)).with_suffix(".RT1")
        expected = gdal_rows(path)
        shapes = tigerline.read_county(tmp_path, CODE, geometry="shape")
        assert shapes.TLID.tolist() == [int(row["TLID"]) for row in expected]
        assert [list(line.coords) for line in shapes.geometry] == [points_of(row["WKT"]) for row in expected]
        assert max(len(line.coords) for line in shapes.geometry) == 25
        for name in ("FENAME", "FETYPE", "CFCC", "SOURCE", "FEDIRP", "FEDIRS"):
            assert shapes[name].fillna("").tolist() == [row[name] for row in expected]
        for name in ("FRADDL", "TOADDR", "FRIADDL", "TOIADDR"):
            assert shapes[name].fillna("").tolist() == [row[name].strip() for row in expected]
        for name in ("ZIPL", "TRACTR", "COUNTYL", "BLOCKL", "PLACER"):
            numbers = [
                None if value is None else int(value)
                for value in shapes[name].astype(object).where(shapes[name].notna(), None)
            ]
            assert numbers == [int(row[name]) if row[name] else None for row in expected]

    def test_two_ends(self, tmp_path: Path) -> None:
        lines = tigerline.read_county(EXAMPLES, CODE).geometry
        assert [list(line.coords) for line in lines] == [
            points_of(row["WKT"]) for row in gdal_rows(EXAMPLES / "TGR01001.RT1")
        ]

    @pytest.mark.parametrize(
        ("where", "for_gdal"),
        [
            ("CFCC LIKE 'A4%'", "CFCC LIKE 'A4%'"),
            ("FENAME = 'Main'", "FENAME = 'Main'"),
            ("CFCC IN ('A41', 'H11') AND FETYPE <> 'Rd'", "CFCC IN ('A41', 'H11') AND FETYPE <> 'Rd' AND FETYPE <> ''"),
            ("ZIPL = 36067 OR ZIPR = 36067", "ZIPL = 36067 OR ZIPR = 36067"),
        ],
    )
    def test_where(self, where: str, for_gdal: str) -> None:
        expected = [int(row["TLID"]) for row in gdal_rows(EXAMPLES / "TGR01001.RT1", "-where", for_gdal)]
        assert expected and tigerline.select(where, EXAMPLES, CODE).TLID.tolist() == expected
        assert [row.TLID for row in tigerline.rows(where, EXAMPLES, CODE)] == expected


@pytest.mark.parametrize("has_tqdm", [True, False])
def test_progress(capsys: pytest.CaptureFixture[str], monkeypatch: pytest.MonkeyPatch, has_tqdm: bool) -> None:
    if not has_tqdm:
        monkeypatch.setitem(cast(dict[str, object], sys.modules), "tqdm", None)
    tigerline.select("FALSE", EXAMPLES, CODE, progress=True)
    assert "1" in capsys.readouterr().err
