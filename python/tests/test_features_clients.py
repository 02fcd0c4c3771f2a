"""Independent clients: GDAL's OAPIF driver and OWSLib."""

import csv
import importlib.util
import io
import os
import re
import shutil
import subprocess
import sys
from collections.abc import Callable, Iterator
from pathlib import Path
from typing import Any

import pytest
from counties import CODE, EXAMPLES, JOINED, SEGMENTS, TOOLS, TOP, gdal_rows, records, write_empty
from test_features_command import Running, start  # noqa: F401 (a fixture)

LARGE, TOWN = "01003", "01007"
CHAINS = 8
ALL = {CODE: SEGMENTS, LARGE: CHAINS * SEGMENTS, TOWN: 803}
Client = Any  # OWSLib has no types.

pytestmark = pytest.mark.usefixtures("scratch")


def write_large_county(folder: Path) -> None:
    """Writes a county of some thousand segments: several from make_county.py, each with its own TLIDs."""
    sys.path.insert(0, str(TOOLS))
    try:
        spec = importlib.util.spec_from_file_location("make_county", TOOLS / "make_county.py")
        assert spec is not None and spec.loader is not None
        make_county = importlib.util.module_from_spec(spec)
        spec.loader.exec_module(make_county)
    finally:
        sys.path.remove(str(TOOLS))
    lines = []
    for seed in range(CHAINS):
        for chain in make_county.county(make_county.Dice(seed)):
            for segment in chain:
                lines.append(make_county.record(segment | {"TLID": str(int(segment["TLID"]) + seed * 1_000_000)}))
    (folder / f"TGR{LARGE}.RT1").write_bytes(b"\r\n".join(lines) + b"\r\n")
    write_empty(folder, LARGE)


@pytest.fixture(scope="module")
def data(tmp_path_factory: pytest.TempPathFactory) -> Path:
    """Writes three counties. The town has shape points, which the TIGER driver reads, too."""
    folder = tmp_path_factory.mktemp("counties")
    for source, code, types in ((EXAMPLES, CODE, f"1{JOINED}"), (EXAMPLES / "town", TOWN, f"12{JOINED}")):
        for record_type in types:
            shutil.copy(source / f"TGR{code}.RT{record_type}", folder)
    write_large_county(folder)
    return folder


@pytest.fixture(scope="module")
def service(extractd: str, data: Path) -> Iterator[Running]:
    running = Running(["--data", data])
    yield running
    assert running.stop() == (0, "")


def oapif(service: Running, code: str, *options: str) -> tuple[list[dict[str, str]], str]:
    """Returns the segments as GDAL's OAPIF driver reads them, with their lines in the column WKT, and its requests."""
    command = ["ogr2ogr", "-f", "CSV", "/vsistdout/", f"OAPIF:{service.url}", code, "-lco", "GEOMETRY=AS_WKT"]
    environment = {**os.environ, "CPL_DEBUG": "HTTP,OAPIF"}
    done = subprocess.run([*command, *options], capture_output=True, env=environment, timeout=300)
    said = done.stderr.decode()
    assert done.returncode == 0 and "ERROR" not in said, said
    return list(csv.DictReader(io.StringIO(done.stdout.decode()))), said


def sorted_lines(rows: list[dict[str, str]]) -> list[tuple[int, str]]:
    return sorted((int(row["TLID"]), row["WKT"]) for row in rows)


@pytest.mark.usefixtures("gdal")
class TestGdal:
    """The features are those of the TIGER driver, and filters select what SQLite selects in a GeoPackage."""

    @pytest.mark.parametrize(
        ("code", "page"), [(CODE, None), (CODE, 399), (TOWN, 100), (LARGE, 1000), (LARGE, 3200), (LARGE, 77)]
    )
    def test_same_as_the_files(self, service: Running, data: Path, code: str, page: int | None) -> None:
        found, _ = oapif(service, code, *(() if page is None else ("-oo", f"PAGE_SIZE={page}")))
        expected = gdal_rows(data / f"TGR{code}.RT1")
        assert len(found) == len(expected) == ALL[code]
        assert sorted_lines(found) == sorted_lines(expected)
        lines = {int(row["TLID"]): row for row in expected}
        for row in found:
            assert {row[name] for name in ("FENAME", "CFCC")} == {
                lines[int(row["TLID"])][n] for n in ("FENAME", "CFCC")
            }

    def test_collection_of_counties(self, service: Running, data: Path) -> None:
        """The pages of a state go from county to county."""
        found, _ = oapif(service, "al", "-oo", "PAGE_SIZE=300")
        expected = [row for code in ALL for row in gdal_rows(data / f"TGR{code}.RT1")]
        assert sorted_lines(found) == sorted_lines(expected)
        box = ("-spat", "-87.2", "32.4", "-86.6", "33")
        found, _ = oapif(service, "us", "-oo", "PAGE_SIZE=300", *box)
        expected = [row for code in ALL for row in oapif(service, code, "-oo", "PAGE_SIZE=10000", *box)[0]]
        assert sorted_lines(found) == sorted_lines(expected) and len(found) > 100

    def test_layers(self, service: Running) -> None:
        """No layer is mirrored, and each has its features and columns."""
        done = subprocess.run(
            ["ogrinfo", "-so", "-al", f"OAPIF:{service.url}"],
            stdout=subprocess.PIPE,
            text=True,
            check=True,
            timeout=300,
        )
        assert re.findall(r"Layer name: (\w+)", done.stdout) == [*ALL, "al", "us"]
        total = sum(ALL.values())
        found = [int(count) for count in re.findall(r"Feature Count: (\d+)", done.stdout)]
        assert found == [*ALL.values(), total, total]
        corners = re.findall(r"Extent: \((-?[0-9.]+), (-?[0-9.]+)\)", done.stdout)
        assert len(corners) == len(ALL) + 2 and all(float(x) < -86 and float(y) > 32 for x, y in corners)
        assert "TLID: Integer" in done.stdout and "ZIPL: String" in done.stdout and "FRLONG: Real" in done.stdout

    @pytest.fixture(scope="class")
    def package(self, extractd: str, data: Path, tmp_path_factory: pytest.TempPathFactory) -> Path:
        """Makes a GeoPackage with the same rows and with columns of the same types."""
        path = tmp_path_factory.mktemp("package") / "large.gpkg"
        command = [
            sys.executable,
            "-m",
            "tigerline",
            "select",
            str(data),
            str(path),
            "--where",
            "TRUE",
            "--counties",
            LARGE,
        ]
        environment = {**os.environ, "PYTHONPATH": str(TOP / "python")}
        subprocess.run(command, env=environment, check=True, stdout=subprocess.DEVNULL, timeout=300)
        return path

    @pytest.mark.parametrize(
        ("where", "sent"),
        [
            ("CFCC = 'A41'", True),
            ("CFCC <> 'A41' AND FETYPE <> 'Rd'", True),
            ("FETYPE <> 'Rd'", True),
            ("NOT FETYPE = 'Rd'", True),
            ("NOT (FETYPE = 'Rd' OR FEDIRP = 'N')", True),
            ("FEDIRP IS NULL AND FENAME IS NOT NULL", True),
            ("FENAME IN ('Main', 'Old Ferry') OR TLID < 107000500", False),
            ("TLID >= 107000500 AND TLID <= 107001000", True),
            ("TLID BETWEEN 107000500 AND 107001000", True),
            ("CFCC LIKE 'A4%'", True),
            ("FRLONG < -86.7 AND TOLAT > 32.5", True),
            ("ZIPL = '36067'", False),
            ("CFCC = 'A41' AND ZIPL = '36067'", True),
            ("FRADDL IS NOT NULL", True),
            ("CFCC = 'Z99'", True),
        ],
    )
    def test_where(self, service: Running, package: Path, where: str, sent: bool) -> None:
        """`sent` means that GDAL has the service evaluate the filter or a part of it."""
        self.compare(service, package, "-where", where)
        _, said = oapif(service, LARGE, "-oo", "PAGE_SIZE=10000", "-where", where)
        assert ("&filter=" in said) == sent

    @pytest.mark.parametrize(
        "box",
        ["-86.7 32.4 -86.6 32.5", "-86.65 32.45 -86.649 32.451", "-180 -90 180 90", "0 0 1 1", "-86.7 32.4 -86.7 32.5"],
    )
    def test_box(self, service: Running, package: Path, box: str) -> None:
        self.compare(service, package, "-spat", *box.split())

    def test_box_of_an_end(self, service: Running, package: Path) -> None:
        """A box that ends exactly at the end of a segment contains it."""
        record = records(EXAMPLES / "TGR01001.RT1")[0].decode()
        for record in (line.decode() for line in records(package.parent.parent / "counties0/TGR01003.RT1")[:3]):
            west, south = int(record[190:200]) / 1e6, int(record[200:209]) / 1e6
            for box in ((west, south, west, south), (west, south, west + 0.001, south + 0.001)):
                self.compare(service, package, "-spat", *map(repr, box))

    def test_both(self, service: Running, package: Path) -> None:
        self.compare(
            service, package, "-spat", "-86.7", "32.4", "-86.5", "32.6", "-where", "FETYPE = 'St' OR CFCC = 'A21'"
        )

    def compare(self, service: Running, package: Path, *options: str) -> None:
        command = ["ogr2ogr", "-f", "CSV", "/vsistdout/", str(package), "-lco", "GEOMETRY=AS_WKT", *options]
        written = subprocess.run(command, stdout=subprocess.PIPE, check=True, text=True, timeout=300).stdout
        found, _ = oapif(service, LARGE, "-oo", "PAGE_SIZE=10000", *options)
        assert sorted_lines(found) == sorted_lines(list(csv.DictReader(io.StringIO(written))))

    def test_error(self, service: Running) -> None:
        """GDAL shows the service's message for a refused filter."""
        command = ["ogrinfo", f"OAPIF:{service.url}", CODE, "-where", "CFCC = 'A410'"]
        done = subprocess.run(command, capture_output=True, text=True, timeout=300)
        assert "refused 94 line 1 column" in done.stdout + done.stderr

    def test_tlid_that_is_there_twice(self, start: Callable[..., Running], tmp_path: Path) -> None:  # noqa: F811
        lines = records(EXAMPLES / "TGR01001.RT1")
        changed = [line[:49] + b"Oval" + line[53:] for line in lines[:5]]
        (tmp_path / "TGR01001.RT1").write_bytes(b"\n".join([*lines, *changed, *lines[:2]]) + b"\n")
        write_empty(tmp_path)
        service = start("--data", tmp_path)
        found, _ = oapif(service, CODE, "-oo", "PAGE_SIZE=90")
        assert sorted_lines(found) == sorted_lines(gdal_rows(tmp_path / "TGR01001.RT1"))
        assert sum(row["FETYPE"] == "Oval" for row in found) == 5


class TestOwslib:
    """OWSLib reads all documents and features."""

    @pytest.fixture
    def client(self, service: Running) -> Client:
        features = pytest.importorskip("owslib.ogcapi.features", reason="no owslib")
        return features.Features(f"{service.url}/")

    def test_documents(self, client: Client) -> None:
        assert client.feature_collections() == [*ALL, "al", "us"]
        conformance = client.conformance()["conformsTo"]
        for name in (
            "1/1.0/conf/core",
            "1/1.0/conf/geojson",
            "1/1.0/conf/oas30",
            "2/1.0/conf/crs",
            "3/1.0/conf/filter",
        ):
            assert f"http://www.opengis.net/spec/ogcapi-features-{name}" in conformance
        assert client.api()["openapi"].startswith("3.0.")
        assert client.collection(TOWN)["id"] == TOWN
        assert client.collection_queryables(TOWN)["properties"]["TLID"] == {"title": "TLID", "type": "integer"}

    def test_features(self, client: Client) -> None:
        found, offset = [], 0
        while page := client.collection_items(TOWN, limit=300, offset=offset)["features"]:
            found += page
            offset += len(page)
        expected = [int(record[5:15]) for record in records(EXAMPLES / "town/TGR01007.RT1")]
        assert [feature["id"] for feature in found] == expected
        assert client.collection_item(TOWN, str(expected[5]))["properties"] == found[5]["properties"]

    def test_selections(self, client: Client) -> None:
        lines = [record.decode() for record in records(EXAMPLES / "town/TGR01007.RT1")]
        found = client.collection_items(TOWN, filter="CFCC = 'A41' AND ZIPL = 35042", limit=1000)["features"]
        expected = [int(line[5:15]) for line in lines if line[55:58] == "A41" and line[106:111] == "35042"]
        assert [feature["id"] for feature in found] == expected and expected
        box = client.collection_items(TOWN, bbox=[-87.13, 32.95, -87.12, 32.96], limit=1)
        assert 0 < box["numberMatched"] < ALL[TOWN]
        with pytest.raises(RuntimeError, match="refused 91 line 1 column 1 UnknownColumn"):
            client.collection_items(TOWN, filter="ZIP = 1")
