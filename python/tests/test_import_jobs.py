"""Whole jobs on imported counties give what the counties that they are made of give, but for classes. And imports in batches."""

import re
import shutil
import subprocess
import sys
from collections.abc import Iterator
from pathlib import Path
from urllib.parse import urlencode
from urllib.request import urlopen

import pytest
import tigerline
from batches import CODES
from counties import EXAMPLES, TOP
from noise import addresses, draw_addresses
from shapefiles import shapefiles_of, write_example, write_shapefiles
from test_features import ask
from test_import import COMMAND, ENVIRONMENT, content, counties, out
from test_main import run_command
from towns import write_county
from tigerline.layout import PLACES
from tigerline.service import application

sys.path.append(str(TOP / "tests"))
from harness.server import Server  # noqa: E402

__all__ = ["counties", "out"]
pytestmark = pytest.mark.usefixtures("gdal", "scratch")

TOWN = "01007"
FILTERS = (
    "TRUE",
    "ZIPL = 35042 AND FENAME LIKE 'M%'",
    "HAS_NAME('Main') OR HAS_NAME('US Hwy 31')",
    "HAS_NUMBER(153)",
    "S_INTERSECTS(geometry, BBOX(-87.14, 32.94, -87.11, 32.97))",
)
# The classes of the town that come back as others. That of a US highway depends on its name.
GENERAL = {"B21": "B11", "D82": "F00", "D85": "F00", "F10": "F00", "H12": "H11", "H31": "H11"}
POINTS = "-87.126358,32.9649\n-87.1263,32.95\n-87.14,32.96\n-87.12,32.955\n"


def import_to(source: Path, folder: Path) -> Path:
    """Imports shapefiles."""
    subprocess.run([*COMMAND, str(source), str(folder)], env=ENVIRONMENT, check=True, stdout=subprocess.PIPE)
    return folder


@pytest.fixture(scope="module")
def town(tmp_path_factory: pytest.TempPathFactory) -> Path:
    """Imports shapefiles of the example town."""
    folder = tmp_path_factory.mktemp("town")
    return import_to(
        write_shapefiles(shapefiles_of(EXAMPLES / "town", TOWN), folder / "shapefiles"), folder / "imported"
    )


def without_class(row: tigerline.Row) -> tigerline.Row:
    return row._replace(CFCC=None)


@pytest.mark.usefixtures("extractd")
class TestTown:
    """The example town and its import."""

    @pytest.mark.parametrize("where", FILTERS)
    def test_select(self, town: Path, tmp_path: Path, where: str) -> None:
        expected = [without_class(row) for row in tigerline.rows(where, EXAMPLES / "town")]
        assert [without_class(row) for row in tigerline.rows(where, town)] == expected != []
        tables = []
        for data in (EXAMPLES / "town", town):
            done = run_command(
                "select", data, "-", "--where", where, "--columns", "TLID", "ZIPR", "--geometry", "shape"
            )
            assert (done.returncode, done.stderr) == (0, "")
            tables.append(done.stdout)
        assert tables[0] == tables[1]

    def test_classes(self, town: Path) -> None:
        """A class becomes that of the Bureau, and of this the most general one."""
        for own, found in zip(tigerline.rows("TRUE", EXAMPLES / "town"), tigerline.rows("TRUE", town), strict=True):
            highway = "A21" if (own.FENAME or "").startswith("US ") else "A31"
            assert found.CFCC == {**GENERAL, "A21": highway}.get(own.CFCC or "", own.CFCC)

    @pytest.mark.parametrize("suffix", ["svg", "html"])
    def test_map(self, town: Path, tmp_path: Path, suffix: str) -> None:
        """Classes with the same color give the same map."""
        drawn = []
        where = "CFCC IN ('A11', 'A41', 'A51', 'A63') AND ZIPL = 35042"
        for data in (EXAMPLES / "town", town):
            path = tmp_path / f"a.{suffix}"
            options = ("--map", path, "--no-background", "--overwrite", "--columns", "TLID")
            assert run_command("select", data, tmp_path / "a.csv", "--where", where, *options).returncode == 0
            drawn.append(re.sub(r"<dc:date>.*?</dc:date>|id=\"[^\"]*\"|#[a-z0-9]{8,}", "", path.read_text()))
        assert drawn[0] == drawn[1]

    def test_geocode(self, town: Path) -> None:
        written = []
        for data in (EXAMPLES / "town", town):
            options = ("--data", data, "--reasons", "--candidates")
            done = run_command("geocode", EXAMPLES / "town_addresses.csv", *options)
            assert done.returncode == 0
            written.append(done.stdout)
        assert written[0] == written[1] and written[0].count('"Match"') == 35

    def test_reverse(self, town: Path, tmp_path: Path) -> None:
        (tmp_path / "points").write_text(POINTS)
        written = [
            run_command("reverse", tmp_path / "points", "--data", data).stdout for data in (EXAMPLES / "town", town)
        ]
        assert written[0] == written[1] and len(written[0].splitlines()) == 5

    def test_tigerline_serve(self, town: Path) -> None:
        services = [application(data, None) for data in (EXAMPLES / "town", town)]
        texts = [{"filter": where, "limit": "20", "offset": "3"} for where in FILTERS]
        for parameters in [
            *texts,
            {"bbox": "-87.14,32.94,-87.11,32.97", "limit": "50"},
            {"sortby": "-ZIPL,TLID", "limit": "9"},
        ]:
            found = [ask(service, f"/collections/{TOWN}/items?{urlencode(parameters)}") for service in services]
            documents = [one.document for one in found]
            for document in documents:
                document.pop("timeStamp", None)
                for feature in document["features"]:
                    feature["properties"].pop("CFCC", None)
            assert documents[0] == documents[1] and found[0].status == 200

    def test_extractd_serve(self, town: Path) -> None:
        answers = []
        for data in (EXAMPLES / "town", town):
            with Server(data, counties=(TOWN,)) as server:
                paths = ("/geocode?number=801&name=broad", "/geocode?number=153&name=main&zip=35034")
                found = [urlopen(server.url + path).read() for path in paths]
                rows = urlopen(f"{server.url}/select", b"HAS_NAME('Main')").read().splitlines()
                table = urlopen(
                    f"{server.url}/geocode-batch", b"number,name,zip\n801,Broad,\n610,Hickory,35042\n"
                ).read()
                at = PLACES["CFCC"]
                answers.append([*found, table, [row[2:][: at.start] + row[2:][at.stop :] for row in rows]])
        assert answers[0] == answers[1] and all(answers[0])


@pytest.mark.usefixtures("extractd")
def test_addresses_with_noise(tmp_path: Path) -> None:
    """1,000 exact and 1,000 noisy addresses have the same matches in a county of 20 towns, before and after."""
    towns = write_county(tmp_path / "first")
    exact, noisy = draw_addresses(tmp_path, towns)
    imported = import_to(
        write_shapefiles(shapefiles_of(tmp_path / "first", TOWN), tmp_path / "made"), tmp_path / "after"
    )
    assert len((imported / f"TGR{TOWN}.RT1").read_bytes().splitlines()) > 15_000
    asked = addresses([*exact, *noisy])
    before, after = ([*tigerline.geocode(asked, data)] for data in (tmp_path / "first", imported))
    assert len(before) == 2000 and before == after
    assert sum(match.status == tigerline.Status.MATCH for match in after) > 1800


def test_example_is_that_of_the_script(tmp_path: Path) -> None:
    """examples/shapefiles is what shapefiles.py writes: the files inside are the same."""
    made, kept = write_example(tmp_path), EXAMPLES / "shapefiles"
    for folder in (made, kept):
        for archive in sorted(folder.glob("*.zip")):
            shutil.unpack_archive(archive, tmp_path / folder.name / archive.stem)
    files = sorted(path.relative_to(tmp_path / made.name) for path in (tmp_path / made.name).rglob("*.???"))
    assert sorted(path.name for path in made.glob("*.zip")) == sorted(path.name for path in kept.iterdir()) and files
    for path in files:
        if path.suffix != ".zip":
            assert (tmp_path / made.name / path).read_bytes() == (tmp_path / kept.name / path).read_bytes(), path


@pytest.fixture
def expected(counties: Path, tmp_path: Path) -> Iterator[dict[str, dict[str, bytes]]]:
    """Yields the files of five counties."""
    folder = import_to(counties, tmp_path / "expected")
    yield {code: content(folder, code) for code in CODES}


@pytest.mark.needs("parallel")
def test_parallel(counties: Path, tmp_path: Path, expected: dict[str, dict[str, bytes]]) -> None:
    """Each county is a task, also of xargs or Slurm."""
    command = ["parallel", "-j2", *COMMAND, str(counties), str(tmp_path / "out"), "--counties", ":::", *CODES]
    done = subprocess.run(command, env=ENVIRONMENT, capture_output=True, text=True)
    assert done.returncode == 0 and len(done.stdout.splitlines()) == len(CODES)
    assert {code: content(tmp_path / "out", code) for code in CODES} == expected


def test_dask(counties: Path, tmp_path: Path, out: Path, expected: dict[str, dict[str, bytes]]) -> None:
    pytest.importorskip("distributed", reason="no distributed")
    from test_cluster import running_cluster

    with running_cluster(tmp_path / "cluster", 2, "--nthreads", 1) as (address, _):
        done = run_command("import", counties, out, "--scheduler", address)
        assert done.returncode == 0 and len(done.stdout.splitlines()) == len(CODES)
        assert {code: content(out, code) for code in CODES} == expected
        done = run_command("import", counties, out, "--scheduler", address)
        assert done.returncode == 3 and "File exists: --overwrite replaces it" in done.stderr
    done = run_command("import", counties, out, "--scheduler", "tcp://127.0.0.1:1", "--overwrite")
    assert done.returncode == 3 and "no scheduler answers" in done.stderr
