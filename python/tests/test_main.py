"""The command: files that appear completely or not at all, exit statuses and errors."""

import csv
import json
import os
import re
import shutil
import sqlite3
import subprocess
import sys
import tempfile
from collections.abc import Iterator, Sequence
from pathlib import Path
from typing import IO, Any

import pytest
from counties import CODE, EXAMPLES, SEGMENTS, TOP, copy_county, gdal_rows, points_of, program_of, records, write_shapes
from tigerline import commands
from tigerline.maps import content

pytestmark = pytest.mark.usefixtures("scratch")

COMMAND = [sys.executable, "-m", "tigerline"]
ROADS = "CFCC LIKE 'A%'"
STRAIGHT = ("--geometry", "line")  # The example county has no shapes.


def run_command(
    *arguments: object,
    before: Sequence[str] | None = None,
    environment: dict[str, str] | None = None,
    stdout: int | IO[str] = subprocess.PIPE,
    timeout: float = 300,
    **options: Any,
) -> subprocess.CompletedProcess[str]:
    variables = {**os.environ, "PYTHONPATH": str(TOP / "python"), **(environment or {})}
    command = [*(before or ()), *COMMAND, *map(str, arguments)]
    return subprocess.run(
        command, env=variables, stderr=subprocess.PIPE, stdout=stdout, text=True, timeout=timeout, **options
    )


def run(*arguments: object, **options: Any) -> subprocess.CompletedProcess[str]:
    """Runs `tigerline select`."""
    return run_command("select", *arguments, **options)


@pytest.fixture
def out(tmp_path: Path) -> Iterator[Path]:
    """Makes a folder for output, in which no temporary file may be left."""
    folder = tmp_path / "out"
    folder.mkdir()
    yield folder
    assert not [path.name for path in folder.iterdir() if path.name.startswith(".")]


def layer(path: Path) -> list[dict[str, str]]:
    """Returns the features of a file as GDAL reads them."""
    command = ["ogr2ogr", "-f", "CSV", "/vsistdout/", str(path), "-lco", "GEOMETRY=AS_WKT"]
    written = subprocess.run(command, stdout=subprocess.PIPE, check=True, text=True).stdout
    return list(csv.DictReader(written.splitlines()))


def by_tlid(row: dict[str, str]) -> str:
    return row["TLID"]


@pytest.mark.usefixtures("extractd", "gdal")
class TestFormats:
    """Every format has the segments that GDAL's TIGER driver reads."""

    @pytest.mark.parametrize("suffix", ["gpkg", "geojson", "fgb", "shp", "csv"])
    def test_segments_and_points(self, out: Path, tmp_path: Path, suffix: str) -> None:
        write_shapes(copy_county(tmp_path / "data"))
        done = run(tmp_path / "data", out / f"roads.{suffix}", "--where", ROADS, "--geometry", "shape")
        assert (done.returncode, done.stderr, done.stdout) == (0, "", f"{out}/roads.{suffix}: 240 segments\n")
        expected = gdal_rows(tmp_path / "data/TGR01001.RT1", "-where", ROADS)
        found = sorted(layer(out / f"roads.{suffix}"), key=by_tlid)  # FlatGeobuf sorts by location.
        assert [row["TLID"] for row in found] == [row["TLID"] for row in expected]
        assert [points_of(row["WKT"]) for row in found] == [points_of(row["WKT"]) for row in expected]
        assert [row["FENAME"] for row in found] == [row["FENAME"] for row in expected]
        assert {row["STATEL"] for row in found} == {"01"} and {row["county"] for row in found} == {CODE}

    @pytest.mark.parametrize("suffix", ["gpkg", "geojson", "csv"])
    def test_columns_without_geometry(self, out: Path, suffix: str) -> None:
        done = run(
            EXAMPLES,
            out / f"a.{suffix}",
            "--where",
            ROADS,
            "--columns",
            "tlid",
            "ZIPL",
            "--geometry",
            "none",
            "--counties",
            CODE,
        )
        assert done.returncode == 0
        found = layer(out / f"a.{suffix}")
        assert len(found) == 240 and set(found[0]) - {"WKT"} == {"county", "score", "TLID", "ZIPL"}
        assert not found[0].get("WKT")

    def test_standard_output(self, out: Path) -> None:
        options = (EXAMPLES, "-", "--where", ROADS, "--counties", CODE, *STRAIGHT)
        for engine in ((), ("--workers", "2")):
            done = run(*options, *engine)
            assert (done.returncode, done.stderr) == (0, "")
            assert [row["CFCC"][0] for row in csv.DictReader(done.stdout.splitlines())] == ["A"] * 240
        done = run(*options, "--resume")
        assert (done.returncode, done.stdout) == (2, "") and "--resume need a file as OUT" in done.stderr

    def test_missing_driver(self, out: Path) -> None:
        """GDAL of Debian 12 has no Parquet."""
        done = run(EXAMPLES, out / "a.parquet", "--where", ROADS, "--counties", CODE, *STRAIGHT)
        if done.returncode == 0:
            assert len(layer(out / "a.parquet")) == 240
        else:
            assert (
                done.returncode == 3
                and "this GDAL has no Parquet: write .gpkg" in done.stderr
                and not list(out.iterdir())
            )

    def test_safe_cells(self, out: Path, tmp_path: Path) -> None:
        lines = records(EXAMPLES / "TGR01001.RT1")[:2]
        lines[0] = lines[0][:19] + b'=HYPERLINK("x,y")'.ljust(30) + lines[0][49:]
        (tmp_path / "TGR01001.RT1").write_bytes(b"\n".join(lines))
        options = (
            tmp_path,
            out / "a.csv",
            "--where",
            "TRUE",
            "--columns",
            "FENAME",
            "FRLONG",
            *STRAIGHT,
            "--overwrite",
        )
        for safe, start in (((), ""), (("--safe-cells",), "'")):
            assert run(*options, *safe).returncode == 0
            with open(out / "a.csv", newline="") as file:
                (first, _) = csv.DictReader(file)
            assert first["FENAME"] == f'{start}=HYPERLINK("x,y")' and first["FRLONG"].startswith("-")

    def test_odd_names(self, out: Path) -> None:
        for name in ("a b?c&d=e:f%20.gpkg", "-n.geojson", "CAPITALS.FGB", "\u00e9.csv"):
            path = out / name
            done = run(EXAMPLES, path, "--where", ROADS, "--counties", CODE, *STRAIGHT)
            assert (done.returncode, done.stderr) == (0, "") and path.stat().st_size > 10_000

    def test_no_segment(self, out: Path) -> None:
        for suffix in ("gpkg", "geojson", "fgb", "csv"):
            assert run(EXAMPLES, out / f"a.{suffix}", "--where", "FALSE", "--counties", CODE).returncode == 0
            assert layer(out / f"a.{suffix}") == []

    def test_types_and_missing_values(self, out: Path) -> None:
        assert run(EXAMPLES, out / "a.gpkg", "--where", "TRUE", "--counties", CODE).returncode == 0
        with sqlite3.connect(out / "a.gpkg") as database:
            types = {name: kind for _, name, kind, *_ in database.execute("PRAGMA table_info(segments)")}
            blank = database.execute("SELECT COUNT(*) FROM segments WHERE FENAME IS NULL").fetchone()
            empty = database.execute("SELECT COUNT(*) FROM segments WHERE FENAME = ''").fetchone()
            system = database.execute("SELECT srs_id FROM gpkg_geometry_columns").fetchone()
        assert types["TLID"] == "INTEGER" and types["ZIPL"] == "TEXT" and types["FRLAT"] == "REAL"
        expected = sum(not record[19:49].strip() for record in records(EXAMPLES / "TGR01001.RT1"))
        assert blank == (expected,) and empty == (0,) and system == (4269,)

    def test_scores(self, out: Path) -> None:
        options = ("--where", "TRUE", "--score", "FRLONG", "--counties", CODE, "--columns", "TLID")
        done = run(EXAMPLES, out / "a.gpkg", *options)
        assert done.returncode == 2 and "use --signed" in done.stderr and not list(out.iterdir())
        done = run(EXAMPLES, out / "a.shp", "--where", "TRUE", "--score", "TLID", "--counties", CODE, *STRAIGHT)
        rows = layer(out / "a.shp")
        assert done.returncode == 0 and len(rows) == SEGMENTS and all(row["score"] == row["TLID"] for row in rows)
        for path in out.iterdir():
            path.unlink()
        assert run(EXAMPLES, out / "a.gpkg", *options, "--signed").returncode == 0
        expected = [int(record[190:200]) for record in records(EXAMPLES / "TGR01001.RT1")]
        assert [int(row["score"]) for row in layer(out / "a.gpkg")] == expected
        assert run(EXAMPLES, out / "a.csv", *options).returncode == 0
        assert [int(row["score"]) - 2**64 for row in layer(out / "a.csv")] == expected

    @pytest.mark.parametrize(
        ("suffix", "score", "options", "expected"),
        [
            ("gpkg", 2**63 - 1, (), 2**63 - 1),
            ("gpkg", 2**63, (), None),
            ("gpkg", 2**63, ("--signed",), -(2**63)),
            ("shp", 10**18 - 1, (), 10**18 - 1),
            ("shp", 10**18, (), None),
            ("csv", 2**64 - 1, (), 2**64 - 1),
        ],
    )
    def test_largest_scores(
        self,
        out: Path,
        extractd: str,
        tmp_path: Path,
        suffix: str,
        score: int,
        options: tuple[str, ...],
        expected: int | None,
    ) -> None:
        """A program sets the score by helper function 8."""
        (tmp_path / "source").write_text(f"lddw r1, {score}\ncall 8\nmov r0, 1\nexit\n")
        with open(tmp_path / "program", "wb") as words:
            subprocess.run([extractd, "asm", "--source", tmp_path / "source"], stdout=words, check=True)
        done = run(EXAMPLES / "one", out / f"a.{suffix}", "--program", tmp_path / "program", *STRAIGHT, *options)
        assert done.returncode == (0 if expected is not None else 2)
        if expected is not None:
            assert [int(row["score"]) for row in layer(out / f"a.{suffix}")] == [expected]

    def test_odd_bytes_and_no_coordinates(self, out: Path, tmp_path: Path) -> None:
        lines = records(EXAMPLES / "TGR01001.RT1")[:4]
        lines[0] = lines[0][:19] + b'"a,b;\t\\\xe9\xa0  NULL'.ljust(30) + lines[0][49:]
        lines[1] = lines[1][:190] + b" " * 38
        lines[2] = lines[2][:19] + b"nul\0cr\rx".ljust(30) + lines[2][49:]
        (tmp_path / "TGR01001.RT1").write_bytes(b"\n".join(lines))
        for suffix in ("gpkg", "geojson", "csv"):
            done = run(tmp_path, out / f"a.{suffix}", "--where", "TRUE", "--columns", "FENAME", *STRAIGHT)
            assert done.returncode == 0 and done.stderr.startswith("warning: ") and done.stderr.count("\n") == 1
        names = [feature["properties"]["FENAME"] for feature in json.loads((out / "a.geojson").read_text())["features"]]
        with sqlite3.connect(out / "a.gpkg") as database:
            assert [name for (name,) in database.execute("SELECT FENAME FROM segments ORDER BY fid")] == names
        assert names[0] == '"a,b;\t\\\xe9\xa0  NULL' and names[2] == "nul?cr?x"
        with open(out / "a.csv", newline="", encoding="utf-8") as file:
            table = list(csv.DictReader(file))
        assert [row["FENAME"] for row in table] == names and table[1]["WKT"] == ""
        done = run(tmp_path, out / "a.fgb", "--where", "TRUE")
        assert done.returncode == 2 and "1 have no coordinates" in done.stderr and not (out / "a.fgb").exists()


@pytest.mark.usefixtures("extractd")
class TestMaps:
    """A map in addition to the file."""

    @pytest.mark.parametrize(
        ("suffix", "by", "title"),
        [
            ("svg", "class", "class"),
            ("html", "class", "class"),
            ("svg", "score", "FRADDL"),
            ("html", "score", "FRADDL"),
        ],
    )
    def test_map(self, out: Path, suffix: str, by: str, title: str) -> None:
        options = ("--where", ROADS, "--counties", CODE, "--score", "fraddl", "--map-by", by)
        done = run(EXAMPLES, out / "a.csv", *options, "--map", out / f"map.{suffix}")
        assert done.returncode == 0
        page = (out / f"map.{suffix}").read_text()
        assert "CFCC LIKE " in page and f"240 segments by {title}" in page and "Not selected" in page

    @pytest.mark.parametrize(("suffix", "start"), [("png", b"\x89PNG\r\n"), ("pdf", b"%PDF-")])
    def test_picture(self, out: Path, suffix: str, start: bytes) -> None:
        options = ("--where", ROADS, "--counties", CODE, *STRAIGHT, "--map", out / f"map.{suffix}")
        assert run(EXAMPLES, out / "a.csv", *options).returncode == 0
        assert (out / f"map.{suffix}").read_bytes().startswith(start)

    def test_background_is_around_the_selection(self, out: Path, tmp_path: Path) -> None:
        """The town, its copy far in the east, and a county without selected segments."""
        town = EXAMPLES / "town"
        copy_county(tmp_path / "data")
        east = []
        for record in records(town / "TGR01007.RT1"):
            east.append(record[:190] + b"+080000000" + record[200:209] + b"+080000000" + record[219:])
        (tmp_path / "data/TGR01007.RT1").write_bytes(b"\n".join(records(town / "TGR01007.RT1") + east))
        north = [record for record in records(town / "TGR01007.RT1") if b"35042" in (record[106:111], record[111:116])]
        roads = [record for record in north if record[55:57] == b"A4"]
        where = "CFCC LIKE 'A4%' AND (ZIPL = 35042 OR ZIPR = 35042) AND FRLONG < 0"
        for options, background in (((), True), (("--no-background",), False)):
            options = (*STRAIGHT, "--map", str(out / "a.svg"), "--overwrite", *options)
            done = run(tmp_path / "data", out / "a.csv", "--where", where, *options)
            assert done.returncode == 0 and done.stderr.count("\n") == 1, done.stderr
            counts = re.findall(r">(Local road|Not selected) \(([0-9,]+)\)<", (out / "a.svg").read_text())
            assert dict(counts)["Local road"] == str(len(roads))
            rest = len(records(town / "TGR01007.RT1")) - len(roads)
            assert (
                len(north) - len(roads) < int(dict(counts).get("Not selected", 0)) < rest
                if background
                else len(counts) == 1
            )

    def test_too_much_background(
        self, monkeypatch: pytest.MonkeyPatch, out: Path, capsys: pytest.CaptureFixture[str]
    ) -> None:
        monkeypatch.setattr(content, "MOST_SEGMENTS", 100)
        arguments = [
            "select",
            str(EXAMPLES),
            str(out / "a.csv"),
            "--where",
            ROADS,
            "--counties",
            CODE,
            "--map",
            str(out / "a.svg"),
        ]
        assert commands.main(arguments) == 0
        assert "warning: the map shows the selection alone: its counties have more than 100" in capsys.readouterr().err
        assert "Not selected" not in (out / "a.svg").read_text()

    def test_nothing_selected(self, out: Path) -> None:
        options = ("--where", "FALSE", "--counties", CODE, *STRAIGHT)
        done = run(EXAMPLES, out / "a.csv", *options, "--map", out / "a.svg")
        assert (done.returncode, done.stderr) == (0, "") and "0 segments by class" in (out / "a.svg").read_text()

    def test_neither_file_without_the_other(self, out: Path) -> None:
        (out / "map.svg").write_text("old")
        done = run(EXAMPLES, out / "a.csv", "--where", ROADS, "--map", out / "map.svg")
        assert done.returncode == 3 and [path.name for path in out.iterdir()] == ["map.svg"]
        done = run(
            EXAMPLES, out / "a.csv", "--where", ROADS, "--counties", CODE, "--map", out / "map.svg", "--overwrite"
        )
        assert done.returncode == 0 and (out / "map.svg").read_text() != "old" and (out / "a.csv").exists()


def named_main(folder: Path, code: str) -> list[str]:
    """Returns the TLIDs of the segments named Main, by a join of record types 1, 4 and 5."""
    named = {int(record[10:18]): record[20:50].strip().lower() for record in records(folder / f"TGR{code}.RT5")[::-1]}
    names: dict[int, list[bytes]] = {}
    for record in records(folder / f"TGR{code}.RT4"):
        numbers = [record[at : at + 8] for at in range(18, 58, 8)]
        names.setdefault(int(record[5:15]), []).extend(
            named.get(int(number), b"") for number in numbers if number.strip()
        )
    found = []
    for record in records(folder / f"TGR{code}.RT1"):
        if b"main" in (record[19:49].strip().lower(), *names.get(int(record[5:15]), ())):
            found.append(record[5:15].decode().strip())
    return found


@pytest.mark.usefixtures("extractd")
class TestTasks:
    """Tasks over several counties, with the results found by other means."""

    def test_any_name_main_over_three_counties(self, out: Path, tmp_path: Path) -> None:
        data = copy_county(tmp_path / "data")
        shutil.copytree(EXAMPLES / "town", data, dirs_exist_ok=True)
        command = [sys.executable, "-B", str(TOP / "tools/make_town.py"), "--seed", "7", "--code", "01009", str(data)]
        subprocess.run(command, check=True)
        assert run(data, out / "a.csv", "--where", "HAS_NAME('Main')", "--geometry", "none").returncode == 0
        with open(out / "a.csv", newline="", encoding="utf-8") as file:
            found = [(row["county"], row["TLID"]) for row in csv.DictReader(file)]
        codes = ("01001", "01007", "01009")
        assert found == [(code, tlid) for code in codes for tlid in named_main(data, code)]
        assert all(sum(county == code for county, _ in found) > 20 for code in codes)

    def test_local_roads_of_a_zip_code_as_a_map(self, out: Path, gdal: None) -> None:
        where = "CFCC LIKE 'A4%' AND (ZIPL = 35042 OR ZIPR = 35042)"
        options = ("--where", where, "--geometry", "shape", "--map", out / "a.svg")
        assert run(EXAMPLES / "town", out / "a.gpkg", *options).returncode == 0
        expected = gdal_rows(EXAMPLES / "town/TGR01007.RT1", "-where", where)
        assert [row["TLID"] for row in layer(out / "a.gpkg")] == [row["TLID"] for row in expected]
        assert re.search(rf">Local road \({len(expected)}\)<", (out / "a.svg").read_text())


@pytest.mark.usefixtures("extractd")
class TestFaults:
    """One error, its status, and no file."""

    def refused(self, out: Path, status: int, text: str, *arguments: object, **options: object) -> None:
        before = sorted(out.iterdir())
        done = run(*arguments, **options)
        assert (done.returncode, done.stdout or "") == (status, "")
        assert text in done.stderr and "Traceback" not in done.stderr
        assert sorted(out.iterdir()) == before

    def test_statuses(self, out: Path, tmp_path: Path) -> None:
        table = out / "a.csv"
        self.refused(out, 1, "refused 91 line 1 column 1 UnknownColumn\n", EXAMPLES, table, "--where", "ZIP = 1")
        self.refused(out, 2, "no column has the name ZIP", EXAMPLES, table, "--where", "TRUE", "--columns", "ZIP")
        self.refused(out, 2, "is no county", EXAMPLES, table, "--where", "TRUE", "--counties", "1001")
        self.refused(out, 3, "has no TGR01003.RT1", EXAMPLES, table, "--where", "TRUE", "--counties", "01003")
        self.refused(
            out,
            3,
            "nowhere.bpf: No such file or directory",
            EXAMPLES,
            table,
            "--program",
            "nowhere.bpf",
            "--counties",
            CODE,
        )
        self.refused(out, 3, "there is no program nowhere", EXAMPLES, table, "--where", "TRUE", "--extractd", "nowhere")
        short = program_of(tmp_path / "short", "echo refused memory >&2; exit 4")
        self.refused(
            out,
            4,
            "error: refused memory\n",
            EXAMPLES,
            table,
            "--where",
            "TRUE",
            "--counties",
            CODE,
            "--extractd",
            short,
        )

    def test_usage(self, out: Path) -> None:
        for arguments in (
            (EXAMPLES, out / "a.kml", "--where", "TRUE"),
            (EXAMPLES, out / "a", "--where", "TRUE"),
            (EXAMPLES, out / "a.csv"),
            (EXAMPLES, out / "a.csv", "--where", "TRUE", "--program", "p"),
            (EXAMPLES, out / "a.csv", "--where", "TRUE", "--map", out / "a.gif"),
            (EXAMPLES, out / "a.csv", "--program", "p", "--score", "TLID"),
        ):
            self.refused(out, 2, "error: ", *arguments)

    def test_existing_file(self, out: Path) -> None:
        (out / "a.csv").write_text("old")
        options = (EXAMPLES, out / "a.csv", "--where", "TRUE", "--counties", CODE)
        self.refused(out, 3, f"error: {out}/a.csv: File exists: --overwrite replaces it\n", *options)
        assert (out / "a.csv").read_text() == "old"
        self.refused(out, 1, "refused 90", EXAMPLES, out / "a.csv", "--where", "(", "--overwrite", "--counties", CODE)
        assert (out / "a.csv").read_text() == "old"
        assert run(*options, "--overwrite").returncode == 0
        assert len((out / "a.csv").read_text().splitlines()) == SEGMENTS + 1

    def test_no_folder(self, out: Path) -> None:
        nowhere = out / "no/a.csv"
        self.refused(
            out,
            3,
            f"error: {nowhere}: No such file or directory: check the path\n",
            EXAMPLES,
            nowhere,
            "--where",
            "TRUE",
        )
        (out / "b.csv").mkdir()
        self.refused(
            out,
            3,
            f"error: {out}/b.csv: Is a directory: name a file in it\n",
            EXAMPLES,
            out / "b.csv",
            "--where",
            "TRUE",
            "--overwrite",
        )

    def test_unwritable_folder(self, out: Path, tmp_path: Path, extractd: str) -> None:
        """Root can write to all folders, so then the command runs as nobody, with copies that nobody may read."""
        before = []
        shutil.copytree(TOP / "python/tigerline", tmp_path / "python/tigerline")
        shutil.copy(extractd, tmp_path / "extractd")
        copy_county(tmp_path / "data")
        if os.geteuid() == 0:
            if not shutil.which("setpriv"):
                pytest.skip("no setpriv")
            before = ["setpriv", "--reuid=65534", "--regid=65534", "--clear-groups"]
            for folder in out.parents:
                if folder == Path(tempfile.gettempdir()):
                    break
                folder.chmod(0o755)
        out.chmod(0o555)
        (tmp_path / "scratch").chmod(0o777)
        environment = {"PYTHONPATH": str(tmp_path / "python"), "EXTRACTD": str(tmp_path / "extractd")}
        options = ("--where", "TRUE", "--counties", CODE)
        done = run(tmp_path / "data", out / "a.csv", *options, before=before, environment=environment)
        assert (done.returncode, done.stderr) == (3, f"error: {out}/a.csv: Permission denied\n")
        out.chmod(0o755)

    @pytest.mark.parametrize(
        ("suffix", "kilobytes"),
        [
            ("csv", 4),
            ("csv", 16),
            ("gpkg", 64),
            ("gpkg", 96),
            ("geojson", 48),
            ("geojson", 64),
            ("fgb", 24),
            ("fgb", 48),
        ],
    )
    def test_full_disk(self, out: Path, tmp_path: Path, suffix: str, kilobytes: int, gdal: None) -> None:
        """A limit on the size of files makes writes fail like a full disk."""
        before = ["sh", "-c", f'ulimit -f {kilobytes * 2}; exec "$@"', "sh"]
        options = ("--where", "TRUE", "--counties", CODE, "--columns", "TLID", *STRAIGHT)
        done = run(EXAMPLES, out / f"a.{suffix}", *options, before=before)
        assert done.returncode == 3 and done.stderr.startswith("error: ") and done.stderr.count("\n") == 1
        assert not list(out.iterdir())

    def test_no_gdal(self, out: Path, tmp_path: Path) -> None:
        (tmp_path / "bin").mkdir()
        options = (EXAMPLES, out / "a.gpkg", "--where", "TRUE", "--counties", CODE)
        self.refused(out, 3, "there is no program ogr2ogr", *options, environment={"PATH": str(tmp_path / "bin")})

    def test_gdal_that_ends_early(self, out: Path, tmp_path: Path) -> None:
        """A process that doesn't read its table to the end has failed, whatever its status is."""
        (tmp_path / "bin").mkdir()
        program_of(tmp_path / "bin/ogr2ogr", "exit 0")
        program_of(tmp_path / "bin/ogrinfo", "echo '  features (Integer) = 0'")
        options = (EXAMPLES, out / "a.gpkg", "--where", "TRUE", "--counties", CODE)
        path = f"{tmp_path / 'bin'}{os.pathsep}{os.environ['PATH']}"
        said = "a.gpkg: ogr2ogr can't write it: it ended early with status 0\n"
        self.refused(out, 3, said, *options, environment={"PATH": path})

    @pytest.mark.parametrize(("has_table", "overwrite"), [(False, False), (True, True), (True, False)])
    def test_database(self, out: Path, tmp_path: Path, has_table: bool, overwrite: bool) -> None:
        """Other programs take the place of GDAL's, and show what they are told."""
        (tmp_path / "bin").mkdir()
        program_of(tmp_path / "bin/ogr2ogr", f'echo "$@" > {tmp_path}/told; cat > {tmp_path}/table')
        count = "echo '  features (Integer) = 240'"
        program_of(tmp_path / "bin/ogrinfo", f'case "$*" in *-so*) exit {int(not has_table)};; *) {count};; esac')
        options = ("--where", ROADS, "--counties", CODE, *STRAIGHT, *["--overwrite"] * overwrite)
        path = f"{tmp_path / 'bin'}{os.pathsep}{os.environ['PATH']}"
        done = run(EXAMPLES, "PG:dbname=roads password=secret", *options, environment={"PATH": path})
        if has_table and not overwrite:
            said = "error: the database has a table segments: --overwrite replaces it\n"
            assert (done.returncode, done.stdout, done.stderr) == (3, "", said) and not (tmp_path / "told").exists()
            return
        assert (done.returncode, done.stdout, done.stderr) == (0, "the database: 240 segments\n", "")
        told = (tmp_path / "told").read_text().split()
        assert told[:2] == ["-f", "PostgreSQL"] and "-ds_transaction" in told and ("-overwrite" in told) == overwrite
        assert "PG:dbname=roads password=secret" in (tmp_path / "told").read_text()
        assert (tmp_path / "table").read_text().count("\n") == 241

    def test_no_outputs(self, out: Path) -> None:
        """Standard output or standard error is closed."""
        close = ["sh", "-c", 'exec "$@" >&-', "sh"]
        done = run(EXAMPLES, out / "a.csv", "--where", "TRUE", "--counties", CODE, *STRAIGHT, before=close)
        assert (done.returncode, done.stderr) == (3, "error: the output can't be written: standard output is closed\n")
        close = ["sh", "-c", 'exec "$@" 2>&-', "sh"]
        done = run(EXAMPLES, out / "a.csv", "--where", "TRUE", "--counties", CODE, *STRAIGHT, before=close)
        assert (done.returncode, done.stdout) == (3, "")

    def test_closed_output(self, out: Path) -> None:
        reader, writer = os.pipe()
        os.close(reader)
        done = run(EXAMPLES, out / "a.csv", "--where", "TRUE", "--counties", CODE, *STRAIGHT, stdout=writer)
        os.close(writer)
        assert (done.returncode, done.stderr) == (3, "error: the output can't be written: Broken pipe\n")
        assert len((out / "a.csv").read_text().splitlines()) == SEGMENTS + 1
