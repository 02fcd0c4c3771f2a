"""`tigerline import`: which files it takes, counties that appear completely or not at all, and what is wrong with files."""

import os
import random
import shutil
import signal
import subprocess
import sys
import time
import zipfile
from collections.abc import Callable, Iterator
from pathlib import Path

import pytest
from batches import CODES, write_counties
from counties import EXAMPLES, TOP
from shapefiles import WKT, Form, line_of, shapefiles_of, write_shapefiles
from test_import_rules import CODE, Rows, edge, write, write_tables
from test_interrupts import processes_with
from tigerline import commands

pytestmark = pytest.mark.usefixtures("gdal", "scratch")

COMMAND = [sys.executable, "-m", "tigerline", "import"]
ENVIRONMENT = {**os.environ, "PYTHONPATH": str(TOP / "python")}
TOWN = "01007"
FILES = [f"TGR{TOWN}.RT{record_type}" for record_type in "12456C"]
SEED = 20063
UNPACKED = Form(packed=False)
NAME = "tl_2025_01001_edges"


@pytest.fixture(scope="module")
def town(tmp_path_factory: pytest.TempPathFactory) -> Path:
    """Writes the shapefiles of the example town."""
    return write_shapefiles(shapefiles_of(EXAMPLES / "town", TOWN), tmp_path_factory.mktemp("town"))


@pytest.fixture(scope="module")
def counties(tmp_path_factory: pytest.TempPathFactory) -> Path:
    """Writes the shapefiles of five counties, in a folder for each state."""
    data, folder = write_counties(tmp_path_factory.mktemp("data")), tmp_path_factory.mktemp("shapefiles")
    for code in CODES:
        write_shapefiles(shapefiles_of(data, code), folder / code[:2])
    for path in folder.glob("*/tl_2025_us_county.zip"):
        path.rename(folder / path.name)
    return folder


@pytest.fixture
def out(tmp_path: Path) -> Iterator[Path]:
    """Makes a folder with a county, which has to stay, and in which no temporary file may be left."""
    folder = tmp_path / "out"
    folder.mkdir()
    (folder / "TGR99999.RT1").write_text("as before")
    yield folder
    assert (folder / "TGR99999.RT1").read_text() == "as before"
    assert not [path.name for path in folder.iterdir() if path.name.startswith(".")]
    assert not processes_with(str(tmp_path))


def run(*words: object, before: tuple[str, ...] = (), path: str = "") -> subprocess.CompletedProcess[str]:
    command, variables = [*before, *COMMAND, *map(str, words)], {"PATH": path} if path else {}
    return subprocess.run(command, env={**ENVIRONMENT, **variables}, capture_output=True, text=True, timeout=300)


def said(capsys: pytest.CaptureFixture[str], *words: object) -> tuple[int, str, str]:
    """Returns the status, the output and the messages of the command, run in this process."""
    status = commands.main(["import", *map(str, words)])
    captured = capsys.readouterr()
    return status, captured.out, captured.err


def content(folder: Path, code: str = TOWN) -> dict[str, bytes]:
    """Returns the files of a county."""
    return {path.name: path.read_bytes() for path in sorted(folder.glob(f"TGR{code}.*"))}


def repack(archive: Path, folder: Path) -> Path:
    """Unpacks a zip file into a folder of its own."""
    with zipfile.ZipFile(archive) as file:
        file.extractall(folder)
    return folder


class TestSources:
    """All forms of the files give the same county."""

    @pytest.fixture
    def expected(self, town: Path, tmp_path: Path, capsys: pytest.CaptureFixture[str]) -> dict[str, bytes]:
        status, output, _ = said(capsys, town, tmp_path / "expected")
        assert (status, output) == (0, f"{TOWN}: 803 segments, 192 names, 1,504 ranges\n")
        return content(tmp_path / "expected")

    def test_unpacked_in_folders(self, town: Path, tmp_path: Path, expected: dict[str, bytes]) -> None:
        for archive in town.iterdir():
            repack(archive, tmp_path / "deep/AL" / archive.stem)
        assert run(tmp_path / "deep", tmp_path / "out").returncode == 0
        assert content(tmp_path / "out") == expected

    def test_named_files(self, town: Path, tmp_path: Path, expected: dict[str, bytes]) -> None:
        folder = repack(town / f"tl_2025_{TOWN}_edges.zip", tmp_path / "edges")
        others = [path for path in town.iterdir() if "edges" not in path.name]
        for pattern in ("*.shp", "*.dbf", "*"):
            done = run(*folder.glob(pattern), *others, tmp_path / "out", "--overwrite")
            assert done.returncode == 0 and content(tmp_path / "out") == expected

    def test_names_in_other_cases(self, town: Path, tmp_path: Path, expected: dict[str, bytes]) -> None:
        for archive in town.iterdir():
            shutil.copy(archive, tmp_path / archive.name.upper().replace("TL_2025", "FE_2025"))
        assert run(*sorted(tmp_path.glob("FE_*")), tmp_path / "out").returncode == 0
        assert content(tmp_path / "out") == expected

    @pytest.mark.parametrize("encoding", ["ISO-8859-1", "UTF-8", ""])
    def test_encodings(self, tmp_path: Path, encoding: str, capsys: pytest.CaptureFixture[str]) -> None:
        """Files of older years are in Latin-1. Without a .cpg file, one is in UTF-8 if it can be."""
        form = Form(packed=False, encoding=encoding or "ISO-8859-1")
        rows: Rows = [edge(1, FULLNAME="La Cañada"), edge(2, FULLNAME="Main St")]
        write(tmp_path / "shapefiles", form, edges=rows)
        if not encoding:
            (tmp_path / f"shapefiles/{NAME}.cpg").unlink()
            head = bytearray((tmp_path / f"shapefiles/{NAME}.dbf").read_bytes())
            head[29] = 0  # the code page in the file
            (tmp_path / f"shapefiles/{NAME}.dbf").write_bytes(head)
        assert said(capsys, tmp_path / "shapefiles", tmp_path / "out")[0] == 0
        assert (tmp_path / f"out/TGR{CODE}.RT1").read_bytes()[19:29] == "La Cañada ".encode("latin-1")

    def test_control_characters(self, tmp_path: Path, capsys: pytest.CaptureFixture[str]) -> None:
        """They become blanks: a line feed would end the record. A backslash is one."""
        rows: Rows = [edge(1, FULLNAME="Main\nSt\tN\\N"), edge(2, FULLNAME="\\N"), edge(3, FULLNAME="\\.")]
        write(tmp_path / "shapefiles", UNPACKED, edges=rows)
        path = tmp_path / f"shapefiles/{NAME}.dbf"
        assert said(capsys, tmp_path / "shapefiles", tmp_path / "out")[0] == 0 and path.exists()
        names = [line[19:49].rstrip() for line in (tmp_path / f"out/TGR{CODE}.RT1").read_bytes().split(b"\r\n")[:3]]
        assert names == [b"Main St N\\N", b"\\N", b"\\."]

    def test_census_in_names_of_files(self, tmp_path: Path, capsys: pytest.CaptureFixture[str]) -> None:
        """In 2010 the names of places were in files such as tl_2010_01_place10.zip."""
        area = {"STATEFP": "01", "COUNTYFP": "001", "PLACEFP": "50505", WKT: "POLYGON ((0 0,0 1,1 1,0 0))"}
        faces: Rows = [{"TFID": 7, **area}]
        place: Rows = [{"STATEFP": "01", "PLACEFP": "50505", "NAME": "Milford", WKT: area[WKT]}]
        folder = write(
            tmp_path / "all", Form("2010", False, census="10"), edges=[edge(1, TFIDL=7)], faces=faces, place=place
        )
        for path in folder.glob("*_place.*"):
            path.rename(path.with_name(path.name.replace("_place", "_place10")))
        assert said(capsys, folder, tmp_path / "out")[0] == 0
        assert b"Milford" in (tmp_path / f"out/TGR{CODE}.RTC").read_bytes()


class TestCounties:
    def test_states_and_codes(self, counties: Path, tmp_path: Path) -> None:
        done = run(counties, tmp_path / "out", "--counties", "02", "01005", "AK", "01001")
        assert (done.returncode, [line[:5] for line in done.stdout.splitlines()]) == (0, ["02013", "01005", "01001"])
        assert sorted({path.stem for path in (tmp_path / "out").iterdir()}) == ["TGR01001", "TGR01005", "TGR02013"]

    def test_jobs(self, counties: Path, tmp_path: Path) -> None:
        """Any number of processes write the same files."""
        one, three = run(counties, tmp_path / "one"), run(counties, tmp_path / "three", "--jobs", 3)
        assert one.returncode == three.returncode == 0 and len(one.stdout.splitlines()) == 5
        assert sorted(one.stdout.splitlines()) == sorted(three.stdout.splitlines())
        for code in CODES:
            assert content(tmp_path / "one", code) == content(tmp_path / "three", code) != {}
        assert one.stderr == three.stderr

    def test_progress(self, counties: Path, tmp_path: Path) -> None:
        done = run(counties, tmp_path / "out", "--progress", "--counties", "AL")
        assert done.returncode == 0 and "4" in done.stderr.splitlines()[-1]

    @pytest.mark.parametrize(
        ("codes", "status", "text"),
        [
            (["01009"], 3, "there is no tl_????_01009_edges among the sources"),
            (["GA"], 3, "there is no tl_????_13???_edges among the sources"),
            (["1001"], 2, "'1001' is no county"),
        ],
    )
    def test_counties_that_are_not_there(
        self, counties: Path, out: Path, codes: list[str], status: int, text: str, capsys: pytest.CaptureFixture[str]
    ) -> None:
        done = said(capsys, counties, out, "--counties", *codes)
        assert done[0] == status and text in done[2]

    def test_years(self, tmp_path: Path, out: Path, capsys: pytest.CaptureFixture[str]) -> None:
        """Files of two years are an error that names both, unless one is chosen."""
        for year in ("2024", "2025"):
            write(tmp_path / "both", Form(year), edges=[edge(1, FULLNAME=f"Road of {year}")])
        status, _, error = said(capsys, tmp_path / "both", out)
        named = [f"{tmp_path}/both/tl_{year}_{CODE}_edges.zip" for year in (2024, 2025)]
        assert (status, error) == (
            2, f"error: county {CODE} is there of 2024 and of 2025, {named[0]} and {named[1]}: choose by --year\n",
        )  # fmt: skip
        for year in ("2025", "2024"):
            assert said(capsys, tmp_path / "both", out, "--year", year, "--overwrite")[0] == 0
            assert f"Road of {year}".encode() in (out / f"TGR{CODE}.RT1").read_bytes()
        status, _, error = said(capsys, tmp_path / "both", out, "--year", "2023")
        assert status == 3 and f"{tmp_path}/both has no county: no file such as tl_2023_01001_edges.zip" in error

    def test_missing_kinds(self, counties: Path, tmp_path: Path, capsys: pytest.CaptureFixture[str]) -> None:
        """Each is reported once, with what it costs."""
        edges = sorted(counties.rglob("*_edges.zip"))
        status, _, error = said(capsys, *edges, tmp_path / "out")
        named = "warning: county 01001 and 4 others have no"
        assert (status, error.splitlines()) == (0, [
            f"{named} featnames: no alternate names, and names aren't split into their parts",
            f"{named} addr: one address range a side",
            f"{named} faces: no cities, tracts or blocks",
            f"{named} place: no names of cities",
            f"{named} cousub: no names of county subdivisions",
        ])  # fmt: skip

    def test_county_without_edges(self, tmp_path: Path, out: Path, capsys: pytest.CaptureFixture[str]) -> None:
        """Its files are left out, which is said."""
        write(tmp_path / "all", edges=[edge(1)], addr=[{"TLID": 1}])
        shutil.copy(tmp_path / f"all/tl_2025_{CODE}_addr.zip", tmp_path / "all/tl_2025_01003_addr.zip")
        status, output, error = said(capsys, tmp_path / "all", out)
        assert (status, output[:5]) == (0, CODE)
        text = f"warning: {tmp_path}/all/tl_2025_01003_addr.zip is left out: there are no edges of the county\n"
        assert text in error and "no addr" not in error
        status, _, error = said(capsys, tmp_path / "all", out, "--counties", "01003")
        assert status == 3 and "there is no tl_????_01003_edges among the sources" in error

    def test_twice(self, town: Path, tmp_path: Path, out: Path, capsys: pytest.CaptureFixture[str]) -> None:
        """The files nearest to the top count. Two that are equally near are an error."""
        for name in ("a", "b"):
            shutil.copytree(town, tmp_path / "data" / name)
        status, _, error = said(capsys, tmp_path / "data", out)
        assert status == 3 and f"tl_2025_{TOWN}_edges is there twice: {tmp_path}/data/a/" in error
        for path in town.iterdir():
            shutil.copy(path, tmp_path / "data")
        assert said(capsys, tmp_path / "data", out)[0] == 0


class TestOutput:
    def test_existing_county(self, town: Path, out: Path, capsys: pytest.CaptureFixture[str]) -> None:
        (out / f"TGR{TOWN}.RT4").write_text("old")
        status, output, error = said(capsys, town, out)
        assert (status, output) == (3, "") and error.startswith(f"error: {out}/TGR{TOWN}.RT4: File exists: --overwrite")
        assert content(out) == {f"TGR{TOWN}.RT4": b"old"}
        assert said(capsys, town, out, "--overwrite")[0] == 0
        assert [*content(out)] == FILES and (out / f"TGR{TOWN}.RT4").read_bytes() != b"old"

    @pytest.mark.parametrize("name", [f"tgr{TOWN}.rt1", f"TGR{TOWN}.ZIP"])
    def test_other_form_of_the_county(
        self, town: Path, out: Path, name: str, capsys: pytest.CaptureFixture[str]
    ) -> None:
        (out / name).write_text("old")
        for options in ((), ("--overwrite",)):
            status, _, error = said(capsys, town, out, *options)
            assert status == 3 and f"{out}/{name}" in error
        assert (out / name).read_text() == "old" and not [*out.glob(f"TGR{TOWN}.RT*")]

    def test_strict(self, tmp_path: Path, out: Path, capsys: pytest.CaptureFixture[str]) -> None:
        rows: Rows = [edge(1, FULLNAME="x" * 31), edge(2, MTFCC="S9999"), edge(3)]
        write(tmp_path / "shapefiles", edges=rows)
        status, output, error = said(capsys, tmp_path / "shapefiles", out, "--strict")
        losses = "MTFCC S9999, written as CFCC X00: 1 (2); names cut after 30 bytes: 1 (1)"
        assert (status, output) == (3, "") and f"error: county {CODE} isn't imported, by --strict: {losses}\n" in error
        assert not [*out.glob(f"TGR{CODE}.*")]
        assert said(capsys, tmp_path / "shapefiles", out)[:2] == (
            0,
            f"{CODE}: 3 segments, 1 names, 0 ranges; {losses}\n",
        )
        write(tmp_path / "whole", edges=[edge(1)])
        assert said(capsys, tmp_path / "whole", out, "--strict", "--overwrite")[0] == 0

    def test_new_folder(self, town: Path, tmp_path: Path, capsys: pytest.CaptureFixture[str]) -> None:
        """OUT is made, and goes if no county comes into it."""
        write(tmp_path / "bad", edges=[edge(1), edge(1)])
        assert said(capsys, tmp_path / "bad", tmp_path / "new")[0] == 3 and not (tmp_path / "new").exists()
        assert said(capsys, town, tmp_path / "no/new")[2].endswith(
            f"error: {tmp_path}/no/new: No such file or directory: check the path\n"
        )
        assert said(capsys, town, tmp_path / "new")[0] == 0 and [*content(tmp_path / "new")] == FILES

    def test_file_in_the_place_of_the_folder(
        self, town: Path, tmp_path: Path, capsys: pytest.CaptureFixture[str]
    ) -> None:
        (tmp_path / "file").write_text("old")
        assert said(capsys, town, tmp_path / "file")[0] == 3 and (tmp_path / "file").read_text() == "old"

    def test_some_counties_of_many(self, counties: Path, tmp_path: Path, out: Path) -> None:
        """A faulty county ends the run, and those before it stay, complete."""
        shutil.copytree(counties, tmp_path / "data")
        cut(tmp_path / "data/01/tl_2025_01005_edges.zip")
        for jobs in (1, 3):
            done = run(tmp_path / "data", out, "--jobs", jobs, "--overwrite", "--counties", "02", "01001", "01005")
            assert done.returncode == 3 and "tl_2025_01005_edges.zip" in done.stderr.splitlines()[-1]
            for code in ("02013", "01001", "01005"):
                assert len(content(out, code)) in ((0,) if code == "01005" else (0, 6))
                assert (len(content(out, code)) == 6) == (
                    f"{code}: " in done.stdout or jobs == 3 and len(content(out, code)) == 6
                )


def cut(path: Path) -> None:
    path.write_bytes(path.read_bytes()[:-200])


def damage(path: Path) -> None:
    data = bytearray(path.read_bytes())
    data[100:140] = bytes(40)
    path.write_bytes(data)


def without(suffix: str) -> Callable[[Path], None]:
    def change(path: Path) -> None:
        with zipfile.ZipFile(path) as old:
            kept = {name: old.read(name) for name in old.namelist() if not name.endswith(suffix)}
        with zipfile.ZipFile(path, "w") as new:
            for name, data in kept.items():
                new.writestr(name, data)

    return change


def add_of_another_county(path: Path) -> None:
    with zipfile.ZipFile(path, "a") as archive:
        archive.writestr("tl_2025_01003_edges.dbf", b"dbf")


def rename(path: Path) -> None:
    path.rename(path.with_name("edges.zip"))


LINE = line_of([(0, 1), (1, 0)])
# What is wrong with edges, and the end of the message after the path of the file.
EDGES: list[tuple[Rows, str]] = [
    ([edge(1), edge(2), edge(1)], ": TLID 1 is there twice"),
    ([edge(1, **{WKT: "LINESTRING (1 1)"})], ": TLID 1 isn't a line of at least two points"),
    ([edge(1, **{WKT: ""})], ": TLID 1 isn't a line of at least two points"),
    ([edge(1, **{WKT: "MULTILINESTRING ((1 1,2 2),(3 3,4 4))"})], ": ogr2ogr can't read it: Geometry field"),
    ([edge(1, **{WKT: "LINESTRING (500000 3600000,500001 3600000)"})], ": TLID 1 has coordinates that aren't degrees"),
    ([edge(1, **{WKT: "LINESTRING (1 91,1 1)"})], ": TLID 1 has coordinates that aren't degrees"),
    (
        [edge(1, **{WKT: "LINESTRING (1 1,0 0,1 2)"})],
        ": TLID 1 has a point at 0, 0, which ends a shape in record type 2",
    ),
    ([edge("")], ": '' isn't a TLID, which is a number of up to 10 digits"),
    ([edge(-5)], ": '-5' isn't a TLID, which is a number of up to 10 digits"),
    ([edge(0)], ": '0' isn't a TLID, which is a number of up to 10 digits"),
    ([edge(1), edge(2, COUNTYFP="003")], ": TLID 2 is of county 01003, not of 01001"),
    ([edge(1, STATEFP="")], ": TLID 1 is of county 001, not of 01001"),
    ([], ": it has no line"),
]
HEIGHTS = "LINESTRING Z (1 1 5,2 2 6)"


class TestFaults:
    """One message with the file, and nothing changes."""

    def refused(self, out: Path, text: str, *words: object, path: str = "") -> None:
        (out / f"TGR{CODE}.RT1").write_text("old")
        done = run(*words, out, "--overwrite", path=path)
        assert (done.returncode, done.stdout) == (3, ""), done.stderr
        assert "Traceback" not in done.stderr and text in done.stderr.splitlines()[-1], done.stderr
        assert sorted(path.name for path in out.iterdir()) == [f"TGR{CODE}.RT1", "TGR99999.RT1"]
        assert (out / f"TGR{CODE}.RT1").read_text() == "old"

    @pytest.mark.parametrize(("rows", "text"), EDGES)
    def test_edges(self, tmp_path: Path, out: Path, rows: Rows, text: str) -> None:
        write(tmp_path / "shapefiles", edges=rows)
        self.refused(out, f"{tmp_path}/shapefiles/{NAME}.zip{text}", tmp_path / "shapefiles")

    @pytest.mark.parametrize(
        ("change", "text"),
        [
            (cut, " isn't a whole zip file: "),
            (damage, " isn't a whole zip file: "),
            (without(".dbf"), f": it has no {NAME}.dbf"),
            (without(".shp"), f": it has no {NAME}.shp"),
            (without(".shx"), f": it has no {NAME}.shx"),
            (add_of_another_county, " has a file of another county or year: 'tl_2025_01003_edges.dbf'"),
        ],
    )
    def test_archives(self, tmp_path: Path, out: Path, change: Callable[[Path], None], text: str) -> None:
        write(
            tmp_path / "shapefiles",
            edges=[edge(1, FULLNAME=f"Main {at}") if at == 1 else edge(at) for at in range(1, 400)],
        )
        change(tmp_path / f"shapefiles/{NAME}.zip")
        self.refused(out, f"{tmp_path}/shapefiles/{NAME}.zip{text}", tmp_path / "shapefiles")

    @pytest.mark.parametrize(
        ("suffix", "text"),
        [("dbf", f"{NAME}.shp: it has no {NAME}.dbf"), ("shp", f"{NAME}.dbf: it has no {NAME}.shp"), ("shx", f"{NAME}.dbf: it has no {NAME}.shx")],
    )  # fmt: skip
    def test_missing_files(self, tmp_path: Path, out: Path, suffix: str, text: str) -> None:
        write(tmp_path / "shapefiles", UNPACKED, edges=[edge(1)])
        (tmp_path / f"shapefiles/{NAME}.{suffix}").unlink()
        self.refused(out, f"{tmp_path}/shapefiles/{text}", tmp_path / "shapefiles")

    @pytest.mark.parametrize("suffix", ["dbf", "shp", "shx"])
    def test_torn_files(self, tmp_path: Path, out: Path, suffix: str) -> None:
        write(tmp_path / "shapefiles", UNPACKED, edges=[edge(at) for at in range(1, 300)])
        cut(tmp_path / f"shapefiles/{NAME}.{suffix}")
        self.refused(out, f"{tmp_path}/shapefiles/{NAME}.dbf", tmp_path / "shapefiles")

    @pytest.mark.parametrize(
        ("kind", "rows", "text"),
        [
            ("faces", [{"TFID": 7, "STATEFP": "01", "COUNTYFP": "003"}], ": TFID 7 is of county 01003, not of 01001"),
            ("featnames", [{"TLID": 7, "NAME": "Main"}], " is of another county: none of its TLIDs is in edges"),
            ("addr", [{"TLID": 7, "SIDE": "L"}], " is of another county: none of its TLIDs is in edges"),
            ("addr", [{"TLID": "", "SIDE": "L"}], ": '' isn't a TLID, which is a number of up to 10 digits"),
        ],
    )
    def test_other_tables(self, tmp_path: Path, out: Path, kind: str, rows: Rows, text: str) -> None:
        box = {WKT: "POLYGON ((0 0,0 1,1 1,0 0))"} if kind == "faces" else {}
        write_tables(tmp_path / "shapefiles", {"edges": [edge(1)], kind: [{**row, **box} for row in rows]})
        self.refused(out, f"{tmp_path}/shapefiles/tl_2025_01001_{kind}.zip{text}", tmp_path / "shapefiles")

    def test_rows_without_segment(self, tmp_path: Path, out: Path, capsys: pytest.CaptureFixture[str]) -> None:
        """Some of them are counted."""
        names: Rows = [{"TLID": tlid, "NAME": "Main", "PAFLAG": "P"} for tlid in (1, 2, 3, 3, 4)]
        write(tmp_path / "shapefiles", edges=[edge(2)], featnames=names)
        status, output, _ = said(capsys, tmp_path / "shapefiles", out)
        loss = "rows of featnames and addr left out that have no segment: 4 (1, 3, 4, ..)"
        assert (status, output) == (0, f"{CODE}: 1 segments, 1 names, 0 ranges; {loss}\n")

    def test_heights(
        self, tmp_path: Path, out: Path, capsys: pytest.CaptureFixture[str], monkeypatch: pytest.MonkeyPatch
    ) -> None:
        """They are dropped, as the Bureau's lines have none."""
        monkeypatch.setitem(sys.modules["shapefiles"].SHAPES, "edges", "LINESTRINGZ")
        write(tmp_path / "shapefiles", edges=[edge(1, **{WKT: HEIGHTS})])
        assert said(capsys, tmp_path / "shapefiles", out)[0] == 0
        assert (out / f"TGR{CODE}.RT1").read_bytes()[190:228] == b"+001000000+01000000+002000000+02000000"

    def test_columns(self, tmp_path: Path, out: Path, monkeypatch: pytest.MonkeyPatch) -> None:
        monkeypatch.setitem(
            sys.modules["shapefiles"].COLUMNS, "edges", "STATEFP 2, COUNTYFP 3, TLID N10, TFIDL N10, TFIDR N10"
        )
        row = {name: value for name, value in edge(1).items() if name != "MTFCC"}
        write(tmp_path / "shapefiles", edges=[row])
        self.refused(out, f"{NAME}.zip: it has no column MTFCC", tmp_path / "shapefiles")

    def test_long_tlid(self, tmp_path: Path, out: Path, monkeypatch: pytest.MonkeyPatch) -> None:
        columns = sys.modules["shapefiles"].COLUMNS
        monkeypatch.setitem(columns, "edges", columns["edges"].replace("TLID N10", "TLID N12"))
        write(tmp_path / "shapefiles", edges=[edge(10_000_000_000)])
        self.refused(out, ": '10000000000' isn't a TLID, which is a number of up to 10 digits", tmp_path / "shapefiles")

    def test_text_tlid(self, tmp_path: Path, out: Path, monkeypatch: pytest.MonkeyPatch) -> None:
        """Texts aren't in the order of numbers."""
        columns = sys.modules["shapefiles"].COLUMNS
        monkeypatch.setitem(columns, "edges", columns["edges"].replace("TLID N10", "TLID 10"))
        write(tmp_path / "shapefiles", edges=[edge(9), edge(10)])
        self.refused(out, f"{NAME}.zip: the column TLID isn't numeric", tmp_path / "shapefiles")

    def test_long_code(self, tmp_path: Path, out: Path, monkeypatch: pytest.MonkeyPatch) -> None:
        """What a field can't hold is never cut."""
        columns = sys.modules["shapefiles"].COLUMNS
        monkeypatch.setitem(columns, "edges", columns["edges"].replace("ZIPL 5", "ZIPL 10"))
        write(tmp_path / "shapefiles", edges=[edge(1, ZIPL="35001-1234")])
        self.refused(
            out, "ZIPL of record type 1 has 5 bytes in Latin-1, and can't be '35001-1234'", tmp_path / "shapefiles"
        )

    def test_names_of_files(self, tmp_path: Path, out: Path) -> None:
        write(tmp_path / "shapefiles", edges=[edge(1)])
        rename(tmp_path / f"shapefiles/{NAME}.zip")
        self.refused(
            out,
            f"{tmp_path}/shapefiles has no county: no file such as tl_2025_01001_edges.zip",
            tmp_path / "shapefiles",
        )
        self.refused(out, "edges.zip isn't named as the Census Bureau names", tmp_path / "shapefiles/edges.zip")
        self.refused(out, f"{tmp_path}/nowhere: No such file or directory", tmp_path / "nowhere")

    def test_no_gdal(self, town: Path, out: Path, tmp_path: Path) -> None:
        self.refused(out, "there is no program ogr2ogr: install gdal-bin", town, path=str(tmp_path))

    def test_pipe(self, tmp_path: Path, out: Path) -> None:
        (tmp_path / "shapefiles").mkdir()
        os.mkfifo(tmp_path / f"shapefiles/{NAME}.zip")
        self.refused(out, f"{NAME}.zip isn't a regular file", tmp_path / "shapefiles")

    @pytest.mark.parametrize("kilobytes", [8, 48, 160, 200])
    def test_full_disk(self, town: Path, out: Path, kilobytes: int) -> None:
        """A limit on the size of files makes writes fail like a full disk: of what is unpacked, or of what is written."""
        before = ("sh", "-c", f'ulimit -f {kilobytes * 2}; exec "$@"', "sh")
        done = run(town, out, before=before)
        assert done.returncode == (3 if kilobytes < 200 else done.returncode) and "Traceback" not in done.stderr
        assert len(content(out)) == (6 if done.returncode == 0 else 0)
        if done.returncode:
            assert "File too large" in done.stderr.splitlines()[-1]

    def test_closed_output(self, town: Path, out: Path) -> None:
        with open("/dev/full", "w") as full:
            done = subprocess.run(
                [*COMMAND, str(town), str(out)], env=ENVIRONMENT, stdout=full, stderr=subprocess.PIPE, text=True
            )
        assert done.returncode == 3 and done.stderr.endswith(
            "error: the output can't be written: No space left on device\n"
        )
        assert [*content(out)] == FILES


def start(*words: object) -> subprocess.Popen[bytes]:
    command = [*COMMAND, *map(str, words)]
    return subprocess.Popen(
        command, env=ENVIRONMENT, stdout=subprocess.DEVNULL, stderr=subprocess.DEVNULL, start_new_session=True
    )


@pytest.mark.parametrize("jobs", [1, 2])
def test_interrupts_at_any_moment(counties: Path, out: Path, scratch: Path, jobs: int) -> None:
    """Ctrl-C and other signals leave complete counties, and no temporary folder or process."""
    started = time.monotonic()
    assert start(counties, out, "--jobs", jobs).wait(timeout=120) == 0
    duration, randoms = time.monotonic() - started, random.Random(SEED + jobs)
    expected = {code: content(out, code) for code in CODES}
    for number in [signal.SIGINT, signal.SIGTERM, signal.SIGHUP] * 3:
        for path in [path for code in CODES for path in out.glob(f"TGR{code}.*")]:
            path.unlink()
        process = start(counties, out, "--jobs", jobs)
        time.sleep(0.3 + randoms.random() * 0.8 * duration)
        os.killpg(process.pid, number)
        assert process.wait(timeout=30) in (-number, 0)
        assert not list(scratch.iterdir()) and not processes_with(str(out))
        assert not [path.name for path in out.iterdir() if path.name[0] == "."]
        for code in CODES:
            assert content(out, code) in ({}, expected[code])


MEASURED = """
import resource, sys
from tigerline.commands import main
status = main(["import", *sys.argv[1:]])
print(status, resource.getrusage(resource.RUSAGE_SELF).ru_maxrss)
"""


def test_memory(tmp_path: Path) -> None:
    """It doesn't grow with the lines of a county, nor with their names and ranges, if these are the same."""
    peaks = []
    for count in (4_000, 40_000):
        edges = (edge(tlid, FULLNAME="Main St") for tlid in range(1, count + 1))
        names = ({"TLID": tlid, "NAME": "Main", "PAFLAG": "P"} for tlid in range(1, count + 1))
        source = write(tmp_path / str(count), edges=edges, featnames=names)  # type: ignore[arg-type]
        command = [sys.executable, "-c", MEASURED, str(source), str(tmp_path / f"out{count}")]
        done = subprocess.run(command, env=ENVIRONMENT, stdout=subprocess.PIPE, stderr=subprocess.DEVNULL, text=True)
        status, peak = done.stdout.splitlines()[-1].split()
        assert status == "0"
        peaks.append(int(peak))
    assert peaks[1] - peaks[0] < 24_000  # kilobytes: the blocks that are read at a time
