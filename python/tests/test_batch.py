"""Counties in several processes give the bytes of one process, even after an interrupted run."""

import os
import random
import shutil
import signal
import time
import zipfile
from collections.abc import Iterator
from dataclasses import replace
from pathlib import Path

import pytest
from batches import (
    CODES,
    FIRST_IS_LAST,
    ROAD_COUNT,
    ROADS,
    SEGMENTS,
    WAIT,
    counties_run,
    disturbed,
    run,
    start,
    wait_for,
    write_counties,
)
from test_interrupts import processes_with
from tigerline import commands
from tigerline.cluster import batch
from tigerline.maps import content
from tigerline.extract import Request
from tigerline.interrupts import Interrupts
from tigerline.tables import Form

SEED = 20062
FORM = Form(("TLID",), "none")

pytestmark = pytest.mark.usefixtures("extractd", "scratch")


@pytest.fixture
def data(tmp_path: Path) -> Path:
    return write_counties(tmp_path / "data")


@pytest.fixture
def out(tmp_path: Path) -> Iterator[Path]:
    """Makes a folder for output, in which no temporary file may be left."""
    folder = tmp_path / "out"
    folder.mkdir()
    yield folder
    assert not [path.name for path in folder.iterdir() if path.name.startswith(".")]
    # The program of a killed process ends when it writes.
    wait_for(lambda: not processes_with(str(tmp_path)))


def plain(data: Path, path: Path, *options: object) -> bytes:
    """Returns the bytes that a run in one process writes."""
    status, _, said = run(data, path, *options)
    assert (status, said) == (0, "")
    return path.read_bytes()


def write_archives(data: Path, folder: Path) -> Path:
    """Packs each county into a zip file."""
    folder.mkdir()
    for code in CODES:
        with zipfile.ZipFile(folder / f"TGR{code}.ZIP", "w") as archive:
            for path in data.glob(f"TGR{code}.*"):
                archive.write(path, path.name)
    return folder


@pytest.mark.parametrize("suffix", ["csv", "gpkg"])
def test_same_bytes(data: Path, out: Path, suffix: str, gdal: None) -> None:
    options = ("--where", ROADS, "--counties", "02", "01005", "AL")
    expected = plain(data, out / f"a.{suffix}", *options, "--map", out / "a.svg")
    for engine in (["--workers", "1"], ["--workers", "9", "--resume"]):
        status, output, said = run(data, out / f"b.{suffix}", *options, *engine, "--map", out / "b.svg", "--overwrite")
        assert (status, output, said) == (0, f"{out}/b.{suffix}: {ROAD_COUNT} segments\n", "")
        assert (out / f"b.{suffix}").read_bytes() == expected
        assert (out / "b.svg").read_bytes() == (out / "a.svg").read_bytes()
    assert len(list(out.iterdir())) == 4


@pytest.mark.parametrize(
    ("name", "options"),
    [
        ("a.svg", ()),
        ("a.svg", ("--no-background",)),
        ("a.html", ("--geometry", "shape", "--score", "FRLONG", "--signed", "--map-by", "score")),
    ],
)
def test_same_map(data: Path, out: Path, name: str, options: tuple[str, ...]) -> None:
    """With and without the segments around the selection."""
    selection = ("--where", "FENAME LIKE 'C%' OR CFCC = 'A21'", *options)
    expected = plain(data, out / "a.csv", *selection, "--map", out / name)
    drawn = (out / name).read_bytes()
    assert (b"Not selected (" in drawn or b'"around": [[' in drawn) == ("--no-background" not in options)
    assert plain(data, out / "a.csv", *selection, "--workers", "2", "--map", out / name, "--overwrite") == expected
    assert (out / name).read_bytes() == drawn


def test_too_much_background(
    data: Path, out: Path, monkeypatch: pytest.MonkeyPatch, capsys: pytest.CaptureFixture[str]
) -> None:
    monkeypatch.setattr(content, "MOST_SEGMENTS", SEGMENTS)
    options = ("--where", ROADS, "--workers", "2", "--map", str(out / "a.svg"))
    assert commands.main(["select", str(data), str(out / "a.csv"), *options]) == 0
    said = "warning: the map shows the selection alone: its counties have more than 60 other segments\n"
    assert capsys.readouterr().err == said and "Not selected" not in (out / "a.svg").read_text()


def test_order_of_counties(data: Path, out: Path) -> None:
    """The first county ends after the others, but its lines come first."""
    program = disturbed(out.parent / "slow", os.environ["EXTRACTD"], FIRST_IS_LAST)
    options = ("--where", "TRUE", "--counties", "02013", *CODES[:4])
    assert run(data, out / "a.csv", *options, "--workers", "5", "--extractd", program)[0] == 0
    lines = (out / "a.csv").read_text().splitlines()[1:]
    assert list(dict.fromkeys(line[:5] for line in lines)) == ["02013", *CODES[:4]]


@pytest.mark.parametrize(
    "options",
    [
        ("--where", "TRUE", "--geometry", "shape", "--columns", "TLID", "FENAME"),
        ("--where", "TRUE", "--geometry", "none", "--score", "FRLONG", "--signed", "--counties", "01005", "01001"),
        ("--program", "all.bpf"),
    ],
)
def test_same_bytes_of_options(
    data: Path, out: Path, options: tuple[str, ...], monkeypatch: pytest.MonkeyPatch
) -> None:
    """Also if counties are zip files, and if the path of the program is relative."""
    (out.parent / "all.bpf").write_bytes(bytes.fromhex("b700000001000000 9500000000000000"))
    monkeypatch.chdir(out.parent)
    expected = plain(data, out / "a.csv", *options)
    source = write_archives(data, out.parent / "zip") if "--program" in options else data
    assert plain(source, out / "b.csv", *options, "--workers", "2") == expected


def test_warnings(data: Path, out: Path) -> None:
    """A county's warning is the same as in one process, even if its part already existed."""
    (data / "TGR01003.RT4").unlink()
    options = ("--where", "TRUE", "--extractd", disturbed(out.parent / "stop", os.environ["EXTRACTD"], WAIT))
    warning = f"warning: {data} has no TGR01003.RT4: names or address ranges may be missing\n"
    process = start(data, out / "a.csv", *options, "--resume")
    wait_for(lambda: (out.parent / "stop.state/waits").exists(), process=process)
    process.send_signal(signal.SIGINT)
    process.communicate(timeout=30)
    (out.parent / "stop.state/go").touch()
    assert run(data, out / "a.csv", *options, "--resume") == (0, f"{out}/a.csv: 300 segments\n", warning)


class TestResume:
    """An interrupted run continues with the existing parts."""

    @pytest.mark.parametrize("number", [signal.SIGKILL, signal.SIGINT])
    def test_cut_off(self, data: Path, out: Path, number: signal.Signals, scratch: Path) -> None:
        program = disturbed(out.parent / "stop", os.environ["EXTRACTD"], WAIT)
        options = (data, out / "a.csv", "--where", ROADS, "--extractd", program)
        process = start(*options, "--workers", "2", "--resume")
        parts = out / "a.csv.parts"
        wait_for(lambda: len(list(parts.glob("*.part"))) == 4, seconds=30, process=process)
        os.kill(process.pid, number)
        process.communicate(timeout=30)
        assert process.returncode == -number
        if number == signal.SIGKILL:
            (out.parent / "stop.state/go").touch()
        wait_for(lambda: not processes_with(str(out.parent)))
        assert [path.name for path in out.iterdir() if path.name[0] != "."] == ["a.csv.parts"]
        (out.parent / "stop.state/go").touch()
        assert run(*options, "--workers", "2", "--resume") == (0, f"{out}/a.csv: {ROAD_COUNT} segments\n", "")
        assert sorted(counties_run(program)) == sorted([*CODES, "01005"])
        assert (out / "a.csv").read_bytes() == plain(data, out / "b.csv", "--where", ROADS)
        assert not parts.exists()
        for folder in (*out.glob(".tigerline-*"), *scratch.glob("tigerline-*")):
            assert number == signal.SIGKILL
            shutil.rmtree(folder)

    def test_folder_of_others(self, data: Path, out: Path) -> None:
        """Files of others stay, and a second simultaneous run is an error."""
        program = disturbed(out.parent / "stop", os.environ["EXTRACTD"], WAIT)
        (out / "a.csv.parts").mkdir()
        (out / "a.csv.parts/notes.txt").write_text("mine")
        options = (data, out / "a.csv", "--where", "TRUE", "--extractd", program, "--resume")
        process = start(*options)
        wait_for(lambda: (out.parent / "stop.state/waits").exists(), process=process)
        assert run(*options) == (3, "", f"error: {out}/a.csv.parts is in use by another run\n")
        (out.parent / "stop.state/go").touch()
        process.communicate(timeout=30)
        assert process.returncode == 0 and [path.name for path in (out / "a.csv.parts").iterdir()] == ["notes.txt"]
        (out / "b.csv.parts").touch()
        status, _, said = run(data, out / "b.csv", "--where", "TRUE", "--resume")
        assert status == 3 and said == f"error: {out}/b.csv.parts isn't a folder: remove it, or write to another file\n"


class TestFaults:
    """One error, and no leftovers."""

    def test_refused_county(self, data: Path, out: Path) -> None:
        with open(data / "TGR01005.RT1", "ab") as file:
            file.write(b"short\r\n")
        status, output, said = run(data, out / "a.csv", "--where", "TRUE", "--workers", "3")
        assert (status, output, said) == (1, "", "refused 1 rt1 line 61 WrongLength\ncounty 01005\n")
        assert not list(out.iterdir())

    @pytest.mark.parametrize(
        ("status", "said", "options"),
        [
            (1, "refused 91 line 1 column 1 UnknownColumn\n", ("--where", "ZIP = 1", "--workers", "2")),
            (
                3,
                "nowhere.bpf: No such file or directory: check the path\n",
                ("--program", "nowhere.bpf", "--workers", "2"),
            ),
            (3, "has no TGR05???.RT1", ("--where", "TRUE", "--workers", "2", "--counties", "AR")),
            (2, "'0' is no number from 1 to 10000", ("--where", "TRUE", "--workers", "0")),
            (2, "'-1' is no number from 1 to 10000", ("--where", "TRUE", "--workers=-1")),
            (2, "not allowed with argument", ("--where", "TRUE", "--workers", "2", "--scheduler", "a:1")),
        ],
    )
    def test_statuses(self, data: Path, out: Path, status: int, said: str, options: tuple[str, ...]) -> None:
        done = run(data, out / "a.csv", *options)
        assert done[:2] == (status, "") and said in done[2] and "Traceback" not in done[2]
        assert not list(out.iterdir())

    def test_ctrl_c(self, data: Path, out: Path, scratch: Path) -> None:
        randoms = random.Random(SEED)
        program = disturbed(out.parent / "slow", os.environ["EXTRACTD"], "sleep 0.1")
        options = (data, out / "a.csv", "--where", "TRUE", "--extractd", program, "--workers", "3")
        for number in [signal.SIGINT, signal.SIGTERM, signal.SIGHUP, signal.SIGINT]:
            process = start(*options)
            wait_for(lambda: list(out.iterdir()) or process.poll() is not None)
            time.sleep(randoms.random() * 0.6)
            os.killpg(process.pid, number)
            assert process.communicate(timeout=20)[1] == ""
            assert process.returncode in (-number, 0)
            assert not processes_with(str(out.parent)) and not list(scratch.iterdir())
            assert not list(out.glob(".*"))
            (out / "a.csv").unlink(missing_ok=True)


class TestTasks:
    """A worker on another machine must see the same files as the task."""

    def task(
        self,
        data: Path,
        store: Path,
        request: Request = Request("TRUE"),
        form: Form = FORM,
    ) -> batch.PartTask:
        with Interrupts() as interrupts:
            request = replace(request, data=data, counties="01001")
            source = batch.county_tasks(request, form.outputs, interrupts)[0]
        store.mkdir(exist_ok=True)
        return batch.part_task(source, store)

    def others(self, data: Path, store: Path, program: str) -> Iterator[batch.PartTask]:
        """Yields the tasks of other selections and forms, and the task after each change of a file."""
        for request in (Request("NOT FALSE"), Request("TRUE", score="TLID"), Request(program=b"words")):
            yield self.task(data, store, request)
        yield self.task(data, store, Request("TRUE", extractd=program))
        for form in (
            replace(FORM, names=("CFCC",)),
            replace(FORM, geometry="line"),
            replace(FORM, geometry="shape"),
            replace(FORM, has_map=True),
            replace(FORM, has_map=True, has_background=True),
        ):
            yield self.task(data, store, form=form)
        os.utime(data / "TGR01001.RT6", (0, 0))
        yield self.task(data, store)
        first = data / "TGR01001.RT1"
        first.write_bytes(first.read_bytes() * 2)
        yield self.task(data, store)
        (data / "TGR01001.RT4").unlink()
        yield self.task(data, store)
        yield self.task(data, store, Request("TRUE", extractd=program))
        os.utime(program, (0, 0))
        yield self.task(data, store, Request("TRUE", extractd=program))

    def refused(self, task: batch.PartTask, text: str) -> None:
        with pytest.raises(OSError, match=text):
            batch.run_task(task)

    def test_part_of_another_selection(self, data: Path, tmp_path: Path, extractd: str) -> None:
        """A part has another name if anything that it depends on differs."""
        program = disturbed(tmp_path / "program", extractd, ":")
        seen = {self.task(data, tmp_path).path, self.task(data, tmp_path).path}
        assert len(seen) == 1
        for task in self.others(data, tmp_path, program):
            assert task.path not in seen
            seen.add(task.path)

    def test_spoilt_parts(self, data: Path, tmp_path: Path) -> None:
        """A part without its end, or with a changed byte anywhere, doesn't count as complete."""
        task = self.task(data, tmp_path)
        batch.run_task(task)
        content = task.path.read_bytes()
        assert batch.read_part(task.path) == batch.run_task(task.source)
        for place in range(0, len(content), 7):
            for spoilt in (content[:place], content[:place] + bytes([content[place] ^ 4]) + content[place + 1 :]):
                task.path.write_bytes(spoilt)
                with pytest.raises(OSError, match="isn't complete"):
                    batch.read_part(task.path)

    def test_other_files(self, data: Path, tmp_path: Path) -> None:
        task = self.task(data, tmp_path / "store")
        assert batch.run_task(task) == batch.host() and batch.read_part(task.path).county == "01001"
        os.utime(data / "TGR01001.RT4", (0, 0))
        self.refused(task, "county 01001: .*/TGR01001.RT4 isn't the same file on .*: its size or time differs")
        (data / "TGR01001.RT1").unlink()
        self.refused(task, "TGR01001.RT1: No such file or directory on .*: DATA has to be in a file system that all")

    def test_files_that_change(self, data: Path, tmp_path: Path, extractd: str) -> None:
        """What the program has read of a file isn't used if the file changes meanwhile."""
        changing = disturbed(tmp_path / "changing", extractd, f'touch -d @0 "{data}/TGR01001.RT4"')
        task = self.task(data, tmp_path / "store", Request("TRUE", extractd=changing))
        self.refused(task, "county 01001: .*/TGR01001.RT4 has changed on .*: its size or time differs")
        assert counties_run(changing) == ["01001"] and not list((tmp_path / "store").iterdir())

    def test_part_that_cannot_be_written(self, data: Path, tmp_path: Path) -> None:
        """Its temporary file doesn't stay."""
        task = self.task(data, tmp_path / "store")
        task.path.mkdir()
        self.refused(task, f"Is a directory: .*{task.path}")
        assert list((tmp_path / "store").iterdir()) == [task.path]

    def test_no_folder_for_output(self, data: Path, tmp_path: Path) -> None:
        task = self.task(data, tmp_path / "store")
        (tmp_path / "store").rmdir()
        self.refused(task, "county 01001: .*/store: No such file or directory on .*: OUT has to be in a file system")
