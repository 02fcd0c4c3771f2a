"""Counties on the workers of dask.distributed give the bytes of one process, even after a killed worker."""

import logging
import os
import re
import shutil
import signal
import subprocess
import sys
from collections.abc import Iterator
from contextlib import contextmanager
from pathlib import Path
from types import ModuleType
from typing import Any, cast

import pytest
import tigerline
from batches import (
    CODES,
    KILL_ALWAYS,
    KILL_ONCE,
    ROAD_COUNT,
    ROADS,
    WAIT,
    counties_run,
    disturbed,
    environment,
    run,
    start,
    wait_for,
    write_counties,
)
from counties import TOP, program_of
from test_interrupts import processes_with
from tigerline import commands
from tigerline.cluster import scheduler

pytest.importorskip("distributed", reason="no distributed")
pytestmark = pytest.mark.usefixtures("extractd", "scratch")

Cluster = tuple[str, subprocess.Popen[bytes]]


@contextmanager
def running_cluster(folder: Path, workers: int, *options: object) -> Iterator[Cluster]:
    """Starts workers, and a scheduler that gives up on a task after two workers have died of it. Yields its address."""
    folder.mkdir(exist_ok=True)
    file = folder / "scheduler"
    variables = environment(DASK_DISTRIBUTED__SCHEDULER__ALLOWED_FAILURES="1", TMPDIR=str(folder))
    log = open(folder / "log", "wb")

    def process(*arguments: object) -> subprocess.Popen[bytes]:
        command = [sys.executable, "-m", *map(str, arguments), "--scheduler-file", str(file), "--no-dashboard"]
        return subprocess.Popen(command, env=variables, stderr=log, stdout=log, start_new_session=True)

    processes = [process("distributed.cli.dask_scheduler", "--host", "127.0.0.1", "--port", 0)]
    options = ("--nworkers", workers, "--local-directory", folder, *options)
    processes.append(process("distributed.cli.dask_worker", *options))
    try:
        wait_for(lambda: (folder / "log").read_bytes().count(b"Registered to:") >= workers)
        yield address_in(file), processes[0]
    finally:
        for each in reversed(processes):
            os.killpg(each.pid, signal.SIGKILL)
            each.wait(timeout=30)
        log.close()


def address_in(file: Path) -> str:
    return next(line.split('"')[3] for line in file.read_text().splitlines() if '"address": "tcp' in line)


@pytest.fixture(scope="module")
def address(tmp_path_factory: pytest.TempPathFactory) -> Iterator[str]:
    """Returns the address of a scheduler with two workers."""
    with running_cluster(tmp_path_factory.mktemp("cluster"), 2, "--nthreads", 1) as (found, _):
        yield found


@pytest.fixture
def data(tmp_path: Path) -> Path:
    return write_counties(tmp_path / "data")


@pytest.fixture
def out(tmp_path: Path) -> Iterator[Path]:
    """Makes a folder for output, in which no temporary file may be left."""
    folder = tmp_path / "out"
    folder.mkdir()
    yield folder
    assert not [path.name for path in folder.iterdir() if path.name.startswith(".")]


def test_select(data: Path, address: str, frames: None) -> None:
    from distributed import Client

    (data / "TGR01003.RT6").unlink()
    with Client(address, set_as_default=False) as client:
        with pytest.warns(UserWarning, match="has no TGR01003.RT6"):
            frame = tigerline.select(ROADS, data, client=client, compute=True)
            expected = tigerline.select(ROADS, data)
        assert len(frame) == ROAD_COUNT and frame.equals(expected)
        with pytest.raises(tigerline.RefusedError, match="UnknownColumn"):
            tigerline.select("ZIP = 1", data, client=client, compute=True)
    with pytest.raises(ValueError, match="distributed.Client"):
        tigerline.select(ROADS, data, client="tcp://127.0.0.1:1")


@pytest.mark.parametrize("has_dask_geopandas", [True, False])
def test_partitions(
    data: Path, address: str, frames: None, monkeypatch: pytest.MonkeyPatch, has_dask_geopandas: bool
) -> None:
    """Each county is a partition, which a worker makes when it is computed."""
    from distributed import Client

    module = ModuleType("dask_geopandas") if has_dask_geopandas else None
    monkeypatch.setitem(cast(dict[str, object], sys.modules), "dask_geopandas", module)
    expected = tigerline.select(ROADS, data)
    with Client(address) as client:
        found = tigerline.select(ROADS, data, client=client)
        if has_dask_geopandas:
            assert found.npartitions == len(CODES)
            found = [found.get_partition(place) for place in range(found.npartitions)]
        counties = [part.compute() for part in found]
        assert [set(county.county) for county in counties] == [{code} for code in CODES]
        assert joined(counties).equals(expected)
        plain = tigerline.select(ROADS, data, client=client, geometry=False, columns=["TLID"])
        assert plain.npartitions == len(CODES) and plain.dtypes.equals(plain.compute().dtypes)
        assert plain.TLID.compute().tolist() == expected.TLID.tolist()
        with pytest.raises(tigerline.RefusedError, match="UnknownColumn"):
            failing = tigerline.select("ZIP = 1", data, client=client)
            (failing if has_dask_geopandas else failing[0]).compute()


def joined(frames: list[Any]) -> Any:
    return pytest.importorskip("pandas").concat(frames, ignore_index=True)


def test_worker_killed(data: Path, out: Path, address: str) -> None:
    """The bytes of one process, for a table and a map. A scheduler's address may lack tcp://."""
    program = disturbed(out.parent / "killing", os.environ["EXTRACTD"], KILL_ONCE)
    options = ("--where", ROADS, "--counties", "02", "01005", "AL")
    cluster = ("--extractd", program, "--scheduler", address.removeprefix("tcp://"))
    done = run(data, out / "a.csv", *options, *cluster, "--map", out / "a.svg")
    assert done == (0, f"{out}/a.csv: {ROAD_COUNT} segments\n", "")
    assert counties_run(program).count("01005") > 1
    assert run(data, out / "b.csv", *options, "--map", out / "b.svg")[0] == 0
    assert (out / "a.csv").read_bytes() == (out / "b.csv").read_bytes()
    assert (out / "a.svg").read_bytes() == (out / "b.svg").read_bytes()
    assert len(list(out.iterdir())) == 4


def test_interrupted(data: Path, out: Path, address: str) -> None:
    program = disturbed(out.parent / "stop", os.environ["EXTRACTD"], WAIT)
    process = start(data, out / "a.csv", "--where", "TRUE", "--extractd", program, "--scheduler", address)
    wait_for(lambda: (out.parent / "stop.state/waits").exists(), process=process)
    os.killpg(process.pid, signal.SIGINT)
    assert process.communicate(timeout=20) == ("", "") and process.returncode == -signal.SIGINT
    assert not list(out.iterdir())
    (out.parent / "stop.state/go").touch()
    wait_for(lambda: not processes_with(str(out.parent)))
    assert not list(out.iterdir())


def test_worker_killed_each_time(data: Path, out: Path, address: str) -> None:
    """No later test needs these workers, so none waits for their restart."""
    program = disturbed(out.parent / "killing", os.environ["EXTRACTD"], KILL_ALWAYS)
    status, output, said = run(data, out / "a.csv", "--where", ROADS, "--extractd", program, "--scheduler", address)
    # The scheduler also blames counties that were waiting at the workers that died.
    assert (status, output) == (3, "") and re.match("error: county [0-9]{5}: each worker that had it died, ", said)
    assert said.count("\n") == 1 and not list(out.iterdir())


def test_default_client(address: str) -> None:
    """A client of the package isn't that of the process, whose own work would go to its scheduler."""
    from distributed import default_client

    with scheduler.connected(address, lambda: None), pytest.raises(ValueError, match="No clients found"):
        default_client()


class TestScheduler:
    """A missing scheduler is a clear error."""

    def test_missing(self, data: Path, out: Path) -> None:
        status, output, said = run(data, out / "a.csv", "--where", "TRUE", "--scheduler", "tcp://127.0.0.1:1")
        assert (status, output) == (3, "") and said.startswith("error: no scheduler answers at tcp://127.0.0.1:1: ")
        assert said.count("\n") == 1 and not list(out.iterdir())

    @pytest.mark.parametrize("address", ["127.0.0.1", "127.0.0.1:port", "", "no://127.0.0.1:1"])
    def test_malformed_address(
        self, data: Path, out: Path, address: str, monkeypatch: pytest.MonkeyPatch, capsys: pytest.CaptureFixture[str]
    ) -> None:
        monkeypatch.setattr(logging.root.manager, "disable", logging.NOTSET)  # The command changes it.
        assert commands.main(["select", str(data), str(out / "a.csv"), "--where", "TRUE", "--scheduler", address]) == 3
        output, said = capsys.readouterr()
        assert said.startswith(f"error: no scheduler answers at {address}: ") and said.count("\n") == 1
        assert not output and not list(out.iterdir())

    def test_gone(self, data: Path, out: Path, tmp_path: Path) -> None:
        """Finished parts stay for --resume."""
        program = disturbed(out.parent / "stop", os.environ["EXTRACTD"], WAIT)
        options = (data, out / "a.csv", "--where", ROADS, "--extractd", program, "--resume")
        with running_cluster(tmp_path / "cluster", 1, "--nthreads", 2, "--no-nanny") as (address, scheduler):
            process = start(*options, "--scheduler", address)
            wait_for(lambda: len(list(out.glob("a.csv.parts/*.part"))) == 4, seconds=60, process=process)
            scheduler.kill()
            output, said = process.communicate(timeout=120)
        assert (process.returncode, output) == (3, "") and said.count("\n") == 1
        assert said.startswith("error: the scheduler has gone away")
        (out.parent / "stop.state/go").touch()
        wait_for(lambda: not processes_with(str(program)))
        assert run(*options, "--workers", "2")[0] == 0
        assert sorted(counties_run(program)) == sorted([*CODES, "01005"])
        assert run(data, out / "b.csv", "--where", ROADS)[0] == 0
        assert (out / "a.csv").read_bytes() == (out / "b.csv").read_bytes()

    def test_not_installed(self, data: Path, out: Path, tmp_path: Path) -> None:
        (tmp_path / "distributed.py").write_text("raise ModuleNotFoundError(name='distributed')")
        status, _, said = run(
            data,
            out / "a.csv",
            "--where",
            "TRUE",
            "--scheduler",
            "a:1",
            PYTHONPATH=f"{tmp_path}{os.pathsep}{TOP}/python",
        )
        assert (status, said) == (
            3,
            "error: there is no module distributed: apt install python3-distributed, or pip install distributed\n",
        )


class TestScripts:
    """The scripts of deploy/cluster select the rows of `extractd`, in the order of the counties."""

    @pytest.fixture(autouse=True)
    def program(self, tmp_path: Path, monkeypatch: pytest.MonkeyPatch, extractd: str) -> None:
        """Makes the scripts find the program as `extractd`."""
        (tmp_path / "bin").mkdir()
        (tmp_path / "bin/extractd").symlink_to(extractd)
        monkeypatch.setenv("PATH", f"{tmp_path}/bin{os.pathsep}{os.environ['PATH']}")
        monkeypatch.setenv("PYTHON", sys.executable)

    def script(self, name: str, *arguments: object) -> int:
        return subprocess.run(
            [TOP / "deploy/cluster" / name, *map(str, arguments)], cwd=TOP, stdout=sys.stderr, timeout=300
        ).returncode

    def rows(self, data: Path) -> bytes:
        command = ["extractd", "select", "--where", ROADS, "--data", str(data)]
        return b"".join(subprocess.run([*command, code], stdout=subprocess.PIPE).stdout for code in CODES)

    def test_parallel(self, data: Path, out: Path) -> None:
        """A second call runs only the county that failed."""
        if not shutil.which("parallel"):
            pytest.skip("no parallel")
        expected = self.rows(data)
        fails_once = '[ "$code" = 01005 ] && [ ! -e "$state/failed" ] && { touch "$state/failed"; exit 3; }'
        program = disturbed(out.parent / "failing", os.environ["EXTRACTD"], fails_once)
        (out.parent / "bin/extractd").unlink()
        (out.parent / "bin/extractd").symlink_to(program)
        assert self.script("parallel.sh", data, out, ROADS, 2) == 1
        assert sorted(path.name for path in out.iterdir()) == ["call", "counties", "joblog"]
        assert self.script("parallel.sh", data, out, ROADS, 2) == 0
        assert sorted(counties_run(program)) == sorted([*CODES, "01005"])
        assert (out / "rows").read_bytes() == expected

    def test_task_of_an_array(self, data: Path, out: Path, monkeypatch: pytest.MonkeyPatch) -> None:
        """Simulates Slurm: a task is a state, and one without a county does nothing."""
        for task in ("1", "2", "4"):
            monkeypatch.setenv("SLURM_ARRAY_TASK_ID", task)
            assert self.script("slurm.sh", data, out, ROADS) == 0
        assert b"".join(path.read_bytes() for path in sorted(out.iterdir())) == self.rows(data)

    def test_dask(self, data: Path, out: Path) -> None:
        """A scheduler may take longer than usual to start, and one that ends is an error."""
        assert self.script("dask.sh") == 2
        tools = out.parent / "bin"
        dask = shutil.which("dask-scheduler")
        program_of(tools / "dask-scheduler", f'sleep 11; exec {dask} "$@"')
        assert self.script("dask.sh", data, out / "a.csv", ROADS, 1) == 0
        assert run(data, out / "b.csv", "--where", ROADS)[0] == 0
        assert (out / "a.csv").read_bytes() == (out / "b.csv").read_bytes()
        program_of(tools / "dask-scheduler", "exit 1")
        assert self.script("dask.sh", data, out / "c.csv", ROADS, 1) == 1
        assert not processes_with(str(out.parent / "scratch"))
