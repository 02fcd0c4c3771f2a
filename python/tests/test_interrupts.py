"""Ctrl-C and other signals at any moment leave no temporary folder, no partial file and no process."""

import os
import random
import shutil
import signal
import subprocess
import sys
import threading
import time
from pathlib import Path

import pytest
import tigerline
from counties import CODE, EXAMPLES, TOP, program_of, records, write_empty, zip_folder
from tigerline.interrupts import Interrupts
from tigerline.layout import NAMES

SEED = 20061
COPIES = 12

SCRIPT = """
import signal, sys, tigerline
signal.signal(signal.SIGINT, signal.default_int_handler)
try:
    print("ready", flush=True)
    while True:
        list(tigerline.rows("TRUE", sys.argv[1], "01001"))
except KeyboardInterrupt:
    print("interrupted")
"""


@pytest.fixture
def large(tmp_path: Path) -> Path:
    """Writes a zip file with a county of some thousand segments."""
    folder = tmp_path / "large"
    folder.mkdir()
    lines = records(EXAMPLES / "TGR01001.RT1") * COPIES
    (folder / "TGR01001.RT1").write_bytes(b"\n".join(lines))
    write_empty(folder)
    return zip_folder(folder, tmp_path / "large.zip")


def processes_with(text: str) -> list[str]:
    """Returns the commands of running processes that contain the text."""
    found = []
    for path in Path("/proc").glob("[0-9]*/cmdline"):
        try:
            command = path.read_bytes().replace(b"\0", b" ").decode("utf-8", "replace")
        except OSError:
            continue
        if text in command and int(path.parent.name) != os.getpid():
            found.append(command)
    return found


def environment() -> dict[str, str]:
    return {**os.environ, "PYTHONPATH": str(TOP / "python")}


def start(large: Path, out: Path) -> subprocess.Popen[bytes]:
    command = [
        sys.executable,
        "-m",
        "tigerline",
        "select",
        str(large),
        str(out / "a.gpkg"),
        "--where",
        "TRUE",
        "--overwrite",
    ]
    return subprocess.Popen(
        command, env=environment(), stdout=subprocess.DEVNULL, stderr=subprocess.DEVNULL, start_new_session=True
    )


def check_output(out: Path) -> None:
    """Checks that there is no file or that it has all segments, and removes it."""
    assert [path.name for path in out.iterdir() if path.name[0] != "."] in ([], ["a.gpkg"])
    if (out / "a.gpkg").exists():
        query = ["ogrinfo", "-q", "-sql", "SELECT COUNT(*) FROM segments", str(out / "a.gpkg")]
        assert f"= {400 * COPIES}" in subprocess.run(query, stdout=subprocess.PIPE, check=True, text=True).stdout
        (out / "a.gpkg").unlink()


@pytest.mark.usefixtures("extractd", "gdal")
def test_command_at_any_moment(scratch: Path, tmp_path: Path, large: Path) -> None:
    out = tmp_path / "out"
    out.mkdir()
    started = time.monotonic()
    assert start(large, out).wait(timeout=120) == 0
    duration = 0.9 * (time.monotonic() - started)
    check_output(out)
    randoms = random.Random(SEED)
    for number in [signal.SIGINT, signal.SIGTERM, signal.SIGHUP, signal.SIGINT] * 2:
        process = start(large, out)
        while not list(out.iterdir()) and process.poll() is None:
            time.sleep(0.002)
        time.sleep(randoms.random() * duration)
        os.killpg(process.pid, number)
        assert process.wait(timeout=30) in (-number, 0)
        assert not list(scratch.iterdir()) and not processes_with(str(scratch)) and not processes_with(str(out))
        assert not [path.name for path in out.iterdir() if path.name[0] == "."]
        check_output(out)


# Imports the script, and prints before it imports the command: whether Ctrl-C ends it, and the large modules it has.
WATCHED = """
import signal, sys

class Watcher:
    def find_spec(self, name, *_):
        if name == "tigerline.commands":
            is_ready = signal.getsignal(signal.SIGINT) is signal.SIG_DFL
            print(is_ready, {"typing", "subprocess", "zipfile"} & set(sys.modules))

signal.signal(signal.SIGINT, signal.default_int_handler)
sys.meta_path.insert(0, Watcher())
import tigerline.__main__
"""


def test_command_is_ready_for_signals_soon() -> None:
    """Ctrl-C during imports would show a traceback, so only small modules are imported before it ends the process."""
    done = subprocess.run([sys.executable, "-S", "-c", WATCHED], env=environment(), stdout=subprocess.PIPE, text=True)
    assert done.stdout == "True set()\n"


@pytest.mark.usefixtures("extractd", "gdal")
def test_kill(scratch: Path, tmp_path: Path, large: Path) -> None:
    """SIGKILL leaves a folder, but no partial file has the output's name, and the other processes end."""
    out = tmp_path / "out"
    out.mkdir()
    for delay in (0.3, 0.5, 0.7):
        process = start(large, out)
        time.sleep(delay)
        process.kill()
        process.wait(timeout=30)
        check_output(out)
        deadline = time.monotonic() + 20
        while processes_with(str(scratch)) or processes_with(str(out)):
            assert time.monotonic() < deadline
            time.sleep(0.05)
    for folder in (*scratch.iterdir(), *out.glob(".tigerline-*")):
        shutil.rmtree(folder)


@pytest.mark.usefixtures("extractd")
def test_package_at_any_moment(scratch: Path, large: Path) -> None:
    randoms = random.Random(SEED)
    for _ in range(6):
        process = subprocess.Popen(
            [sys.executable, "-c", SCRIPT, str(large)],
            env=environment(),
            stdout=subprocess.PIPE,
            text=True,
            start_new_session=True,
        )
        assert process.stdout is not None and process.stdout.readline() == "ready\n"
        time.sleep(randoms.random() * 0.4)
        os.killpg(process.pid, signal.SIGINT)
        assert process.communicate(timeout=30)[0] == "interrupted\n"
        assert not list(scratch.iterdir()) and not processes_with(str(scratch))


def test_hanging_program(scratch: Path, tmp_path: Path) -> None:
    """A program that never ends is killed at once with its children, even if it ignores Ctrl-C."""
    sleep = f"sleep 30.{os.getpid()}"  # used by no other run of the tests
    program = program_of(tmp_path / "program", f'trap "" INT; {sleep}; true')
    timer = threading.Timer(0.5, os.kill, (os.getpid(), signal.SIGINT))
    timer.start()
    started = time.monotonic()
    with pytest.raises(KeyboardInterrupt):
        list(tigerline.rows("TRUE", EXAMPLES, CODE, extractd=program))
    assert time.monotonic() - started < 10
    assert not processes_with(str(tmp_path / "program"))
    while processes_with(sleep):  # It is killed, and ends a moment later.
        assert time.monotonic() - started < 10
    assert signal.getsignal(signal.SIGINT) is signal.default_int_handler


def test_own_handler_is_called_after_the_block() -> None:
    events = []
    previous = signal.signal(signal.SIGTERM, lambda *_: events.append("handler"))
    try:
        with pytest.raises(KeyboardInterrupt), Interrupts(signal.SIGTERM) as interrupts:
            signal.raise_signal(signal.SIGTERM)
            events.append("block")
            interrupts.check()
        assert events == ["block", "handler"]
    finally:
        signal.signal(signal.SIGTERM, previous)


def test_ignored_signal_stays_ignored() -> None:
    previous = signal.signal(signal.SIGINT, signal.SIG_IGN)
    try:
        with Interrupts() as interrupts:
            signal.raise_signal(signal.SIGINT)
            interrupts.check()
    finally:
        signal.signal(signal.SIGINT, previous)


@pytest.mark.usefixtures("scratch")
def test_other_threads(tmp_path: Path) -> None:
    program = program_of(tmp_path / "program", f"echo {','.join(('score', *NAMES))}")
    found: list[list[tigerline.Row]] = []
    thread = threading.Thread(
        target=lambda: found.append(list(tigerline.rows("TRUE", EXAMPLES, CODE, extractd=program)))
    )
    thread.start()
    thread.join(timeout=60)
    assert found == [[]]


@pytest.mark.usefixtures("scratch")
def test_consumer_that_stops_early(extractd: str) -> None:
    iterator = tigerline.rows("TRUE", EXAMPLES, CODE)
    assert next(iterator).county == CODE
    del iterator
