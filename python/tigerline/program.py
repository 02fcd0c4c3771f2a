"""Runs the built program `extractd`, which alone decides which segments are selected."""

import os
import re
import shutil
import signal
import subprocess
import tempfile
from collections.abc import Callable, Iterable, Iterator, Sequence
from contextlib import contextmanager
from dataclasses import dataclass
from typing import IO, Any, Self

from .interrupts import Interrupts
from .version import __version__

VERSION = __version__
_REFUSAL = re.compile(r"refused ([0-9]+)(?: ([a-z0-9/ ]+))? ([A-Z][A-Za-z0-9]*(?:\([0-9]+\))?)")
_ERRORS: dict[int, type[Exception]] = {2: ValueError, 3: OSError, 4: MemoryError}

PathLike = str | os.PathLike[str]
BLOCK = 1 << 20  # bytes of a pipe; so that a process that is read rarely waits


@dataclass(frozen=True)
class Stamp:
    """A file as it was at some time."""

    path: str
    size: int
    time: int

    @classmethod
    def of(cls, path: PathLike) -> Self:
        """Returns the stamp of the file that is there now."""
        found = os.stat(path)
        return cls(os.fspath(path), found.st_size, found.st_mtime_ns)


_checked: set[Stamp] = set()


@dataclass(eq=False)
class RefusedError(Exception):
    """A filter, a program or a file of a county was refused (docs/refusals.md).

    `number` and `name` are those of the refusal. `place` is where the fault is, such as `line 1 column 5`,
    `pointer /args/1` or `rt1 line 2`. `text` is what `extractd` wrote. `county` is the county that has the fault, or
    None if it is in the filter or the program.
    """

    number: int
    name: str
    place: str
    text: str
    county: str | None = None

    def __str__(self) -> str:
        return self.text


def find_program(extractd: PathLike | None, interrupts: Interrupts) -> str:
    """Returns the path of `extractd`: the argument, the environment variable EXTRACTD, or the first in PATH.

    Raises OSError if there is none or if it has another version than this package supports. A program is asked for its
    version only once, unless it changes.
    """
    path = os.fspath(extractd) if extractd is not None else os.environ.get("EXTRACTD") or "extractd"
    found = shutil.which(path)
    if found is None:
        raise FileNotFoundError(
            f"there is no program {path}: install extractd, or name it by --extractd, extractd= or the variable EXTRACTD"
        )
    stamp = Stamp.of(found)
    if stamp not in _checked:
        _check_version(found, interrupts)
        _checked.add(stamp)
    return found


def _check_version(program: str, interrupts: Interrupts) -> None:
    try:
        _, output, said = run_process([program, "--version"], interrupts)
    except OSError as error:
        raise OSError(f"{program} can't be run: {error.strerror}") from None
    version = said or output.decode("utf-8", "replace").strip()
    if version != f"extractd {VERSION}":
        raise OSError(f"{program} isn't extractd {VERSION}: --version says {version[:60]!r}")


def run(
    command: Sequence[str], interrupts: Interrupts, *, standard_input: bytes = b"", county: str | None = None
) -> bytes:
    """Runs `extractd` and returns its output. Drops the output and raises an exception for any status but 0."""
    status, output, said = run_process(command, interrupts, standard_input)
    if status != 0:
        raise failure(command[0], status, said, county)
    return output


def run_process(
    command: Sequence[str], interrupts: Interrupts, standard_input: bytes = b"", stop: int = signal.SIGKILL
) -> tuple[int, bytes, str]:
    """Runs a process to its end, and returns its status, its output and what it wrote to standard error.

    Both are small enough for the memory. The signal `stop` ends it early: one other than SIGKILL lets it clean up.
    """
    with _started(command, interrupts, stop, stdout=subprocess.PIPE, stderr=subprocess.PIPE) as process:
        output, said = process.communicate(standard_input)
    interrupts.check()
    return process.returncode, output, _text(said)


def feed_process(command: Sequence[str], chunks: Iterable[bytes], interrupts: Interrupts) -> tuple[int, bool, str]:
    """Runs a process that reads chunks from a pipe.

    Returns its status, whether it has taken all chunks, and what it wrote. It is killed if the chunks raise an
    exception. Chunks are small, since a signal waits until one is written.
    """
    with tempfile.TemporaryFile() as said:
        with _started(command, interrupts, stdout=said, stderr=said) as process:
            has_taken_all = _feed(process, chunks, interrupts)
            process.wait()
        interrupts.check()
        said.seek(0)
        return process.returncode, has_taken_all, _text(said.read())


@contextmanager
def read_process(
    command: Sequence[str], interrupts: Interrupts, check: Callable[[int, str], None]
) -> Iterator[Iterator[bytes]]:
    """Starts a process, and yields its output in blocks, which may be read while it goes on. It doesn't outlive the block.

    After the last block calls `check` with its status and what it wrote to standard error.
    """
    with tempfile.TemporaryFile() as said:
        with _started(command, interrupts, stdout=subprocess.PIPE, stderr=said, pipesize=BLOCK) as process:
            assert process.stdin is not None
            process.stdin.close()
            yield _blocks(process, interrupts, said, check)


def _blocks(
    process: subprocess.Popen[bytes], interrupts: Interrupts, said: IO[bytes], check: Callable[[int, str], None]
) -> Iterator[bytes]:
    assert process.stdout is not None
    while block := process.stdout.read(BLOCK):
        interrupts.check()
        yield block
    process.wait()
    interrupts.check()
    said.seek(0)
    check(process.returncode, _text(said.read()))


@contextmanager
def _started(
    command: Sequence[str], interrupts: Interrupts, stop: int = signal.SIGKILL, **pipes: Any
) -> Iterator[subprocess.Popen[bytes]]:
    """Starts a process, which doesn't outlive the block.

    It has a process group of its own, so that Ctrl-C reaches it only through `interrupts`. SIGPIPE and SIGXFSZ stay
    ignored as they are in Python, so that it reports a closed pipe or a file size limit as an error.
    """
    pipe = subprocess.PIPE
    with subprocess.Popen(command, stdin=pipe, process_group=0, restore_signals=False, **pipes) as process:
        with interrupts.watching(process, stop):
            yield process


def _text(said: bytes) -> str:
    return said.decode("utf-8", "replace").strip()


def _feed(process: subprocess.Popen[bytes], chunks: Iterable[bytes], interrupts: Interrupts) -> bool:
    """Writes the chunks, and returns whether the process has taken all of them before its end."""
    assert process.stdin is not None
    try:
        with process.stdin as pipe:
            for chunk in chunks:
                interrupts.check()
                pipe.write(chunk)
        return True
    except BrokenPipeError:
        return False


def failure(program: str, status: int, said: str, county: str | None) -> Exception:
    """Returns the exception that a status of `extractd` other than 0 stands for."""
    found = _REFUSAL.match(said)
    said = said.removeprefix("error: ")
    if status == 1 and found:
        return _refused(found, said, county)
    end = f"{program} was ended by signal {-status}" if status < 0 else f"{program} ended with status {status}"
    if status in _ERRORS and (said or status == 4):
        return _ERRORS[status](said)
    return OSError(f"{end}: {said[:200]}" if said else end)


def _refused(found: re.Match[str], said: str, county: str | None) -> RefusedError:
    place = found[2] or ""
    if not place.startswith("rt"):
        county = None
    if county is not None and "county" not in said:
        said = f"{said}\ncounty {county}"
    return RefusedError(int(found[1]), found[3], place, said, county)
