"""Splits a selection into one task per county, and returns the tasks' results in the order of the counties.

A task can run anywhere and any number of times: its result depends only on its fields. It writes a part, which is what
`extractd` wrote about the county. The part appears under its name when it is complete, and its name contains a digest
of everything it depends on. So an interrupted run can continue with the parts that exist.
"""

import fcntl
import hashlib
import io
import json
import os
import re
import socket
import tempfile
import time
import zlib
from collections.abc import Callable, Generator, Iterator, Sequence
from contextlib import ExitStack, closing, contextmanager, suppress
from dataclasses import astuple, dataclass, replace
from functools import cache, partial
from pathlib import Path
from queue import Empty, SimpleQueue
from typing import Any, Protocol, TypeVar

from ..extract import CountyTexts, Output, Request, county_texts, outputs_of, reported, types_for
from ..interrupts import Interrupts
from ..program import VERSION, PathLike, Stamp, find_program
from ..progress import with_progress
from ..scratch import rename_errors_to, scratch_folder
from ..sources import County, counties_in

LOOK_SECONDS = 0.1
VISIBLE_SECONDS = 5.0
_PART = re.compile(r"[0-9]{5}-[0-9a-f]{32}\.part(\.[a-z0-9_]+)?")


@dataclass(frozen=True)
class CountyTask:
    """The selection of one county: all that a worker needs except the county's files and the program."""

    county: County
    files: tuple[Stamp, ...]
    request: Request
    program: Stamp
    outputs: tuple[Output, ...]

    @property
    def code(self) -> str:
        """The county's code."""
        return self.county.code

    def run(self, interrupts: Interrupts) -> CountyTexts:
        """Returns the county's texts. Raises OSError if a file has changed since the task was made."""
        self._check("isn't the same file on")
        self._visible(self.program.path, "extractd")
        find_program(self.program.path, interrupts)
        found = county_texts(self.program.path, self.request, self.county, self.outputs, interrupts)
        self._check("has changed on")
        return found

    def _check(self, fault: str) -> None:
        for stamp in self.files:
            if self._visible(stamp.path, "DATA") != stamp:
                raise OSError(f"county {self.code}: {stamp.path} {fault} {host()}: its size or time differs")

    def _visible(self, path: str, what: str) -> Stamp:
        try:
            return Stamp.of(path)
        except OSError as error:
            raise _not_visible(self.code, path, what, error) from None


def _not_visible(code: str, path: PathLike, what: str, error: OSError) -> OSError:
    return OSError(
        f"county {code}: {path}: {error.strerror} on {host()}: {what} has to be in a file system that all workers "
        "share, under the same path"
    )


@cache
def host() -> str:
    """Returns the name of this machine."""
    return socket.gethostname()


@dataclass(frozen=True)
class PartTask:
    """The part of one county and the file to write it to."""

    source: CountyTask
    path: Path

    @property
    def code(self) -> str:
        """The county's code."""
        return self.source.code

    def run(self, interrupts: Interrupts) -> str:
        """Writes the part, and returns the name of the machine that did."""
        found = self.source.run(interrupts)
        try:
            number, name = tempfile.mkstemp(prefix=f"{self.path.name}.", dir=self.path.parent)
        except FileNotFoundError as error:
            raise _not_visible(self.code, self.path.parent, "OUT", error) from None
        try:
            with rename_errors_to(self.path), open(number, "wb") as file:
                file.write(_packed(found))
                file.flush()
                os.replace(name, self.path)
        finally:
            with suppress(FileNotFoundError):
                os.unlink(name)
        return host()


class Task(Protocol):
    """The work on one county."""

    @property
    def code(self) -> str:
        ...

    def run(self, interrupts: Interrupts) -> object:
        ...


AnyTask = TypeVar("AnyTask", bound=Task)


def run_task(task: Task) -> Any:
    """Runs a task in a process that this package didn't start, and returns its result."""
    with Interrupts() as interrupts:
        return task.run(interrupts)


def _packed(found: CountyTexts) -> bytes:
    """Returns the content of a part: its checksum, a line of JSON, and the texts."""
    head = json.dumps([found.county, [len(text) for text in found.texts], found.warning]).encode()
    content = b"\n".join((head, b"".join(found.texts)))
    return b"%08x\n" % zlib.crc32(content) + content


def read_part(path: Path) -> CountyTexts:
    """Reads a part. Raises OSError if it isn't complete."""
    checksum, _, content = path.read_bytes().partition(b"\n")
    if checksum != b"%08x" % zlib.crc32(content):
        raise OSError(f"{path} isn't complete")
    head, _, texts = content.partition(b"\n")
    county, sizes, warning = json.loads(head)
    remaining = io.BytesIO(texts)
    return CountyTexts(county, tuple(remaining.read(size) for size in sizes), warning)


# Tasks


def county_tasks(request: Request, outputs: Sequence[Output], interrupts: Interrupts) -> list[CountyTask]:
    """Returns one task per county. All paths in it are absolute, and a program is included as its words."""
    program = Stamp.of(os.path.abspath(request.found_program(interrupts)))
    chosen = counties_in(os.path.abspath(request.data), request.counties)
    if request.program is not None and not isinstance(request.program, bytes):
        request = replace(request, program=Path(request.program).read_bytes())
    request = replace(request, data="", counties=None, extractd=None)
    wanted = outputs_of(chosen, outputs)
    return [
        CountyTask(county, _stamps(county, wanted[county.code]), request, program, wanted[county.code])
        for county in chosen
    ]


def _stamps(county: County, outputs: Sequence[Output]) -> tuple[Stamp, ...]:
    types = types_for(outputs)
    files = [county.archive] if county.archive else [county.files[key] for key in sorted(county.files) if key in types]
    return tuple(Stamp.of(path) for path in files)


def part_task(source: CountyTask, store: Path) -> PartTask:
    """Returns the task that writes a county's part into the folder `store`."""
    request = source.request
    depends_on = (
        (VERSION, astuple(source.program), [astuple(stamp) for stamp in source.files]),
        [astuple(output) for output in source.outputs],
        (request.filter if request.program is None else None, repr(request.program), request.score),
    )
    digest = hashlib.sha256(json.dumps(depends_on).encode()).hexdigest()[:32]
    return PartTask(source, store / f"{source.code}-{digest}.part")


# The folder of the parts


@contextmanager
def part_store(final: Path, resume: bool) -> Iterator[Path]:
    """Makes the folder for the parts next to the final file, and removes it at the end.

    With `resume` its name is that of the final file and `.parts`, and it is kept after a failure if it has a part.
    """
    with ExitStack() as cleanup:
        if resume:
            store = final.with_name(final.name + ".parts")
            if store.exists() and not store.is_dir():
                raise OSError(f"{store} isn't a folder: remove it, or write to another file")
            with rename_errors_to(store):
                store.mkdir(exist_ok=True)
            cleanup.enter_context(_locked(store))
            cleanup.push(partial(_leave, store))
        else:
            with rename_errors_to(final):
                folder = cleanup.enter_context(scratch_folder(final.parent))
            store = folder / "parts"
            store.mkdir()
            # From now on a task that still runs on another machine can't add a file.
            cleanup.callback(store.rename, folder / "ended")
        yield store


@contextmanager
def _locked(store: Path) -> Iterator[None]:
    """Holds a lock. Some shared file systems don't support it; there, two runs with the same output may interfere."""
    with open(store / "lock", "ab") as lock:
        try:
            fcntl.flock(lock, fcntl.LOCK_EX | fcntl.LOCK_NB)
        except BlockingIOError:
            raise OSError(f"{store} is in use by another run") from None
        except OSError:
            pass
        yield


def _leave(store: Path, kind: type[BaseException] | None, *_: object) -> None:
    """Removes the folder, but not files of others in it. After an exception it is kept if it has a part."""
    ours = [path for path in store.iterdir() if _PART.fullmatch(path.name)]
    if kind is not None and any(path.suffix == ".part" for path in ours):
        return
    for path in [*ours, store / "lock"]:
        path.unlink(missing_ok=True)
    with suppress(OSError):
        store.rmdir()


# All counties

# Yields each task when it is done, with the name of the machine that ran it.
Engine = Callable[[Sequence[PartTask], Interrupts], Generator[tuple[PartTask, str], None, None]]
Texts = Generator[CountyTexts, None, None]


def completed(
    submit: Callable[[AnyTask], Any], tasks: Sequence[AnyTask], check: Callable[[], None]
) -> Iterator[tuple[AnyTask, Any]]:
    """Submits all tasks, and yields each with its future when it is done. Meanwhile calls `check` again and again."""
    done: SimpleQueue[tuple[AnyTask, Any]] = SimpleQueue()

    def note(task: AnyTask, future: Any) -> None:
        done.put((task, future))

    for task in tasks:
        check()
        submit(task).add_done_callback(partial(note, task))
    remaining = len(tasks)
    while remaining:
        check()
        with suppress(Empty):
            yield done.get(timeout=LOOK_SECONDS)
            remaining -= 1


def run_tasks(tasks: Sequence[PartTask], store: Path, engine: Engine, progress: bool, interrupts: Interrupts) -> Texts:
    """Yields the texts of all counties in order. An engine runs the tasks whose parts aren't in the store yet."""
    waiting = {task.code: task for task in _unfinished(tasks, store, interrupts)}
    with closing(engine(list(waiting.values()), interrupts)) as ran:
        shown = iter(with_progress(ran, len(waiting), "county", progress))
        for task in tasks:
            while task.code in waiting:
                done, where = next(shown)
                _require_visible(done, where, interrupts)
                del waiting[done.code]
            yield reported(read_part(task.path))
        next(shown, None)  # Ends the display of progress.


def _unfinished(tasks: Sequence[PartTask], store: Path, interrupts: Interrupts) -> list[PartTask]:
    # A network file system may keep reporting that a file doesn't exist, so single files aren't looked up.
    present = set(os.listdir(store))
    waiting = []
    for task in tasks:
        interrupts.check()
        with suppress(OSError):
            if task.path.name in present and read_part(task.path):
                continue
        waiting.append(task)
    return waiting


def _require_visible(task: PartTask, where: str, interrupts: Interrupts) -> None:
    """Raises OSError if a part doesn't exist. A network file system may show it some seconds after it was written."""
    deadline = time.monotonic() + VISIBLE_SECONDS
    while not task.path.exists():
        interrupts.check()
        os.listdir(task.path.parent)  # Refreshes the cache of a network file system.
        if time.monotonic() > deadline:
            raise OSError(
                f"county {task.code}: {where} wrote {task.path}, which isn't there on {host()}: OUT has to be in a "
                "file system that all workers share"
            )
        time.sleep(LOOK_SECONDS)
