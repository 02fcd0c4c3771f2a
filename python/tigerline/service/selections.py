"""Has `extractd` select segments within limits, and caches the features of the latest selections.

Each box, order or choice of columns makes a file of its own, so a page is a slice of a file.
"""

import subprocess
import tempfile
import threading
import time
from collections import OrderedDict
from collections.abc import Callable, Iterator
from concurrent.futures import Future
from contextlib import contextmanager, suppress
from dataclasses import dataclass, field, replace
from functools import partial
from typing import IO

from ..interrupts import Interrupts, kill_group
from ..program import RefusedError, failure
from ..sources import County, has_shapes, opened_county, record_types
from .boxes import Extent, extent_of
from .collections import Collection
from .geojson import latitude_first, with_properties
from .ids import Numbering, Repeated, digest, repeated
from .lines import Lines, Order, Slice, in_order
from .problems import ClientLeftError, ProblemError, busy, late, many_to_sort, refused_county, refused_filter
from .query import FeatureSelection, View

POLL_SECONDS = 0.02
SMALLEST_BUFFER = 4096  # bytes; a buffer without features counts as this size
MOST_BUFFERS = 400  # each is an open file
MOST_COUNTS = 100_000
MOST_SORTED = 200_000  # features, which take memory while they are sorted
EVERYTHING = FeatureSelection()


@dataclass(frozen=True)
class Limits:
    """The limits of the service. Sizes are in bytes, and page sizes in features."""

    processes: int = 2
    waiting: int = 32
    seconds: float = 30
    buffers: int = 4 << 30
    page: int = 10_000
    filter_length: int = 16_384
    connections: int = 500


class Watch(Interrupts):
    """Ends the selections of a request when the time for a county is over or when no client waits any longer."""

    def __init__(self, seconds: float, has_left: Callable[[], bool]) -> None:
        super().__init__()
        self._seconds = seconds
        self._has_left = has_left
        self.restart()

    def restart(self) -> None:
        """Begins the time for the next county."""
        self._deadline = time.monotonic() + self._seconds

    def check(self) -> None:
        """Raises ClientLeftError or ProblemError."""
        if self._has_left():
            raise ClientLeftError
        if time.monotonic() > self._deadline:
            raise late(self._seconds)

    def enforce(self, done: threading.Event) -> None:
        """Kills the processes that are watched, and each further one, when `check` says so."""
        while not done.wait(POLL_SECONDS):
            processes = tuple(self._processes)
            try:
                self.check()
            except (ClientLeftError, ProblemError):
                for process in processes:
                    if process.returncode is None:
                        kill_group(process)


@contextmanager
def taken(slots: threading.Semaphore, watch: Watch) -> Iterator[None]:
    """Waits for a slot, which is free again after the block."""
    while not slots.acquire(timeout=POLL_SECONDS):
        watch.check()
    try:
        yield
    finally:
        slots.release()


class Processes:
    """Runs `extractd`: a few processes at once, and none after `close`."""

    def __init__(self, program: str, limits: Limits) -> None:
        self._program = program
        self._limits = limits
        self._slots = threading.BoundedSemaphore(limits.processes)
        self._is_closed = False

    def close(self) -> None:
        """Has the threads that wait for processes kill them."""
        self._is_closed = True

    def watch(self, has_left: Callable[[], bool]) -> Watch:
        """Returns what ends a request that begins now."""
        return Watch(self._limits.seconds, lambda: has_left() or self._is_closed)

    def select(self, county: County, selection: FeatureSelection, watch: Watch) -> Lines:
        """Returns what `extractd` writes for a selection: for its filter alone. Raises ProblemError if it can't."""
        try:
            with taken(self._slots, watch):
                if selection.filter is not None and selection.conditions:
                    self._compile(selection, selection.filter, watch)
                return self._select(county, selection, watch)
        except RefusedError as refused:
            raise _problem(refused, county.code, selection) from None

    @contextmanager
    def watched(self, watch: Watch) -> Iterator[None]:
        """Waits until processes may run, and kills those that `watch` knows when it ends the request."""
        done = threading.Event()
        with taken(self._slots, watch):
            thread = threading.Thread(target=watch.enforce, args=(done,))
            thread.start()
            try:
                yield
            except OSError:
                watch.check()
                raise
            finally:
                done.set()
                thread.join()

    def _compile(self, selection: FeatureSelection, text: str, watch: Watch) -> None:
        """Raises ProblemError if a filter is refused.

        A filter with conditions is first checked alone, so that no parenthesis in it can close the one before it.
        """
        with tempfile.TemporaryFile() as output:
            try:
                self._run(["compile", "--filter", "-", *selection.options], output, watch, text.encode())
            except RefusedError as refused:
                raise refused_filter(refused) from None

    def _select(self, county: County, selection: FeatureSelection, watch: Watch) -> Lines:
        shape = has_shapes(county)
        with opened_county(county, record_types(shape), watch) as files, tempfile.TemporaryFile() as output:
            layer = ["--format", "geojsonseq", "--geometry", "shape" if shape else "line"]
            where = [f"--where={selection.text}", *selection.options]
            command = ["select", *where, "--data", str(files["1"].parent), *layer, county.code]
            self._run(command, output, watch, b"", county.code)
            return Lines(output)

    def _run(
        self, arguments: list[str], output: IO[bytes], watch: Watch, given: bytes, county: str | None = None
    ) -> None:
        command = [self._program, *arguments]
        with tempfile.TemporaryFile() as source, tempfile.TemporaryFile() as errors:
            source.write(given)
            source.seek(0)
            watch.check()
            with subprocess.Popen(
                command, stdin=source, stdout=output, stderr=errors, process_group=0, restore_signals=False
            ) as process:
                try:
                    status = _wait(process, watch)
                finally:
                    if process.returncode is None:
                        kill_group(process)
            errors.seek(0)
            if status != 0:
                raise failure(self._program, status, errors.read().decode("utf-8", "replace").strip(), county)


def _wait(process: subprocess.Popen[bytes], watch: Watch) -> int:
    while True:
        with suppress(subprocess.TimeoutExpired):
            return process.wait(timeout=POLL_SECONDS)
        watch.check()


def _problem(refused: RefusedError, county: str, selection: FeatureSelection) -> ProblemError:
    """Returns the problem of a refusal, with a place in the filter as the client sent it."""
    if refused.county is not None:
        return refused_county(refused, county)
    problem = refused_filter(refused)
    if selection.conditions and problem.members.get("line") == 1:
        problem.members["column"] = max(1, problem.members["column"] - len(FeatureSelection.PREFIX))
    if selection.conditions and "pointer" in problem.members:
        pointer: str = problem.members.pop("pointer")
        inside = pointer.removeprefix(FeatureSelection.POINTER)
        # What isn't in the filter alone is in the whole.
        if inside and inside != pointer:
            problem.members["pointer"] = inside
    return problem


Key = tuple[str, FeatureSelection]
Page = tuple[list[Slice], int]


@dataclass
class Store:
    """The latest selections. Makes each only once, even if several clients request it at once."""

    processes: Processes
    limits: Limits
    _buffers: OrderedDict[Key, Lines] = field(default_factory=OrderedDict)
    _counts: OrderedDict[tuple[str, bytes], int] = field(default_factory=OrderedDict)
    _pending: dict[Key, "Future[Lines]"] = field(default_factory=dict)
    _extents: dict[str, Extent | None] = field(default_factory=dict)
    _repeated: dict[str, Repeated] = field(default_factory=dict)
    _lock: threading.Lock = field(default_factory=threading.Lock)
    _sorting: threading.Semaphore = field(default_factory=threading.Semaphore)
    _size: int = 0
    _waiting: int = 0

    def page(self, collection: Collection, selection: FeatureSelection, offset: int, limit: int, watch: Watch) -> Page:
        """Returns a page of the features of a collection, and the number of all that are selected.

        Counties follow one another unless their features are sorted.
        """
        slices: list[Slice] = []
        matched = 0
        # The number of features is kept longer than they are. What they show doesn't change it.
        plain = replace(selection, view=View())
        identity = _identity(plain)
        for part in (collection,) if selection.order else collection.parts:
            watch.restart()
            count = self._counts.get((part.id, identity))
            if count is None:
                count = self.lines(part, plain, watch).count
            first, last = (min(max(place - matched, 0), count) for place in (offset, offset + limit))
            if first < last:
                slices.append(self.lines(part, selection, watch).slice(first, last))
            matched += count
        return slices, matched

    def lines(self, part: Collection, selection: FeatureSelection, watch: Watch) -> Lines:
        """Returns the features of a selection. They are made only if they aren't cached.

        The part of a collection is a county, unless its features are sorted.
        """
        key = (part.id, selection)
        with self._lock:
            cached = self._cached(key)
        return cached or self._once(key, self._maker(part, selection, watch))

    def _maker(self, part: Collection, selection: FeatureSelection, watch: Watch) -> Callable[[], Lines]:
        """Returns what makes the features of a selection of what is made before: all, sorted, in a box, or of a filter."""
        if selection.view != View():
            whole = self.lines(part, replace(selection, view=View()), watch)
            return partial(whole.converted, partial(viewed, selection.view), watch.check)
        if selection.order:
            return partial(self._in_order, self._unsorted(part, selection, watch), selection.order, watch)
        if selection.box is not None:
            everywhere = self.lines(part, replace(selection, box=None), watch)
            return partial(everywhere.in_box, selection.box, watch.check)
        if selection.text != EVERYTHING.text and part.id not in self._repeated:
            self.lines(part, replace(EVERYTHING, has_county=selection.has_county), watch)
        return partial(self._select, part, selection, watch)

    def _unsorted(self, part: Collection, selection: FeatureSelection, watch: Watch) -> list[Lines]:
        """Returns the features that are to be sorted. Raises ProblemError if they are too many."""
        found: list[Lines] = []
        for county in part.parts:
            watch.restart()
            found.append(self.lines(county, replace(selection, order=()), watch))
            if sum(lines.count for lines in found) > MOST_SORTED:
                raise many_to_sort(MOST_SORTED)
        return found

    def _in_order(self, parts: list[Lines], order: Order, watch: Watch) -> Lines:
        """Returns the features in an order. Their keys take memory, so nothing else is sorted meanwhile."""
        with taken(self._sorting, watch):
            return in_order(parts, order, watch.check)

    def _select(self, part: Collection, selection: FeatureSelection, watch: Watch) -> Lines:
        """Returns the features of a county that a filter selects. The first selection is of all."""
        (county,) = part.counties
        written = self.processes.select(county, selection, watch)
        if part.id not in self._repeated:
            self._repeated[part.id] = repeated(written.parts)
        numbering = Numbering(self._repeated[part.id], f"{county.code}." if selection.has_county else "")
        return written.converted(numbering.features, watch.check)

    def segment(self, part: Collection, tlid: int, place: int, watch: Watch) -> bytes:
        """Returns one of the segments of a county with a TLID, as `extractd` writes it, or nothing. It isn't cached."""
        selection = FeatureSelection(f"TLID = {tlid}")
        (county,) = part.counties
        make = partial(self.processes.select, county, selection, watch)
        line = self._once((f"one of {part.id}", selection), make, keep=False).slice(place, place + 1)
        return line.read(0, line.length)

    def _once(self, key: Key, make: Callable[[], Lines], keep: bool = True) -> Lines:
        """Returns the features of a selection. Makes them if they are neither cached nor being made."""
        while True:
            with self._lock:
                if (cached := self._cached(key)) is not None:
                    return cached
                if self._waiting >= self.limits.processes + self.limits.waiting:
                    raise busy()
                self._waiting += 1
                pending = self._pending.get(key)
                mine = self._pending.setdefault(key, Future())
            try:
                return self._fill(mine, key, make, keep) if pending is None else pending.result()
            except ClientLeftError:
                # If the client that made the selection has left, this one makes it now.
                if pending is None:
                    raise
            finally:
                with self._lock:
                    self._waiting -= 1

    def _cached(self, key: Key) -> Lines | None:
        """Returns the features of a selection if they are cached. The caller has the lock."""
        if key in self._buffers:
            self._buffers.move_to_end(key)
        return self._buffers.get(key)

    def _fill(self, mine: "Future[Lines]", key: Key, make: Callable[[], Lines], keep: bool) -> Lines:
        try:
            lines = make()
        except BaseException as error:
            mine.set_exception(error)
            raise
        else:
            if keep:
                self._keep(key, lines)
            mine.set_result(lines)
            return lines
        finally:
            with self._lock:
                del self._pending[key]

    def _keep(self, key: Key, lines: Lines) -> None:
        """Caches features and drops those that were requested longest ago. The latest are always cached.

        Of none it is enough to know their number, as a box leaves none of most counties.
        """
        with self._lock:
            if lines.count:
                self._buffers[key] = lines
                self._size += _size(key, lines)
            while len(self._buffers) > 1 and (self._size > self.limits.buffers or len(self._buffers) > MOST_BUFFERS):
                self._size -= _size(*self._buffers.popitem(last=False))
            self._counts[key[0], _identity(key[1])] = lines.count
            if len(self._counts) > MOST_COUNTS:
                self._counts.popitem(last=False)

    def extent(self, collection: Collection, watch: Watch) -> Extent | None:
        """Returns the extent of a collection, or None if no feature has a geometry."""
        for part in collection.parts:
            watch.restart()
            if part.id not in self._extents:
                self._extents[part.id] = self.lines(part, EVERYTHING, watch).bounds(watch.check).extent()
        return extent_of(self._extents[part.id] for part in collection.parts)


def viewed(view: View, lines: bytes) -> bytes:
    """Returns features with what a view shows of them."""
    if view.columns != View.columns:
        lines = with_properties(view.columns, lines)
    return latitude_first(lines) if view.is_latitude_first else lines


def _identity(selection: FeatureSelection) -> bytes:
    """Returns what identifies a selection, whose filter may be long."""
    return digest(repr(selection).encode())


def _size(key: Key, lines: Lines) -> int:
    return max(lines.size, SMALLEST_BUFFER) + len(key[1].text)
