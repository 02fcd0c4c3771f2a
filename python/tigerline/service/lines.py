"""The features of a selection in a file, and what is made of them: those in a box, in another order, or another view."""

import os
import tempfile
import threading
import weakref
from array import array
from bisect import bisect_left
from collections.abc import Callable, Iterator, Sequence
from typing import IO, Any, NamedTuple

from .boxes import INSIDE, UNDECIDED, BBox, Bounds, PlainBox
from .geojson import NotFeaturesError, line_of, values

CHUNK = 1 << 18  # bytes

Check = Callable[[], None]
# Names of columns, and whether the order by them is descending.
Order = tuple[tuple[str, bool], ...]
# A value after whether it is missing, so that those are last.
Key = tuple[bool, Any]


class Lines:
    """The features of a selection, one on each line, in an unnamed temporary file that is deleted with this object."""

    def __init__(self, file: IO[bytes]) -> None:
        file.flush()
        self.size = os.fstat(file.fileno()).st_size
        self._descriptor = os.dup(file.fileno())
        weakref.finalize(self, os.close, self._descriptor)
        # The number of lines that end before each chunk.
        self._ended = array("Q", [0])
        for place in range(0, self.size, CHUNK):
            self._ended.append(self._ended[-1] + self.read(place, CHUNK).count(b"\n"))
        self.count = self._ended[-1]
        self._bounds: Bounds | None = None
        self._lock = threading.Lock()
        if self.size and self.read(self.size - 1, 1) != b"\n":
            raise NotFeaturesError

    def slice(self, first: int, last: int) -> "Slice":
        """Returns the place of the lines from one to before another."""
        start = self._start(min(first, self.count))
        return Slice(self, start, self._start(min(last, self.count)) - start)

    def _start(self, line: int) -> int:
        """Returns the place at which a line begins: after the end of the one before it."""
        if line == 0:
            return 0
        chunk = bisect_left(self._ended, line) - 1
        data = self.read(chunk * CHUNK, CHUNK)
        after = data.split(b"\n", line - self._ended[chunk])[-1]
        return chunk * CHUNK + len(data) - len(after)

    def parts(self) -> Iterator[bytes]:
        """Yields the lines that end in the first chunk, those that end in the second one and so on."""
        rest = b""
        for place in range(0, self.size, CHUNK):
            data = rest + self.read(place, CHUNK)
            end = data.rfind(b"\n") + 1
            yield data[:end]
            rest = data[end:]

    def read(self, place: int, length: int) -> bytes:
        """Returns up to `length` bytes from a place of the file."""
        return os.pread(self._descriptor, length, place)

    def converted(self, convert: Callable[[bytes], bytes], check: Check) -> "Lines":
        """Returns the lines that a function makes of these."""
        with tempfile.TemporaryFile() as output:
            for lines in self.parts():
                check()
                output.write(convert(lines))
            return Lines(output)

    def bounds(self, check: Check) -> Bounds:
        """Returns the bounds of the features, which are calculated once."""
        with self._lock:
            if self._bounds is None:
                bounds = Bounds()
                for lines in self.parts():
                    check()
                    bounds.add(map(line_of, lines.splitlines(keepends=True)))
                self._bounds = bounds
            return self._bounds

    def in_box(self, box: BBox, check: Check) -> "Lines":
        """Returns the features that meet a box."""
        marks = self.bounds(check).marks(box)
        if marks.count(INSIDE) == self.count:
            return self
        if not any(marks):
            with tempfile.TemporaryFile() as output:
                return Lines(output)
        plain, ended = box.plain(), iter(zip(self._ended, self._ended[1:]))

        def meeting(lines: bytes) -> bytes:
            first, last = next(ended)
            return b"".join(_meeting(lines, marks[first:last], plain)) if any(marks[first:last]) else b""

        return self.converted(meeting, check)


def _meeting(lines: bytes, marks: bytes, boxes: list[PlainBox]) -> Iterator[bytes]:
    """Yields the lines of which the marks say that they are inside, and of the undecided ones those that meet a box."""
    for line, mark in zip(lines.splitlines(keepends=True), marks):
        geometry = line_of(line) if mark == UNDECIDED else None
        if mark == INSIDE or geometry is not None and any(box.meets(geometry) for box in boxes):
            yield line


class Slice(NamedTuple):
    """A part of a file of lines."""

    lines: Lines
    start: int
    length: int

    def read(self, place: int, length: int) -> bytes:
        """Returns up to `length` bytes from a place of the part."""
        return self.lines.read(self.start + place, min(length, self.length - place))


def in_order(parts: Sequence[Lines], order: Order, check: Check) -> Lines:
    """Returns the features of several files in the order of columns. Those without a value come last."""
    rows = [row for lines in parts for row in _rows(lines, order, check)]
    for place, (_, descends) in reversed([*enumerate(order)]):
        rows.sort(key=lambda row: row[1][place], reverse=descends)
    with tempfile.TemporaryFile() as output:
        output.writelines(part.read(0, part.length) for part, _ in rows)
        return Lines(output)


def _rows(lines: Lines, order: Order, check: Check) -> Iterator[tuple[Slice, tuple[Key, ...]]]:
    """Yields each line with the keys by which it is sorted."""
    start = 0
    for part in lines.parts():
        check()
        features = part.splitlines(keepends=True)
        columns = [[_key(found, descends) for found in values(features, name)] for name, descends in order]
        for line, *keys in zip(features, *columns):
            yield Slice(lines, start, len(line)), tuple(keys)
            start += len(line)


def _key(found: Any, descends: bool) -> Key:
    return (found is None) != descends, "" if found is None else found
