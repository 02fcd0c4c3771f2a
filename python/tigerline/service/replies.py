"""Replies: bodies that are read from files as clients take them, their compression, and what all replies have."""

import json
import os
import re
import tempfile
import threading
import zlib
from bisect import bisect_right
from collections.abc import Callable, Iterable, Sequence
from functools import partial
from http import HTTPStatus
from itertools import accumulate
from typing import IO, TYPE_CHECKING, Protocol

from .geojson import COMMA
from .lines import CHUNK, Slice

if TYPE_CHECKING:
    from wsgiref.types import StartResponse, WSGIEnvironment

MOST_COMPRESSING = 2
SMALLEST_COMPRESSED = 1024  # bytes
LARGEST_IN_MEMORY = 65_536  # bytes of a compressed body
FASTEST = 1  # a level of zlib
GZIP_FORMAT = 31
METHODS = "GET, HEAD, OPTIONS"

_GZIP = re.compile(r"\bgzip\b(?!\s*;\s*q=0(\.0*)?\s*(,|$))", re.IGNORECASE)
compressing = threading.BoundedSemaphore(MOST_COMPRESSING)

Headers = list[tuple[str, str]]


class Readable(Protocol):
    """What a body is read from."""

    def read(self, size: int, /) -> bytes:
        ...


FileWrapper = Callable[[Readable, int], Iterable[bytes]]


class WholeFile:
    """A file that a body has whole."""

    def __init__(self, file: IO[bytes]) -> None:
        self._file = file
        self.length = os.fstat(file.fileno()).st_size

    def read(self, place: int, length: int) -> bytes:
        """Returns up to `length` bytes from a place of the file."""
        return os.pread(self._file.fileno(), length, place)


class Body:
    """A body as a file. It consists of texts and of parts of files, which aren't read before a client takes them."""

    def __init__(self, *pieces: bytes | Slice | WholeFile) -> None:
        self._pieces = pieces
        self._ends = [*accumulate(len(piece) if isinstance(piece, bytes) else piece.length for piece in pieces)]
        self._place = 0

    @property
    def size(self) -> int:
        """The number of bytes."""
        return self._ends[-1]

    def tell(self) -> int:
        """Returns the place at which the next byte is read."""
        return self._place

    def seek(self, offset: int, whence: int = 0) -> None:
        """Sets the place, as for files."""
        self._place = offset + (0, self._place, self.size)[whence]

    def read(self, size: int, /) -> bytes:
        """Reads up to the end of a piece."""
        index = bisect_right(self._ends, self._place)
        if index == len(self._pieces):
            return b""
        piece, start = self._pieces[index], self._place - (self._ends[index - 1] if index else 0)
        data = piece[start : start + size] if isinstance(piece, bytes) else piece.read(start, size)
        self._place += len(data)
        return data

    def content(self) -> bytes:
        """Reads all that remains."""
        return b"".join(iter(partial(self.read, CHUNK), b""))


# The media type, the body and further headers.
Reply = tuple[str, Body, Headers]


def feature_collection(slices: Sequence[Slice], members: dict[str, object]) -> Body:
    """Returns a collection of features with further members. The comma before the first feature is left out."""
    head = json.dumps({"type": "FeatureCollection", **members}, separators=(",", ":"))
    first = [Slice(lines, start + len(COMMA), length - len(COMMA)) for lines, start, length in slices[:1]]
    return Body(head[:-1].encode(), b',"features":[', *first, *slices[1:], b"]}")


def respond(
    environ: "WSGIEnvironment", start_response: "StartResponse", status: HTTPStatus, headers: Headers, body: Body
) -> Iterable[bytes]:
    """Answers a request. A body is compressed only if there is a processor for it, so that no request waits for that."""
    file: Readable = body
    size, encoding = body.size, []
    is_smaller = size >= SMALLEST_COMPRESSED and _GZIP.search(environ.get("HTTP_ACCEPT_ENCODING", ""))
    if is_smaller and compressing.acquire(blocking=False):
        try:
            file, size = _compressed(body)
        finally:
            compressing.release()
        encoding = [("Content-Encoding", "gzip")]
    common = [
        ("Content-Length", str(size)),
        ("Vary", "Accept-Encoding"),
        ("Access-Control-Allow-Origin", "*"),
        ("Access-Control-Expose-Headers", "Content-Crs"),
        ("X-Content-Type-Options", "nosniff"),
    ]
    start_response(f"{status.value} {status.phrase}", [*headers, *encoding, *common])
    if environ["REQUEST_METHOD"] == "HEAD" or not size:
        return [b""]
    # This lets a server read the body without a thread.
    wrapper: FileWrapper = environ.get("wsgi.file_wrapper") or _chunks
    return wrapper(file, CHUNK)


def _chunks(file: Readable, size: int) -> Iterable[bytes]:
    return iter(partial(file.read, size), b"")


def _compressed(body: Body) -> tuple[Readable, int]:
    """Returns a body that is compressed by gzip, in a file, and its size."""
    file = tempfile.SpooledTemporaryFile(LARGEST_IN_MEMORY)
    compressor = zlib.compressobj(FASTEST, wbits=GZIP_FORMAT)
    while data := body.read(CHUNK):
        file.write(compressor.compress(data))
    file.write(compressor.flush())
    size = file.tell()
    file.seek(0)
    return file, size
