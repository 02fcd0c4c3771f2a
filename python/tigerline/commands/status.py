"""The exit statuses of all subcommands, and their messages."""

import errno
import os
import sys
import warnings
from collections.abc import Callable
from enum import IntEnum

from ..program import RefusedError
from ..terminal import report


class Status(IntEnum):
    """How a subcommand ended."""

    DONE = 0
    REFUSED = 1
    USAGE = 2
    FILES = 3
    MEMORY = 4


STATUSES_TEXT = "exit status: 0 done, 1 refused by extractd, 2 usage, 3 files, 4 out of memory"
# A missing package is a missing file. The first class that an error belongs to counts.
_STATUSES: dict[type[Exception], Status] = {
    RefusedError: Status.REFUSED,
    ValueError: Status.USAGE,
    OSError: Status.FILES,
    ImportError: Status.FILES,
    MemoryError: Status.MEMORY,
}
_HINTS = {
    errno.EEXIST: "--overwrite replaces it",
    errno.ENOENT: "check the path",
    errno.EISDIR: "name a file in it",
    errno.ENOTDIR: "check the path",
}


def exit_status(work: Callable[[], bytes]) -> Status:
    """Does the work of a subcommand, writes its result to standard output, and returns the exit status.

    Errors and warnings go to standard error.
    """
    try:
        with warnings.catch_warnings():
            warnings.simplefilter("default", UserWarning)
            warnings.showwarning = lambda message, *_: report(f"warning: {message}")
            return write_output(work())
    except tuple(_STATUSES) as error:
        report(_message(error), keep_lines=isinstance(error, RefusedError))
        return next(status for kind, status in _STATUSES.items() if isinstance(error, kind))


def _message(error: Exception) -> str:
    if isinstance(error, RefusedError):
        return str(error)
    text = str(error) or "out of memory"
    if isinstance(error, OSError) and error.strerror:
        named = f"{error.filename}: " if error.filename else ""
        hint = _HINTS.get(error.errno or 0) if named else None
        text = f"{named}{error.strerror}" + (f": {hint}" if hint else "")
    return f"error: {text}"


def write_output(output: bytes) -> Status:
    """Writes to standard output. Raises OSError if that fails."""
    if not output:
        return Status.DONE
    if sys.stdout is None:
        raise OSError("the output can't be written: standard output is closed")
    try:
        sys.stdout.buffer.write(output)
        sys.stdout.buffer.flush()
        return Status.DONE
    except OSError as error:
        # Python would fail again when it flushes at its end.
        os.dup2(os.open(os.devnull, os.O_WRONLY), sys.stdout.fileno())
        raise OSError(f"the output can't be written: {error.strerror}") from None
