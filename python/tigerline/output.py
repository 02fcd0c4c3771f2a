"""Writes output that appears completely or not at all: files, standard output, and tables of a database."""

import errno
import os
import sys
from collections.abc import Iterator
from contextlib import ExitStack, contextmanager
from dataclasses import dataclass
from pathlib import Path
from select import PIPE_BUF, select

from .interrupts import Interrupts
from .scratch import rename_errors_to, scratch_folder

STANDARD_OUTPUT = "-"
DATABASE = "PG:"  # the start of a connection to PostgreSQL, as GDAL has it
POLL = 0.1  # seconds


@dataclass(frozen=True)
class PendingFile:
    """A file that is being written at `path`, in a folder next to its final place.

    Standard output has no other final place, and gets a copy. The table of a database has a connection, which messages
    don't show, as it may be secret. GDAL writes it in one transaction.
    """

    path: Path
    final: Path
    overwrite: bool = False
    connection: str = ""

    @property
    def kind(self) -> str:
        """The suffix of the file, which says its format."""
        return DATABASE if self.connection else self.path.suffix

    @property
    def target(self) -> str:
        """What GDAL opens."""
        return self.connection or str(self.path)

    def publish(self, interrupts: Interrupts) -> None:
        """Moves the file to its final place. Without `overwrite`, keeps a file that has appeared there meanwhile."""
        interrupts.check()
        if self.final == self.path:
            _copy_to_output(self.path, interrupts)
        elif not self.connection:
            self._move()

    def _move(self) -> None:
        """Moves the file, after the others that belong to it: of a shapefile, or of a county.

        What stood in their places stays there if one of them can't be moved.
        """
        beside = (path for path in sorted(self.path.parent.glob(f"{self.path.stem}.*")) if path != self.path)
        finals = {path: self.final.with_suffix(path.suffix) for path in beside} | {self.path: self.final}
        for path, final in finals.items():
            with rename_errors_to(final), open(path, "rb") as file:
                os.fsync(file.fileno())  # The system may report only here that it can't write the file.
                _refuse(final, self.overwrite)
        with ExitStack() as undo:
            for final in [*finals.values()][::-1] if len(finals) > 1 else ():
                if final.exists():
                    kept = self.path.with_name(f"kept {final.name}")
                    os.replace(final, kept)
                    undo.callback(os.replace, kept, final)
            for path, final in finals.items():
                with rename_errors_to(final):
                    if self.overwrite:
                        os.replace(path, final)
                    else:
                        _move_without_replacing(path, final)
                undo.callback(final.unlink)
            undo.pop_all()


def is_file(out: str | Path) -> bool:
    """Returns whether an output is a file, not standard output or a database."""
    return str(out) != STANDARD_OUTPUT and not str(out).startswith(DATABASE)


@contextmanager
def pending_output(out: str | Path, overwrite: bool) -> Iterator[PendingFile]:
    """Prepares a file, or CSV on standard output for `-`, or a table for `PG:..`."""
    if is_file(out):
        with pending_file(Path(out), overwrite) as file:
            yield file
        return
    with scratch_folder() as folder:
        if out == STANDARD_OUTPUT:
            yield PendingFile(folder / "table.csv", folder / "table.csv")
        else:
            yield PendingFile(folder / "table", Path("the database"), overwrite, str(out))


@contextmanager
def pending_file(final: Path, overwrite: bool) -> Iterator[PendingFile]:
    """Prepares a file. Removes it unless it is published."""
    final = Path(os.path.realpath(final))
    _refuse(final, overwrite)
    with ExitStack() as cleanup:
        with rename_errors_to(final):
            folder = cleanup.enter_context(scratch_folder(final.parent))
        yield PendingFile(folder / f"file{final.suffix.lower()}", final, overwrite)


def _refuse(final: Path, overwrite: bool) -> None:
    """Raises OSError if something exists there that may not be replaced."""
    if final.is_dir():
        raise IsADirectoryError(errno.EISDIR, os.strerror(errno.EISDIR), str(final))
    if final.exists() and not final.is_file():
        raise OSError(f"{final} is a device or a pipe, which a file can't replace: - is standard output")
    if final.exists() and not overwrite:
        raise FileExistsError(errno.EEXIST, os.strerror(errno.EEXIST), str(final))


def _move_without_replacing(path: Path, final: Path) -> None:
    try:
        os.link(path, final)
    except FileExistsError:
        raise FileExistsError(errno.EEXIST, os.strerror(errno.EEXIST), str(final)) from None
    except OSError:  # The file system has no hard links.
        _refuse(final, overwrite=False)
        os.replace(path, final)


def _copy_to_output(path: Path, interrupts: Interrupts) -> None:
    """Copies a file to standard output, which may be a closed pipe, or one that nobody reads for a long time."""
    if sys.stdout is None:
        raise OSError("the output can't be written: standard output is closed")
    output = sys.stdout.fileno()
    try:
        with open(path, "rb") as file:
            while chunk := file.read(PIPE_BUF):
                while chunk:
                    interrupts.check()
                    # A writable pipe accepts at least this much. A larger write could block, and delay Ctrl-C.
                    if select([], [output], [], POLL)[1]:
                        chunk = chunk[os.write(output, chunk) :]
    except OSError as error:
        raise OSError(f"the output can't be written: {error.strerror}") from None
