"""Temporary folders, and the names of files in errors."""

import shutil
import tempfile
from collections.abc import Iterator
from contextlib import contextmanager
from pathlib import Path

BESIDE = ".tigerline-"


@contextmanager
def scratch_folder(beside: Path | None = None) -> Iterator[Path]:
    """Makes a folder, in the system's folder for temporary files or in another one, and removes it at the end."""
    folder = tempfile.mkdtemp(prefix="tigerline-" if beside is None else BESIDE, dir=beside)
    try:
        yield Path(folder)
    finally:
        shutil.rmtree(folder)


@contextmanager
def rename_errors_to(path: Path) -> Iterator[None]:
    """Makes system errors name this file if they name none, as for writes, or one in a folder next to it."""
    try:
        yield
    except OSError as error:
        if error.errno is None or BESIDE not in (error.filename or BESIDE):
            raise
        raise OSError(error.errno, error.strerror, str(path)) from None
