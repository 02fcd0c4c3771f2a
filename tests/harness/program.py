"""The built program as a command. It is first on the search path, as `extractd`; `rt` runs it, and `tigerline` is the package of this clone."""

import os
import shutil
import sys
import tempfile
from pathlib import Path

TOP = Path(__file__).resolve().parent.parent.parent
# The name of the folder of these commands, for the processes that run tests side by side.
VARIABLE = "TEST_COMMANDS"

# `rt` builds nothing here: the program is already built.
RT = """#!/bin/sh
case "$1 ${2-}" in "try --" | "run --") shift 2 && exec extractd "$@" ;; esac
"""
# What writes past a limit on the size of a file gets an error, and no signal.
LIMITED = """#!/bin/sh
case $1 in
v) limit=--as=$(($2 * 1024)) ;;
f) limit=--fsize=$(($2 * 1024)) && trap '' XFSZ ;;
n) limit=--nofile=$2 ;;
esac
shift 2
exec prlimit "$limit" -- "$@"
"""


def install(program: str | None, is_installed: bool = False) -> None:
    """Makes the commands, with the program if it is known. If the package is installed, its command and Python are those of the system."""
    folder = Path(tempfile.mkdtemp(prefix="commands."))
    folder.chmod(0o755)
    os.environ[VARIABLE] = str(folder)
    os.environ["PATH"] = f"{folder}{os.pathsep}{os.environ['PATH']}"
    package = f'#!/bin/sh\nPYTHONPATH="{TOP}/python" exec "{sys.executable}" -B'
    _write(folder / "rt", RT)
    _write(folder / "limited", LIMITED)
    if not is_installed:
        _write(folder / "tigerline", f'{package} -m tigerline "$@"\n')
        _write(folder / "python3", f'{package} "$@"\n')
    if program is not None:
        shutil.copy(program, folder / "extractd")
        (folder / "extractd").chmod(0o755)
        os.environ["EXTRACTD"] = str(folder / "extractd")


def remove() -> None:
    shutil.rmtree(os.environ.pop(VARIABLE, ""), ignore_errors=True)


def path() -> str | None:
    """Returns the path of the program, if it is known."""
    return os.environ.get("EXTRACTD")


def _write(file: Path, text: str) -> None:
    file.write_text(text)
    file.chmod(0o755)
