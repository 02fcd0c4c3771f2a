#!/usr/bin/env python3
"""Tries accidents after which the tests would check less, one at a time: each has to be a failure.

    /usr/bin/python3 tools/accidents.py            all of them, in a quarter of an hour
    /usr/bin/python3 tools/accidents.py WORD..     those that have one of these words in their names, such as docs/ or emptied
    --jobs N                                       how many run at once, by default 2
    --list                                         tries none, and only prints the names

An accident is a page whose blocks are empty or only shown, a table without rows, a file of tests that ends where it begins, a tool or a
file of the harness without text, a source of a crate without its `#[test]`s or with a row less, or a folder without mutants. It happens in a copy of this clone
that has a new tests/counts.txt. There pytest collects all tests, and runs the list of counts. What a list can't notice, a test of the file
notices by what it prints. The built program isn't needed.

Prints the accidents that go unnoticed. The last line is `N passed, N failed`, where an accident has passed if it was noticed. Exit status 0
means that all were.
"""
# Needs Linux, and Python 3.11 with the packages of the tests.

import argparse
import contextlib
import importlib
import os
import re
import shutil
import signal
import subprocess
import sys
import tempfile
from collections.abc import Callable, Iterable, Iterator
from pathlib import Path
from typing import NamedTuple

import pytest

TOP = Path(__file__).resolve().parent.parent
LIST = "tests/counts.txt"
SECONDS = 300
# What the tests import and what takes long to load. Each trial is a copy of a process that has it.
HEAVY = (
    "distributed geopandas hypothesis.strategies jinja2 matplotlib.pyplot owslib.ogcapi.features selenium.webdriver "
    "shapely.geometry waitress"
).split()
BLOCK = re.compile(r"^(```\w.*\n)(?:.*\n)*?```$", re.MULTILINE)
# The last row of a table in a crate of tests.
ROW = re.compile(r'\n[^\n"]+(?=\n?"#*,?\n?\);)')
# What precedes the first statement of a file of tests.
BEGINNING = re.compile(r'(?:#.*\n|\n)*(?:"""(?:.|\n)*?"""\n+)?(?:from __future__ .*\n)*')
PASSED, FAILED = 0, 1


class Accident(NamedTuple):
    """What happens, and the files with their new texts. A file without a text is removed."""

    name: str
    texts: dict[str, str | None]
    tests: str = ""  # that notice what the counts don't
    said: str = ""  # what these print then

    def options(self) -> list[str]:
        """Returns what selects the tests. Those of the shell want a program, and fail before they run it."""
        selected = f"{LIST} or {self.tests}" if self.tests else LIST
        return ["-k", selected, *(["--program", "/bin/false"] if self.tests.endswith(".sh") else [])]


def files(*patterns: str) -> Iterator[tuple[str, str]]:
    """Yields the files of this clone that have one of these names, with their texts."""
    for path in sorted(path for pattern in patterns for path in TOP.glob(pattern) if path.is_file()):
        yield str(path.relative_to(TOP)), path.read_text(encoding="utf-8")


def changed(
    what: str, change: Callable[[str], str], found: Iterable[tuple[str, str]], tests: str = "", said: str = ""
) -> Iterator[Accident]:
    """Yields a change of each file that it changes. In `tests` and `said`, FILE is its name."""
    for name, text in found:
        new = change(text)
        if new != text:
            yield Accident(f"{name}: {what}", {name: new}, tests.replace("FILE", name), said.replace("FILE", name))


def emptied(*patterns: str) -> Iterator[Accident]:
    return changed("emptied", lambda text: "", files(*patterns), "test_content", "test_content[FILE]")


def accidents() -> Iterator[Accident]:
    pages = list(files("README.md", "docs/*.md", "examples/README.md"))
    yield from changed("blocks emptied", lambda text: BLOCK.sub(r"\1```", text), pages)
    yield from changed("commands only shown", lambda text: re.sub("(?m)^```console.*", "```sh", text), pages)
    yield from emptied("tests/rows/*.txt", "tests/verdicts/*.txt", "tests/calls.txt", "tests/annex_a.txt")
    yield from emptied("conftest.py", "pyproject.toml", "tests/counts.txt", "tests/harness/[a-z]*.py")
    yield from emptied("tests/harness/*.sh", "tools/*.py", "tools/*.sh", "tools/c/*.py", "tools/c/*.sh")
    shell = files("tests/**/test_*.sh")
    yield from changed("returns at its beginning", with_return, shell, "FILE", "doesn't define")
    modules = files("tests/**/test_*.py", "python/tests/test_*.py")
    yield from changed("ends at its beginning", with_end, modules)
    sources = files("crates/*/src/**/*.rt")
    yield from changed("without #[test]", lambda text: text.replace("#[test]\n", ""), sources)
    tables = files("crates/*_tests/src/**/*.rt")
    yield from changed("a row less", lambda text: ROW.sub("", text, 1), tables)
    for folder in sorted(TOP.glob("crates/*/must-fail")):
        names = [str(path.relative_to(TOP)) for path in sorted(folder.glob("*.edit"))]
        yield Accident(f"{folder.relative_to(TOP)}: emptied", dict.fromkeys(names))


def with_end(text: str) -> str:
    """Returns a module that ends after its docstring."""
    match = BEGINNING.match(text)
    end = match.end() if match else 0
    return f"{text[:end]}raise SystemExit\n{text[end:]}"


def with_return(text: str) -> str:
    """Returns a script that returns after the comments at its beginning."""
    return re.sub(r"\A((?:#.*\n)*)", r"\1return\n", text)


class Room:
    """A copy of this clone, in which one accident at a time happens."""

    def __init__(self, folder: Path) -> None:
        self.folder, self.output = folder / "clone", folder / "output"
        self.before: dict[str, str | None] = {}
        listed = subprocess.run(["git", "ls-files", "-z"], cwd=TOP, check=True, capture_output=True, text=True).stdout
        for name in listed.rstrip("\0").split("\0"):
            if (TOP / name).is_file():
                (self.folder / name).parent.mkdir(parents=True, exist_ok=True)
                shutil.copy2(TOP / name, self.folder / name)

    def write(self, texts: dict[str, str | None]) -> None:
        for name, text in texts.items():
            if text is None:
                (self.folder / name).unlink()
            else:
                (self.folder / name).write_text(text, encoding="utf-8")

    def begin(self, accident: Accident) -> int:
        """Starts the tests after an accident, and returns the number of the process."""
        self.before = {name: (self.folder / name).read_text(encoding="utf-8") for name in accident.texts}
        self.write(accident.texts)
        return self.start(*accident.options())

    def mend(self) -> None:
        self.write(self.before)

    def start(self, *options: str) -> int:
        number = os.fork()
        if number == 0:
            status = int(pytest.ExitCode.INTERNAL_ERROR)
            # Whatever happens here, the process ends here.
            with contextlib.suppress(BaseException):
                status = self.run_pytest(options)
            os._exit(status)
        return number

    def run_pytest(self, options: Iterable[str]) -> int:
        signal.signal(signal.SIGTERM, signal.SIG_DFL)
        signal.alarm(SECONDS)
        with open(self.output, "wb") as output:
            for descriptor in (1, 2):
                os.dup2(output.fileno(), descriptor)
        os.chdir(self.folder)
        status = int(pytest.main(["-q", "-x", *options]))
        sys.stdout.flush()
        return status

    def said(self) -> str:
        return self.output.read_text(errors="replace")

    def is_noticed(self, accident: Accident, status: int) -> bool:
        """Returns whether the tests failed because of an accident: in the list, in collecting tests, or as the accident says."""
        if accident.tests and status == FAILED:
            return any(text in self.said() for text in (f"FAILED {LIST}", "\nERROR ", accident.said))
        return status > PASSED


def ended(number: int) -> int:
    """Waits for a process, and returns its exit status."""
    return os.waitstatus_to_exitcode(os.waitpid(number, 0)[1])


def prepared(folder: Path, jobs: int) -> list[Room]:
    """Returns copies of this clone with a new list of counts. Without an accident, their tests pass."""
    rooms = [Room(folder / str(number)) for number in range(jobs)]
    for options in (["--write-counts"], ["-k", LIST]):
        if ended(rooms[0].start(*options)) not in (PASSED, pytest.ExitCode.NO_TESTS_COLLECTED):
            sys.exit(f"the tests fail without an accident:\n{rooms[0].said()[-2000:]}")
    for room in rooms[1:]:
        shutil.copy(rooms[0].folder / LIST, room.folder / LIST)
    return rooms


def tried(chosen: Iterable[Accident], rooms: list[Room]) -> Iterator[tuple[Accident, bool]]:
    """Yields each accident, and whether it was noticed. A process that a signal ended has noticed nothing."""
    waiting, free = list(reversed(list(chosen))), list(rooms)
    running: dict[int, tuple[Accident, Room]] = {}
    while waiting or running:
        while waiting and free:
            accident, room = waiting.pop(), free.pop()
            running[room.begin(accident)] = accident, room
        number, status = os.wait()
        accident, room = running.pop(number)
        is_noticed = room.is_noticed(accident, os.waitstatus_to_exitcode(status))
        room.mend()
        free.append(room)
        yield accident, is_noticed


def main() -> int:
    parser = argparse.ArgumentParser(description="Tries accidents after which the tests would check less.")
    parser.add_argument("--jobs", type=int, default=2, help="how many run at once (default: 2)")
    parser.add_argument("--list", action="store_true", help="only print the names")
    parser.add_argument("words", nargs="*", metavar="WORD", help="a part of a name; none: all")
    given = parser.parse_args()
    chosen = [it for it in accidents() if not given.words or any(word in it.name for word in given.words)]
    if given.list or not chosen:
        print(*(accident.name for accident in chosen), sep="\n")
        return 0 if chosen else 1
    sys.path.remove(str(Path(__file__).resolve().parent))
    for module in HEAVY:
        with contextlib.suppress(ImportError):
            importlib.import_module(module)
    # The copies are removed even then.
    signal.signal(signal.SIGTERM, lambda number, frame: sys.exit(1))
    unnoticed = 0
    with tempfile.TemporaryDirectory(prefix="accidents.") as folder:
        for accident, is_noticed in tried(chosen, prepared(Path(folder), given.jobs)):
            if not is_noticed:
                unnoticed += 1
                print(f"FAILED: {accident.name}", flush=True)
    print(f"{len(chosen) - unnoticed} passed, {unnoticed} failed")
    return 1 if unnoticed else 0


if __name__ == "__main__":
    sys.exit(main())
