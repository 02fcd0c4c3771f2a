"""tests/counts.txt: how many tests each file has. A file that loses tests, or one that isn't counted, is a failure.

A row is a file and the number of its tests: those that pytest collects; in a crate of tests, the `#[test]` functions and the lines of tables; in a folder
of mutants, those that the prover must refuse.
"""

import re
from collections import Counter
from collections.abc import Iterator, Mapping
from functools import cache, partial
from pathlib import Path

import pytest

from harness.program import TOP
from harness.tables import RowItem

LIST = TOP / "tests/counts.txt"
HEAD = """\
# How many tests each file has; `tests/run --write-counts` writes this. Of a crate: its tests with the lines of their tables, and the
# mutants that its prover must refuse.
"""
COLLECTED = pytest.StashKey[Mapping[str, int]]()
# These take longest, so they begin first.
LONGEST = (
    "tests/exhaustion/",
    "tests/deploy/",
    "tests/test_clients.py",
    "tests/test_costs.py",
    "tests/test_waits.py",
    "python/tests/test_explorer.py",
)

_TEXT = re.compile(r'r(#+)"(.*?)"\1|r?"((?:[^"\\]|\\.)*)"', re.DOTALL)


def name_of(path: Path) -> str:
    return str(path.relative_to(TOP))


def order_of(item: pytest.Item) -> int:
    """Returns the place of a test: the longest first."""
    name = name_of(item.path) if item.path.is_relative_to(TOP) else ""
    return next((place for place, front in enumerate(LONGEST) if name.startswith(front)), len(LONGEST))


def count(config: pytest.Config, items: list[pytest.Item]) -> None:
    """Keeps the number of tests of each file that was collected. The tests of the list itself don't count."""
    config.stash[COLLECTED] = dict(Counter(name_of(item.path) for item in items if item.path != LIST))
    if config.getoption("--write-counts"):
        rows = {**config.stash[COLLECTED], **in_crates()}
        LIST.write_text(HEAD + "".join(f"{name} {number}\n" for name, number in sorted(rows.items())))
        items.clear()


def listed() -> dict[str, int]:
    rows = (line.rpartition(" ") for line in LIST.read_text().splitlines() if not line.startswith("#"))
    return {name: int(number) for name, _, number in rows}


@cache
def in_crates() -> dict[str, int]:
    """Returns the number of tests in each source file and of mutants in each folder that has some."""
    found = {name_of(file): tests_in(file) for file in sorted(TOP.glob("crates/*/src/**/*.rt"))}
    for folder in sorted(TOP.glob("crates/*/must-fail")):
        found[name_of(folder)] = len(list(folder.glob("*.edit")))
    return {name: number for name, number in found.items() if number}


def tests_in(file: Path) -> int:
    """Returns the number of tests in a source file, and in a crate of tests also that of lines in texts of several lines, which are tables."""
    source = file.read_text()
    is_of_tests = re.fullmatch("fixtures|.*_tests", file.relative_to(TOP / "crates").parts[0])
    texts = (match[2] or match[3] or "" for match in _TEXT.finditer(source)) if is_of_tests else ()
    lines = (line for text in texts if "\n" in text for line in text.splitlines())
    return source.count("#[test]") + sum(bool(line.strip()) for line in lines)


class CountList(pytest.File):
    """The list as a file of tests, one for each row, and one for the files that it lacks."""

    def collect(self) -> Iterator[pytest.Item]:
        yield RowItem.from_parent(self, name="each file is counted", line=1, check=self.unlisted)
        for line, (name, number) in enumerate(listed().items(), HEAD.count("\n") + 1):
            yield RowItem.from_parent(self, name=name, line=line, check=partial(self.difference, name, number))

    def found(self) -> dict[str, int]:
        return {**self.config.stash[COLLECTED], **in_crates()}

    def unlisted(self) -> str | None:
        new = sorted(self.found().keys() - listed().keys())
        return f"lacks {', '.join(new)}; tests/run --write-counts adds them" if new else None

    def difference(self, name: str, number: int) -> str | None:
        found = self.found().get(name, 0)
        # More random cases are more tests.
        if found == number or (found > number and self.config.getoption("--times") > 1):
            return None
        hint = "; tests/run --write-counts raises the list" if found > number else ""
        return f"{name} has {found} tests, and tests/counts.txt says {number}{hint}"
