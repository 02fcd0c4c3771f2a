"""Tables of tests as text files: each row is a test."""

from collections.abc import Callable, Iterator
from pathlib import Path

import pytest


class RowFailure(Exception):
    """What a row should be, and what it is."""


class RowItem(pytest.Item):
    """A row, which `check` looks at. It returns what is wrong, or nothing."""

    def __init__(self, *, line: int, check: Callable[[], str | None], **more: object) -> None:
        super().__init__(**more)  # type: ignore[arg-type]
        self.line = line
        self.check = check

    def runtest(self) -> None:
        wrong = self.check()
        if wrong:
            raise RowFailure(wrong)

    def repr_failure(self, excinfo: pytest.ExceptionInfo[BaseException], style: object = None) -> str:
        if isinstance(excinfo.value, RowFailure):
            return f"{self.path.name}, line {self.line}: {excinfo.value}"
        return str(super().repr_failure(excinfo))

    def reportinfo(self) -> tuple[Path, int, str]:
        return self.path, self.line - 1, self.name


def rows_of(path: Path) -> Iterator[tuple[int, str]]:
    """Yields the rows with their lines. `#` begins a comment, and a line that begins with two blanks continues the one above."""
    row, first = "", 0
    for number, line in enumerate(path.read_text(encoding="utf-8").splitlines(), 1):
        if line.startswith("  ") and row:
            row += " " + line.strip()
            continue
        if row:
            yield first, row
        row, first = ("" if line.startswith("#") else line), number
    if row:
        yield first, row
