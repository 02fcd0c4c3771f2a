"""Which files besides test_*.py have tests, and what reads them."""

from pathlib import Path

import pytest

from harness import counts
from harness.counts import CountList
from harness.pages import PageFile
from harness.program import TOP
from harness.rows import RowTable
from harness.shell import ShellFile
from harness.verdicts import VerdictTable

PAGES = (TOP / "README.md", TOP / "examples/README.md", *sorted((TOP / "docs").glob("*.md")))
FOLDERS: dict[Path, type[pytest.File]] = {TOP / "tests/rows": RowTable, TOP / "tests/verdicts": VerdictTable}


def collector_of(path: Path, parent: pytest.Collector) -> pytest.Collector | None:
    """Returns what collects the tests of a file, if it has some."""
    installed: str | None = parent.config.getoption("--pages")
    if installed is not None and path.suffix == ".md":
        page = PageFile.from_parent(parent, path=path)
        page.installed = Path(installed).resolve()
        return page
    if path in PAGES:
        return PageFile.from_parent(parent, path=path)
    if path.suffix == ".txt" and path.parent in FOLDERS:
        return FOLDERS[path.parent].from_parent(parent, path=path)
    if path == counts.LIST:
        return CountList.from_parent(parent, path=path)
    if path.suffix == ".sh" and path.name.startswith("test_"):
        return ShellFile.from_parent(parent, path=path)
    return None
