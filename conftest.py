"""What all tests share that aren't Rattle's: the program, what may be missing, and the counts.

tests/run starts them. The last line is `N passed, N failed`, which .ci/run reads. With REQUIRE_ALL set, as in CI, a test that is left out has failed.
"""

import os
import tempfile
from collections import Counter
from collections.abc import Iterator
from pathlib import Path

import pytest
from harness import counts, program
from harness.collect import collector_of
from harness.needs import missing

TOP = Path(__file__).resolve().parent

_outcomes: Counter[str] = Counter()
_left_out: Counter[str] = Counter()


def pytest_addoption(parser: pytest.Parser) -> None:
    group = parser.getgroup("extractd")
    group.addoption("--program", metavar="FILE", help="the built program; else EXTRACTD names it")
    group.addoption("--times", type=int, default=1, metavar="N", help="N times as many random cases")
    group.addoption("--release", action="store_true", help="also what takes minutes")
    group.addoption("--write-counts", action="store_true", help="write tests/counts.txt anew, and run nothing")
    group.addoption("--pages", metavar="DIR", help="test the pages in this folder of installed documents")


def pytest_configure(config: pytest.Config) -> None:
    """Makes the program a command. The processes that run tests side by side inherit it."""
    if "PYTEST_XDIST_WORKER" not in os.environ:
        program.install(
            config.getoption("--program") or os.environ.get("EXTRACTD") or None, bool(config.getoption("--pages"))
        )


def pytest_unconfigure(config: pytest.Config) -> None:
    if "PYTEST_XDIST_WORKER" in os.environ:
        return
    program.remove()
    for reason, count in sorted(_left_out.items()):
        print(f"{'FAILED: left out' if is_all_required() else 'left out'}: {count} of the tests ({reason})")
    failed = _outcomes["failed"] + (_left_out.total() if is_all_required() else 0)
    print(f"{_outcomes['passed']} passed, {failed} failed")


def pytest_collect_file(file_path: Path, parent: pytest.Collector) -> pytest.Collector | None:
    return collector_of(file_path, parent)


def is_all_required() -> bool:
    """Returns whether everything must be installed, as in CI. Then a test that is left out is a failure."""
    return bool(os.environ.get("REQUIRE_ALL"))


@pytest.hookimpl(tryfirst=True)
def pytest_collection_modifyitems(config: pytest.Config, items: list[pytest.Item]) -> None:
    """Counts the tests of each file before any is deselected. Those of a file of the package run in one process, as they share counties and services."""
    counts.count(config, items)
    if not config.getoption("--release"):
        config.hook.pytest_deselected(items=[item for item in items if item.get_closest_marker("release")])
        items[:] = [item for item in items if not item.get_closest_marker("release")]
    for item in items:
        if not item.get_closest_marker("xdist_group") and item.path.is_relative_to(TOP / "python"):
            item.add_marker(pytest.mark.xdist_group(str(item.path.relative_to(TOP))))
    items.sort(key=counts.order_of)


def pytest_runtest_setup(item: pytest.Item) -> None:
    for mark in item.iter_markers("needs"):
        for command in missing(mark.args):
            pytest.skip(f"no {command}")


def pytest_runtest_logreport(report: pytest.TestReport) -> None:
    if report.when == "call" or report.failed:
        _outcomes[report.outcome] += 1
    _note_left_out(report)


def pytest_collectreport(report: pytest.CollectReport) -> None:
    if report.failed:
        _outcomes["failed"] += 1
    _note_left_out(report)


def _note_left_out(report: pytest.TestReport | pytest.CollectReport) -> None:
    if report.skipped and isinstance(report.longrepr, tuple):
        _left_out[report.longrepr[2].removeprefix("Skipped: ")] += 1


@pytest.hookimpl(trylast=True)
def pytest_sessionfinish(session: pytest.Session) -> None:
    if _left_out and is_all_required():
        session.exitstatus = pytest.ExitCode.TESTS_FAILED


@pytest.fixture(scope="session")
def extractd() -> str:
    """Returns the path of the built program."""
    path = program.path()
    if path is None:
        pytest.skip("no program: tests/run names it")
    return path


@pytest.fixture
def here(monkeypatch: pytest.MonkeyPatch) -> Iterator[Path]:
    """Goes to a new folder, which is removed at the end."""
    with tempfile.TemporaryDirectory(prefix="here.") as folder, monkeypatch.context() as patch:
        patch.chdir(folder)
        yield Path(folder)
