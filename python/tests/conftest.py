"""What the tests of the package share: signals as in a terminal, and a folder for temporary files."""

import contextlib
import shutil
import signal
from collections.abc import Callable, Iterator
from pathlib import Path
from typing import Any

import pytest

with contextlib.suppress(ImportError):
    import hypothesis
    from hypothesis import configuration

    # Git ignores its tables of characters here, but not at the top.
    set_home: Callable[[Path], None] = configuration.set_hypothesis_home_dir
    set_home(Path(__file__).parent / ".hypothesis")
    # Uses the same examples each time, so that a commit always has the same result.
    hypothesis.settings.register_profile("repeatable", derandomize=True, deadline=None, database=None)
    hypothesis.settings.load_profile("repeatable")


@pytest.fixture(scope="session")
def frames() -> None:
    """Skips a test if pandas and geopandas aren't installed."""
    for module in ("pandas", "geopandas"):
        pytest.importorskip(module, reason=f"no {module}")


@pytest.fixture(scope="session")
def gdal() -> None:
    """Skips a test if GDAL's tools aren't installed."""
    if not shutil.which("ogr2ogr"):
        pytest.skip("no ogr2ogr")


@pytest.fixture(autouse=True)
def signals() -> Iterator[None]:
    """Handles signals as in a terminal. A background run ignores Ctrl-C, and so would everything that it starts."""
    handlers: dict[signal.Signals, Any] = {
        signal.SIGINT: signal.default_int_handler,
        signal.SIGTERM: signal.SIG_DFL,
        signal.SIGHUP: signal.SIG_DFL,
    }
    previous = {number: signal.signal(number, handler) for number, handler in handlers.items()}
    yield
    for number, handler in previous.items():
        signal.signal(number, handler)


@pytest.fixture
def scratch(tmp_path: Path, monkeypatch: pytest.MonkeyPatch) -> Iterator[Path]:
    """Returns the folder for temporary files of the package and of all processes. At the end it must be empty."""
    folder = tmp_path / "scratch"
    folder.mkdir()
    monkeypatch.setenv("TMPDIR", str(folder))
    monkeypatch.setattr("tempfile.tempdir", str(folder))
    yield folder
    assert not list(folder.iterdir())
