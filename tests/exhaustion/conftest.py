"""What the tests of exhausted resources share: the folder that they read."""

import tempfile
from collections.abc import Iterator
from pathlib import Path

import pytest
from exhaustion.inputs import make


@pytest.fixture(scope="session")
def inputs(extractd: str) -> Iterator[Path]:
    """Yields a folder of counties, programs and expected outputs. Nothing writes there."""
    if not Path("/dev/full").is_char_device():
        pytest.skip("no /dev/full")
    with tempfile.TemporaryDirectory(prefix="exhaustion.") as folder:
        make(Path(folder))
        yield Path(folder)


@pytest.fixture(autouse=True)
def among_inputs(inputs: Path, monkeypatch: pytest.MonkeyPatch) -> None:
    """Goes to the folder of inputs."""
    monkeypatch.chdir(inputs)
    monkeypatch.setenv("LC_ALL", "C")


@pytest.fixture
def folder() -> Iterator[Path]:
    """Yields a new folder, which is removed afterwards."""
    with tempfile.TemporaryDirectory() as name:
        yield Path(name)
