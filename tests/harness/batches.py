"""Random cases in batches. A batch is a test, so batches run beside each other and are counted."""

import pytest


def add_batches(metafunc: pytest.Metafunc, batches: int) -> None:
    """Gives a test with the argument `batch` this many batches, `--times` as often. Their numbers, from 1, are their seeds."""
    if "batch" in metafunc.fixturenames:
        last = batches * int(metafunc.config.getoption("--times"))
        metafunc.parametrize("batch", range(1, last + 1), ids=lambda number: f"batch {number}")
