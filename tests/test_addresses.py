"""`geocode-batch` answers random addresses as a second reading of the same files does, byte for byte: along straight lines, and along shapes."""

import csv
import io
import subprocess
from pathlib import Path
from random import Random

import pytest
from addresses import CODES, Batch, draw_batch
from harness.batches import add_batches

BATCHES = 3
# Of a batch.
ADDRESSES = 200


def pytest_generate_tests(metafunc: pytest.Metafunc) -> None:
    add_batches(metafunc, BATCHES)


def difference(batch: Batch, output: str) -> str | None:
    """Returns the first address with other lines, or None."""
    if not output.startswith(batch.header):
        return f"the header is {output.partition(chr(10))[0]!r}"
    left = output.removeprefix(batch.header)
    for address, lines in zip(batch.addresses, batch.lines, strict=True):
        if not left.startswith(lines):
            return f"{address}\n  is to be {lines!r}\n  and is   {left[: len(lines)]!r}"
        left = left.removeprefix(lines)
    return f"too much: {left!r}" if left else None


@pytest.mark.usefixtures("extractd")
@pytest.mark.parametrize("geometry", ["line", "shape"])
def test_answers(batch: int, geometry: str, here: Path) -> None:
    drawn = draw_batch(Random(f"{geometry} {batch}"), here, ADDRESSES, geometry == "shape")
    options = ["--shape"] if geometry == "shape" else []
    command = ["extractd", "geocode-batch", "--addresses", "addresses.csv", "--data", ".", *options, *CODES]
    done = subprocess.run(command, stdin=subprocess.DEVNULL, capture_output=True)
    assert (done.returncode, done.stderr) == (0, b"")
    assert len(drawn.lines) == ADDRESSES and all(drawn.lines)
    wrong = difference(drawn, done.stdout.decode())
    assert wrong is None, wrong
    statuses = {row[1] for lines in drawn.lines for row in csv.reader(io.StringIO(lines))}
    assert statuses == {"match", "no_match", "tie"}
