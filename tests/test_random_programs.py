"""Random programs in C do what they do natively. Instruction sets other than the usual one are for releases."""

from pathlib import Path

import pytest
from harness.batches import add_batches
from random_programs import LEVELS, Build, draw_program, made_harness, try_program

BATCHES = 10
# Of a batch.
PROGRAMS = 4


def pytest_generate_tests(metafunc: pytest.Metafunc) -> None:
    add_batches(metafunc, BATCHES)


def check_batch(batch: int, cpu: str, scratch: Path) -> None:
    """Compares each program's builds at all levels. Few programs are too long."""
    builds = [Build(level, cpu) for level in LEVELS]
    harness = made_harness(scratch)
    agree = too_long = 0
    for number in range(PROGRAMS):
        source = draw_program(batch, number)
        outcome = try_program(source, builds, harness, scratch)
        assert not outcome.differences, "\n".join([*outcome.differences, source])
        agree, too_long = agree + outcome.agree, too_long + outcome.too_long
    assert agree + too_long == PROGRAMS * len(LEVELS)
    assert agree > too_long


@pytest.mark.needs("cc", "clang")
@pytest.mark.usefixtures("extractd")
def test_rows(batch: int, here: Path) -> None:
    check_batch(batch, "v2", here)


@pytest.mark.release
@pytest.mark.needs("cc", "clang")
@pytest.mark.usefixtures("extractd")
@pytest.mark.parametrize("cpu", ["v1", "v3"])
def test_rows_of_other_instruction_sets(batch: int, cpu: str, here: Path) -> None:
    check_batch(batch, cpu, here)
