"""Sixteen times as many words may take at most 20 times as long. It is measured, so it is for releases, on a machine that does little else.

`tests/run PROGRAM tests/test_long_programs.py --release -rP` shows the times. The programs without limits are hostile ones, in which many states wait at the
same time; they show the worst cases.
"""

from pathlib import Path

import pytest
from long_programs import COMMANDS, LONG, PROGRAMS, SHORT, START, Files, Times, least_times, made, peak

MOST_RATIO, MOST_PEAK = 20, 4 << 20
# How often runs are measured until a ratio holds. Other work on the machine lengthens some of them.
MEASUREMENTS = 20
PROMISED = ("straight", "jumps of 0", "all jumps to the end")

# One after the other, as they measure.
pytestmark = [pytest.mark.release, pytest.mark.xdist_group("long_programs")]


class Made:
    """The programs of two words, of 4,096 words and of 65,536."""

    def __init__(self, extractd: str, folder: Path) -> None:
        self.extractd, self.folder = extractd, folder
        self.two = made(extractd, folder, "two words", START)

    def files(self, name: str) -> tuple[Files, Files, Files]:
        short, long = (
            made(self.extractd, self.folder, f"{name} {words}", PROGRAMS[name](words)) for words in (SHORT, LONG)
        )
        return self.two, short, long


@pytest.fixture
def programs(extractd: str, here: Path) -> Made:
    return Made(extractd, here)


@pytest.mark.parametrize("command", COMMANDS)
@pytest.mark.parametrize("name", PROGRAMS)
def test_times(name: str, command: str, programs: Made) -> None:
    commands = [[programs.extractd, *files.arguments(command)] for files in programs.files(name)]
    times = Times(*least_times(commands))
    for _ in range(MEASUREMENTS if name in PROMISED else 0):
        if max(times.ratios()) <= MOST_RATIO:
            break
        times = Times(*(min(pair) for pair in zip(times, least_times(commands), strict=True)))
    print(f"{name}: {command}: {times}")
    assert name not in PROMISED or max(times.ratios()) <= MOST_RATIO, str(times)


@pytest.mark.parametrize("name", PROGRAMS)
def test_memory(name: str, programs: Made) -> None:
    """Straight-line code may take at most 4 MiB more than two words."""
    two, _, long = (peak([programs.extractd, *files.arguments("verify")]) for files in programs.files(name))
    assert peak(["true"]) < two, "sh is too large to measure memory by"
    print(f"{name}: verify: {(long - two) // 1024:,} KiB")
    if name == "straight":
        assert long - two <= MOST_PEAK
