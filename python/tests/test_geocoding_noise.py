"""Addresses with noise over three made-up towns: what is right, and that nothing is in a wrong town.

`PYTHONPATH=. python3 tests/noise.py` measures the same over 20 towns.
"""

from collections import Counter
from pathlib import Path

import pytest
from noise import SHARES, Source, measure, measure_cut, noisy
from towns import SECOND_CITIES, write_county

pytestmark = pytest.mark.usefixtures("extractd", "scratch")

ADDRESSES = 60


@pytest.fixture(scope="module")
def source(tmp_path_factory: pytest.TempPathFactory) -> tuple[Source, Path]:
    folder = tmp_path_factory.mktemp("towns")
    towns = write_county(folder / "first", count=2)
    write_county(folder / "second", "01009", count=1, cities=SECOND_CITIES, first_zip=36100)
    return Source(folder / "first", "01007", towns, "few"), folder


def test_noise(source: tuple[Source, Path], tmp_path: Path) -> None:
    drawer, folder = source
    exact = [drawer.exact() for _ in range(ADDRESSES)]
    noise = [noisy(drawer, kind) for kind, count in SHARES.items() for _ in range(count // 10)]
    assert total(measure(exact, folder / "first")) == {"right": ADDRESSES}
    counts = total(measure(noise, folder / "first"))
    assert counts["right"] >= 0.84 * len(noise) and counts["wrong"] <= 1
    assert total(measure(exact + noise, folder / "second"))["wrong"] == 0
    assert total(measure(exact, folder / "first", state="GA")) == {"none": ADDRESSES}
    assert measure_cut(exact, folder / "first", "01007", tmp_path / "cut", parts=2)["wrong"] <= 1


def total(counts: dict[str, Counter[str]]) -> Counter[str]:
    return sum(counts.values(), Counter())
