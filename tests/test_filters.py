"""Filters mean what they mean to SQLite and shapely: random ones of all kinds, and some that are only about shapes near the segments.

A segment's geometry is the straight line from its start to its end, in whole millionths of a degree. shapely must say the same of every valid shape. Where
it doesn't, and on a few other lines, fractions decide. Polygons that cross themselves follow the even-odd rule, of which shapely says nothing.
"""

from pathlib import Path
from random import Random

import pytest
from filter_counties import County
from filter_dice import FilterDice
from filter_geometry import GRID, Edge, Shape, draw_shape, opinions
from filter_outlines import mistakes, slips
from filters import Makers, Trial, draw_trials
from harness.batches import add_batches

BATCHES = 6
# Of a batch.
FILTERS, SHAPES = 50, 50
# Filters that select segments, and shapes that shapely knows: most do.
LEAST_WITH_ROWS, LEAST_KNOWN = 10, 10
# How many failures are shown.
SHOWN = 5

pytestmark = pytest.mark.needs("python3-shapely")


def pytest_generate_tests(metafunc: pytest.Metafunc) -> None:
    add_batches(metafunc, BATCHES)


class SpatialDice(FilterDice):
    """Draws filters about geometries."""

    def __init__(self, dice: Random, county: County) -> None:
        super().__init__(dice, county)
        self.predicates = [*self.spatial_predicates, self.is_null, self.constant]


def check_all(trials: list[Trial], folder: Path) -> None:
    """Compares the rows of each filter, and the opinions of whole numbers, fractions and shapely meanwhile."""
    differences = [trial.difference(folder) for trial in trials]
    print(f"shapely erred {len(slips)} times")
    assert len(differences) == FILTERS
    wrong = list(filter(None, differences))
    assert not wrong, "\n".join([f"{len(wrong)} filters differ", *wrong[:SHOWN]])
    assert sum(bool(trial.rows) for trial in trials) >= LEAST_WITH_ROWS
    wrong = [f"whole numbers and fractions differ on {line} and {it.polygons or it.path}" for it, line in mistakes]
    assert not wrong, "\n".join(wrong)


@pytest.fixture(autouse=True)
def forget() -> None:
    slips.clear()
    mistakes.clear()


@pytest.mark.usefixtures("extractd")
def test_filters(batch: int, here: Path) -> None:
    check_all(draw_trials(Random(batch), Makers(), FILTERS, here), here)


@pytest.mark.usefixtures("extractd")
def test_filters_about_shapes(batch: int, here: Path) -> None:
    check_all(draw_trials(Random(batch), Makers(dice=SpatialDice), FILTERS, here), here)


def test_shapes(batch: int) -> None:
    """Whole numbers, fractions and shapely must say the same of each line of the grid, and of its points."""
    dice = Random(batch)
    pairs: list[tuple[Shape, Edge]] = []
    for _ in range(SHAPES):
        shape = draw_shape(dice)
        pairs += [(shape, (start, end)) for start in GRID for end in GRID]
    said = [opinions(*pair) for pair in pairs]
    assert len(said) == SHAPES * 256
    assert sum(shapely is not None for _, _, shapely in said) >= LEAST_KNOWN * 256
    differing = [(*pair, heard) for pair, heard in zip(pairs, said, strict=True) if {True, False} <= set(heard)]
    wrong = [
        f"{it.polygons or it.path} and {line}: whole numbers, fractions and shapely say {heard}"
        for it, line, heard in differing
    ]
    assert not wrong, "\n".join(wrong)
