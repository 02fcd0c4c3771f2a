"""Address spaces, in KiB: the smallest one that a program needs to reach its `main`, and that which a command needs."""

from collections.abc import Callable
from functools import cache

from exhaustion.observed import observe

# How much larger than the start the spaces are in which a command is tried.
EXTRAS = tuple(8 << step for step in range(15))


@cache
def start() -> int:
    """Returns the smallest space, in pages of 4 KiB, in which the program reaches its `main`.

    There `--version` exits with a status of its own, and with a little less the loader gives up. So in a larger space, an end by a signal or by the loader
    is the program's fault.
    """
    low, high = 64, 65536
    while high - low > 4:
        middle = (low + high) // 8 * 4
        if observe(f"limited v {middle} extractd --version").status in (2, 4):
            high = middle
        else:
            low = middle
    assert high < 65536, "extractd --version isn't started in 64 MiB"
    return high


def limits() -> list[int]:
    return [start() + extra for extra in EXTRAS]


def narrowed(suffices: Callable[[int], bool], step: int) -> int:
    """Returns the smallest space that suffices, to within a step. Spaces double until one does, and at least one before must not."""
    tried = limits()
    least = next((limit for limit in tried if suffices(limit)), 0)
    assert least > tried[0], f"should be refused in {tried[0]} KiB and succeed in some space up to {tried[-1]} KiB"
    refused = tried[tried.index(least) - 1]
    while least - refused > step:
        middle = refused + (least - refused) // 8 * 4
        if suffices(middle):
            least = middle
        else:
            refused = middle
    return least
