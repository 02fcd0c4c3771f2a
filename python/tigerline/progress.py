"""Shows the progress of a long selection on standard error."""

import sys
from collections.abc import Iterable
from typing import TypeVar

from .optional import present

Item = TypeVar("Item")

PLURALS = {"county": "counties", "address": "addresses"}
STEPS = 100  # as often a count is shown without tqdm


def with_progress(items: Iterable[Item], total: int, unit: str, progress: bool) -> Iterable[Item]:
    """Returns so many items, and shows progress as they are consumed: a bar of tqdm, or a count without tqdm."""
    if not progress:
        return items
    tqdm = present("tqdm")
    if tqdm is None:
        return _plain(items, total, PLURALS[unit])
    bar: Iterable[Item] = tqdm.tqdm(items, total=total, unit=unit, file=sys.stderr)
    return bar


def _plain(items: Iterable[Item], total: int, units: str) -> Iterable[Item]:
    step = max(total // STEPS, 1)
    for done, item in enumerate(items):
        if done % step == 0:
            print(f"\r{done} of {total} {units}", end="", file=sys.stderr, flush=True)
        yield item
    print(f"\r{total} of {total} {units}", file=sys.stderr, flush=True)
