"""Commands and modules that a test needs and that may be missing."""

import importlib.util
import shutil
from collections.abc import Iterable, Iterator
from functools import cache


def missing(names: Iterable[str]) -> Iterator[str]:
    """Yields those that aren't here. `python3-NAME` is a module of Python, another name a command."""
    return (name for name in names if not _is_here(name))


@cache
def _is_here(name: str) -> bool:
    if name.startswith("python3-"):
        return importlib.util.find_spec(name.removeprefix("python3-").replace("-", "_")) is not None
    return shutil.which(name) is not None
