"""Each program of examples/c/programs writes the rows that it writes natively, or is refused as expected. Levels other than -O2 are for releases."""

from collections.abc import Iterator
from functools import cache
from pathlib import Path
from typing import Any

import pytest
from c_programs import LEVELS, NAMES, Build, native_rows, try_build


def builds() -> Iterator[Any]:
    """Yields the builds of each program next to each other, in one process, as they share the native program."""
    for name in NAMES:
        group = pytest.mark.xdist_group(f"c_programs {name}")
        for compiler in ("clang", "bpf-gcc"):
            for level in LEVELS:
                marks = [group, pytest.mark.needs("cc", compiler), *([] if level == "-O2" else [pytest.mark.release])]
                yield pytest.param(Build(name, compiler, level), marks=marks, id=f"{name} {compiler} {level}")


@pytest.fixture(scope="module")
def folder(tmp_path_factory: pytest.TempPathFactory) -> Path:
    return tmp_path_factory.mktemp("programs")


natively = cache(native_rows)


@pytest.mark.usefixtures("extractd")
@pytest.mark.parametrize("build", builds())
def test_rows(build: Build, folder: Path) -> None:
    outcome = try_build(build, folder, natively(build.program, folder))
    assert outcome.failure is None, outcome.failure
