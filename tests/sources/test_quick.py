"""tests/quick finds the tests of a thing, and docs/CHANGING.md lists those of each crate."""

import re
import subprocess

import pytest
from harness import quick
from harness.program import TOP

FOUND = quick.tests_of_crates()
CRATES = sorted(path.name for path in (TOP / "crates").iterdir() if path.is_dir())
# Crates whose tests are their own.
OTHERS = [name for name in CRATES if name.endswith("_tests") or name == "fixtures"]
NAMED = sorted(
    {
        name
        for _, tests in quick.listed()
        for name in re.findall(r"`((?:rows|verdicts|test_|[a-z]+_tests)[^`]*)`", tests)
    }
)
# Names, and the commands that test them with the program P.
STEPS = [
    ("README.md", "tests/run P README.md tests/sources/test_links.py tests/sources/test_pages.py -k README.md"),
    ("tools/kit.sh", "shellcheck --external-sources tools/kit.sh; tests/run P tests/sources/test_quick.py"),
    ("crate_copy.py", "mypy; black; tests/run P tests/sources/test_quick.py"),
    ("edges", "mypy; black; tests/run P tests/sources/test_edges.py"),
    ("fixtures", "cd crates/fixtures && rt check"),
    ("tl_tests", "cd crates/tl_tests && rt check; cd crates/tl_tests && rt try --test"),
    ("tests/rows/extracts.txt", "tests/run P tests/rows/extracts.txt"),
    ("python/tests/test_select.py", "tests/run P python/tests/test_select.py"),
    ("no such thing", ""),
    ("docs/none.md", ""),
]


@pytest.mark.parametrize("crate", [name for name in CRATES if name not in OTHERS])
def test_crate(crate: str) -> None:
    assert FOUND[crate].crates or FOUND[crate].files
    assert {*FOUND[crate].crates} <= {*CRATES}
    steps = quick.steps(crate, "P")
    assert str(steps[0]) == f"cd crates/{crate} && rt check" and len(steps) > 1


def test_no_other_crate() -> None:
    assert not FOUND.keys() - {*CRATES}


@pytest.mark.parametrize("name", NAMED)
def test_named_file(name: str) -> None:
    assert (TOP / "crates" / name).is_dir() or list((TOP / "tests").glob(name))


@pytest.mark.parametrize(("name", "commands"), STEPS)
def test_steps(name: str, commands: str) -> None:
    shown = (re.sub(r".* -m (mypy|black) .*", r"\1", str(step)) for step in quick.steps(name, "P"))
    assert "; ".join(shown) == commands


def test_word() -> None:
    (step,) = quick.steps("geocode-batch", "P")
    assert step.words[:4] == ["tests/run", "P", "-k", "geocode-batch or geocode_batch"]


@pytest.mark.parametrize(
    ("words", "status"), [(["--show", "links"], 0), ([], 2), (["no such thing"], 2), (["a", "b", "c"], 2)]
)
def test_command(words: list[str], status: int) -> None:
    done = subprocess.run([TOP / "tests/quick", *words], capture_output=True, text=True)
    assert done.returncode == status
    assert (done.stdout == "") == (status != 0) != (done.stderr == "")
