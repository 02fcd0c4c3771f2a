"""Chooses the tests of one thing, for tests/quick. What takes minutes is left to tests/run."""

import os
import re
import shlex
import subprocess
import sys
from collections.abc import Iterator
from pathlib import Path
from typing import NamedTuple

TOP = Path(__file__).resolve().parent.parent.parent
PAGE = "docs/CHANGING.md"
HEADING = "## Where the tests of a crate are"
ROW = re.compile(r"^- (`.*?`): (.*)$", re.MULTILINE)
# Tests that take minutes and that no word selects.
LONG = ("tests/exhaustion", "tests/deploy", "tests/test_clients.py", "tests/test_costs.py", "tests/test_waits.py")
TEST_FILES = ("tests/**/test_*.py", "tests/**/test_*.sh", "python/tests/test_*.py")


class Step(NamedTuple):
    """A command, and the folder that it runs in, from the top."""

    words: list[str]
    folder: str = "."

    def __str__(self) -> str:
        command = shlex.join(self.words)
        return command if self.folder == "." else f"cd {self.folder} && {command}"

    def is_passed(self) -> bool:
        print(f"$ {self}", flush=True)
        return subprocess.run(self.words, cwd=TOP / self.folder, stdin=subprocess.DEVNULL).returncode == 0


class Tests(NamedTuple):
    """The tests of a crate: the crates that have some, and the files and folders below tests/."""

    crates: list[str]
    files: list[str]


def listed() -> list[tuple[str, str]]:
    """Returns the crates and the tests in each row of the page's list."""
    section = (TOP / PAGE).read_text(encoding="utf-8").partition(f"\n{HEADING}\n")[2].partition("\n## ")[0]
    return ROW.findall(section)


def tests_of_crates() -> dict[str, Tests]:
    """Returns the tests of each crate, as the page lists them."""
    found = {}
    for crates, tests in listed():
        named = re.findall("`([^`]+)`", tests)
        files = [str(path.relative_to(TOP)) for name in named for path in sorted((TOP / "tests").glob(name))]
        row = Tests([name for name in named if name.endswith("_tests")], files)
        found.update({crate: row for crate in re.findall("`([^`]+)`", crates)})
    return found


def run(program: str, *options: str) -> Step:
    return Step(["tests/run", program, *options])


def tool_named(name: str) -> str | None:
    """Returns a file of tools/ by its name, which may lack the folder and `.py`."""
    names = (f"{folder}{name}{suffix}" for folder in ("", "tools/", "tools/c/") for suffix in ("", ".py"))
    return next((it for it in names if it.startswith("tools/") and (TOP / it).is_file()), None)


def files_with(tool: str) -> list[str]:
    """Returns the files of tests that use a tool."""
    uses = re.compile(rf"\b(import|from) {Path(tool).stem}\b|\b{re.escape(Path(tool).name)}\b")
    paths = sorted(path for pattern in TEST_FILES for path in TOP.glob(pattern))
    return [str(path.relative_to(TOP)) for path in paths if uses.search(path.read_text(encoding="utf-8"))]


def steps_of_tool(tool: str, program: str) -> Iterator[Step]:
    if tool.endswith(".py"):
        yield Step([sys.executable, "-m", "mypy", "--cache-dir", "/dev/null", tool])
        yield Step([sys.executable, "-m", "black", "--config", "pyproject.toml", "--quiet", "--check", tool])
    elif tool.endswith(".sh"):
        yield Step(["shellcheck", "--external-sources", tool])
    used = files_with(tool)
    if used:
        yield run(program, *used)


def steps_of_crate(crate: str, program: str) -> Iterator[Step]:
    """Yields the proof and the tests of a crate. A row of a table is tested with a program that was built before."""
    yield Step(["rt", "check"], f"crates/{crate}")
    tests = tests_of_crates().get(crate, Tests([crate] if crate.endswith("_tests") else [], []))
    for name in tests.crates:
        yield Step(["rt", "try", "--test"], f"crates/{name}")
    if tests.files:
        yield run(program, *tests.files)


def steps(name: str, program: str) -> list[Step]:
    """Returns what tests the thing with this name."""
    path = name.rstrip("/")
    if path.endswith(".md") and (TOP / path).is_file():
        return [run(program, path, "tests/sources/test_links.py", "tests/sources/test_pages.py", "-k", path)]
    if tool := tool_named(path):
        return list(steps_of_tool(tool, program))
    if (TOP / "crates" / path).is_dir():
        return list(steps_of_crate(path, program))
    if path.startswith(("tests/", "python/tests/")) and (TOP / path).exists():
        return [run(program, path)]
    if not re.fullmatch(r"[\w.-]+", path):
        return []
    words = sorted({path, path.replace("-", "_")})
    return [run(program, "-k", " or ".join(words), *(f"--ignore={file}" for file in LONG))]


def main() -> int:
    is_shown, words = "--show" in sys.argv[1:], [word for word in sys.argv[1:] if word != "--show"]
    if not 1 <= len(words) <= 2 or words[0].startswith("-"):
        print("usage: tests/quick [--show] NAME [PROGRAM]", file=sys.stderr)
        return 2
    default = os.environ.get("EXTRACTD", "crates/extractd/out/extractd")
    found = steps(words[0], words[1] if len(words) > 1 else default)
    if not found:
        print(f"{words[0]}: no page, command, tool, crate or file of tests", file=sys.stderr)
        return 2
    if is_shown:
        print(*found, sep="\n")
        return 0
    return 0 if all([step.is_passed() for step in found]) else 1


if __name__ == "__main__":
    sys.exit(main())
