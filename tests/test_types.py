"""Every file in Python is typed, as mypy --strict sees it, and laid out by black. shellcheck finds nothing in any file of the shell. None is empty."""

import re
import subprocess
import sys
from collections import defaultdict
from functools import cache
from pathlib import Path
from typing import NamedTuple

import pytest
from harness.program import TOP

# The two have modules of the same name, such as conftest, so they are checked apart.
FOLDERS = {"tests": ("conftest.py", "tests", "tools"), "python": ("python/tigerline", "python/tests", "deploy")}
IS_PYTHON = re.compile(rb"#!.*\bpython3?\n")
IS_SHELL = re.compile(rb"#!.*\b(ba|da)?sh\n|# shellcheck shell=")


def name_of(path: Path) -> str:
    return str(path.relative_to(TOP))


def files_in(folders: tuple[str, ...], suffixes: tuple[str, ...], beginning: re.Pattern[bytes]) -> list[str]:
    """Returns the files with one of the suffixes, and those without one that begin as such a file does."""
    found = []
    for path in (path for folder in folders for path in [TOP / folder, *(TOP / folder).rglob("*")] if path.is_file()):
        if path.suffix in suffixes or (not path.suffix and beginning.match(path.read_bytes())):
            found.append(name_of(path))
    return sorted(found)


PYTHON = {part: files_in(folders, (".py",), IS_PYTHON) for part, folders in FOLDERS.items()}
SHELL_FOLDERS = (".ci", "deploy", "examples", "install.sh", "python", "quickstart.sh", "tests", "tools")
SHELL = files_in(SHELL_FOLDERS, (".sh", ".bash"), IS_SHELL)
EACH = [
    pytest.param(part, file, id=file, marks=pytest.mark.xdist_group(f"types of {part}"))
    for part, files in PYTHON.items()
    for file in files
]


class Report(NamedTuple):
    """What a tool finds in each file, the number of files that it looked at, and its output."""

    found: dict[str, list[str]]
    looked_at: int
    output: str


@cache
def types_of(part: str) -> Report:
    command = [sys.executable, "-m", "mypy", "--config-file", "pyproject.toml", "--cache-dir", "/dev/null"]
    done = subprocess.run([*command, *PYTHON[part]], cwd=TOP, capture_output=True, text=True)
    found: dict[str, list[str]] = defaultdict(list)
    for line in done.stdout.splitlines():
        if ": error: " in line:
            found[line.partition(":")[0]].append(line)
    counts = re.findall(r"(?:\(checked| in) ([0-9]+) source files?\b", done.stdout)
    return Report(found, sum(map(int, counts)), done.stdout + done.stderr)


@cache
def layout_of(part: str) -> Report:
    command = [sys.executable, "-m", "black", "--config", "pyproject.toml", "--check"]
    done = subprocess.run([*command, *PYTHON[part]], cwd=TOP, capture_output=True, text=True)
    counts = re.findall(r"([0-9]+) files? would be", done.stderr)
    lines = re.finditer(r"^would reformat (.*)$", done.stderr, re.MULTILINE)
    return Report({name_of(TOP / line[1]): [line[0]] for line in lines}, sum(map(int, counts)), done.stderr)


def check(report: Report, part: str, file: str) -> None:
    assert report.looked_at == len(PYTHON[part]), report.output
    assert report.found.keys() <= {*PYTHON[part]}
    assert report.found.get(file, []) == []


@pytest.mark.needs("python3-mypy")
@pytest.mark.parametrize(("part", "file"), EACH)
def test_types(part: str, file: str) -> None:
    check(types_of(part), part, file)


@pytest.mark.needs("python3-black")
@pytest.mark.parametrize(("part", "file"), EACH)
def test_layout(part: str, file: str) -> None:
    """`black --config pyproject.toml FILE` lays out a file."""
    check(layout_of(part), part, file)


@pytest.mark.parametrize("file", sorted({*PYTHON["tests"], *PYTHON["python"], *SHELL}))
def test_content(file: str) -> None:
    """A file that lost its text would still be well typed and laid out."""
    lines = (TOP / file).read_text(encoding="utf-8").splitlines()
    assert [line for line in lines if line.strip() and not line.startswith("#")]


@pytest.mark.needs("shellcheck")
@pytest.mark.parametrize("file", SHELL)
def test_shell(file: str) -> None:
    done = subprocess.run(["shellcheck", "--external-sources", file], cwd=TOP, capture_output=True, text=True)
    assert (done.returncode, done.stdout, done.stderr) == (0, "", "")


def test_strictness() -> None:
    """A configuration that no longer finds an error would let everything pass."""
    for code, error in {
        "def untyped(x):\n    return x\n": "Function is missing a type annotation",
        "def wrong() -> int:\n    return 'text'\n": "Incompatible return value type",
        "names: list = []\n": "Missing type parameters",
    }.items():
        command = [
            sys.executable,
            "-m",
            "mypy",
            "--config-file",
            "pyproject.toml",
            "--cache-dir",
            "/dev/null",
            "-c",
            code,
        ]
        assert error in subprocess.run(command, cwd=TOP, capture_output=True, text=True).stdout
