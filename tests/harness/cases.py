"""Command lines of a shell as tests: their exit status, the size of what they write, and their text on standard error.

A row of a table is a case: `command|status|size|text`. The size is a number of bytes, as a sum of products such as `25 + 2 * 10`, or `*` for any. In the text
`*` stands for any characters and `?` for one, and the final line feed is left out. A command and a text may name the paths in PATHS, such as `$county`.
"""

import math
import os
import re
import subprocess
from typing import NamedTuple

import pytest

from harness.processes import output_of
from harness.program import TOP

SECONDS = 300
# The program without root's right to read every file.
UNPRIVILEGED = "extractd" if os.getuid() else "setpriv --bounding-set=-dac_override,-dac_read_search -- extractd"
PATHS = {
    "top": str(TOP),
    # A county, and a program that selects all of its 400 segments. Each is a row of 231 bytes.
    "county": str(TOP / "examples"),
    "all": str(TOP / "examples/programs/all.bpf"),
}


class Case(NamedTuple):
    """A command line, and what it should result in."""

    command: str
    status: int
    size: str
    text: str


class Ran(NamedTuple):
    """How a command line ended, and what it wrote."""

    status: int
    output: bytes
    errors: str


def rows(table: str, front: str = "") -> pytest.MarkDecorator:
    """Returns a mark that makes a test of each row of a table: the argument `case`. What the commands have in common is in front of them."""
    lines = table.strip().splitlines()
    return pytest.mark.parametrize("case", [case_of(front + line) for line in lines], ids=names_of(lines))


def names_of(lines: list[str]) -> list[str]:
    """Returns the commands of rows, which name their tests."""
    return [line.rsplit("|", 3)[0] or "no arguments" for line in lines]


def case_of(row: str) -> Case:
    """Returns the case in a row. A command may have a `|`."""
    command, status, size, text = row.rsplit("|", 3)
    return Case(command, int(status), size, text)


def check(case: Case) -> bytes:
    """Runs a command line in the current folder, and returns what it writes to standard output. The test fails if it isn't as the case says."""
    ran = run(case.command)
    if ran.status != case.status or not (has_size(case.size, len(ran.output)) and has_text(case.text, ran.errors)):
        wanted = f"should give status {case.status}, {case.size} bytes and: {expanded(case.text)}"
        found = f"gives status {ran.status}, {len(ran.output)} bytes and: {ran.errors}"
        pytest.fail(f"{case.command}\n{wanted}\nand {found}", pytrace=False)
    return ran.output


def run(command: str) -> Ran:
    """Runs a command line, with an empty standard input. Its processes have ended afterwards."""
    process = subprocess.Popen(
        ["bash", "-c", command.encode()],
        env={**os.environ, **PATHS, "LC_ALL": "C"},
        stdin=subprocess.DEVNULL,
        stdout=subprocess.PIPE,
        stderr=subprocess.PIPE,
        start_new_session=True,
    )
    try:
        output, errors = output_of(process, SECONDS)
    except subprocess.TimeoutExpired:
        pytest.fail(f"{command}\ngoes on after {SECONDS} seconds", pytrace=False)
    return Ran(process.returncode, output, errors.decode(errors="replace"))


def has_size(wanted: str, size: int) -> bool:
    if wanted == "*":
        return True
    return size == sum(math.prod(int(factor) for factor in term.split("*")) for term in wanted.split("+"))


def has_text(pattern: str, text: str) -> bool:
    """Returns whether a pattern matches all lines of a text. Without a pattern there are none."""
    wanted = re.escape(expanded(pattern)).replace(r"\*", ".*").replace(r"\?", ".")
    return re.fullmatch(f"{wanted}\n" if pattern else "", text, re.DOTALL) is not None


def expanded(text: str) -> str:
    """Returns a text with the paths that it names."""
    return re.sub(rf"\$({'|'.join(PATHS)})\b", lambda name: PATHS[name[1]], text)


def check_shown(text: str) -> None:
    """Fails unless docs/refusals.md shows a text, with FILE for a file's name. It has every text of status 3 and of a wrong argument."""
    if f"`{text}`" not in (TOP / "docs/refusals.md").read_text():
        pytest.fail(f"docs/refusals.md doesn't show: {text}", pytrace=False)
