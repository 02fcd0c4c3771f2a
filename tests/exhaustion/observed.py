"""What is observed of a command: its exit status, all of its standard error and all of its standard output.

The output is complete only with status 0. Otherwise it is empty or, of `run`, the first rows.
"""

import subprocess
import tempfile
from functools import cache
from pathlib import Path
from typing import NamedTuple

import pytest
from harness.processes import output_of

SECONDS = 300
ROW = 231


class Ended(NamedTuple):
    """How a command ended."""

    status: int
    text: str
    output: bytes

    def check(self, status: int, text: str, output: bytes, what: str) -> None:
        """Fails unless it ended so. The text is without its last newline."""
        if self != (status, f"{text}\n" if text else "", output):
            pytest.fail(f"{what}\nshould give status {status}, {len(output)} bytes and: {text}\nand gives {self}")

    def __str__(self) -> str:
        return f"status {self.status}, {len(self.output)} bytes and: {self.text}"


def observe(command: str) -> Ended:
    """Returns how a command of bash ended. One that a signal has ended has the status that bash gives it."""
    with tempfile.TemporaryFile() as written:
        process = subprocess.Popen(
            ["bash", "-c", command],
            stdin=subprocess.DEVNULL,
            stdout=written,
            stderr=subprocess.PIPE,
            start_new_session=True,
        )
        _, said = output_of(process, SECONDS)
        written.seek(0)
        status = process.returncode if process.returncode >= 0 else 128 - process.returncode
        return Ended(status, said.decode(), written.read())


@cache
def content(name: str) -> bytes:
    """Returns the bytes of an input."""
    return Path(name).read_bytes()


class Case(NamedTuple):
    """A command and how it has to end. Its output is `FILE`, the first bytes of one as `FILE SIZE`, or empty."""

    status: int
    text: str
    output: str
    command: str

    def __str__(self) -> str:
        return self.command

    def check(self) -> None:
        name, _, size = self.output.partition(" ")
        output = content(name)[: int(size) if size else None] if name else b""
        observe(self.command).check(self.status, self.text, output, self.command)


def table(text: str, columns: int) -> list[list[str]]:
    """Returns the cells of each row of a table. `|` is between them, and the last one may have some. `#` begins a comment."""
    rows = (line for line in text.strip().splitlines() if not line.startswith("#"))
    return [[cell.strip() for cell in row.split("|", columns - 1)] for row in rows]


def cases(text: str) -> list[Case]:
    """Returns the rows of a table, `STATUS | TEXT | OUTPUT | COMMAND`. `\\n` is between the lines of a text."""
    rows = table(text, 4)
    return [Case(int(status), said.replace(r"\n", "\n"), output, command) for status, said, output, command in rows]
