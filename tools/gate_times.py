#!/usr/bin/env python3
"""Measures what the gate costs, crate by crate, in seconds of processor time.

    python3 gate_times.py                       runs `rt ci` at the top of the clone, and then prints the table
    python3 gate_times.py NAME..                runs `rt ci NAME..`, for these crates and those below them
    python3 gate_times.py --table FILE NAME..   also keeps the table in FILE: rows that this run measured replace older ones

The columns are the proof of a crate, the proof of its tests, running its tests and its program, and its mutants. `rt` reuses what earlier runs
on the same machine passed, and what is reused isn't measured: it has no row, or an empty cell. So the table of the whole repository can be
put together from several runs with --table. --anew proves everything again.

The output of `rt` goes to standard error, and the exit status is its own.
"""
# Needs only Linux and Python 3.11. The processes that `rt` starts are sampled ten times a second, so the last tenth of a second of each is missed.

import argparse
import os
import subprocess
import sys
import time
from collections.abc import Iterator
from pathlib import Path
from typing import NamedTuple

TOP = Path(__file__).resolve().parent.parent
KINDS = ["proof", "tests", "runs", "mutants"]
HEADINGS = ["Crate", "Proof", "Proof of tests", "Runs", "Mutants", "Sum"]
PERIOD_SECONDS = 0.1
TICKS_PER_SECOND = os.sysconf("SC_CLK_TCK")

Table = dict[str, dict[str, float]]


class Process(NamedTuple):
    """A process that was seen: what tells it from a later one with the same number, and what it does."""

    number: int
    start: int
    seconds: float


def text_of(path: str) -> str:
    try:
        with open(path, encoding="utf-8", errors="replace") as file:
            return file.read()
    except OSError:
        return ""


def children(number: int) -> Iterator[int]:
    """Yields the processes that any thread of a process started."""
    try:
        threads = os.listdir(f"/proc/{number}/task")
    except OSError:
        return
    for thread in threads:
        yield from map(int, text_of(f"/proc/{number}/task/{thread}/children").split())


def look_at(number: int) -> Process | None:
    """Returns a process with the seconds that it has taken itself, without its children."""
    fields = text_of(f"/proc/{number}/stat").rpartition(")")[2].split()
    if not fields:
        return None
    ticks = int(fields[11]) + int(fields[12])
    return Process(number, int(fields[19]), ticks / TICKS_PER_SECOND)


def descendants(number: int) -> Iterator[Process]:
    left = [number]
    while left:
        for child in children(left.pop()):
            left.append(child)
            process = look_at(child)
            if process:
                yield process


def purpose_of(words: list[str], folder: str) -> tuple[str, str] | None:
    """Returns the crate that a process works for, and the column that it belongs in."""
    program = os.path.basename(words[0]) if words else ""
    if program == "rattle" and "--crate-name" in words:
        crate = words[words.index("--crate-name") + 1]
        # A mutant is tried on a copy of its crate.
        is_mutant = Path(folder).parent.name != "crates"
        return crate, "mutants" if is_mutant else "tests" if "--test" in words else "proof"
    if "/bin/" in (words[0] if words else "") and program.endswith("_tests_tests"):
        return program[: -len("_tests")], "runs"
    return None


class Meter:
    """Adds up what the processes below one take."""

    def __init__(self) -> None:
        self.purposes: dict[tuple[int, int], tuple[str, str] | None] = {}
        self.seconds: dict[tuple[int, int], float] = {}

    def look(self, number: int) -> None:
        for process in descendants(number):
            key = process.number, process.start
            if self.purposes.get(key) is None:
                self.purposes[key] = self.purpose(process.number)
            self.seconds[key] = process.seconds

    @staticmethod
    def purpose(number: int) -> tuple[str, str] | None:
        words = text_of(f"/proc/{number}/cmdline").split("\0")
        try:
            return purpose_of(words, os.readlink(f"/proc/{number}/cwd"))
        except OSError:
            return None

    def table(self) -> Table:
        table: Table = {}
        for key, purpose in self.purposes.items():
            if purpose:
                crate, kind = purpose
                row = table.setdefault(crate, {})
                row[kind] = row.get(kind, 0.0) + self.seconds[key]
        return table


def measure(command: list[str]) -> tuple[int, Table]:
    """Runs a command, and returns its exit status and what it took."""
    meter = Meter()
    with subprocess.Popen(command, cwd=TOP, stdin=subprocess.DEVNULL, stdout=sys.stderr) as running:
        while running.poll() is None:
            meter.look(running.pid)
            time.sleep(PERIOD_SECONDS)
    return running.returncode, meter.table()


def lines_of(table: Table) -> Iterator[str]:
    """Yields the table as Markdown, the dearest crate first."""
    yield "| " + " | ".join(HEADINGS) + " |"
    yield "|---|" + "--:|" * (len(HEADINGS) - 1)
    for crate in sorted(table, key=lambda name: -sum(table[name].values())):
        row = table[crate]
        cells = [f"{row[kind]:.0f}" if kind in row else "" for kind in KINDS]
        yield f"| {crate} | " + " | ".join([*cells, f"{sum(row.values()):.0f}"]) + " |"
    sums = [sum(row.get(kind, 0.0) for row in table.values()) for kind in KINDS]
    yield "| minutes in all | " + " | ".join(f"{sum / 60:.1f}" for sum in [*sums, sum(sums)]) + " |"


def read_table(path: Path) -> Table:
    """Reads a table that was kept, without the row of the sums."""
    table: Table = {}
    for line in path.read_text(encoding="utf-8").splitlines()[2:-1]:
        crate, *cells = (cell.strip() for cell in line.strip("|").split("|"))
        table[crate] = {kind: float(cell) for kind, cell in zip(KINDS, cells) if cell}
    return table


def main() -> int:
    parser = argparse.ArgumentParser(description="Measures what the gate costs, in seconds of processor time.")
    parser.add_argument("--table", type=Path, help="the file that keeps the table")
    parser.add_argument("--anew", action="store_true", help="prove everything again")
    parser.add_argument("names", nargs="*", metavar="NAME", help="a crate; none: the whole gate")
    given = parser.parse_args()
    status, measured = measure(["rt", "ci", *["--anew"] * given.anew, *given.names])
    table = read_table(given.table) if given.table and given.table.exists() else {}
    for crate, row in measured.items():
        table[crate] = {**table.get(crate, {}), **row}
    text = "\n".join(lines_of(table)) + "\n"
    if given.table:
        given.table.write_text(text, encoding="utf-8")
    print(text, end="")
    return status


if __name__ == "__main__":
    sys.exit(main())
