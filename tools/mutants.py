#!/usr/bin/env python3
"""Tries every mutant, those in must-fail/ and those in mutants/: the prover has to refuse each.

    python3 tools/mutants.py                the mutants of all crates
    python3 tools/mutants.py NAME..         those of these crates
    python3 tools/mutants.py NAME/MUTANT..  single mutants, by the name of the file without `.edit`
    --jobs N                                how many run at once; 1 to 2 GB of memory each
    --applies                               tries none, and only reports those that can't be applied to the sources any more

The gate tries those in must-fail/, which are few. This script also tries the others, before a release or after a change of contracts.

A mutant is first tried by `rt check --only`, on the functions that it edits. If that doesn't settle it, `rt must-fail` decides, which checks the crate.
The crates have to be proved by `rt check`, which the script runs first.

Prints the mutants that weren't refused, and why. The last line is `N passed, N failed`. Exit status 0 means that all were refused.
"""
# Needs only Linux, Python 3.11 and `rt`.

import argparse
import os
import re
import shutil
import subprocess
import sys
import tempfile
from collections.abc import Iterator
from concurrent.futures import ThreadPoolExecutor
from pathlib import Path
from typing import NamedTuple

from crate_copy import MUTANTS, TOP, make_copy

# What a check says of an edit that it can't read, compile or apply: such an edit says nothing of a contract.
UNREADABLE = re.compile(
    r"error\[|is not in scope|has no field|is no name|operand is missing|expected the end|cannot continue|was not admitted"
)


class Replacement(NamedTuple):
    file: str
    old: str
    new: str


class Mutant(NamedTuple):
    crate: str
    path: Path

    @property
    def name(self) -> str:
        return f"{self.crate}/{self.path.stem}"

    def replacements(self) -> Iterator[Replacement]:
        file = old = ""
        for line in self.path.read_text(encoding="utf-8").splitlines():
            key, _, text = line.partition(":")
            if key == "file":
                file = text.strip()
            elif key == "old":
                old = text[1:]
            elif key == "new":
                yield Replacement(file, old, text[1:])


def mutants_of(crate: str) -> list[Mutant]:
    folders = [TOP / "crates" / crate / folder for folder in MUTANTS]
    return [Mutant(crate, path) for folder in folders for path in sorted(folder.glob("*.edit"))]


def chosen(names: list[str]) -> list[Mutant]:
    """Returns the mutants of these crates and those with these names, or all."""
    crates = sorted(path.name for path in (TOP / "crates").iterdir() if path.is_dir())
    every = [mutant for crate in crates for mutant in mutants_of(crate)]
    unknown = [name for name in names if not any(name in (mutant.crate, mutant.name) for mutant in every)]
    if unknown:
        sys.exit(f"{unknown[0]}: no such mutant, and no crate with mutants")
    return [mutant for mutant in every if not names or mutant.crate in names or mutant.name in names]


def function_at(text: str, place: int) -> str | None:
    """Returns the name of the function that this place in a source is in, as `rt check --only` takes it: with its type, if it is a method."""
    name = owner = None
    for line in text[:place].splitlines() + [text[place:].partition("\n")[0]]:
        found = re.match(r"(\s*)(?:pub(?:\([a-z]+\))? )?(?:const )?(?:unsafe )?fn (\w+)", line)
        if found:
            name = f"{owner}::{found[2]}" if found[1] and owner else found[2]
        block = re.match(r"impl\b(?:<.*?>)? (?:.* for )?&?(?:'\w+ )?(?:mut )?(\w+)", line)
        if block:
            owner = block[1]
        elif re.match(r"[})]", line):
            name = owner = None
    return name


def module_of(file: str) -> list[str]:
    """Returns the module of a source file."""
    words = list(Path(file).with_suffix("").parts[1:])
    return [] if words in (["lib"], ["main"]) else words


def edited(mutant: Mutant, folder: Path) -> list[str] | None:
    """Applies a mutant to a copy of its crate. Returns the functions that it edits, or nothing if it edits anything else."""
    functions = []
    for file, old, new in mutant.replacements():
        path = folder / file
        text = path.read_text(encoding="utf-8")
        if text.count(old) != 1 or not file.startswith("src/"):
            return None
        name = function_at(text, text.index(old))
        if name is None:
            return None
        functions.append("::".join([*module_of(file), name]))
        path.write_text(text.replace(old, new), encoding="utf-8")
    return functions


def run(words: list[str], folder: Path) -> tuple[int, str]:
    done = subprocess.run(
        words, cwd=folder, stdin=subprocess.DEVNULL, stdout=subprocess.PIPE, stderr=subprocess.STDOUT, errors="replace"
    )
    return done.returncode, done.stdout


def is_refused(mutant: Mutant) -> bool:
    """Returns whether a check of the edited functions alone refuses a mutant."""
    with tempfile.TemporaryDirectory(prefix="mutant-") as room:
        folder = make_copy(mutant.crate, Path(room), is_proved=True)
        functions = edited(mutant, folder)
        if not functions:
            return False
        status, said = run(["rt", "check", *(word for name in functions for word in ["--only", name])], folder)
    counts = re.search(r"^only=(\d+) proved=(\d+)$", said, re.MULTILINE)
    return status == 1 and counts is not None and int(counts[2]) < int(counts[1]) and not UNREADABLE.search(said)


def fault_of(mutant: Mutant) -> str | None:
    """Returns why a mutant isn't refused as it must be, if so."""
    if is_refused(mutant):
        return None
    with tempfile.TemporaryDirectory(prefix="mutant-") as room:
        folder = make_copy(mutant.crate, Path(room), is_proved=True)
        (folder / "must-fail").mkdir()
        shutil.copy2(mutant.path, folder / "must-fail")
        status, said = run(["rt", "must-fail", mutant.crate], Path(room))
    return None if status == 0 else said.strip()


def stale_texts(mutant: Mutant) -> list[str]:
    """Returns the texts that a mutant replaces and that aren't exactly once in their file."""
    folder = TOP / "crates" / mutant.crate
    return [
        f"{file}: {old}"
        for file, old, _ in mutant.replacements()
        if not (folder / file).is_file() or (folder / file).read_text(encoding="utf-8").count(old) != 1
    ]


def applies(mutant: Mutant) -> bool:
    """Returns whether a mutant replaces something, and each text that it replaces is once in its file."""
    return any(mutant.replacements()) and not stale_texts(mutant)


def report_stale(mutants: list[Mutant]) -> int:
    stale = [mutant.name for mutant in mutants if not applies(mutant)]
    for name in stale:
        print(f"FAILED: {name}: it can't be applied")
    print(f"{len(mutants) - len(stale)} passed, {len(stale)} failed")
    return 1 if stale or not mutants else 0


def report_unrefused(mutants: list[Mutant], jobs: int) -> int:
    """Tries mutants, and reports those that aren't refused. Their crates have to pass without them."""
    for crate in dict.fromkeys(mutant.crate for mutant in mutants):
        status, said = run(["rt", "check"], TOP / "crates" / crate)
        if status:
            print(said, end="")
            return 1
    failed = 0
    with ThreadPoolExecutor(jobs) as pool:
        for mutant, fault in zip(mutants, pool.map(fault_of, mutants)):
            if fault:
                failed += 1
                print(f"FAILED: {mutant.name}: {fault}", flush=True)
    print(f"{len(mutants) - failed} passed, {failed} failed")
    return 1 if failed else 0


def main() -> int:
    parser = argparse.ArgumentParser(description="Tries every mutant: the prover has to refuse each.")
    parser.add_argument("--jobs", type=int, default=os.cpu_count(), help="how many run at once")
    parser.add_argument("--applies", action="store_true", help="report only those that can't be applied")
    parser.add_argument("names", nargs="*", metavar="NAME", help="a crate, or CRATE/MUTANT; none: all")
    given = parser.parse_args()
    mutants = chosen(given.names)
    return report_stale(mutants) if given.applies else report_unrefused(mutants, given.jobs)


if __name__ == "__main__":
    sys.exit(main())
