#!/usr/bin/env python3
"""Puts a malformed row into each table of tests, one at a time: the tests of its crate have to fail.

    python3 tools/bad_rows.py                  all tables, each with a bad row of one kind
    python3 tools/bad_rows.py NAME..           those of these crates, or single ones, as in tl_tests/fields.rt/SIDES
    --every-kind                               each with a bad row of every kind in turn
    --jobs N                                   how many run at once; 1 to 2 GB of memory each

A table is a constant of the type `Table`. Its last row is put in once more, without its last cell, with a further cell, or with a misspelt word or
number. `rt try --test` compiles and runs the table's tests, without a proof. Tables that have no test in common are tried at once.

Prints the tables that pass with such a row. The last line is `N passed, N failed`, where a table has passed if each bad row made the tests fail.
"""
# Needs only Linux, Python 3.11 and `rt`.

import argparse
import os
import re
import subprocess
import sys
import tempfile
from collections.abc import Iterator
from concurrent.futures import ThreadPoolExecutor
from pathlib import Path
from typing import NamedTuple

from crate_copy import TOP, make_copy

TABLE = re.compile(r"""const (?P<name>\w+): (?:fixtures::)?Table = Table\((?P<text>.*?"#*)(?=,?\s*\)+;\n)""", re.DOTALL)
# The end of a table's text: of `r##"..."##`, `r"..."` or `"..."`, which another literal of a concat! may precede.
CLOSING = re.compile(r'\n?"#*$')
SECONDS = "900"  # that a test has, also on a busy machine
# A test that failed, by its module and name. One that ran out of time hasn't refused a row.
FAILED_TEST = re.compile(r"^test (\S+) \.\.\. (?!ok\b)(?!.*no-answer)", re.MULTILINE)
KINDS = ["missing cell", "further cell", "misspelt cell"]
SEPARATORS = [" => ", " ;; ", "|", ";"]


class Table(NamedTuple):
    crate: str
    path: Path
    name: str

    @property
    def label(self) -> str:
        return f"{self.crate}/{self.path.name}/{self.name}"

    @property
    def module(self) -> str:
        return module_of(self.path, TOP / "crates" / self.crate / "src")


def module_of(path: Path, folder: Path) -> str:
    """Returns the module of a source below the folder of a crate's sources."""
    return "::".join(path.relative_to(folder).with_suffix("").parts)


def tables() -> Iterator[Table]:
    for path in sorted(TOP.glob("crates/*/src/**/*.rt")):
        for found in TABLE.finditer(path.read_text(encoding="utf-8")):
            yield Table(path.relative_to(TOP).parts[1], path, found["name"])


def last_row(text: str) -> str:
    """Returns the last row of a text, with the lines that continue it."""
    lines = text.split("\n")
    first = len(lines) - 1
    while first > 0 and (lines[first].startswith("  ") or lines[first - 1].endswith("\\")):
        first -= 1
    row = "\n".join(lines[first:])
    return re.sub(r'^.*"\\?\n?', "", row, flags=re.DOTALL) if '"' in row and first == 0 else row


def bad_rows(row: str) -> dict[str, str]:
    """Returns the row in bad forms: the text that it's malformed by, and the row."""
    separator = next((it for it in SEPARATORS if it in row), "")
    if not separator:
        return {"misspelt": row + "x"}
    head, _, last = row.rpartition(separator)
    return {"missing cell": head, "further cell": f"{row}{separator}1", "misspelt cell": f"{head}{separator}{last}x"}


def with_row(source: str, name: str, kind: str) -> str | None:
    """Returns the source with a bad row of one kind in a table, if the table's last row can be malformed this way."""
    found = next(it for it in TABLE.finditer(source) if it["name"] == name)
    closing = CLOSING.search(found["text"])
    if closing is None:
        return None
    body = found["text"][: closing.start()]
    bad = bad_rows(last_row(body)).get(kind)
    if bad is None:
        return None
    text = f"{body}\n{bad}{found['text'][closing.start():]}"
    return source[: found.start("text")] + text + source[found.end("text") :]


def functions_of(source: str) -> Iterator[tuple[str, str, bool]]:
    """Yields the functions of a source: the name, the text up to the next one, and whether it is a test."""
    starts = list(re.finditer(r"(?P<test>#\[test\]\s*)?\bfn (?P<name>\w+)", source))
    for at, found in enumerate(starts):
        end = starts[at + 1].start() if at + 1 < len(starts) else len(source)
        yield found["name"], source[found.end() : end], found["test"] is not None


class Function(NamedTuple):
    module: str
    name: str
    text: str
    is_test: bool

    @property
    def path(self) -> str:
        return f"{self.module}::{self.name}"


def functions_in(crate: str) -> list[Function]:
    folder = TOP / "crates" / crate / "src"
    return [
        Function(module_of(path, folder), name, text, is_test)
        for path in sorted(folder.rglob("*.rt"))
        for name, text, is_test in functions_of(path.read_text(encoding="utf-8"))
    ]


def callers(functions: list[Function], called: Function) -> Iterator[Function]:
    """Yields the functions that may call another: those that have a call of its name, and none of that name in their own module."""
    calls_it = re.compile(rf"\b{called.name}\(")
    named_alike = {it.module for it in functions if it.name == called.name}
    for function in functions:
        if (function.module == called.module or function.module not in named_alike) and calls_it.search(function.text):
            yield function


def tests_of(chosen: list[Table]) -> dict[Table, set[str]]:
    """Returns the tests of each table, by module and name: those that name it or call a function which does, also through others."""
    tests: dict[Table, set[str]] = {}
    functions = {crate: functions_in(crate) for crate in {table.crate for table in chosen}}
    every = list(tables())
    for table in chosen:
        names_it = re.compile(rf"\b{table.name}\b")
        # A table of this name in another module is another table, which that module's functions mean.
        alike = (it.module for it in every if it.crate == table.crate and it.name == table.name)
        others = set(alike) - {table.module}
        waiting = [it for it in functions[table.crate] if it.module not in others and names_it.search(it.text)]
        reaching: set[Function] = set()
        while waiting:
            function = waiting.pop()
            if function not in reaching:
                reaching.add(function)
                waiting.extend(callers(functions[table.crate], function))
        tests[table] = {it.path for it in reaching if it.is_test}
    return tests


def with_tests_only(source: str, module: str, kept: set[str]) -> str:
    """Returns a module's source without the tests that aren't among these. Each ends at the first line that is a brace."""

    def cut(found: re.Match[str]) -> str:
        return found[0] if f"{module}::{found['name']}" in kept else ""

    return re.sub(r"^(?:///[^\n]*\n)*#\[test\]\nfn (?P<name>\w+).*?^\}\n", cut, source, flags=re.DOTALL | re.MULTILINE)


def keep_tests(folder: Path, kept: set[str]) -> None:
    """Leaves these tests alone in a crate. Without any, all stay: they find the table by another way than its name."""
    for path in folder.rglob("*.rt") if kept else ():
        source = path.read_text(encoding="utf-8")
        changed = with_tests_only(source, module_of(path, folder), kept)
        if changed != source:
            path.unlink()  # it may be a link
            path.write_text(changed, encoding="utf-8")


def rounds(chosen: list[Table], tests: dict[Table, set[str]]) -> Iterator[list[Table]]:
    """Yields groups of a crate's tables that have no test in common. A failed test then shows which of them it refuses."""
    groups: list[list[Table]] = []
    for table in chosen:
        fitting = (
            it for it in groups if it[0].crate == table.crate and not any(tests[table] & tests[other] for other in it)
        )
        group = next(fitting, None) if tests[table] else None
        if group is None:
            groups.append([table])
        else:
            group.append(table)
    yield from groups


def run_tests(group: list[Table], kind: str, tests: dict[Table, set[str]]) -> tuple[list[Table], str]:
    """Runs the tests of these tables with a bad row in each that has one. Returns those, and the output."""
    crate = group[0].crate
    bad: list[Table] = []
    with tempfile.TemporaryDirectory(prefix="bad-row-") as room:
        folder = make_copy(crate, Path(room), is_proved=False)
        for table in group:
            path = folder / table.path.relative_to(TOP / "crates" / crate)
            source = with_row(path.read_text(encoding="utf-8"), table.name, kind=kind)
            if source is not None:
                path.write_text(source, encoding="utf-8")
                bad.append(table)
        if not bad:
            return bad, ""
        keep_tests(folder / "src", set().union(*(tests[table] for table in bad)))
        done = subprocess.run(
            ["rt", "try", "--test", "--seconds", SECONDS],
            cwd=folder,
            stdin=subprocess.DEVNULL,
            stdout=subprocess.PIPE,
            stderr=subprocess.STDOUT,
            errors="replace",
        )
    return bad, done.stdout


def outcomes(group: list[Table], kind: str, tests: dict[Table, set[str]]) -> dict[Table, str]:
    """Returns `fails` for each table whose tests fail with a bad row, as they must; `none` if it has no such row; else what happened."""
    bad, output = run_tests(group, kind, tests)
    found = {table: "none" for table in group}
    if not bad:
        return found
    if not re.search(r"^test result: ", output, re.MULTILINE):
        return {table: f"can't be tried: {output.strip()[-400:]}" for table in group}
    failed = set(FAILED_TEST.findall(output))
    for table in bad:
        found[table] = "fails" if tests[table] & failed or (len(group) == 1 and failed) else "passes"
    return found


def faults_of(group: list[Table], kinds: list[str], tests: dict[Table, set[str]]) -> dict[Table, str | None]:
    """Returns why a table isn't refused with some bad row, for each that isn't."""
    all_found: dict[Table, dict[str, str]] = {table: {} for table in group}
    left = group
    for kind in [*kinds, *(kind for kind in [*KINDS, "misspelt"] if kind not in kinds)]:
        for table, found in outcomes(left, kind, tests).items() if left else ():
            all_found[table][kind] = found
        # A table without a bad row of the kinds that were asked for is tried with another.
        left = left if kind in kinds[:-1] else [table for table in left if set(all_found[table].values()) == {"none"}]
    faults: dict[Table, str | None] = {}
    for table, found_ones in all_found.items():
        wrong = [f"{kind}: {it}" for kind, it in found_ones.items() if it not in ("fails", "none")]
        if not wrong and "fails" not in found_ones.values():
            wrong = ["no bad row was found"]
        faults[table] = "; ".join(wrong) or None
    return faults


def main() -> int:
    parser = argparse.ArgumentParser(
        description="Puts a malformed row into each table of tests: the tests have to fail."
    )
    parser.add_argument("--every-kind", action="store_true", help="a bad row of every kind in turn")
    parser.add_argument("--jobs", type=int, default=os.cpu_count(), help="how many run at once")
    parser.add_argument("names", nargs="*", metavar="NAME", help="a crate, or CRATE/FILE/TABLE; none: all")
    given = parser.parse_args()
    chosen = [it for it in tables() if not given.names or it.crate in given.names or it.label in given.names]
    if not chosen:
        sys.exit("there is no such table")
    tests = tests_of(chosen)
    groups = list(rounds(chosen, tests))
    kinds = [KINDS if given.every_kind else [KINDS[at % len(KINDS)]] for at in range(len(groups))]
    failed = 0
    with ThreadPoolExecutor(given.jobs) as pool:
        for faults in pool.map(faults_of, groups, kinds, [tests] * len(groups)):
            for table, fault in faults.items():
                print(f"{'FAILED' if fault else 'ok'}: {table.label}{f': {fault}' if fault else ''}", flush=True)
                failed += fault is not None
    print(f"{len(chosen) - failed} passed, {failed} failed")
    return 1 if failed else 0


if __name__ == "__main__":
    sys.exit(main())
