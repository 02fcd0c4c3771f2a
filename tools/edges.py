#!/usr/bin/env python3
"""Checks that crates.txt says which libraries a crate's code uses, and which only its definitions and proofs do, that no modules of a crate
use each other, and that none has the name of a library.

    python3 tools/edges.py          prints each wrong line of crates.txt, a circle of each crate that has one, and each such module; exits with 1
                                    if there is any
    python3 tools/edges.py --fix    writes the comments that are missing or wrong

A crate's code uses a library if a source file names it in an ordinary path. Libraries that are named only in `ghost use`, in tactics, in
definitions or in proofs stand in a comment above the crate's line, `# proofs alone: NAME..`. A library that is named nowhere has no place in the line.
"""

import re
import sys
from collections.abc import Iterator
from graphlib import CycleError, TopologicalSorter
from pathlib import Path
from typing import NamedTuple

TOP = Path(__file__).resolve().parent.parent
TABLE = TOP / "crates.txt"
MARK = "# proofs alone: "
# Lines of a source file that aren't code: comments, imports of definitions, and hints for the prover.
NOT_CODE = re.compile(r"^\s*(//|ghost use\b|#\[tactic\()")
# A path to an item of the same crate, or to several in braces.
OWN_PATH = re.compile(r"\bcrate::((?:\w+::)*)(\w+|\{[^}]*\})")


class Crate(NamedTuple):
    name: str
    libraries: list[str]
    marked: list[str]


def crates() -> Iterator[Crate]:
    """Yields the crates of the table, each with the libraries that the comment above it marks."""
    marked: list[str] = []
    for line in TABLE.read_text(encoding="utf-8").splitlines():
        if line.startswith(MARK):
            marked = line[len(MARK) :].split()
        elif not line.startswith("#"):
            name, _, libraries = line.partition(":")
            yield Crate(name.split()[0], libraries.split(), marked)
            marked = []


def texts(crate: str, *folders: str) -> Iterator[str]:
    for folder in folders:
        for path in sorted((TOP / "crates" / crate / folder).rglob("*.*t*")):
            if path.suffix in (".rt", ".antt"):
                yield path.read_text(encoding="utf-8")


def without_ghosts(text: str) -> str:
    return "\n".join(line for line in text.splitlines() if not NOT_CODE.match(line))


def code_of(crate: str) -> str:
    return "\n".join(without_ghosts(text) for text in texts(crate, "src"))


def proofs_alone(crate: Crate) -> list[str]:
    """Returns the crate's libraries of this workspace that its code doesn't name."""
    code = code_of(crate.name)
    own = [library for library in crate.libraries if (TOP / "crates" / library).is_dir()]
    return [library for library in own if not re.search(rf"\b{library}\b", code)]


def mark_faults(crate: Crate) -> Iterator[str]:
    """Yields what is wrong with the crate's line in the table and the comment above it."""
    alone = proofs_alone(crate)
    if crate.marked != alone:
        marked, right = (" ".join(libraries) or "none" for libraries in (crate.marked, alone))
        yield f"{crate.name}: marked: {marked}; only definitions and proofs use: {right}"
    everything = "\n".join(texts(crate.name, "src", "specs", "proofs"))
    for library in alone:
        if not re.search(rf"\b{library}\b", everything):
            yield f"{crate.name}: {library} is used by nothing"


def own_paths(text: str) -> Iterator[str]:
    for found in OWN_PATH.finditer(without_ghosts(text)):
        for name in found[2].strip("{}").split(","):
            yield found[1] + name.strip()


def module_uses(crate: str) -> dict[str, set[str]]:
    """Returns the modules of a crate, each with those that its code names."""
    folder = TOP / "crates" / crate / "src"
    sources = {"::".join(path.relative_to(folder).with_suffix("").parts): path for path in sorted(folder.rglob("*.rt"))}

    def module_of(path: str) -> str | None:
        found = [it for it in sources if path == it or path.startswith(f"{it}::")]
        return max(found, key=len) if found else None

    uses: dict[str, set[str]] = {}
    for module, source in sources.items():
        named = (module_of(path) for path in own_paths(source.read_text(encoding="utf-8")))
        uses[module] = {it for it in named if it is not None and it != module}
    return uses


def circles(crate: str) -> Iterator[str]:
    try:
        TopologicalSorter(module_uses(crate)).prepare()
    except CycleError as error:
        # A module is listed before those that use it.
        yield f"{crate}: {' -> '.join(reversed(error.args[1]))}"


def shadowed(crate: Crate) -> Iterator[str]:
    """Yields the modules that have the name of a library of their crate, which `rt ci` refuses and `rt check` only warns of."""
    for path in sorted((TOP / "crates" / crate.name / "src").rglob("*.rt")):
        if path.stem in crate.libraries:
            yield f"{crate.name}: {path.name} has the name of a library"


def faults(crate: Crate) -> list[str]:
    """Returns what is wrong with a crate, and with its line in the table."""
    return [*mark_faults(crate), *circles(crate.name), *shadowed(crate)]


def fix() -> None:
    marks = {crate.name: proofs_alone(crate) for crate in crates()}
    lines = []
    for line in TABLE.read_text(encoding="utf-8").splitlines():
        name = line.partition(":")[0].split(" ")[0]
        if line.startswith(MARK):
            continue
        if marks.get(name) and not line.startswith("#"):
            lines.append(MARK + " ".join(marks[name]))
        lines.append(line)
    TABLE.write_text("\n".join(lines) + "\n", encoding="utf-8")


def main() -> int:
    if sys.argv[1:] == ["--fix"]:
        fix()
    found = [fault for crate in crates() for fault in faults(crate)]
    for fault in found:
        print(fault)
    return 1 if found else 0


if __name__ == "__main__":
    sys.exit(main())
