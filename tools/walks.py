#!/usr/bin/env python3
"""Checks that the files exist which docs/CHANGING.md names, and counts those of each walk.

    python3 tools/walks.py

A walk is a section whose points name the files that a change touches. A file in backticks belongs to the crates before the point's
colon, or else to the crate that is named after it. Without a folder, a `.rt` file is in `src/`, `*Lemmas.antt` in `proofs/`, and
another `.antt` file in `specs/`. What follows `(new)` or `(both new)` has yet to be written. tools/links.py checks the links.

Prints what is missing, and then the number of files of each walk. Exit status 1 means that something is missing.
"""

import re
import sys
from collections.abc import Iterator
from pathlib import Path
from typing import NamedTuple

TOP = Path(__file__).resolve().parent.parent
PAGE = TOP / "docs" / "CHANGING.md"
SOURCE = re.compile(r"[\w/-]+\.(?:rt|antt)")
MAN_PAGE = re.compile(r"extractd[\w-]*\.1")
CODE = re.compile(r"`([^`]+)`")
LINK = re.compile(r"\]\((\.\./[^)#]+|\w[^)#:]*\.md)\)")
NEW = re.compile(r"`([^`]+)`(?: and `([^`]+)`)? \((?:both )?new\)")


class Walk(NamedTuple):
    """A change and the points that name its files."""

    title: str
    points: list[str]


def points_of(text: str) -> list[str]:
    return [" ".join(point.split()) for point in re.findall(r"^- ((?:.|\n(?!- |\n))*)", text, re.MULTILINE)]


def walks_of(page: str) -> list[Walk]:
    """Returns the walks: the sections whose points come before what surprises."""
    sections = re.split(r"^## ", page, flags=re.MULTILINE)[1:]
    found = []
    for section in sections:
        title, _, text = section.partition("\n")
        points, surprises, _ = text.partition("\nWhat surprises:\n")
        if surprises:
            found.append(Walk(title, points_of(points)))
    return found


def is_crate(name: str) -> bool:
    return (TOP / "crates" / name / "src").is_dir()


def owners_of(point: str, file: str) -> list[str]:
    """Returns the crates that a file of a point may be in."""
    head = [name for name in CODE.findall(point.partition(":")[0]) if is_crate(name)]
    after = [name for name in CODE.findall(point.partition(f"`{file}`")[2]) if is_crate(name)]
    return head or after[:1]


def paths_of(crate: str, file: str) -> list[Path]:
    """Returns the files of a crate that a name stands for."""
    folder = TOP / "crates" / crate
    if "/" in file:
        return [path for path in (folder / file,) if path.is_file()]
    part = "src" if file.endswith(".rt") else "proofs" if file.endswith("Lemmas.antt") else "specs"
    return sorted((folder / part).glob(f"**/{file}"))


def new_files(point: str) -> set[str]:
    return {name for names in NEW.findall(point) for name in names if name}


def sources_of(point: str) -> Iterator[tuple[str, str]]:
    """Yields the crates and the files that a point names, but for those that are new."""
    for file in CODE.findall(point):
        if SOURCE.fullmatch(file) and file not in new_files(point):
            yield from ((crate, file) for crate in owners_of(point, file) or ["?"])


def around(point: str) -> set[str]:
    """Returns what a point names beside the sources: links, man pages and completions."""
    completions = {"completions/bash", "completions/zsh"} if "completions" in point else set()
    pages = {name for name in CODE.findall(point) if MAN_PAGE.fullmatch(name)}
    links = {Path(link).name for link in LINK.findall(point) if not link.endswith("completions")}
    return completions | pages | links


def count_of(walk: Walk) -> int:
    """Returns the number of files that a change touches."""
    sources = {place for point in walk.points for place in sources_of(point)}
    others = {name for point in walk.points for name in around(point) | new_files(point)}
    return len(sources) + len(others)


def missing(point: str) -> list[str]:
    """Returns the files that a point names and that aren't there."""
    lost = [f"{crate}: {file}" for crate, file in sources_of(point) if not paths_of(crate, file)]
    man = TOP / "deploy" / "packaging" / "man"
    pages = {name for name in CODE.findall(point) if MAN_PAGE.fullmatch(name)} - new_files(point)
    return lost + sorted(name for name in pages if not (man / name).is_file())


def missing_tests(page: str) -> list[str]:
    """Returns the modules of tests that the list of crates names and that aren't there."""
    section = page.split("\n## Where the tests of a crate are\n")[1].split("\n## ")[0]
    lost = []
    for crate, names in re.findall(r"`(\w+_tests)` ([\w/, ]+)", section):
        for name in names.split(", "):
            folder = TOP / "crates" / crate / "src"
            if not [*folder.glob(f"**/{name.strip()}.rt"), *folder.glob(name.strip())]:
                lost.append(f"{crate}: {name.strip()}")
    return lost


def main() -> int:
    page = PAGE.read_text(encoding="utf-8")
    walks = walks_of(page)
    lost = [f"{walk.title}: {name}" for walk in walks for point in walk.points for name in missing(point)]
    lost += [f"tests: {name}" for name in missing_tests(page)]
    print("\n".join([*lost, *(f"{walk.title}: {count_of(walk)} files" for walk in walks)]))
    return 1 if lost else 0


if __name__ == "__main__":
    sys.exit(main())
