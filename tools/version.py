#!/usr/bin/env python3
"""Writes the version in the file VERSION into the files that repeat it.

    python3 tools/version.py            writes it
    python3 tools/version.py --check    prints the files in which it is missing or another one; exits with 1 if there are any

A new version is written to VERSION, and then by this script. CHANGELOG.md, which needs a section on it, is checked alone.
"""

import os
import re
import sys
from collections.abc import Iterator
from pathlib import Path

TOP = Path(__file__).resolve().parent.parent
VERSION = (TOP / "VERSION").read_text(encoding="utf-8").strip()
NUMBER = r"\d+\.\d+\.\d+"
PROGRAM = rf"(extractd )({NUMBER})"
# The copies. What is before a version is the first group, and the version the second one.
COPIES = {
    "crates/command_line/src/arguments.rt": (PROGRAM, rf'(\.version\(")({NUMBER})'),
    "crates/command_tests/src/arguments.rt": (PROGRAM,),
    "crates/command_tests/src/sweep.rt": (PROGRAM,),
    "docs/refusals.md": (PROGRAM,),
    "python/pyproject.toml": (rf'(?m)^(version = ")({NUMBER})',),
    "python/tigerline/service/openapi.json": (rf'("version": ")({NUMBER})',),
    "python/tigerline/version.py": (rf'(__version__ = ")({NUMBER})',),
    **{str(page.relative_to(TOP)): (PROGRAM,) for page in sorted((TOP / "deploy/packaging/man").glob("*.1"))},
}
# A program of another version, in the tests of what the Python package says of it.
OTHERS = {"python/tests/test_program.py"}


def with_version(path: str, text: str) -> str:
    """Returns the text of a file with the version in each of its copies."""
    for pattern in COPIES[path]:
        text = re.sub(pattern, rf"\g<1>{VERSION}", text)
    return text


def sources() -> Iterator[str]:
    """Yields the files of the repository that may name the program's version, but none that is built."""
    for folder, folders, names in os.walk(TOP):
        folders[:] = [name for name in folders if name not in ("out", "build") and not name.startswith(".")]
        for name in names:
            if name.endswith((".rt", ".py", ".sh", ".md", ".1")):
                yield str((Path(folder) / name).relative_to(TOP))


def copy_faults(path: str) -> list[str]:
    """Returns what is wrong with a file that repeats the version."""
    text = (TOP / path).read_text(encoding="utf-8")
    found = [re.findall(pattern, text) for pattern in COPIES[path]]
    is_right = all(found) and text == with_version(path, text)
    return [] if is_right else [f"{path}: the version isn't {VERSION}; run tools/version.py"]


def other_faults() -> list[str]:
    """Returns the further files that name a version."""
    return [
        f"{path}: names a version, but isn't in tools/version.py"
        for path in set(sources()) - COPIES.keys() - OTHERS
        if re.search(PROGRAM, (TOP / path).read_text(encoding="utf-8", errors="replace"))
    ]


def changelog_faults() -> list[str]:
    text = (TOP / "CHANGELOG.md").read_text(encoding="utf-8")
    return [] if f"\n## [{VERSION}]" in text else [f"CHANGELOG.md: no section on {VERSION}"]


def faults() -> list[str]:
    """Returns all that is wrong with the copies of the version."""
    return [*(fault for path in COPIES for fault in copy_faults(path)), *other_faults(), *changelog_faults()]


def main() -> int:
    if sys.argv[1:] == ["--check"]:
        found = sorted(faults())
        print(*found, sep="\n", end="\n" if found else "")
        return 1 if found else 0
    for path in COPIES:
        text = (TOP / path).read_text(encoding="utf-8")
        (TOP / path).write_text(with_version(path, text), encoding="utf-8")
    return 0


if __name__ == "__main__":
    sys.exit(main())
