"""A copy of the repository in which one crate may be changed. Other files are links, if that is possible."""

import os
import shutil
from pathlib import Path

TOP = Path(__file__).resolve().parent.parent
# Folders of mutants, which a check doesn't read.
MUTANTS = ["must-fail", "mutants"]


def link(one: str, other: str) -> None:
    try:
        os.link(one, other)
    except OSError:
        shutil.copy2(one, other)


def link_or_copy(one: str, other: str) -> None:
    """Links what a check replaces and doesn't change, and copies the rest."""
    if one.endswith(".oantt"):
        link(one, other)
    else:
        shutil.copy2(one, other)


def make_copy(crate: str, to: Path, *, is_proved: bool) -> Path:
    """Makes the copy in an empty folder, and returns the folder of the crate. If it is to be proved, what earlier checks made is there, too."""
    for name in ["crates.txt", "HANDLES"]:
        shutil.copy2(TOP / name, to / name)
    made = [] if is_proved else ["out"]
    for path in (TOP / "crates").iterdir():
        if path.name == crate:
            shutil.copytree(
                path, to / "crates" / crate, copy_function=link_or_copy, ignore=shutil.ignore_patterns(*MUTANTS, *made)
            )
        elif path.is_dir():
            ignored = shutil.ignore_patterns(*MUTANTS, *made, "incremental")
            shutil.copytree(path, to / "crates" / path.name, copy_function=link, ignore=ignored)
    return to / "crates" / crate
