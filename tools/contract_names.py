#!/usr/bin/env python3
"""Compares the names in docs/PROOFS.md with the sources.

    python3 tools/contract_names.py

A section `###` is about the crates in its heading, and each crate has one, but for the tests. The others are about all
crates. The words in backticks are names, unless they have other characters:

- `Type::method`, `Type::Variant` or `module::item`: the crate, or a library of it, has it.
- Words in parentheses directly after a function are its clauses.
- Another word in parentheses is a clause of a function that the section has named so far. A type or a module stands for
  its functions. The word may also be an item or a definition of the crate, or a function of a library.
- `specs/Name` and `proofs/Name` are files of one of the crates.
- Any other word is in a source of the crate, or names a library.

Prints what isn't so, and then the number of names. Exit status 1 means that something isn't so.
"""

import re
import sys
from collections.abc import Iterable, Iterator
from pathlib import Path
from typing import NamedTuple

TOP = Path(__file__).resolve().parent.parent
PAGE = TOP / "docs" / "PROOFS.md"
NAME = re.compile(r"[A-Za-z_]\w*(::[A-Za-z_]\w*)*")
OWN_FILE = re.compile(r"(specs|proofs)/\w+")
ITEM = re.compile(r"^\s*(?:pub(?:\([a-z]+\))? )?(?:const )?(fn|struct|enum|trait|type|const) (\w+)")
BLOCK = re.compile(r"(?:pub(?:\([a-z]+\))? )?(?:(?:trait|enum|struct) |impl (?:.* for )?)&?(\w+)")
VARIANT = re.compile(r"^ {4}(?:#\[.*\] )?([A-Z]\w*)(?:[(,]| \{|$)")
BACKTICKS = re.compile(r"`([^`]+)`")
# A name, and only words in backticks in the parentheses after it.
ADJACENT = re.compile(r"`([\w:]+)`\s\(((?:`[a-z]\w*`,?\s*)+)\)")
# Names of std.
STANDARD = ("From",)
CLAUSE = re.compile(r"\bensures\*? (\w+) \{")
DEFINITION = re.compile(r"^(?:abbrev |unfoldable )?pub (?:record |data )?(\w+)", re.MULTILINE)


class Function(NamedTuple):
    """A function with its clauses. It is a method of a type or a trait, or one of a module."""

    owners: frozenset[str]
    name: str
    clauses: set[str]


class Crate(NamedTuple):
    functions: list[Function]
    members: set[tuple[str, str]]  # an item or a variant, after its module or its type
    definitions: set[str]
    words: set[str]
    libraries: list[str]

    def items(self) -> set[str]:
        return {member for _, member in self.members} | self.definitions

    def free_functions(self) -> set[str]:
        return {function.name for function in self.functions if len(function.owners) == 1}

    def named(self, name: str) -> list[Function]:
        """Returns the functions that a name stands for: itself, those of a type, or those of a module."""
        item = name.split("::")[-1]
        return self.exactly_named(name) or [it for it in self.functions if item in it.owners]

    def exactly_named(self, name: str) -> list[Function]:
        *owner, item = name.split("::")
        return [it for it in self.functions if it.name == item and (not owner or owner[-1] in it.owners)]


def without_generics(line: str) -> str:
    while line != (shorter := re.sub(r"<[^<>]*>", "", line)):
        line = shorter
    return line


def read_source(path: Path, crate: Crate) -> None:
    """Adds the items of a source file."""
    module, block = path.stem, ""
    crate.definitions.add(module)
    for line in path.read_text(encoding="utf-8").splitlines():
        if opened := BLOCK.match(without_generics(line)):
            block = opened[1]
        elif line == "}":
            block = ""
        if found := ITEM.match(line):
            owners = frozenset(filter(None, (block, module) if found[1] == "fn" or not block else (module,)))
            crate.members.update((owner, found[2]) for owner in owners)
            if found[1] == "fn":
                crate.functions.append(Function(owners, found[2], set()))
        elif (found := VARIANT.match(line)) and block:
            crate.members.add((block, found[1]))
        if (found := CLAUSE.search(line)) and crate.functions:
            crate.functions[-1].clauses.add(found[1])


def read_crate(name: str, libraries: list[str]) -> Crate:
    crate = Crate([], set(), set(), {name, *libraries}, libraries)
    folder = TOP / "crates" / name
    for path in sorted((folder / "src").rglob("*.rt")):
        read_source(path, crate)
        crate.words.update(re.findall(r"\w+", path.read_text(encoding="utf-8")))
    for path in sorted((folder / "specs").rglob("*.antt")):
        text = path.read_text(encoding="utf-8")
        crate.definitions.update(DEFINITION.findall(text))
        crate.words.update(re.findall(r"\w+", text))
    return crate


def read_crates() -> dict[str, Crate]:
    table = (TOP / "crates.txt").read_text(encoding="utf-8").splitlines()
    rows = (line.partition(":") for line in table if not line.startswith("#"))
    return {name.split()[0]: read_crate(name.split()[0], libraries.split()) for name, _, libraries in rows}


def joined(crates: list[Crate]) -> Crate:
    """Returns several crates as one."""
    return Crate(
        [function for crate in crates for function in crate.functions],
        {member for crate in crates for member in crate.members},
        {definition for crate in crates for definition in crate.definitions},
        {word for crate in crates for word in crate.words},
        [library for crate in crates for library in crate.libraries],
    )


class Section:
    """A section of the page, with the crates that its names are looked up in.

    They are its own, their libraries, and for types their users; or all crates, if it is about none.
    """

    def __init__(self, names: list[str], crates: dict[str, Crate]) -> None:
        self.names = names
        self.own = joined([crates[name] for name in names]) if names else Crate([], set(), set(), set(), list(crates))
        self.libraries = [crates[library] for library in self.own.libraries if library in crates]
        self.users = [crate for crate in crates.values() if not set(names).isdisjoint(crate.libraries)]
        self.clauses: set[str] = set()  # those of the functions that were named so far

    def has_item(self, name: str) -> bool:
        owner, _, item = name.rpartition("::")
        crates = [self.own, *self.libraries]
        if not owner:
            return any(name in crate.items() for crate in crates)
        # A crate that uses this one may have a type that is named, too, but a law is this crate's.
        crates = [self.own] if owner.endswith("laws") else [*crates, *self.users]
        return any((owner.split("::")[-1], item) in crate.members for crate in crates)

    def has_word(self, name: str) -> bool:
        return name in STANDARD or any(name in crate.words for crate in (self.own, *self.libraries))

    def is_grouped_item(self, name: str) -> bool:
        """Returns whether a word in parentheses may be no clause. Libraries have too many names to take them all."""
        libraries = {item for crate in self.libraries for item in crate.free_functions()}
        return name in self.own.items() or name in libraries or (name[0].isupper() and self.has_word(name))

    def clauses_of(self, names: list[str]) -> set[str]:
        functions = (
            function for name in names for crate in (self.own, *self.libraries) for function in crate.named(name)
        )
        return {clause for function in functions for clause in function.clauses}

    def files_of(self, word: str) -> list[Path]:
        """Returns the files of the section's crates that a word names."""
        paths = [TOP / "crates" / name / f"{word}.antt" for name in self.names]
        return [path for path in paths if OWN_FILE.fullmatch(word) and path.exists()]

    def file_words(self, words: list[str]) -> Iterator[str]:
        """Yields the words of those of the crates' files that are named."""
        for path in (path for word in words for path in self.files_of(word)):
            yield from re.findall(r"\w+", path.read_text(encoding="utf-8"))

    def fault_of(self, name: str, is_grouped: bool) -> str | None:
        if "::" in name or name.startswith("Is"):
            return None if self.has_item(name) else f"no `{name}`"
        if is_grouped and name not in self.clauses and not self.is_grouped_item(name):
            return f"no clause `{name}` of a function that was named"
        return None if self.has_word(name) else f"no `{name}`"

    def adjacent_faults(self, paragraph: str) -> Iterator[str]:
        """Yields the clauses directly after a function, as in `push` (`refused`), that it lacks."""
        for name, group in ADJACENT.findall(paragraph):
            functions = [it for crate in (self.own, *self.libraries) for it in crate.exactly_named(name)]
            clauses = {clause for function in functions for clause in function.clauses}
            for clause in re.findall(r"`([a-z]\w*)`", group):
                if functions and clause not in clauses:
                    yield f"no clause `{clause}` of `{name}`"

    def faults(self, paragraph: str) -> Iterator[str]:
        """Yields what the sources lack of a paragraph."""
        words = BACKTICKS.findall(paragraph)
        grouped = {name for group in re.findall(r"\(([^()]*)\)", paragraph) for name in BACKTICKS.findall(group)}
        names = [word for word in words if NAME.fullmatch(word)]
        # In `only` of `verify`, the second is no clause.
        grouped -= set(re.findall(r"of `(\w+)`", paragraph))
        self.clauses |= self.clauses_of([name for name in names if name not in grouped or "::" in name])
        quoted = set(self.file_words(words))
        for name in names:
            fault = self.fault_of(name, name in grouped)
            if fault is not None and name not in quoted:
                yield fault
        yield from self.adjacent_faults(paragraph)
        for word in words:
            if OWN_FILE.fullmatch(word) and not self.files_of(word):
                yield f"no file {word}.antt"


class Part(NamedTuple):
    """A section as the page has it: the number of its first line, its heading, its crates, and its paragraphs and points with their numbers."""

    line: int
    heading: str
    crates: list[str]
    paragraphs: list[tuple[int, str]]

    def names(self) -> list[str]:
        """Returns all words in backticks."""
        return [name for _, paragraph in self.paragraphs for name in BACKTICKS.findall(paragraph)]

    def faults(self, crates: dict[str, Crate]) -> list[str]:
        """Returns what the sources of all crates lack of the section."""
        if unknown := [name for name in self.crates if name not in crates]:
            return [f"line {self.line}: no crate {unknown[0]}"]
        section = Section(self.crates, crates)
        about = ", ".join(self.crates) or "all crates"
        return [
            f"line {line}: {about}: {fault}"
            for line, paragraph in self.paragraphs
            for fault in section.faults(paragraph)
        ]


def parts_of(text: str) -> Iterator[Part]:
    """Yields the sections of the page."""
    line = 1
    for part in re.split(r"^(?=###? )", text, flags=re.MULTILINE):
        heading = part.partition("\n")[0]
        crates = heading.removeprefix("### ").split(", ") if heading.startswith("### ") else []
        paragraphs, begin = [], line
        for paragraph in re.split(r"\n(?=\n|- )", part):
            paragraphs.append((begin + len(paragraph) - len(paragraph.lstrip("\n")), paragraph))
            begin += paragraph.count("\n") + 1
        yield Part(line, heading.lstrip("# "), crates, paragraphs)
        line += part.count("\n")


def needs_section(crate: str) -> bool:
    return not crate.endswith("_tests") and crate != "fixtures"


def without_section(parts: Iterable[Part], crates: Iterable[str]) -> list[str]:
    """Returns the crates that have no section, and need one."""
    described = {name for part in parts for name in part.crates}
    return sorted(name for name in crates if needs_section(name) and name not in described)


def main() -> int:
    crates = read_crates()
    parts = list(parts_of(PAGE.read_text(encoding="utf-8")))
    faults = [fault for part in parts for fault in part.faults(crates)]
    faults += [f"no section about {name}" for name in without_section(parts, crates)]
    for fault in faults:
        print(f"docs/PROOFS.md: {fault}")
    count = sum(len(part.names()) for part in parts)
    print(f"{count} names, {len(faults)} of them wrong")
    return 1 if faults or not count else 0


if __name__ == "__main__":
    sys.exit(main())
