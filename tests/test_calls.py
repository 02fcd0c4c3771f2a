"""Compares the table of public calls, tests/calls.txt, with the sources: each row is a test, and each call needs a row.

A call belongs in the table if its types let it allocate memory, read or write: if it has an allocator, a reader or a writer, as a parameter
or through the type that it is a method of, or if its result may say that memory ran out. Its row has its path and one cell for each of
`memory`, `read` and `write` that its types let it do. Such a cell ends with one of these:

- the path of a sweep, such as `tl_tests::segments::sweep::loads`: a test or a function that injects a failure into each allocation, each
  read or each write and makes the call, either itself or through functions that it calls in its crate and in `fixtures`;
- `by` and the path of another call, which makes this one and whose sweep covers both;
- `none` if the call never does it, whatever its types allow, followed by the path of the test that shows this, if there is one;
- `Global` if all memory comes from the global allocator, which no test can make fail;
- `system` if the operating system opens, reads or writes: other tests do that on real files.

A line that begins with two blanks continues the row above it, and a line that begins with `#` is a comment.
"""

import re
from collections.abc import Iterable, Iterator
from functools import cache
from typing import NamedTuple

import pytest
from harness.program import TOP
from harness.tables import rows_of

TABLE = TOP / "tests/calls.txt"

# The types in a signature that let a call allocate memory, read or write.
BOUNDS = {
    "memory": r"\b(Allocator|AllocGlobal|Global|AllocError)\b",
    "read": r"(?<!::)\b(Read|CountedRead|BufRead|Files|Service)\b",
    "write": r"(?<!::)\b(Write|CountedWrite|Service)\b",
}
KINDS = list(BOUNDS)


class Call(NamedTuple):
    path: str
    kinds: tuple[str, ...]
    of_global: bool
    # The trait that it implements, if it is in an `impl` of one.
    trait: str | None

    def name(self) -> str:
        return self.path.rpartition("::")[2]

    def owner(self) -> str | None:
        """Returns the type or the trait that the call is a method of, if it is one."""
        owner = self.path.split("::")[-2]
        return owner if owner[0].isupper() else None


class Item(NamedTuple):
    """A function of a source file: the header of its `impl` or `trait`, if it is in one, and its signature."""

    module: str
    header: str
    signature: str

    def name(self) -> str:
        found = re.search(r"\bfn (\w+)", self.signature)
        assert found is not None, self.signature
        return found[1]

    def owner(self) -> str | None:
        """Returns the type or the trait that it is a method of."""
        for_type = re.search(r"\bfor (?:\w+::)*(\w+)", self.header)
        trait = re.match(r"pub trait (\w+)", self.header)
        of_type = re.search(r"(?:\bfor\s+|^impl(?:<.*?>)?\s+)(?:\w+::)*(\w+)", self.header)
        found = for_type or trait or of_type
        return found[1] if found and self.header else None

    def is_public(self) -> bool:
        return self.signature.startswith("pub fn") or bool(re.search(r"^pub trait| for ", self.header))


# ---- The sources


def libraries() -> list[str]:
    """Returns the libraries of the repository that aren't for tests."""
    names = re.findall(r"^(\w+)(?: staticlib)?:", (TOP / "crates.txt").read_text(), re.M)
    return [name for name in names if not name.endswith("_tests") and name not in ("fixtures", "extractd")]


@cache
def sources(crate: str) -> dict[str, str]:
    """Returns the files of a crate by module path, without comments."""
    root = TOP / "crates" / crate / "src"
    files = {}
    for path in sorted(root.rglob("*.rt")):
        module = "::".join(path.relative_to(root).with_suffix("").parts)
        files[module] = re.sub(r"^\s*//.*\n", "", path.read_text(), flags=re.M)
    return files


def items(module: str, text: str) -> Iterator[Item]:
    """Yields the functions of a file, which must be laid out by the formatter."""
    header, lines = "", iter(text.splitlines())
    for line in lines:
        if re.match(r"(unsafe )?impl\b|pub trait\b|trait\b", line):
            header = head_of(line, lines)
        elif line == "}":
            header = ""
        elif re.match(r"( {4})?(pub(\(\w+\))? )?(unsafe |const )*fn \w", line) and line.startswith("    ") == bool(
            header
        ):
            yield Item(module, header, head_of(line.strip(), lines))


def head_of(line: str, lines: Iterator[str]) -> str:
    """Returns a header or a signature up to its clauses or its body."""
    head = [line]
    while not re.search(r"[{;]$", head[-1]):
        following = next(lines).strip()
        if re.match(r"(ensures|requires|ghost)\b|\{", following):
            break
        head.append(following)
    return " ".join(head)


def exports(crate: str) -> tuple[set[str], set[tuple[str, str]]]:
    """Returns a crate's exports: its modules, and the names with their modules."""
    text = sources(crate)["lib"]
    modules = set(re.findall(r"^pub mod (\w+);", text, re.M))
    names: set[tuple[str, str]] = set()
    for module, listed, single in re.findall(r"^pub use (\w+)::(?:\{([^}]*)\}|(?:\w+::)*(\w+));", text, re.M):
        names.update((module, name) for name in re.findall(r"\w+", listed or single))
    return modules, names


def faults() -> set[str]:
    """Returns the error types of all libraries that may say that memory ran out."""
    found = {"AllocError"}
    for crate in libraries():
        for text in sources(crate).values():
            found.update(re.findall(r"^impl(?:<.*?>)? From<AllocError> for (\w+)", text, re.M))
            for name, variants in re.findall(r"^pub enum (\w+)[^{]*\{(.*?)^\}", text, re.M | re.S):
                if re.search(r"^    Memory,", variants, re.M):
                    found.add(name)
    return found


@cache
def calls() -> dict[str, Call]:
    """Returns the public calls that may allocate memory, read or write, by path."""
    wanting = r"Result<.*\b(" + "|".join(faults()) + r")\b"
    found = {}
    for crate in libraries():
        modules, names = exports(crate)
        for module, text in sources(crate).items():
            for item in items(module, text):
                path = path_of(crate, item, modules, names)
                kinds = kinds_of(item, wanting)
                if path and kinds:
                    found[path] = Call(path, kinds, is_of_global(item), trait_of(item))
    return found


def path_of(crate: str, item: Item, modules: set[str], names: set[tuple[str, str]]) -> str | None:
    """Returns the path of a function that is reachable from the root, or None."""
    owner = item.owner()
    if not item.is_public() or re.search(r"\b(Display|Debug|Model|From<.*>) for\b", item.header):
        return None
    if owner:
        shown = any(name == owner for _, name in names)
        return f"{crate}::{owner}::{item.name()}" if shown else None
    if item.module in modules:
        return f"{crate}::{item.module}::{item.name()}"
    shown = (item.module.split("::")[0], item.name()) in names
    return f"{crate}::{item.name()}" if shown else None


def kinds_of(item: Item, wanting: str) -> tuple[str, ...]:
    """Returns what the types of a function let it do."""
    types = f"{item.header} {item.signature}"
    result = item.signature.partition("->")[2]
    return tuple(
        kind for kind in KINDS if re.search(BOUNDS[kind], types) or kind == "memory" and re.search(wanting, result)
    )


def trait_of(item: Item) -> str | None:
    """Returns the trait that a function implements, if it does."""
    found = re.match(r"impl(?:<.*>)? (\w+)(?:<.*>)? for ", item.header)
    return found[1] if found else None


def is_of_global(item: Item) -> bool:
    return not re.search(r"\bAllocator\b", f"{item.header} {item.signature}")


# ---- The table


def rows() -> Iterator[tuple[str, str, list[str]]]:
    """Yields the rows of the table: a line, a path and cells."""
    for line, text in rows_of(TABLE):
        path, *cells = [cell.strip() for cell in text.split(";")]
        yield f"line {line}", path, cells


def wrong_in(path: str, cells: list[str], found: dict[str, Call]) -> Iterator[str]:
    """Yields what is wrong with a row."""
    if path not in found:
        yield "is no public call that may take memory, read or write"
        return
    call = found[path]
    kinds = tuple(cell.split()[0] for cell in cells if cell)
    if kinds != call.kinds:
        yield f"may {', '.join(call.kinds)} by its types, and the row has {', '.join(kinds) or 'nothing'}"
    for cell in cells:
        wrong = wrong_with(call, *cell.split()[1:])
        if wrong:
            yield f"{cell}: {wrong}"


def wrong_with(call: Call, sweep: str = "?", *more: str) -> str | None:
    """Returns what is wrong with a cell after its first word, or None."""
    if sweep == "none":
        return reached(call, more[0]) if more else None
    if sweep == "Global":
        return None if call.of_global else "it takes memory of any allocator"
    if sweep == "system":
        return None if call.owner() == "SystemFiles" else "it does nothing of the system"
    if sweep == "by":
        return None if makes(more[0], call) else f"{more[0]} doesn't make it"
    return reached(call, sweep)


# ---- The sweeps

# A function's module and text, and both after its crate.
Text = tuple[str, str]
Function = tuple[str, str, str]


@cache
def functions(crate: str) -> dict[str, list[Text]]:
    """Returns the functions of a crate by name, as lists of modules and texts."""
    found: dict[str, list[Text]] = {}
    for module, text in sources(crate).items():
        for indent, name, body in re.findall(r"^( *)(?:pub(?:\(\w+\))? )?fn (\w+)(.*?\n\1\}$)", text, re.M | re.S):
            found.setdefault(name, []).append((module, body))
    return found


def bodies(crate: str, module: str, word: str, others: Iterable[str]) -> list[Function]:
    """Returns the texts of the functions that a word in a file may name: any method, or a function of that file, or else one of another
    file or of other crates."""
    name = word.lstrip(".")
    own = functions(crate).get(name, [])
    here = [found for found in own if found[0] == module and name == word]
    if own:
        return [(crate, *found) for found in here or own]
    return [(other, *found) for other in others for found in functions(other).get(name, [])]


def closure(crate: str, module: str, name: str, others: Iterable[str]) -> list[Function]:
    """Returns the texts, with their files, of a function and of all functions that it calls in its crate and in others."""
    waiting, seen = bodies(crate, module, name, ()), []
    while waiting:
        found = waiting.pop()
        if found not in seen:
            seen.append(found)
            for word in set(re.findall(r"\.?\b[a-z]\w*\b", found[2])):
                waiting.extend(bodies(found[0], found[1], word, others))
    return seen


def makes(path: str, call: Call) -> bool:
    """Returns whether the call with this path makes another call, in its own crate or in the other call's."""
    crate, below = path.split("::")[0], (call.path.split("::")[0],)
    name = path.rpartition("::")[2]
    roots = [module for module, _ in functions(crate).get(name, [])]
    return any(is_made(call, *found) for module in roots for found in closure(crate, module, name, below))


def reached(call: Call, sweep: str) -> str | None:
    """Returns what is wrong with the path of a call's sweep, or None."""
    crate, *modules, name = sweep.split("::")
    module = "::".join(modules)
    if not sweep.strip("?") or name == "?":
        return "it has no sweep yet"
    if not (TOP / "crates" / crate / "src").is_dir() or module not in sources(crate):
        return "there is no such file"
    if module not in [found[0] for found in functions(crate).get(name, [])]:
        return "there is no such function in that file"
    if not any(is_made(call, *found) for found in closure(crate, module, name, ("fixtures",))):
        return f"it doesn't call {call.name()}"
    return None


def is_made(call: Call, crate: str, module: str, body: str) -> bool:
    """Returns whether the text of a function makes a call, in a file that names the call's type or trait. `write!` calls `write_str`."""
    file, name, owner = sources(crate)[module], call.name(), call.owner()
    source = call.path.split("::")[0]
    if owner:
        made = rf"\.{name}\(|\b{owner}(::<[^>]*>)?::{name}\b"
        if name == "write_str":
            made += r"|\bwrite!\("
        named = rf"\b({owner}|{call.trait})\b" if call.trait else rf"\b{owner}\b"
        return bool(re.search(made, body) and re.search(named, file))
    if crate == source:
        return bool(re.search(rf"(?<![.\w]){name}\(", body))
    imported = re.search(rf"\b{source}::(\{{[^}}]*\b{name}\b|{name}\b)", file)
    return bool(imported and re.search(rf"(?<![.\w]){name}\b", body))


# ---- The tests

ROWS = list(rows())


@pytest.mark.parametrize("path, cells", [row[1:] for row in ROWS], ids=[row[0] for row in ROWS])
def test_row(path: str, cells: list[str]) -> None:
    wrong = list(wrong_in(path, cells, calls()))
    assert not wrong, "\n".join(f"{path} {text}" for text in wrong)


def test_each_call_has_a_row() -> None:
    paths = [path for _, path, _ in ROWS]
    missing = [f"{call.path}; {'; '.join(call.kinds)}" for call in calls().values() if call.path not in paths]
    assert calls() and not missing, "\n".join(["without a row:", *missing])
