#!/usr/bin/env python3
"""Makes the words of a program of a function in an object file for BPF: link.py OBJECT OUTPUT

The function is `choose`, or that of --function, wherever it is in the object. Its constants go into the frame, and its
loops are written out, as forward.py does. What it calls isn't part of the program, so any call but those of helper
functions is an error. So is a variable that would outlive a segment.

With --lines LINES it also writes the source lines of the words, as `extractd explain --lines` reads them. An error
names a source line if the object was compiled with -g. Exit status 1 means that no program was written.
"""
# Needs Python 3.11, and llvm-objdump for source lines.

import argparse
import os
import re
import struct
import subprocess
import sys
from collections.abc import Iterator
from dataclasses import dataclass
from functools import cached_property
from pathlib import Path

from forward import move_lines, put_in_order, read_lines
from instructions import WORD, ProgramError
from objects import ADDRESSES, CALL, ObjectError, ObjectFile, Relocation, Symbol
from tables import Tables

CALL_OPCODE, CALLS_FUNCTION, SECTION_SYMBOL = 0x85, 1, 3
# Functions of the compilers' libraries that are an instruction with r1 and r2, which goes into r0: sdiv, smod.
INSTRUCTIONS = {"__divdi3": 0x3F, "__moddi3": 0x9F}
# What the others are called for.
LIBRARY = {
    "div[sdt]i[34]": "signed division",
    "mod[sdt]i[34]": "a signed remainder",
    "udivti3|umodti3|multi3|ashlti3|lshrti3|ashrti3": "arithmetic on __int128",
    "popcount[sdt]i2|parity[sdt]i2|c[lt]z[sdt]i2|ffs[sdt]i2|bswap[sd]i2": "an operation on bits",
    ".*[sdt]f[23s]?[a-z]*[0-9]?": "a floating-point number",
}


class LinkError(ProgramError):
    """The function needs what isn't part of the program. The text has `@` for the source line."""


def purpose(name: str) -> str:
    """Returns what a library function does, as a note after its name."""
    matching = (text for pattern, text in LIBRARY.items() if re.fullmatch(f"__({pattern})", name))
    text = next(matching, None)
    return f" for {text}" if text else ""


@dataclass(frozen=True)
class Linker:
    object: ObjectFile
    function: Symbol

    @cached_property
    def words(self) -> bytes:
        section = self.object.sections[self.function.section]
        return section.contents[self.function.value : self.function.value + self.function.size]

    @cached_property
    def relocations(self) -> dict[int, Relocation]:
        """Returns the relocations in the function by their place."""
        first, end = self.function.value, self.function.value + self.function.size
        all_of_them = self.object.relocations(self.function.section)
        return {(found.offset - first) // WORD: found for found in all_of_them if first <= found.offset < end}

    def immediate(self, place: int) -> int:
        value: int = struct.unpack_from("<i", self.words, place * WORD + 4)[0]
        return value

    def calls(self) -> Iterator[tuple[int, str]]:
        """Yields the place of each call of a function, and the function's name."""
        for place in range(len(self.words) // WORD):
            opcode, registers = self.words[place * WORD], self.words[place * WORD + 1]
            relocation = self.relocations.get(place)
            if relocation is not None and relocation.kind == CALL:
                yield place, self.object.name_of(relocation.symbol, (self.immediate(place) + 1) * WORD)
            elif opcode == CALL_OPCODE and registers >> 4 == CALLS_FUNCTION:
                offset = self.function.value + (place + 1 + self.immediate(place)) * WORD
                yield place, self.object.name_of(Symbol("", SECTION_SYMBOL, self.function.section, 0, 0), offset)

    def check_calls(self) -> None:
        for place, name in self.calls():
            if name in INSTRUCTIONS:
                continue
            text = f"{self.function.name} calls {name}{purpose(name)}"
            raise LinkError(f"{text}@, which isn't part of the program", place)

    def check_constant(self, found: Relocation, offset: int, place: int) -> int:
        """Returns the index of the section of a constant that the word at this place has the address of."""
        name = self.object.name_of(found.symbol, offset)
        section = self.object.sections[found.symbol.section]
        if found.kind not in ADDRESSES or not found.symbol.section:
            raise LinkError(f"{self.function.name} uses {name}@, which isn't part of the program", place)
        if section.is_writable and not section.name.startswith(".data.rel.ro"):
            raise LinkError(f"the variable {name}@ would outlive a segment", place)
        return found.symbol.section

    def tables(self) -> Tables:
        """Returns the constants that the function uses, and those whose addresses these have."""
        contents: dict[str, bytes] = {}
        addresses = {}
        sections = {
            place: self.check_constant(found, found.symbol.value + self.immediate(place), place)
            for place, found in self.relocations.items()
            if found.kind != CALL
        }
        inlined = {place: INSTRUCTIONS[name] for place, name in self.calls() if name in INSTRUCTIONS}
        waiting = [(index, place) for place, index in sections.items()]
        while waiting:
            index, place = waiting.pop()
            table, name = self.object.sections[index].contents, self.object.unique_name(index)
            if name not in contents:
                contents[name] = table
                for found in self.object.relocations(index):
                    offset = found.symbol.value + int.from_bytes(table[found.offset : found.offset + 8], "little")
                    target = self.check_constant(found, offset, place)
                    addresses[name, found.offset] = self.object.unique_name(target), offset
                    waiting.append((target, place))
        loads = {place: self.object.unique_name(index) for place, index in sections.items()}
        return Tables(contents, loads, addresses, inlined)

    def with_offsets(self) -> bytes:
        """Returns the words, with each address as an offset in its section."""
        words = bytearray(self.words)
        for place, found in self.relocations.items():
            if found.kind != CALL:
                struct.pack_into("<i", words, place * WORD + 4, self.immediate(place) + found.symbol.value)
        return bytes(words)


def find_function(file: ObjectFile, name: str) -> Symbol:
    found = [symbol for symbol in file.functions if symbol.name == name]
    if len(found) == 1 and found[0].size % WORD == 0 and found[0].size:
        return found[0]
    others = ", ".join(sorted({symbol.name for symbol in file.functions})) or "none"
    if not found:
        raise ObjectError(f"there is no function {name} (see --function); the functions are: {others}")
    raise ObjectError(f"the function {name} is there {len(found)} times" if len(found) > 1 else f"{name} has no size")


# ---- Source lines


def listing(path: Path, linker: Linker, option: str) -> Iterator[tuple[int, str]]:
    """Yields the notes that llvm-objdump shows, each with the place of the word after it."""
    function, sections = linker.function, linker.object.sections
    command = [os.environ.get("OBJDUMP", "llvm-objdump"), "-d", option, "--no-show-raw-insn"]
    command += [f"--section={sections[function.section].name}", str(path)]
    done = subprocess.run(command, stdin=subprocess.DEVNULL, capture_output=True, text=True, timeout=300)
    missing = re.search(r"failed to find source (.*)", done.stderr)
    if missing and option == "-S":
        raise ObjectError(f"there is no source file {missing[1]}")
    # It shows each section of this name that has code.
    shown = [index for index in linker.object.namesakes(function.section) if sections[index].is_code]
    before = iter(shown)
    section, notes = shown[0], list[str]()
    for line in done.stdout.splitlines():
        word = re.match(r" *([0-9]+):", line)
        if line.startswith("Disassembly of section"):
            section = next(before, 0)
        elif line.startswith("; "):
            notes.append(line[2:].rstrip("\r"))
        elif word:
            place = int(word[1]) - function.value // WORD
            inside = section == function.section and 0 <= place < function.size // WORD
            yield from ((place, note) for note in notes if inside)
            notes = []


def source_line(path: Path, linker: Linker, place: int | None) -> str:
    """Returns the source line of a word in parentheses, or nothing if it isn't known."""
    try:
        notes = list(listing(path, linker, "-l"))
    except FileNotFoundError:
        return ""
    named = [
        (at, note) for at, note in notes if re.search(r":[1-9][0-9]*$", note) and place is not None and at <= place
    ]
    return f" ({Path(named[-1][1]).name})" if named else ""


def source_lines(path: Path, linker: Linker) -> dict[int, list[str]]:
    lines = [f"{place}\t{note}" for place, note in listing(path, linker, "-S")]
    if not lines:
        raise ObjectError("there are no source lines; compile with -g")
    return read_lines("\n".join(lines))


def link(path: Path, name: str, output: Path, lines: Path | None) -> None:
    file = ObjectFile(path.read_bytes())
    linker = Linker(file, find_function(file, name))
    try:
        linker.check_calls()
        tables = linker.tables()
        words, layout = put_in_order(linker.with_offsets(), tables)
    except ProgramError as error:
        text = str(error) if "@" in str(error) else f"{error}@"
        raise ProgramError(text.replace("@", source_line(path, linker, error.place), 1)) from error
    moved = move_lines(source_lines(path, linker), layout) if lines else ""
    output.write_bytes(words)
    if lines:
        lines.write_text(moved)


def main() -> int:
    summary, _, rest = (__doc__ or "").partition("\n")
    formatter = argparse.RawDescriptionHelpFormatter
    parser = argparse.ArgumentParser(description=summary, epilog=rest, formatter_class=formatter)
    parser.add_argument("object", type=Path, metavar="OBJECT", help="the object file")
    parser.add_argument("output", type=Path, metavar="OUTPUT", help="the file to write")
    parser.add_argument("--function", default="choose", help="the function that is the program (choose)")
    parser.add_argument("--lines", type=Path, metavar="LINES", help="the file of source lines to write")
    options = parser.parse_args()
    try:
        link(options.object, options.function, options.output, options.lines)
    except (ObjectError, ProgramError, OSError) as error:
        print(f"link.py: {options.object.name}: {error}", file=sys.stderr)
        return 1
    return 0


if __name__ == "__main__":
    sys.exit(main())
