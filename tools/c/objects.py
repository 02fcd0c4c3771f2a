"""Reads what a compiler writes: an object file for BPF, in the format ELF."""

import struct
from dataclasses import dataclass
from functools import cached_property
from typing import NamedTuple

__all__ = ["ADDRESSES", "CALL", "FUNCTION", "ObjectError", "ObjectFile", "Relocation", "Section", "Symbol"]

# The numbers of <elf.h>.
BPF_MACHINE, RELOCATABLE = 247, 1
SYMBOL_TABLE, RELOCATIONS, RELOCATIONS_WITH_ADDEND, WRITABLE, EXECUTABLE = 2, 9, 4, 1, 4
FUNCTION, SECTION_SYMBOL = 2, 3
# Addresses: R_BPF_64_64 of a wide load, R_BPF_64_ABS64 of a table, and what GCC 12 has for that. R_BPF_64_32 is a call.
ADDRESSES, CALL = (1, 2, 12), 10
MACHINES = {3: "x86", 40: "ARM", 62: "x86-64", 183: "AArch64", 243: "RISC-V", 21: "PowerPC", 22: "s390"}
BITCODE = (b"BC\xc0\xde", b"\xde\xc0\x17\x0b")


class ObjectError(Exception):
    """The file isn't an object that a program can be made of."""


class Section(NamedTuple):
    name: str
    kind: int
    flags: int
    contents: bytes
    link: int
    info: int

    @property
    def is_writable(self) -> bool:
        return bool(self.flags & WRITABLE)

    @property
    def is_code(self) -> bool:
        return bool(self.flags & EXECUTABLE and self.contents)


class Symbol(NamedTuple):
    name: str
    kind: int
    section: int  # 0 if it is defined elsewhere
    value: int
    size: int


class Relocation(NamedTuple):
    offset: int
    kind: int
    symbol: Symbol


def text_at(table: bytes, start: int) -> str:
    return table[start : table.index(b"\0", start)].decode(errors="replace")


def check_format(data: bytes) -> None:
    if data[:4] in BITCODE:
        raise ObjectError("this is LLVM's bitcode, which -flto or -emit-llvm makes; compile without the option")
    if data[:4] != b"\x7fELF" or len(data) < 64:
        raise ObjectError("this is no object file")
    kind, machine = struct.unpack_from("<HH" if data[5] == 1 else ">HH", data, 16)
    if machine != BPF_MACHINE:
        raise ObjectError(f"this object is for {MACHINES.get(machine, f'machine {machine}')}, not for BPF")
    if data[5] != 1:
        raise ObjectError("this object is big-endian; compile with --target=bpfel")
    if kind != RELOCATABLE:
        raise ObjectError("this is no object file of a compiler, which -c makes")


@dataclass(frozen=True)
class ObjectFile:
    data: bytes

    def __post_init__(self) -> None:
        check_format(self.data)

    @cached_property
    def sections(self) -> list[Section]:
        start, size, count, names = struct.unpack_from("<Q10xHHH", self.data, 40)
        if start + size * count > len(self.data):
            raise ObjectError("this object file is cut off")
        heads = [struct.unpack_from("<IIQQQQIIQQ", self.data, start + size * index) for index in range(count)]
        texts = self.data[heads[names][4] :]
        return [
            Section(text_at(texts, head[0]), head[1], head[2], self.data[head[4] : head[4] + head[5]], *head[6:8])
            for head in heads
        ]

    def namesakes(self, index: int) -> list[int]:
        """Returns the indexes of all sections with the name of this one."""
        return [other for other, section in enumerate(self.sections) if section.name == self.sections[index].name]

    def unique_name(self, index: int) -> str:
        """Returns the name of a section, with its number among those of one name."""
        alike = self.namesakes(index)
        return self.sections[index].name + (f"[{alike.index(index)}]" if len(alike) > 1 else "")

    @cached_property
    def symbols(self) -> list[Symbol]:
        if any(section.name.startswith(".gnu.lto_") for section in self.sections):
            raise ObjectError("this object was compiled with -flto; compile without the option")
        table = next((section for section in self.sections if section.kind == SYMBOL_TABLE), None)
        if table is None:
            raise ObjectError("this object has no symbols, so its functions can't be found; don't strip it")
        texts = self.sections[table.link].contents
        return [
            Symbol(text_at(texts, name), info & 15, section, value, size)
            for name, info, _, section, value, size in struct.iter_unpack("<IBBHQQ", table.contents)
        ]

    @cached_property
    def functions(self) -> list[Symbol]:
        return [symbol for symbol in self.symbols if symbol.kind == FUNCTION and symbol.section]

    def name_of(self, symbol: Symbol, offset: int) -> str:
        """Returns the name of a symbol, or of what is at this offset if it stands for a section."""
        if symbol.kind != SECTION_SYMBOL:
            return symbol.name
        inside = [
            other.name
            for other in self.symbols
            if other.section == symbol.section and other.kind in (1, FUNCTION) and other.value == offset
        ]
        return inside[0] if inside else self.sections[symbol.section].name

    def relocations(self, section: int) -> list[Relocation]:
        """Returns the places in a section that hold what isn't known yet."""
        found = []
        for table in self.sections:
            if table.kind in (RELOCATIONS, RELOCATIONS_WITH_ADDEND) and table.info == section:
                layout = "<QQ" if table.kind == RELOCATIONS else "<QQ8x"
                for offset, info in struct.iter_unpack(layout, table.contents):
                    found.append(Relocation(offset, info & 0xFFFFFFFF, self.symbols[info >> 32]))
        return found
