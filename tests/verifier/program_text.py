"""A program's text, read into instructions."""
import re
from collections.abc import Iterator
from typing import Any, NamedTuple

from verifier.helpers import HELPERS
from verifier.results import signed

SIZES = {"b": 1, "h": 2, "w": 4, "dw": 8}
OPERATIONS = "add|sub|mul|div|sdiv|or|and|lsh|rsh|mod|smod|xor|mov|arsh"
CONDITIONS = "jeq|jgt|jge|jset|jne|jsgt|jsge|jlt|jle|jslt|jsle"
PATTERNS = (
    ("arithmetic", f"({OPERATIONS})(32)?"),
    ("negate", "neg(32)?"),
    ("extend", "movsx(8|16|32)(_32)?"),
    ("swap", "(le|be|swap)(16|32|64)"),
    ("jump", f"({CONDITIONS})(32)?"),
    ("always", "ja(32)?"),
    ("call", "call"),
    ("exit", "exit"),
    ("wide", "lddw"),
    ("load", "ldx(s?)(b|h|w|dw)"),
    ("store", "st(x?)(b|h|w|dw)"),
)
FORMS = [(form, re.compile(pattern)) for form, pattern in PATTERNS]


def operand(text: str) -> str | tuple[str, int] | int:
    """Returns a register's name, an address as its base and offset, or a number."""
    if text.startswith("r"):
        return text
    if text.startswith("["):
        address = re.fullmatch(r"\[(r\d+)([+-]\d+)?\]", text)
        if address is None:
            raise ValueError("no such operand: " + text)
        return address[1], int(address[2] or 0)
    return int(text, 0)


def immediate(word: str | tuple[str, int] | int) -> str | tuple[str, int] | int:
    """Returns a number as the immediate with the same 32 bits, and any other operand unchanged."""
    return signed(word % (1 << 32), 32) if isinstance(word, int) else word


class Instruction(NamedTuple):
    """An instruction. What its operands are depends on its form: `operand`."""

    form: str
    parts: tuple[Any, ...]
    operands: tuple[Any, ...]
    after: int
    mnemonic: str

    def targets(self) -> list[int]:
        """Returns the places that the edges lead to, in the order of `step`."""
        if self.form == "exit":
            return []
        if self.form == "always":
            return [self.after + self.operands[0]]
        return [self.after + self.operands[2], self.after] if self.form == "jump" else [self.after]

    def overwrites(self) -> bool:
        """Returns whether the first operand is written and not read."""
        return self.form in ("wide", "load", "extend") or self.parts[:1] == ("mov",)

    def written(self) -> set[str]:
        """Returns the registers whose previous value is lost."""
        if self.form == "call":
            return {f"r{at}" for at in range(6)}
        return {self.operands[0]} if self.overwrites() else set()

    def read(self) -> set[str]:
        """Returns the registers that are read."""
        operands = self.operands[self.overwrites() :]
        read = {
            part
            for word in operands
            for part in (word if isinstance(word, tuple) else (word,))
            if isinstance(part, str)
        }
        if self.form == "call":
            arguments = HELPERS[self.operands[0]][0] if self.operands[0] in HELPERS else []
            read |= {f"r{at}" for at in range(1, len(arguments) + 1)}
        return read | {"r0"} if self.form == "exit" else read


def read_line(line: str, place: int) -> Instruction:
    mnemonic, _, rest = line.partition(" ")
    for form, pattern in FORMS:
        found = pattern.fullmatch(mnemonic)
        if found:
            operands = tuple(operand(word) for word in rest.split(", ") if word)
            if form == "wide":
                return Instruction(form, found.groups(), operands, place + 2, mnemonic)
            return Instruction(form, found.groups(), tuple(map(immediate, operands)), place + 1, mnemonic)
    raise ValueError("no such instruction: " + line)


def without_labels(lines: list[str]) -> Iterator[str]:
    """Returns the lines of instructions, with distances instead of labels."""
    afters: list[tuple[str, int]] = []
    labels: dict[str, int] = {}
    place = 0
    for line in lines:
        if line.endswith(":"):
            labels[line[:-1]] = place
        else:
            place += 2 if line.startswith("lddw") else 1
            afters.append((line, place))
    for line, after in afters:
        start, _, last = line.rpartition(" ")
        yield f"{start} {labels[last] - after:+d}" if last in labels else line


def read_instructions(text: str) -> dict[int, Instruction]:
    """Returns the instructions by place."""
    program: dict[int, Instruction] = {}
    place = 0
    for line in without_labels([line.strip() for line in text.split("|")]):
        program[place] = read_line(line, place)
        place = program[place].after
    return program


def read_program(text: str) -> dict[int, Instruction]:
    """Returns the instructions by place. Raises ValueError unless all jumps lead forwards to an instruction and the last one is an exit."""
    program = read_instructions(text)
    edges = [(place, target) for place, instruction in program.items() for target in instruction.targets()]
    if (
        any(target <= place or target not in program for place, target in edges)
        or list(program.values())[-1].form != "exit"
    ):
        raise ValueError("no forward code: " + text)
    return program
