"""Reads the instructions of a program, and splits it into blocks. Needs only Python 3.11."""

import struct
from collections.abc import Iterable
from dataclasses import dataclass
from functools import cached_property

__all__ = [
    "EXIT",
    "JA",
    "JA32",
    "MOST_WORDS",
    "WIDE_LOAD",
    "WORD",
    "Block",
    "Instruction",
    "LoopError",
    "ProgramError",
    "check_length",
    "find_reachable",
    "read_instructions",
    "split_into_blocks",
]

WORD = 8
MOST_WORDS = 65_536

# Opcodes of RFC 9669.
WIDE_LOAD, JA, JA32, EXIT = 0x18, 0x05, 0x06, 0x95
JUMP_CLASSES = (0x05, 0x06)
CONDITIONS = (0x1, 0x2, 0x3, 0x4, 0x5, 0x6, 0x7, 0xA, 0xB, 0xC, 0xD)


class ProgramError(Exception):
    """The program can't be put in order. `place` is where, if one word is to blame."""

    def __init__(self, text: str, place: int | None = None) -> None:
        super().__init__(text)
        self.place = place


class LoopError(ProgramError):
    """The program has a loop."""


@dataclass(frozen=True)
class Instruction:
    place: int
    data: bytes  # one word, or the two of a wide load
    target: int | None  # the place that a jump leads to
    fall_through: int | None  # the place of the next instruction if the program may go on there without a jump
    origin: int  # the place in the compiler's code
    section: str | None = None  # the section whose address a wide load has

    @property
    def opcode(self) -> int:
        return self.data[0]

    @property
    def immediate(self) -> int:
        return int.from_bytes(self.data[4:8], "little", signed=True)

    @property
    def next_place(self) -> int:
        return self.place + len(self.data) // WORD

    @property
    def is_conditional(self) -> bool:
        return is_conditional(self.opcode)

    @property
    def is_jump(self) -> bool:
        return self.target is not None

    def successors(self) -> list[int]:
        places = [] if self.fall_through is None else [self.fall_through]
        if self.target is not None and self.target not in places:
            places.append(self.target)
        return places


def is_conditional(opcode: int) -> bool:
    return opcode & 7 in JUMP_CLASSES and opcode >> 4 in CONDITIONS


def read_instruction(place: int, data: bytes) -> Instruction:
    opcode, next_place = data[0], place + len(data) // WORD
    offset: int
    immediate: int
    offset, immediate = struct.unpack_from("<hi", data, 2)
    jumps = opcode in (JA, JA32) or is_conditional(opcode)
    target = next_place + (immediate if opcode == JA32 else offset) if jumps else None
    return Instruction(place, data, target, None if opcode in (JA, JA32, EXIT) else next_place, place)


def read_instructions(data: bytes) -> dict[int, Instruction]:
    """Returns the instructions by place."""
    if not data:
        raise ProgramError("the program is empty")
    if len(data) % WORD:
        raise ProgramError(f"the program has {len(data)} bytes, which isn't a multiple of {WORD}")
    check_length(len(data) // WORD)
    instructions = {}
    place, end = 0, len(data) // WORD
    while place < end:
        size = 2 if data[place * WORD] == WIDE_LOAD else 1
        if place + size > end:
            raise ProgramError(f"the wide load at place {place} lacks its second word", place)
        instructions[place] = read_instruction(place, data[place * WORD : (place + size) * WORD])
        place += size
    return instructions


def check_length(words: int) -> None:
    """Raises an error if a program is too long.

    A compiler may truncate the distance of a jump to 16 bits. Unless the program is too long, the target of such a jump
    is outside of the program, so it isn't mistaken for another place.
    """
    if words > MOST_WORDS:
        raise ProgramError(f"the program has {words} words, and it may have {MOST_WORDS}")


def check_successor(instruction: Instruction, target: int, instructions: dict[int, Instruction]) -> None:
    if target in instructions:
        return
    place = instruction.place
    if target == instruction.fall_through:
        raise ProgramError(f"the program runs past its last word after place {place}", place)
    jump = f"the jump at place {place} leads to place {target}"
    before = instructions.get(target - 1)
    if before is not None and before.next_place > target:
        raise ProgramError(f"{jump}, the second word of a wide load", place)
    raise ProgramError(f"{jump}, which is outside of the program", place)


def find_reachable(instructions: dict[int, Instruction]) -> list[Instruction]:
    """Returns the instructions that can be reached from place 0, in the program's order."""
    reached, waiting = {0}, [0]
    while waiting:
        instruction = instructions[waiting.pop()]
        for target in instruction.successors():
            check_successor(instruction, target, instructions)
            if target not in reached:
                reached.add(target)
                waiting.append(target)
    return [instructions[place] for place in sorted(reached)]


@dataclass(frozen=True)
class Block:
    """Instructions that the program enters only at the first and leaves only after the last."""

    instructions: tuple[Instruction, ...]

    @property
    def start(self) -> int:
        return self.instructions[0].place

    @property
    def last(self) -> Instruction:
        return self.instructions[-1]

    @cached_property
    def body(self) -> bytes:
        """Returns the words without those of a jump at the end."""
        kept = self.instructions[:-1] if self.last.is_jump else self.instructions
        return b"".join(instruction.data for instruction in kept)


def split_into_blocks(reachable: Iterable[Instruction]) -> dict[int, Block]:
    """Returns the blocks by start, in the program's order."""
    reachable = list(reachable)
    starts = {0}
    for instruction in reachable:
        if instruction.is_jump:
            starts.update(instruction.successors())
    blocks: dict[int, Block] = {}
    current: list[Instruction] = []
    for instruction in reachable:
        if current and (instruction.place in starts or current[-1].fall_through != instruction.place):
            blocks[current[0].place] = Block(tuple(current))
            current = []
        current.append(instruction)
    blocks[current[0].place] = Block(tuple(current))
    return blocks
