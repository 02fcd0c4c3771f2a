"""Puts constant tables and texts into the frame, since a program has no other memory of its own."""

import struct
from collections.abc import Iterable, Mapping
from dataclasses import dataclass, field, replace

from instructions import WIDE_LOAD, WORD, Instruction, ProgramError

__all__ = ["Tables", "put_into_frame", "with_sections"]

FRAME_BYTES = 512
MOVE, ADD_NUMBER, STORE_NUMBER, STORE = 0xBF, 0x07, 0x7A, 0x7B
FRAME_POINTER = 10


@dataclass(frozen=True)
class Tables:
    """The sections with constants, and where their addresses are."""

    contents: Mapping[str, bytes] = field(default_factory=dict)
    # The section of a wide load, by place.
    loads: Mapping[int, str] = field(default_factory=dict)
    # The section and the offset that a table has the address of, by the table's section and offset.
    addresses: Mapping[tuple[str, int], tuple[str, int]] = field(default_factory=dict)
    # The opcodes of the calls that are an instruction: r0 becomes the result for r1 and r2.
    inlined: Mapping[int, int] = field(default_factory=dict)


def with_sections(instructions: Mapping[int, Instruction], tables: Tables) -> dict[int, Instruction]:
    """Returns the instructions with what the object file says about them."""
    known = {
        place: replace(instruction, section=tables.loads.get(place)) for place, instruction in instructions.items()
    }
    for added, (place, opcode) in enumerate(tables.inlined.items(), max(known) + 2):
        known[added] = replace(known[place], place=added, data=word(opcode, 0, 2, 1, 0))
        known[place] = replace(known[place], data=word(MOVE, 0, 1, 0, 0), fall_through=added)
    return known


def word(opcode: int, destination: int, source: int, offset: int, immediate: int) -> bytes:
    return struct.pack("<BBhi", opcode, destination | source << 4, offset, immediate)


def stores(table: bytes, offset: int) -> Iterable[bytes]:
    """Returns the words that store a table at an offset from r10. They use r0, which is empty at the start."""
    for first in range(0, len(table), WORD):
        value = int.from_bytes(table[first : first + WORD].ljust(WORD, b"\0"), "little", signed=True)
        if -(2**31) <= value < 2**31:
            yield word(STORE_NUMBER, FRAME_POINTER, 0, offset + first, value)
        else:
            low, high = struct.unpack("<ii", struct.pack("<q", value))
            yield word(WIDE_LOAD, 0, 0, 0, low) + word(0, 0, 0, 0, high)
            yield word(STORE, FRAME_POINTER, 0, offset + first, 0)


def put_into_frame(
    instructions: list[Instruction], tables: Mapping[str, bytes], lowest: int, unwritten: int
) -> list[Instruction]:
    """Returns a program that first stores its tables below the lowest offset in the frame that it uses.

    It also fills the slots with 0 of which a byte is in `unwritten`, which has a bit for each byte of the frame.
    """
    used = sorted({instruction.section for instruction in instructions if instruction.section is not None})
    offsets, offset = {}, lowest // WORD * WORD
    for name in used:
        offset -= -(-len(tables[name]) // WORD) * WORD
        offsets[name] = offset
    if offset < -FRAME_BYTES:
        place = next(instruction.origin for instruction in instructions if instruction.section is not None)
        text = f"the constants in {', '.join(used)} have {lowest // WORD * WORD - offset} bytes"
        raise ProgramError(f"{text}, and the frame has {FRAME_BYTES + lowest // WORD * WORD} left for them", place)
    start = b"".join(data for name in used for data in stores(tables[name], offsets[name]))
    slots = [offset for offset in range(0, FRAME_BYTES, WORD) if unwritten >> offset & 0xFF]
    start += b"".join(word(STORE_NUMBER, FRAME_POINTER, 0, offset - FRAME_BYTES, 0) for offset in slots)
    return shifted(start, [addressed(instruction, offsets) for instruction in instructions])


def addressed(instruction: Instruction, offsets: Mapping[str, int]) -> Instruction:
    """Returns an instruction that makes a pointer into the frame of a wide load of a table's address."""
    if instruction.section is None:
        return instruction
    register, offset = instruction.data[1] & 15, offsets[instruction.section] + instruction.immediate
    data = word(MOVE, register, FRAME_POINTER, 0, 0) + word(ADD_NUMBER, register, 0, 0, offset)
    return replace(instruction, data=data)


def shifted(start: bytes, instructions: list[Instruction]) -> list[Instruction]:
    """Returns the instructions after these words."""
    words = len(start) // WORD

    def moved(place: int | None) -> int | None:
        return None if place is None else place + words

    rest = [
        replace(
            instruction,
            place=instruction.place + words,
            target=moved(instruction.target),
            fall_through=moved(instruction.fall_through),
        )
        for instruction in instructions
    ]
    return [Instruction(0, start, None, words, 0), *rest] if start else rest
