#!/usr/bin/env python3
"""Makes a program of what a compiler writes, without loops and with jumps that lead forwards: forward.py PROGRAM OUTPUT

`extractd` refuses each jump to an earlier word (30 BackwardJump), but a compiler leaves loops, and it may well put a
shared ending before a jump to it. This tool reads the words of a program, writes out the rounds of its loops, reorders
its basic blocks and writes the words again. What the program computes stays the same. OUTPUT may be PROGRAM itself.

- A loop is written out if each round decides whether there is another one, as rounds.py says.
- Jumps that are never taken are added where the verifier has to know the bounds of a number that it can't see.
- Blocks that can't be reached are left out, and so are jumps to the next word.
- A program that needs nothing of that, and whose jumps all lead forwards, keeps its order.
- A conditional jump that ends up more than 32,767 words before its target reaches it by way of a `ja32`.
- If the rounds of a loop have no end that can be seen, the error names the jump that closes the loop. Places count
  words from 0, as in `extractd verify`.

With --lines OLD NEW it also reads the program's source lines, as lines.sh writes them, and writes them with their new
places.

The output is verified like any other program, so its safety doesn't depend on this tool. Exit status 1 means that no
program was written.
"""
# Needs only Python 3.11.

import argparse
import heapq
import struct
import sys
from collections import Counter
from collections.abc import Iterator
from dataclasses import dataclass, replace
from functools import cached_property
from pathlib import Path

from instructions import (
    JA,
    JA32,
    WORD,
    Block,
    Instruction,
    LoopError,
    ProgramError,
    check_length,
    find_reachable,
    read_instructions,
    split_into_blocks,
)
from intervals import OPPOSITES
from rounds import copy_rounds
from tables import Tables, put_into_frame, with_sections

__all__ = ["LoopError", "ProgramError", "move_lines", "put_in_order", "read_lines"]

# The reach of a jump's offset field, in words from the word after the jump.
FARTHEST = 32_767

# ---- Blocks


def order_blocks(blocks: dict[int, Block]) -> list[Block]:
    """Returns the blocks in an order in which each comes after all blocks that lead to it.

    The block that follows in the program comes next if possible, else the first possible one.
    """
    missing = Counter(target for block in blocks.values() for target in block.last.successors())
    order: list[Block] = []
    ready = [] if missing[0] else [0]
    while ready:
        start: int | None = heapq.heappop(ready)
        while start is not None:
            block, start = blocks[start], None
            order.append(block)
            for target in block.last.successors():
                missing[target] -= 1
                if missing[target] == 0 and target == block.last.fall_through:
                    start = target
                elif missing[target] == 0:
                    heapq.heappush(ready, target)
    return order


# ---- Words


@dataclass(frozen=True)
class Branch:
    """A jump at the end of a block: conditional as it was read, or unconditional."""

    target: int
    condition: Instruction | None = None

    def word(self, distance: int) -> bytes:
        if self.condition is not None:
            data = self.condition.data
            return data[:2] + struct.pack("<h", distance) + data[4:]
        if distance <= FARTHEST:
            return struct.pack("<BBhi", JA, 0, distance, 0)
        return struct.pack("<BBhi", JA32, 0, 0, distance)


def opposite(jump: Instruction) -> Instruction:
    """Returns the jump with the opposite condition."""
    opcode = OPPOSITES[jump.opcode >> 4] << 4 | jump.opcode & 15
    return replace(jump, data=bytes((opcode,)) + jump.data[1:])


@dataclass
class Layout:
    """Blocks in order, and the starts of those whose conditional jump is too far from its target."""

    order: list[Block]
    far: set[int]

    @cached_property
    def is_short(self) -> bool:
        """Whether any jump may take the place of another, as all targets are near."""
        return sum(len(block.body) // WORD + 2 for block in self.order) < FARTHEST

    @cached_property
    def branches(self) -> list[list[Branch]]:
        """Returns the jumps at the end of each block."""
        follower = [block.start for block in self.order[1:]]
        return [self.branches_of(block, start) for block, start in zip(self.order, [*follower, None], strict=True)]

    def branches_of(self, block: Block, follower: int | None) -> list[Branch]:
        last = block.last
        if last.is_conditional:
            rest, taken = last.successors()[0], last.successors()[-1]
            if block.start in self.far:
                return [Branch(taken, last), Branch(rest), Branch(taken)]
            if self.is_short and taken == follower != rest and last.opcode >> 4 in OPPOSITES:
                return [Branch(rest, opposite(last))]
            return [Branch(taken, last)] if rest == follower else [Branch(taken, last), Branch(rest)]
        successors = last.successors()
        return [Branch(target) for target in successors if target != follower]

    @cached_property
    def places(self) -> dict[int, int]:
        """Returns the new place of each block by its start."""
        places, place = {}, 0
        for block, branches in zip(self.order, self.branches, strict=True):
            places[block.start] = place
            place += len(block.body) // WORD + len(branches)
        check_length(place)
        return places

    def encode(self) -> bytes | None:
        """Returns the words, or None after adding a block to `far` whose conditional jump can't reach its target."""
        words = bytearray()
        known = len(self.far)
        for block, branches in zip(self.order, self.branches, strict=True):
            words += block.body
            for branch in branches:
                distance = self.places[branch.target] - len(words) // WORD - 1
                if branch.condition is not None and block.start in self.far:
                    distance = 1
                elif branch.condition is not None and distance > FARTHEST:
                    self.far.add(block.start)
                    distance = 0
                words += branch.word(distance)
        return bytes(words) if len(self.far) == known else None

    def moved(self) -> Iterator[tuple[Instruction, int]]:
        """Yields the instructions in order, each with its new place."""
        for block in self.order:
            for instruction in block.instructions:
                yield instruction, self.places[block.start] + instruction.place - block.start


def lay_out(blocks: dict[int, Block]) -> tuple[bytes, Layout]:
    order, far = order_blocks(blocks), set[int]()
    while True:
        layout = Layout(order, far)
        words = layout.encode()
        if words is not None:
            return words, layout


def put_in_order(data: bytes, tables: Tables | None = None) -> tuple[bytes, Layout]:
    """Returns the words in order, with the rounds of loops written out and tables in the frame."""
    tables = tables or Tables()
    instructions = with_sections(read_instructions(data), tables)
    blocks = split_into_blocks(find_reachable(instructions))
    is_plain = not tables.loads and len(order_blocks(blocks)) == len(blocks)
    try:
        copies = copy_rounds(blocks, tables)
    except LoopError:
        if is_plain:
            return lay_out(blocks)
        raise
    if is_plain and not (copies.changed or copies.unwritten):
        return lay_out(blocks)
    placed = put_into_frame(copies.instructions(), tables.contents, copies.lowest, copies.unwritten)
    return lay_out(split_into_blocks(placed))


# ---- Source lines


def read_lines(text: str) -> dict[int, list[str]]:
    """Returns the source lines of each place that has any."""
    lines: dict[int, list[str]] = {}
    for line in text.split("\n"):
        place, tab, source = line.partition("\t")
        if tab and place.isdecimal():
            lines.setdefault(int(place), []).append(source)
        elif line:
            raise ProgramError(f"this is no source line with its place: {line}")
    return lines


def move_lines(lines: dict[int, list[str]], layout: Layout) -> str:
    """Returns the source lines with their new places.

    A line also covers the words after its own, up to the next line. So a block that no longer follows those words gets
    the line again.
    """
    moved, following = [], None
    for instruction, place in layout.moved():
        sources = lines.get(instruction.origin, [])
        if not sources and instruction.origin != following:
            before = max((known for known in lines if known < instruction.origin), default=None)
            sources = [] if before is None else lines[before][-1:]
        moved += [f"{place}\t{source}\n" for source in sources]
        following = instruction.origin + len(instruction.data) // WORD
    return "".join(moved)


def main() -> int:
    summary, _, rest = (__doc__ or "").partition("\n")
    formatter = argparse.RawDescriptionHelpFormatter
    parser = argparse.ArgumentParser(description=summary, epilog=rest, formatter_class=formatter)
    parser.add_argument("program", type=Path, metavar="PROGRAM", help="the file of the program's words")
    parser.add_argument("output", type=Path, metavar="OUTPUT", help="the file to write")
    parser.add_argument("--lines", type=Path, nargs=2, metavar=("OLD", "NEW"), help="source lines to read and to write")
    options = parser.parse_args()
    try:
        words, layout = put_in_order(options.program.read_bytes())
        moved = move_lines(read_lines(options.lines[0].read_text()), layout) if options.lines else ""
        options.output.write_bytes(words)
        if options.lines:
            options.lines[1].write_text(moved)
    except (ProgramError, OSError, UnicodeDecodeError) as error:
        print(f"forward.py: {error}", file=sys.stderr)
        return 1
    return 0


if __name__ == "__main__":
    sys.exit(main())
