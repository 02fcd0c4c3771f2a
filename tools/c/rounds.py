"""Unrolls the loops of a program: writes out each round that may run, by what is known before each instruction.

A loop is unrolled if each of its rounds decides whether there is another one. A counter that begins with a number and
ends at a number does that, and so does a quotient that becomes 0. Each round has one copy of the loop's blocks, so the
states of the ways through a round are joined where they meet.
"""

import heapq
import struct
from collections.abc import Callable, Mapping
from dataclasses import dataclass, field, replace

from instructions import EXIT, JA, JA32, MOST_WORDS, WIDE_LOAD, WORD, Block, Instruction, LoopError
from intervals import signed
from kinds import FRAME, NUMBER, RECORD, SIZES, SUBTRACT, Kind, State, branch, frame_bytes, is_undecided, step
from tables import Tables

__all__ = ["Copies", "components", "copy_rounds"]

Successors = Callable[[int], list[int]]
# A block's positions among the components around it, the outermost first, each with the start of the loop's head.
Path = list[tuple[int, int | None]]
# The positions and the rounds, alternating. A copy comes after all copies that lead to it.
Positions = tuple[int, ...]
# A copy's positions, and its shape.
Key = tuple[Positions, str]
NAME_COPY, NAME_IS, CALL, MOVE, MOVE_NUMBER = 6, 7, 0x85, 0xB, 0xB7
JUMP_ABOVE, JUMP_BELOW = 0x25, 0xA5
# How many arguments each helper function has, and which must have bounds.
ARGUMENTS = {1: 1, 2: 1, 3: 0, 4: 0, 5: 2, 6: 3, 7: 3, 8: 1, 9: 1}
BOUNDED_ARGUMENTS = {1: [1], 2: [1], 6: [3], 7: [3], 9: [1]}
POINTER_ARITHMETIC = (0x0F, 0x1F)
# Each `or` that may move a pointer, and the `add` that does the same.
POINTER_ADDITIONS = {0x4F: 0x0F, 0x47: 0x07}
MOST_ROUNDS = 256
# How many words are tried, by what keeps states apart.
WORD_LIMITS = (MOST_WORDS, 16_384, 16_384)
# Loads, stores, and jumps with calls.
ACCESS_CLASSES = (1, 2, 3, 5, 6)
# Instead of a target: the end that a program never reaches.
TRAP = -1


# ---- Loops


def leaving_order(nodes: set[int], successors: Successors) -> list[int]:
    """Returns the nodes in the order in which a depth-first search leaves them."""
    left: list[int] = []
    seen: set[int] = set()
    waiting = [(root, False) for root in sorted(nodes, reverse=True)]
    while waiting:
        node, finished = waiting.pop()
        if finished:
            left.append(node)
        elif node not in seen:
            seen.add(node)
            waiting.append((node, True))
            waiting += [(target, False) for target in successors(node) if target in nodes and target not in seen]
    return left


def reached_from(root: int, nodes: set[int], edges: Mapping[int, list[int]]) -> set[int]:
    reached, waiting = {root}, [root]
    while waiting:
        fresh = [target for target in edges[waiting.pop()] if target in nodes and target not in reached]
        reached.update(fresh)
        waiting += fresh
    return reached


def components(nodes: set[int], successors: Successors) -> list[set[int]]:
    """Returns the strongly connected components in topological order, by Kosaraju's algorithm."""
    before: dict[int, list[int]] = {node: [] for node in nodes}
    for node, target in ((node, target) for node in nodes for target in successors(node)):
        if target in nodes:
            before[target].append(node)
    found: list[set[int]] = []
    left = set(nodes)
    for node in reversed(leaving_order(nodes, successors)):
        if node in left:
            found.append(reached_from(node, left, before))
            left -= found[-1]
    return found


def head_of(loop: set[int], blocks: Mapping[int, Block]) -> int:
    """Returns the start of the first block by which the program enters a loop."""
    edges = ((start, target) for start, block in blocks.items() for target in block.last.successors())
    entered = [target for start, target in edges if target in loop and start not in loop]
    return min([*entered, *({0} & loop)], default=min(loop))


def find_paths(blocks: Mapping[int, Block]) -> dict[int, Path]:
    """Returns each block's path. A loop's blocks without the jumps to its head are components of their own."""
    paths: dict[int, Path] = {start: [] for start in blocks}
    heads: set[int] = set()
    waiting = [set(blocks)]

    def successors(start: int) -> list[int]:
        return [target for target in blocks[start].last.successors() if target not in heads]

    while waiting:
        for position, loop in enumerate(components(waiting.pop(), successors)):
            is_loop = len(loop) > 1 or bool(loop & set(successors(min(loop))))
            head = head_of(loop, blocks) if is_loop else None
            for start in loop:
                paths[start].append((position, head))
            if head is not None:
                heads.add(head)
                waiting.append(loop)
    return paths


def positions_after(path: Path, before: Positions, target: int, target_path: Path) -> Positions:
    """Returns the positions of the copy of `target` that an edge leads to, from the copy with this path and these positions."""
    positions: list[int] = []
    together = True
    for level, (position, head) in enumerate(target_path):
        positions.append(position)
        if head is None:
            break
        together = together and level < len(path) and path[level] == (position, head)
        # At each level there is a position, then a round.
        positions.append(before[2 * level + 1] + (head == target) if together else 0)
        together = together and head != target
    return tuple(positions)


# ---- Live registers


def uses(instruction: Instruction) -> set[int]:
    """Returns the registers that an instruction reads."""
    destination, source = instruction.data[1] & 15, instruction.data[1] >> 4
    operands = {destination, source} if instruction.opcode & 8 else {destination}
    match instruction.opcode & 7:
        case 0:
            return set()
        case 1:
            return {source}
        case 2 | 3:
            return {destination, source} if instruction.opcode & 7 == 3 else {destination}
        case 4 | 7 if instruction.opcode >> 4 == MOVE:
            return operands - {destination} | ({source} if instruction.opcode & 8 else set())
    if instruction.opcode == CALL:
        return set(range(1, ARGUMENTS.get(instruction.immediate, 5) + 1))
    if instruction.opcode == EXIT:
        return {0}
    return set() if instruction.opcode in (JA, JA32) else operands


def writes(instruction: Instruction) -> set[int]:
    if instruction.opcode == CALL:
        return set(range(6))
    return {instruction.data[1] & 15} if instruction.opcode & 7 in (0, 1, 4, 7) else set()


def live_before(block: Block, live: set[int]) -> set[int]:
    for instruction in reversed(block.instructions):
        live = live - writes(instruction) | uses(instruction)
    return live


def find_live(blocks: Mapping[int, Block]) -> dict[int, set[int]]:
    """Returns the registers that are read later, at the start of each block."""
    live: dict[int, set[int]] = {start: set() for start in blocks}
    changed = True
    while changed:
        changed = False
        for start, block in reversed(blocks.items()):
            after = set().union(*(live[target] for target in block.last.successors()))
            before = live_before(block, after)
            changed = changed or before != live[start]
            live[start] = before
    return live


# ---- Copies


def lowest_offset(instruction: Instruction, registers: list[Kind | None]) -> int:
    """Returns the lowest offset in the frame that an instruction may reach."""
    base, offset = None, int.from_bytes(instruction.data[2:4], "little", signed=True)
    match instruction.opcode & 7:
        case 1:
            base = registers[instruction.data[1] >> 4]
        case 2 | 3:
            base = registers[instruction.data[1] & 15]
        case 5 if instruction.opcode == CALL and instruction.immediate in (NAME_COPY, NAME_IS):
            base, offset = registers[2], 0
    return base.low + offset if base is not None and base.area == FRAME else 0


def bytes_read(instruction: Instruction, state: State) -> int:
    """Returns the bits of the frame's bytes that an instruction may read, but not those of a known value."""
    if instruction.opcode & 7 == 1:
        base, size = state.registers[instruction.data[1] >> 4], SIZES[instruction.opcode & 0x18]
        offset = int.from_bytes(instruction.data[2:4], "little", signed=True)
    elif instruction.opcode == CALL and instruction.immediate == NAME_IS:
        length = state.registers[3]
        base, offset, size = state.registers[2], 0, 30 if length is None else min(length.high, 30)
    else:
        return 0
    if base is None or base.area != FRAME or (base.low + offset, size) in state.values:
        return 0
    return frame_bytes(base.low + offset, base.high + offset + size)


def rewritten(instruction: Instruction, before: Kind | None, after: Kind | None) -> Instruction:
    """Returns an instruction that the verifier knows as much about as is known here.

    `before` and `after` are the contents of its destination. A known value replaces a load, and `add` replaces an `or`
    that moves a pointer.
    """
    data, register = instruction.data, instruction.data[1] & 15
    if (instruction.opcode & 7 == 1 or instruction.opcode == SUBTRACT) and after is not None and after.is_single:
        value = signed(after.low) if after.is_number else after.low
        if after.is_number and -(2**31) <= value < 2**31:
            return replace(instruction, data=struct.pack("<BBhi", MOVE_NUMBER, register, 0, value))
        if after.area not in (NUMBER, RECORD, FRAME):
            wide = struct.pack("<BBhi", WIDE_LOAD, register, 0, value) + bytes(WORD)
            return replace(instruction, data=wide, section=after.area)
    if instruction.opcode in POINTER_ADDITIONS and before is not None and after is not None and not after.is_number:
        return replace(instruction, data=bytes((POINTER_ADDITIONS[instruction.opcode],)) + data[1:])
    return instruction


def bounded_registers(instruction: Instruction, registers: list[Kind | None]) -> list[int]:
    """Returns the registers with numbers of which the verifier has to know the bounds."""
    destination, source = instruction.data[1] & 15, instruction.data[1] >> 4
    if instruction.opcode == CALL:
        return BOUNDED_ARGUMENTS.get(instruction.immediate, [])
    if instruction.opcode not in POINTER_ARITHMETIC:
        return []
    kinds = [registers[destination], registers[source]]
    return [destination, source] if any(kind is not None and not kind.is_number for kind in kinds) else []


def guards(instruction: Instruction, state: State) -> list[Instruction]:
    """Returns jumps that are never taken, by which the verifier learns the bounds of hidden numbers."""
    found = []
    for register in bounded_registers(instruction, state.registers):
        kind = state.registers[register]
        if kind is None or not kind.is_number or not kind.is_hidden or not 0 <= kind.low <= kind.high < 2**31:
            continue
        bounds = [(JUMP_ABOVE, kind.high), *([(JUMP_BELOW, kind.low)] if kind.low else [])]
        words = [struct.pack("<BBhi", opcode, register, 0, bound) for opcode, bound in bounds]
        found += [replace(instruction, data=word, target=TRAP, section=None) for word in words]
        state.registers[register] = kind._replace(hidden=False)
    return found


@dataclass
class Copies:
    """The program with its rounds written out, and what is known at the start of each copy that waits."""

    blocks: Mapping[int, Block]
    tables: Mapping[str, bytes]
    addresses: Mapping[tuple[str, int], tuple[str, int]]
    paths: dict[int, Path]
    live: dict[int, set[int]]
    # What keeps states apart: 0 what is a pointer, 1 the offsets of pointers too, 2 single numbers too.
    distinction: int = 0
    states: dict[Key, State] = field(default_factory=dict)
    waiting: list[tuple[Key, int]] = field(default_factory=list)
    # What was known at the start of the last round of each loop.
    heads: dict[tuple[int, str], tuple[Positions, tuple[object, ...]]] = field(default_factory=dict)
    # The place of each copy. Of the copies in order, the instructions and the keys that the last one leads to.
    places: dict[Key, int] = field(default_factory=dict)
    copies: list[tuple[list[Instruction], list[Key]]] = field(default_factory=list)
    words: int = 0
    # Whether an instruction isn't what the compiler wrote.
    changed: bool = False
    undecided: bool = False
    # The frame's bytes that are read but that only some ways write.
    unwritten: int = 0
    # The lowest offset in the frame that the program reaches.
    lowest: int = 0

    def shape(self, start: int, state: State) -> str:
        """Returns what tells states apart. Only states of one shape are joined."""
        return " ".join(self.spelled(state.registers[register]) for register in sorted(self.live[start]))

    def spelled(self, kind: Kind | None) -> str:
        if kind is None:
            return "?"
        told = self.distinction > (1 if kind.is_number else 0) and kind.is_single
        return f"{kind.area}{kind.low}" if told else kind.area

    def enter(self, positions: Positions, start: int, state: State) -> Key:
        key = positions, self.shape(start, state)
        known = self.states.get(key)
        if known is None:
            heapq.heappush(self.waiting, (key, start))
        self.states[key] = state if known is None else known.join(state)
        return key

    def copy_all(self) -> None:
        self.enter(positions_after([], (), 0, self.paths[0]), 0, State())
        while self.waiting:
            key, start = heapq.heappop(self.waiting)
            state = self.states.pop(key)
            self.check_progress(key, start, state)
            self.copy(key, self.blocks[start], state)

    def check_progress(self, key: Key, start: int, state: State) -> None:
        """Raises an error if a round begins like the one before it, or if there are too many words."""
        heads = [head for _, head in self.paths[start]]
        if start in heads:
            outer, facts = key[0][: 2 * heads.index(start) + 1], state.facts()
            last, known = self.heads.get((start, key[1]), ((), ()))
            self.heads[start, key[1]] = outer, facts
            if outer == last and facts == known and self.distinction == 0:
                raise LoopError(f"there is a loop: {self.closing_jump(start)}", start)
        rounds = {head: number for head, number in zip(heads, key[0][1::2], strict=False) if head is not None}
        if rounds.get(start, 0) > MOST_ROUNDS:
            raise LoopError(f"a loop may have more than {MOST_ROUNDS} rounds: {self.closing_jump(start)}", start)
        if self.words > WORD_LIMITS[self.distinction]:
            if not rounds:
                raise LoopError(f"the program has more than {MOST_WORDS} words with its rounds written out")
            longest = max(rounds, key=lambda head: rounds[head])
            raise LoopError(f"a loop has too many rounds for {MOST_WORDS} words: {self.closing_jump(longest)}", longest)

    def closing_jump(self, head: int) -> str:
        """Returns where a loop jumps backwards. Each loop does."""
        loop = {start for start, path in self.paths.items() if head in (around for _, around in path)}
        lasts = (self.blocks[start].last for start in loop)
        edges = [(last.place, target) for last in lasts for target in last.successors() if target in loop]
        place, target = max((place, target) for place, target in edges if target <= place)
        return f"the jump at place {place} leads back to place {target}"

    def copy(self, key: Key, block: Block, state: State) -> None:
        copied: list[Instruction] = []
        for instruction in block.instructions:
            copied += self.stepped(instruction, state)
        edges = edges_of(block.last, state)
        path = self.paths[block.start]
        keys = [
            self.enter(positions_after(path, key[0], target, self.paths[target]), target, after)
            for target, after in edges
        ]
        if len(keys) == 1 and block.last.is_jump:
            copied[-1] = replace(block.last, data=struct.pack("<BBhi", JA, 0, 0, 0))
        self.places[key] = self.words
        self.copies.append((copied, keys))
        self.words += sum(len(instruction.data) // WORD for instruction in copied)

    def stepped(self, instruction: Instruction, state: State) -> list[Instruction]:
        """Returns what an instruction becomes, and changes what is known to what is known after it."""
        if instruction.opcode & 7 in ACCESS_CLASSES or instruction.opcode == SUBTRACT:
            self.lowest = min(self.lowest, lowest_offset(instruction, state.registers))
            self.undecided = self.undecided or is_undecided(instruction, state)
            self.unwritten |= bytes_read(instruction, state) & ~state.written & state.touched
        destination = instruction.data[1] & 15
        before = state.registers[destination]
        if instruction.is_jump:
            return [instruction]
        checks = guards(instruction, state)
        step(instruction, state, self.tables, self.addresses)
        written = rewritten(instruction, before, state.registers[destination])
        self.changed = self.changed or bool(checks) or written is not instruction
        return [*checks, written]

    def instructions(self) -> list[Instruction]:
        """Returns the copies' instructions with their places."""
        placed: list[Instruction] = []
        place = 0
        for copied, keys in self.copies:
            for instruction in copied:
                next_place = place + len(instruction.data) // WORD
                target = self.words if instruction.target == TRAP else None
                placed.append(replace(instruction, place=place, target=target, fall_through=next_place))
                place = next_place
            placed[-1] = linked(placed[-1], [self.places[key] for key in keys])
        if any(instruction.target == self.words for instruction in placed):
            words = struct.pack("<BBhi", MOVE_NUMBER, 0, 0, 0), struct.pack("<BBhi", EXIT, 0, 0, 0)
            placed.append(Instruction(place, words[0], None, place + 1, placed[-1].origin))
            placed.append(Instruction(place + 1, words[1], None, None, placed[-1].origin))
        return placed


def edges_of(last: Instruction, state: State) -> list[tuple[int, State]]:
    """Returns the edges that may be taken: that to the next word first, then that of a jump."""
    if not last.is_conditional or last.target == last.fall_through:
        return [(target, state) for target in last.successors()]
    found = ((last.fall_through, branch(last, state, False)), (last.target, branch(last, state, True)))
    return [(target, after) for target, after in found if target is not None and after is not None]


def linked(last: Instruction, places: list[int]) -> Instruction:
    """Returns the last instruction of a copy with the places that it leads to."""
    if last.opcode == JA:
        return replace(last, target=places[0], fall_through=None)
    if last.is_conditional:
        return replace(last, target=places[1], fall_through=places[0])
    return replace(last, fall_through=places[0] if places else None)


def copy_rounds(blocks: Mapping[int, Block], tables: Tables) -> Copies:
    """Writes out the rounds of all loops. Keeps more states apart if that is needed."""
    paths, live = find_paths(blocks), find_live(blocks)
    fallback: Copies | LoopError | None = None
    for distinction in range(3):
        copies = Copies(blocks, tables.contents, tables.addresses, paths, live, distinction)
        try:
            copies.copy_all()
        except LoopError as error:
            fallback = fallback or error
        else:
            if not copies.undecided:
                return copies
            fallback = fallback if isinstance(fallback, Copies) else copies
    if isinstance(fallback, Copies):
        return fallback
    raise fallback or LoopError("there is a loop")
