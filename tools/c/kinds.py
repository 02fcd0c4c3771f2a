"""Computes what is known before each instruction: numbers as intervals, and pointers as offsets into an area.

These are the rules of docs/verifier.md, and some that the verifier doesn't have. Intervals may go through 0, numbers of
less than eight bytes are followed through the frame, constant tables have their contents, and a comparison narrows the
copies of a number. What the verifier may not know is marked as hidden.
"""

import itertools
from collections.abc import Mapping
from dataclasses import dataclass, field
from typing import NamedTuple

from instructions import Instruction
from intervals import (
    ADD,
    ALL,
    TOP,
    Interval,
    cut,
    divide_signed,
    hull,
    narrow,
    normal,
    operate,
    signed,
    signed_view,
    smaller,
)

__all__ = [
    "FRAME",
    "NUMBER",
    "RECORD",
    "SIZES",
    "SUBTRACT",
    "Kind",
    "State",
    "branch",
    "frame_bytes",
    "is_undecided",
    "step",
]

NUMBER, RECORD, FRAME = "", "record", "frame"
SMALL = 32_768
DIVIDE, MULTIPLY, SUBTRACT = 0x37, 0x27, 0x1F
ALU32, JMP32, ALU64, CALL = 4, 6, 7, 0x85
SUB, OR, AND, LSH, RSH, NEG, REMAINDER, MOV, ARSH, END = 1, 4, 5, 6, 7, 8, 9, 0xB, 0xC, 0xD
# intervals.py counts MOV and ARSH from 11.
OPERATIONS = {**{number: number for number in range(0xB)}, MOV: 11, ARSH: 12}
POINTER_CONDITIONS = (1, 2, 3, 5, 10, 11)
SIZES = {0x00: 4, 0x08: 2, 0x10: 1, 0x18: 8}
SIGNED_LOAD = 0x80
NAME_COPY, MOST_COPIED = 6, 30
FRAME_SIZE = 512
AREAS = {RECORD: (0, 228), FRAME: (-FRAME_SIZE, 0)}
ANSWERS: Mapping[int, Interval] = {
    1: (0, 99_999_999_999),
    2: (0, 1),
    3: (0, 5_000),
    4: (1, 1_001),
    5: (0, 3),
    6: (0, 1),
    7: (0, 1),
    8: (0, 0),
}
# The contents of each table, and the tables whose addresses it has, by offset.
Contents = Mapping[str, bytes]
Addresses = Mapping[tuple[str, int], tuple[str, int]]


class Kind(NamedTuple):
    """A number from low to high, or a pointer into an area at these offsets. Those of the frame count from r10."""

    area: str
    low: int
    high: int
    hidden: bool = False
    # Whether all of them are multiples of eight.
    eights: bool = False

    @property
    def is_eights(self) -> bool:
        return self.eights or (self.is_single and self.low % 8 == 0)

    @property
    def interval(self) -> Interval:
        return self.low, self.high

    @property
    def is_number(self) -> bool:
        return self.area == NUMBER

    @property
    def is_single(self) -> bool:
        return self.low == self.high

    @property
    def is_hidden(self) -> bool:
        return self.hidden or self.low < 0


class Origin(NamedTuple):
    """A number is a copy of another: that number plus an offset, cut to some bits. `shifted` is that times 2^32."""

    base: int
    offset: int = 0
    bits: int = 64
    shifted: bool = False


class Quotient(NamedTuple):
    """A number divided by another, or that times the divisor again. Compilers compute remainders by these."""

    number: Origin
    divisor: Origin | int
    is_multiple: bool = False


Value = tuple[Kind, Origin | None]
fresh = itertools.count()


def number(interval: Interval, hidden: bool = False) -> Kind:
    return Kind(NUMBER, *interval, hidden)


def constant(value: int) -> Kind:
    return Kind(NUMBER, value % TOP, value % TOP)


def joined(one: Kind | None, other: Kind | None) -> Kind | None:
    if one is None or other is None or one.area != other.area:
        return None
    if one.is_number:
        return number(hull(one.interval, other.interval), one.is_hidden or other.is_hidden)
    return Kind(one.area, min(one.low, other.low), max(one.high, other.high))


def joined_origin(one: Origin | None, other: Origin | None, bases: dict[tuple[int, int], int]) -> Origin | None:
    """Returns a common origin. `bases` has a number for each pair of numbers that met, so their copies meet as copies."""
    if one is None or other is None or one[1:] != other[1:]:
        return None
    pair = one.base, other.base
    if pair not in bases:
        bases[pair] = one.base if one.base == other.base else next(fresh)
    return one._replace(base=bases[pair])


def frame_bytes(first: int, end: int) -> int:
    """Returns the bits of the frame's bytes from one offset to before another."""
    low, high = max(first + FRAME_SIZE, 0), min(end + FRAME_SIZE, FRAME_SIZE)
    return (1 << high) - (1 << low) if low < high else 0


def start_registers() -> list[Kind | None]:
    registers: list[Kind | None] = [None] * 11
    registers[1], registers[10] = Kind(RECORD, 0, 0), Kind(FRAME, 0, 0)
    return registers


@dataclass
class State:
    """What is known of the registers, and of the values in the frame by offset and size."""

    registers: list[Kind | None] = field(default_factory=start_registers)
    values: dict[tuple[int, int], Value] = field(default_factory=dict, compare=False)
    origins: list[Origin | None] = field(default_factory=lambda: [None] * 11, compare=False)
    bases: dict[int, Interval] = field(default_factory=dict, compare=False)
    quotients: list[Quotient | None] = field(default_factory=lambda: [None] * 11, compare=False)
    # The bytes of the frame that are written on each way, and on some way. Bit 0 is the lowest byte.
    written: int = 0
    touched: int = 0

    def copy(self) -> "State":
        origins = [*self.origins, *(origin for _, origin in self.values.values())]
        used = {origin.base for origin in origins if origin is not None}
        bases = {base: interval for base, interval in self.bases.items() if base in used}
        return State(
            self.registers[:], self.values.copy(), self.origins[:], bases, self.quotients[:], self.written, self.touched
        )

    def join(self, other: "State") -> "State":
        registers = [joined(*pair) for pair in zip(self.registers, other.registers, strict=True)]
        bases: dict[tuple[int, int], int] = {}
        origins = [joined_origin(*pair, bases) for pair in zip(self.origins, other.origins, strict=True)]
        values: dict[tuple[int, int], Value] = {}
        for spot, (kind, origin) in self.values.items():
            kind_there, origin_there = other.values.get(spot, (None, None))
            both = joined(kind, kind_there)
            if both is not None:
                values[spot] = both, joined_origin(origin, origin_there, bases)
        hulls = {base: hull(self.bases[one], other.bases[another]) for (one, another), base in bases.items()}
        state = State(registers, values, origins, hulls)
        state.written, state.touched = self.written & other.written, self.touched | other.touched
        return state

    def write(self, pointer: Kind | None, offset: int, least: int, most: int) -> None:
        """Notes a store of some bytes through a pointer."""
        if pointer is not None and pointer.area == FRAME:
            self.touched |= frame_bytes(pointer.low + offset, pointer.high + offset + most)
            if pointer.is_single:
                self.written |= frame_bytes(pointer.low + offset, pointer.low + offset + least)

    def facts(self) -> tuple[object, ...]:
        """Returns what two rounds of a loop are compared by."""
        values = sorted((spot, value[0]) for spot, value in self.values.items())
        return (*self.registers, *values)

    def origin(self, register: int) -> Origin | None:
        """Returns the origin of a number. It is its own origin if it has none yet."""
        kind = self.registers[register]
        if self.origins[register] is None and kind is not None and kind.is_number:
            base = next(fresh)
            self.origins[register], self.bases[base] = Origin(base), kind.interval
        return self.origins[register]

    def forget(self, pointer: Kind | None, offset: int, size: int) -> None:
        """Forgets the values of which a store through this pointer may change a byte."""
        if pointer is None or pointer.is_number:
            self.values.clear()
        elif pointer.area == FRAME:
            first, last = pointer.low + offset, pointer.high + offset + size - 1
            for spot in [spot for spot in self.values if spot[0] <= last and first < spot[0] + spot[1]]:
                del self.values[spot]

    def learn(self, origin: Origin, interval: Interval) -> None:
        """Narrows the number that `origin` derives from, and all copies of it."""
        before = self.bases.get(origin.base)
        if origin.shifted:
            interval, origin = (-(-interval[0] >> 32), interval[1] >> 32), origin._replace(bits=min(origin.bits, 32))
        if before is None or interval[0] > interval[1] or (interval[0] < 0 and origin.bits < 64):
            return
        base = narrowed_base(before, interval, origin)
        if base[1] - base[0] >= before[1] - before[0]:
            return
        self.bases[origin.base] = base
        for register, copied in enumerate(self.origins):
            self.registers[register] = narrowed_copy(self.registers[register], copied, origin.base, base)
        for spot, (kind, copied) in self.values.items():
            self.values[spot] = narrowed_copy(kind, copied, origin.base, base) or kind, copied


def narrowed_base(base: Interval, interval: Interval, origin: Origin) -> Interval:
    """Returns the part of a number's interval whose copies are in the other interval."""
    period, low, high = 2**origin.bits, interval[0] - origin.offset, interval[1] - origin.offset
    first, last = -((high - base[0]) // period), (base[1] - low) // period
    parts = [
        (max(base[0], low + turn * period), min(base[1], high + turn * period)) for turn in range(first, last + 1)[:3]
    ]
    parts = [part for part in parts if part[0] <= part[1]]
    if last - first > 1 or not parts:
        return base
    return min(part[0] for part in parts), max(part[1] for part in parts)


def narrowed_copy(kind: Kind | None, origin: Origin | None, base: int, interval: Interval) -> Kind | None:
    if kind is None or origin is None or origin.base != base:
        return kind
    derived = operate(ADD, interval, (origin.offset % TOP,) * 2, 64)
    if origin.bits < 64:
        derived = cut(derived, origin.bits)
    if origin.shifted:
        derived = operate(LSH, derived, (32, 32), 64)
    better = smaller(derived, kind.interval)
    return kind if better == kind.interval else number(better, hidden=True)


# ---- Arithmetic


def source_kind(instruction: Instruction, state: State) -> Kind | None:
    """Returns the second operand of an operation or a comparison."""
    if instruction.opcode & 8:
        return state.registers[instruction.data[1] >> 4]
    return constant(instruction.immediate)


def moved(pointer: Kind, amount: Kind, sign: int) -> Kind | None:
    low, high = signed_view(amount.interval)
    if low < -SMALL or high >= SMALL:
        return None
    ends = (low, high) if sign > 0 else (-high, -low)
    return Kind(
        pointer.area, pointer.low + ends[0], pointer.high + ends[1], False, pointer.is_eights and amount.is_eights
    )


def adds(pointer: Kind, amount: Kind) -> bool:
    """Whether `or` adds: the pointer's address is a multiple of eight, and the number is less."""
    return pointer.area != RECORD and pointer.is_eights and 0 <= amount.low <= amount.high < 8


def pointer_result(operation: int, x: Kind, y: Kind) -> Kind | None:
    if y.is_number and (operation == ADD or (operation == OR and adds(x, y))):
        return moved(x, y, 1)
    if x.is_number:
        return moved(y, x, 1) if operation == ADD else None
    if operation != SUB:
        return None
    if y.is_number:
        return moved(x, y, -1)
    if x.area == y.area:
        return number(normal(x.low - y.high, x.high - y.low), hidden=True)
    return None


def extended(x: Kind, bits: int, width: int) -> Kind:
    """Returns the result of a move with sign extension."""
    low, high = cut(x.interval, bits)
    if low == high:
        return constant(signed(low, bits) % 2**width)
    return number((low, high) if high < 2 ** (bits - 1) else (0, 2**width - 1), x.is_hidden)


def arithmetic(instruction: Instruction, x: Kind | None, y: Kind | None) -> Kind | None:
    operation, width = instruction.opcode >> 4, 64 if instruction.opcode & 7 == ALU64 else 32
    offset = int.from_bytes(instruction.data[2:4], "little")
    if operation == MOV and not offset and width == 64:
        return y
    if operation == END:
        return number((0, 2**instruction.immediate - 1))
    if operation in (MOV, NEG):
        x = y = y if operation == MOV else x
    if x is None or y is None:
        return None
    if not (x.is_number and y.is_number):
        return pointer_result(operation, x, y) if width == 64 else None
    if offset and operation == MOV:
        return extended(x, offset, width)
    if offset:
        # The verifier knows nothing of it.
        return number(divide_signed(operation == REMAINDER, x.interval, y.interval, width), hidden=True)
    result = operate(OPERATIONS[operation], x.interval, y.interval, width)
    eights = (operation == LSH and y.is_single and y.low >= 3) or (operation == AND and y.is_eights)
    return Kind(NUMBER, *result, (x.is_hidden or y.is_hidden) and result != ALL, eights)


def known_operand(instruction: Instruction, state: State) -> int | None:
    kind = source_kind(instruction, state)
    return signed(kind.low) if kind is not None and kind.is_number and kind.is_single and kind.low >= 0 else None


def masked_bits(mask: int) -> int | None:
    return mask.bit_length() if mask > 0 and mask & (mask + 1) == 0 else None


def derived(instruction: Instruction, state: State, result: Kind | None) -> Origin | None:
    """Returns the origin of an operation's result, or None if it isn't a copy of another number."""
    destination, operation, wide = instruction.data[1] & 15, instruction.opcode >> 4, instruction.opcode & 7 == ALU64
    if operation == MOV and instruction.opcode & 8 and not any(instruction.data[2:4]):
        source = state.origin(instruction.data[1] >> 4)
        return source if wide or source is None else shortened(source, 32)
    origin, amount = state.origins[destination], known_operand(instruction, state)
    if origin is None or amount is None:
        return None
    origin = widened(origin, state) if wide else origin
    if operation in (ADD, SUB) and origin.bits >= (64 if wide else 32) and not origin.shifted:
        amount = amount if operation == ADD else -amount
        return Origin(origin.base, origin.offset + amount, 64 if wide else 32)
    bits = masked_bits(amount) if operation == AND else None
    if bits is not None:
        return shortened(origin, bits)
    if not wide or amount != 32:
        return None
    if operation == LSH and not origin.shifted:
        return origin._replace(shifted=True)
    if operation == ARSH and origin.shifted and is_signed_word(origin, state):
        return origin._replace(shifted=False, bits=64)
    unsigned = operation == RSH or (
        operation == ARSH and result is not None and 0 <= result.low <= result.high < 2**31
    )
    return shortened(origin._replace(shifted=False), 32) if unsigned and origin.shifted else None


def widened(origin: Origin, state: State) -> Origin:
    """Returns an origin without its cut, if the number is the same without it."""
    low, high = state.bases.get(origin.base, ALL)
    fits = not origin.shifted and 0 <= low + origin.offset and high + origin.offset < 2**origin.bits
    return origin._replace(bits=64) if fits else origin


def is_signed_word(origin: Origin, state: State) -> bool:
    """Whether a number is in its low 32 bits, with a sign."""
    low, high = state.bases.get(origin.base, ALL)
    return origin.bits >= 32 and -(2**31) <= low + origin.offset and high + origin.offset < 2**31


def shortened(origin: Origin, bits: int) -> Origin | None:
    return None if origin.shifted else origin._replace(bits=min(origin.bits, bits))


def divisor(instruction: Instruction, state: State) -> Origin | int | None:
    return state.origin(instruction.data[1] >> 4) if instruction.opcode & 8 else instruction.immediate


def quotient(instruction: Instruction, state: State) -> Quotient | None:
    """Returns what a division or a multiplication of 64 bits results in."""
    destination, other = instruction.data[1] & 15, divisor(instruction, state)
    origin, before = state.origin(destination), state.quotients[destination]
    if (
        instruction.opcode & ~8 == DIVIDE
        and origin is not None
        and other is not None
        and not any(instruction.data[2:4])
    ):
        return Quotient(origin, other)
    if instruction.opcode & ~8 == MULTIPLY and before is not None and before.divisor == other:
        return before._replace(is_multiple=True)
    return None


def remainder(instruction: Instruction, state: State) -> Kind | None:
    """Returns the result of a subtraction that computes x - x / y * y, or None if it doesn't."""
    found = state.quotients[instruction.data[1] >> 4]
    if instruction.opcode != SUBTRACT or found is None or not found.is_multiple:
        return None
    x = state.registers[instruction.data[1] & 15]
    if x is None or x.low < 0 or state.origins[instruction.data[1] & 15] != found.number:
        return None
    high = found.divisor if isinstance(found.divisor, int) else divisor_interval(found.divisor, state)[1]
    return number((0, min(x.high, high - 1) if high > 0 else x.high), hidden=True)


def divisor_interval(origin: Origin, state: State) -> Interval:
    """Returns what is known of a divisor. A quotient by 0 is 0, so the remainder is then the number itself."""
    base = state.bases.get(origin.base, ALL)
    known = narrowed_copy(number(ALL), origin, origin.base, base)
    return known.interval if known is not None and known.low > 0 else ALL


def operate_on(instruction: Instruction, state: State) -> None:
    destination = instruction.data[1] & 15
    found = quotient(instruction, state)
    result = remainder(instruction, state)
    result = result or arithmetic(instruction, state.registers[destination], source_kind(instruction, state))
    origin = derived(instruction, state, result)
    state.registers[destination], state.origins[destination] = result, origin
    state.quotients[destination] = found
    if origin is not None and result is not None and origin.base in state.bases:
        state.registers[destination] = narrowed_copy(result, origin, origin.base, state.bases[origin.base])


# ---- Memory


def table_value(table: bytes, base: Kind, offset: int, size: int) -> Interval:
    """Returns the values that a load from a table may have."""
    first, last = base.low + offset, base.high + offset
    if first < 0 or last + size > len(table):
        return 0, 2 ** (8 * size) - 1
    values = [int.from_bytes(table[place : place + size], "little") for place in range(first, last + 1)]
    return min(values), max(values)


def loaded(instruction: Instruction, state: State, tables: Contents, addresses: Addresses) -> Value | None:
    size, base = SIZES[instruction.opcode & 0x18], state.registers[instruction.data[1] >> 4]
    offset = int.from_bytes(instruction.data[2:4], "little", signed=True)
    anything = number((0, 2 ** (8 * size) - 1))
    if base is None or base.is_number:
        return None
    if base.area in tables:
        pointer = addresses.get((base.area, base.low + offset)) if base.is_single and size == 8 else None
        if pointer is not None:
            return Kind(pointer[0], pointer[1], pointer[1]), None
        return number(table_value(tables[base.area], base, offset, size), hidden=True), None
    if base.area != FRAME:
        return anything, None
    found = state.values.get((base.low + offset, size)) if base.is_single else None
    if found is None:
        # Eight bytes of the frame may be a pointer.
        return None if size == 8 else (anything, None)
    return found if size == 8 else (found[0]._replace(hidden=True), found[1])


def load(instruction: Instruction, state: State, tables: Contents, addresses: Addresses) -> None:
    kind, origin = loaded(instruction, state, tables, addresses) or (None, None)
    if instruction.opcode & 0xE0 == SIGNED_LOAD and kind is not None:
        kind, origin = extended(kind, 8 * SIZES[instruction.opcode & 0x18], 64), None
    destination = instruction.data[1] & 15
    state.registers[destination], state.origins[destination] = kind, origin
    state.quotients[destination] = None


def store(instruction: Instruction, state: State) -> None:
    size, base = SIZES[instruction.opcode & 0x18], state.registers[instruction.data[1] & 15]
    offset = int.from_bytes(instruction.data[2:4], "little", signed=True)
    value: Kind | None = constant(instruction.immediate)
    origin: Origin | None = None
    if instruction.opcode & 7 == 3:
        source = instruction.data[1] >> 4
        value, origin = state.registers[source], state.origin(source)
    state.forget(base, offset, size)
    state.write(base, offset, size, size)
    if base is None or base.area != FRAME or not base.is_single or value is None:
        return
    if not value.is_number:
        if size == 8:
            state.values[base.low + offset, size] = value, None
        return
    if size < 8:
        value = number(cut(value.interval, 8 * size), value.is_hidden)
        origin = shortened(origin, 8 * size) if origin is not None else None
    state.values[base.low + offset, size] = value, origin


def call(instruction: Instruction, state: State) -> None:
    if instruction.immediate == NAME_COPY:
        length = state.registers[3]
        known = length is not None and length.is_number
        least, most = (max(length.low, 1), min(length.high, MOST_COPIED)) if length and known else (1, MOST_COPIED)
        state.forget(state.registers[2], 0, most)
        state.write(state.registers[2], 0, least, most)
    state.registers[:6] = [number(ANSWERS.get(instruction.immediate, ALL)), *[None] * 5]
    state.origins[:6] = [None] * 6
    state.quotients[:6] = [None] * 6


def step(instruction: Instruction, state: State, tables: Contents, addresses: Addresses) -> None:
    """Changes what is known to what is known after an instruction that isn't a jump."""
    destination = instruction.data[1] & 15
    match instruction.opcode & 7:
        case 0:
            value = int.from_bytes(instruction.data[4:8] + instruction.data[12:16], "little")
            known = Kind(instruction.section or NUMBER, *(value,) * 2)
            if instruction.section is not None:
                known = Kind(instruction.section, *(instruction.immediate,) * 2)
            state.registers[destination], state.origins[destination] = known, None
            state.quotients[destination] = None
        case 1:
            load(instruction, state, tables, addresses)
        case 2 | 3:
            store(instruction, state)
        case 4 | 7:
            operate_on(instruction, state)
        case 5 if instruction.opcode == CALL:
            call(instruction, state)


# ---- Jumps


def narrowed(condition: int, bits: int, x: Kind, y: Kind, taken: bool) -> tuple[Kind, Kind] | None:
    """Returns what is left of both operands if the jump is taken or isn't, or None if that can't happen."""
    if x.is_number and y.is_number:
        found = narrow(condition, x.interval, y.interval, bits, taken)
        if found is None:
            return None
        hidden = x.is_hidden or y.is_hidden or bits == 32 or max(x.high, y.high) >= TOP // 2
        pairs = zip((x, y), found, strict=True)
        left, right = (kind if kind.interval == new else number(new, hidden or kind.is_hidden) for kind, new in pairs)
        return left, right
    if bits == 64 and x.area == y.area and condition in POINTER_CONDITIONS:
        # Offsets compare like addresses, but they have a sign.
        ends = [(kind.low + 2 * SMALL, kind.high + 2 * SMALL) for kind in (x, y)]
        left_and_right = narrow(condition, ends[0], ends[1], bits, taken)
        if left_and_right is None:
            return None
        one, other = (Kind(x.area, low - 2 * SMALL, high - 2 * SMALL) for low, high in left_and_right)
        return one, other
    # No pointer is null.
    null = y == constant(0) and condition in (1, 5) and bits == 64
    return None if null and (condition == 5) != taken else (x, y)


def branch(instruction: Instruction, state: State, taken: bool) -> State | None:
    """Returns what is known on an edge of a conditional jump, or None if the edge can't be taken."""
    condition, bits = instruction.opcode >> 4, 32 if instruction.opcode & 7 == JMP32 else 64
    registers = [instruction.data[1] & 15, *([instruction.data[1] >> 4] if instruction.opcode & 8 else [])]
    x, y = state.registers[registers[0]], source_kind(instruction, state)
    if x is None or y is None:
        return state.copy()
    if bits == 32 and not instruction.opcode & 8:
        y = number(cut(y.interval, 32))
    left = narrowed(condition, bits, x, y, taken)
    if left is None:
        return None
    after = state.copy()
    for register, kind in zip(registers, left, strict=False):
        after.registers[register] = kind
        origin = after.origins[register]
        if origin is not None and kind.is_number:
            after.learn(origin, kind.interval)
    return after


def leaves_area(instruction: Instruction, state: State) -> bool:
    """Whether a load or a store may be outside of the record or the frame."""
    base = state.registers[instruction.data[1] >> 4 if instruction.opcode & 7 == 1 else instruction.data[1] & 15]
    if instruction.opcode & 7 not in (1, 2, 3) or base is None or base.area not in AREAS:
        return False
    offset, size = int.from_bytes(instruction.data[2:4], "little", signed=True), SIZES[instruction.opcode & 0x18]
    first, end = AREAS[base.area]
    return base.low + offset < first or base.high + offset + size > end


def is_undecided(instruction: Instruction, state: State) -> bool:
    """Whether the verifier would refuse an instruction because a pointer may have several offsets."""
    if leaves_area(instruction, state):
        return True
    compares = instruction.is_conditional
    if not compares and instruction.opcode != SUBTRACT:
        return False
    x, y = state.registers[instruction.data[1] & 15], source_kind(instruction, state)
    if x is None or y is None or x.is_number or (y.is_number and not compares):
        return False
    return not (x.is_single and y.is_single)
