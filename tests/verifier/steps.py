"""The step of one instruction on a state: its checks, and the states on its edges."""
from collections.abc import Callable

from verifier.helpers import HELPERS, Bounds, NAME_COPY, NAME_IS
from verifier.kinds import (
    FRAME_BYTES,
    GREATEST_OFFSET,
    LEAST_OFFSET,
    NOTHING,
    RECORD_BYTES,
    SLOT_BYTES,
    UNREACHED,
    WORD,
    Kind,
    State,
    check,
    number,
)
from verifier.program_text import SIZES, Instruction
from verifier.results import compared, extended, result, signed, swapped


Edges = list[State | None]


def value_of(state: State, operand: str | int, width: int) -> Kind:
    if isinstance(operand, str):
        return state.read(operand)
    return number(operand % (1 << width))


def moved(name: str, pointer: Kind, distance: Kind) -> Kind:
    """Returns a pointer after a number was added to it or subtracted from it."""
    fits = distance.high <= GREATEST_OFFSET or distance.low >= WORD + LEAST_OFFSET
    check(not distance.pointer() and fits, "41", "PointerArithmetic")
    low, high = signed(distance.low, 64), signed(distance.high, 64)
    if name == "sub":
        low, high = -high, -low
    low, high = pointer.low + low, pointer.high + high
    check(LEAST_OFFSET <= low and high <= GREATEST_OFFSET, "42", "LeavesArea")
    return Kind(pointer.sort, low, high)


def combined(name: str, width: int, x: Kind, y: Kind) -> Kind:
    if not x.pointer() and not y.pointer():
        return result(name, width, x, y)
    check(width == 64, "41", "PointerArithmetic")
    if name == "mov":
        return y
    if name in ("add", "sub") and x.pointer():
        return moved(name, x, y)
    check(name == "add", "41", "PointerArithmetic")
    return moved(name, y, x)


def arithmetic(state: State, instruction: Instruction) -> Edges:
    (name, width), (to, source) = instruction.parts, instruction.operands
    width = int(width or 64)
    x = number(0) if name == "mov" else state.read(to)
    y = value_of(state, source, width)
    return [state.put(to, combined(name, width, x, y))]


def number_in(state: State, name: str) -> Kind:
    kind = state.read(name)
    check(not kind.pointer(), "41", "PointerArithmetic")
    return kind


def negate(state: State, instruction: Instruction) -> Edges:
    to = instruction.operands[0]
    x = number_in(state, to)
    return [state.put(to, result("neg", int(instruction.parts[0] or 64), x, number(0)))]


def extend(state: State, instruction: Instruction) -> Edges:
    (bits, width), (to, source) = instruction.parts, instruction.operands
    return [state.put(to, extended(int(bits), 32 if width else 64, number_in(state, source)))]


def swap(state: State, instruction: Instruction) -> Edges:
    (order, bits), to = instruction.parts, instruction.operands[0]
    return [state.put(to, swapped(order, int(bits), number_in(state, to)))]


def wide(state: State, instruction: Instruction) -> Edges:
    to, value = instruction.operands
    return [state.put(to, number(value))]


def jump(state: State, instruction: Instruction) -> Edges:
    (name, width), (left, right, _) = instruction.parts, instruction.operands
    width = int(width or 64)
    x, y = state.read(left), value_of(state, right, width)
    check(not x.pointer() and not y.pointer(), "48", "ComparesPointer")
    if left == right:
        return [state, state]
    edges = []
    for edge in compared(name, width, x, y):
        to = UNREACHED
        if edge is not None:
            to = state.put(left, edge[0])
            if isinstance(right, str):
                to = to.put(right, edge[1])
        edges.append(to)
    return edges


def base_of(state: State, address: tuple[str, int]) -> Kind:
    kind = state.read(address[0])
    check(kind.pointer(), "43", "NotPointer")
    return kind


def reached_bytes(pointer: Kind, offset: int, count: int) -> range:
    """Returns the bytes that an access may touch."""
    first, last = pointer.low + offset, pointer.high + offset + count - 1
    size = RECORD_BYTES if pointer.sort == "record" else FRAME_BYTES
    check(0 <= first and last < size, "44", "OutOfBounds")
    return range(first, last + 1)


def read_bytes(state: State, pointer: Kind, offset: int, count: int) -> None:
    reached = reached_bytes(pointer, offset, count)
    check(pointer.sort == "record" or state.marks.issuperset(reached), "45", "UnwrittenFrame")


def slot_reached(pointer: Kind, offset: int, count: int) -> int | None:
    """Returns the slot that an access at a known offset covers completely, or None."""
    first = pointer.low + offset
    is_slot = pointer.sort == "frame" and pointer.single() and count == SLOT_BYTES and first % SLOT_BYTES == 0
    return first // SLOT_BYTES if is_slot else None


def load(state: State, instruction: Instruction) -> Edges:
    (sign, size), (to, address) = instruction.parts, instruction.operands
    base, size = base_of(state, address), SIZES[size]
    kept = state.slot(slot_reached(base, address[1], size))
    if not kept.pointer():
        read_bytes(state, base, address[1], size)
    if kept is NOTHING:
        kept = number(0, WORD - 1 if sign else (1 << 8 * size) - 1)
    return [state.put(to, kept)]


def store(state: State, instruction: Instruction) -> Edges:
    size, (address, source) = SIZES[instruction.parts[1]], instruction.operands
    base = base_of(state, address)
    check(base.sort == "frame", "46", "WritesRecord")
    value, slot = value_of(state, source, 64), slot_reached(base, address[1], size)
    check(not value.pointer() or slot is not None, "47", "StoresPointer")
    reached = reached_bytes(base, address[1], size)
    if slot is not None:
        return [state.keep(slot, value)]
    return [written(state, base, reached, size)]


def written(state: State, pointer: Kind, reached: range, count: int) -> State:
    """Returns the state after a write of arbitrary bytes, at least `count` of them."""
    state = state.forget(reached)
    return state.mark(reached[0], count) if pointer.single() else state


def argument(state: State, at: int, bounds: Bounds) -> Kind:
    kind = state.read(f"r{at}")
    fits = (
        kind.sort == "frame"
        if bounds is None
        else kind.sort == "number" and bounds[0] <= kind.low and kind.high <= bounds[1]
    )
    check(fits, "50", f"BadArgument({at})")
    return kind


def call(state: State, instruction: Instruction) -> Edges:
    helper = instruction.operands[0]
    check(helper in HELPERS, "49", "UnknownHelper")
    bounds, answer = HELPERS[helper]
    given = [argument(state, at, bound) for at, bound in enumerate(bounds, 1)]
    if helper in (NAME_COPY, NAME_IS):
        pointer, length = given[1:]
        if helper == NAME_IS:
            read_bytes(state, pointer, 0, length.high)
        else:
            state = written(state, pointer, reached_bytes(pointer, 0, length.high), length.low)
    for name in ("r1", "r2", "r3", "r4", "r5"):
        state = state.put(name, NOTHING)
    return [state.put("r0", answer)]


def leave(state: State, _: Instruction) -> Edges:
    check(not state.read("r0").pointer(), "51", "ExitNotNumber")
    return []


STEPS: dict[str, Callable[[State, Instruction], Edges]] = {
    "arithmetic": arithmetic,
    "negate": negate,
    "extend": extend,
    "swap": swap,
    "jump": jump,
    "always": lambda state, _: [state],
    "call": call,
    "exit": leave,
    "wide": wide,
    "load": load,
    "store": store,
}


def step(instruction: Instruction, state: State | None) -> list[tuple[int, State | None]]:
    """Returns the state on each edge with the edge's target, or raises a Fault."""
    targets = instruction.targets()
    edges: Edges = [UNREACHED] * len(targets)
    if state is not UNREACHED:
        edges = STEPS[instruction.form](state, instruction)
    return list(zip(targets, edges))
