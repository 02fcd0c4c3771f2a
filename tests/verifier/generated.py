"""Generated programs, by families.

A body calculates, compares or stores. The probe after it passes for the interval that is known of a register by
then and for no wider one, or needs one more than that. `+END` in a line is the distance to the last `exit`.
"""
import itertools
from collections.abc import Callable, Iterable, Sequence
from typing import Any

from verifier.helpers import HELPERS, NAME_IS
from verifier.kinds import (
    FRAME_BYTES,
    GREATEST_OFFSET,
    LEAST_OFFSET,
    NOTHING,
    RECORD_BYTES,
    UNREACHED,
    WORD,
    Kind,
    State,
    index,
    number,
)
from verifier.program_text import CONDITIONS, OPERATIONS, SIZES, read_program
from verifier.results import holds, signed
from verifier.search import Annotation, Draw, Search

# The lines of a body, the register to probe, and maybe what the probe needs.
Body = tuple[list[str], str | None] | tuple[list[str], str | None, str]
# Draws a body about a subject.
Family = Callable[[Draw, Any], Body]

SMALL = (0, 1, 2, 3, 5, 7, 8, 15, 31, 32, 63, 64, 100, 127, 128, 255, 256, 1000)
IMMEDIATES = SMALL + (-1, -2, -3, -8, -128, -255, -256, 32767, -32768, 65535, 65536, 2147483647, -2147483648)


def linked(lines: list[str]) -> str:
    """Returns the lines as text, with distances."""
    sizes = [2 if line.startswith("lddw") else 1 for line in lines]
    return " | ".join(line.replace("END", str(sum(sizes[at + 1 : -1]))) for at, line in enumerate(lines))


def loaded(draw: Draw, to: str, sizes: str = "b b h w dw sb sh sw") -> str:
    return "ldx%s %s, [r1+%d]" % (draw.one_of(sizes.split()), to, draw.between(0, 99))


# Lines that fail a check if they are reached, grouped by cause.
FAULTS: tuple[tuple[tuple[str, ...], ...], ...] = (
    (("mov r0, r9",), ("neg r9",), ("add r9, 1",), ("movsx8 r0, r9",), ("stxb [r10-1], r9",)),
    (("add32 r0, r10",), ("and r0, r10",), ("sub r0, r10",), ("mov32 r0, r10",), ("movsx8 r0, r10",)),
    (
        ("mov r9, r10", "neg r9"),
        ("mov r9, r10", "be16 r9"),
        ("mov r9, r10", "mul r9, 2"),
        ("mov r9, r10", "add r9, 32768"),
    ),
    (("mov r0, r10", "add r0, 32767"), ("mov r0, r10", "sub r0, -32768")),
    (("ldxb r0, [r0+0]",), ("stb [r0+0], 1",), ("stxw [r0-4], r10",)),
    (("ldxb r0, [r10+0]",), ("sth [r10-1], 1",), ("ldxw r0, [r10-513]",), ("ldxb r0, [r1+228]",)),
    (("ldxb r0, [r10-1]",), ("ldxdw r0, [r10-512]",)),
    (("stb [r1+0], 1",), ("stxb [r1+228], r9",), ("stdw [r1-1], 0",)),
    (("stxdw [r10-4], r10",), ("stxb [r10+9], r10",)),
    (("jeq r10, 0, +0",), ("jset r10, r10, +0",), ("jslt32 r0, r10, +0",)),
    (("call 0",), ("call 10",), ("call -1",)),
    (("mov r1, r10", "call 8"), ("mov r1, 4", "call 9"), ("mov r1, 17", "call 1"), ("mov r1, -1", "call 2")),
    (("mov r0, r10", "exit"),),
)


def fault_drawn(draw: Draw) -> list[str]:
    return list(draw.one_of(draw.one_of(FAULTS)))


def immediate_of(value: int) -> int | None:
    """Returns the immediate that a 64-bit comparison extends to this number, or None."""
    value = signed(value, 64)
    return value if -(1 << 31) <= value < 1 << 31 else None


def comparison(name: str, condition: str, value: int, high: int) -> list[str]:
    """Returns a comparison with any number: with an immediate in either width, or with r9."""
    immediate = immediate_of(value)
    if immediate is not None:
        return ["%s %s, %d" % (condition, name, immediate)]
    if max(value, high) < 1 << 32:
        return ["%s32 %s, %d" % (condition, name, signed(value, 32))]
    return ["lddw r9, %d" % value, "%s %s, r9" % (condition, name)]


def bounds_probed(kind: Kind, before: Kind, ask: str) -> list[tuple[str, int]]:
    """Returns conditions that need an end of the interval, or one more, each with a number. They test an end that differs from `before`."""
    beyond = ask.startswith("beyond")
    if kind.single():
        return [("jeq", (kind.low + beyond) % WORD)]
    high, low = kind.high - beyond, kind.low + beyond
    upper, lower = [("jle", high), ("jlt", high + 1)], [("jge", low), ("jgt", low - 1)]
    if ask.endswith("low") or (kind.low > before.low and kind.high == before.high):
        return lower
    return lower + upper if ask == "ends" and before.low < kind.low else upper


def number_probe(draw: Draw, name: str, kind: Kind, before: Kind, ask: str) -> list[str]:
    """Returns a jump that is always taken for a number in these bounds, followed by lines that fail."""
    conditions = [(condition, value) for condition, value in bounds_probed(kind, before, ask) if 0 <= value < WORD]
    condition, value = draw.one_of(conditions)
    fault = fault_drawn(draw)
    *lines, jump = comparison(name, condition, value, kind.high)
    return lines + ["%s, +%d" % (jump, len(fault)), *fault]


def access(draw: Draw, name: str, kind: Kind, exactly: bool) -> list[str]:
    """Returns a load or a store whose first or last byte is the first or last one of the area."""
    size = draw.one_of(tuple(SIZES))
    if draw.chance(2):
        end = RECORD_BYTES if kind.sort == "record" else FRAME_BYTES
        offset = end - SIZES[size] - kind.high + (not exactly)
    else:
        offset = -kind.low - (not exactly)
    if not LEAST_OFFSET <= offset <= GREATEST_OFFSET:
        return ["stxdw [r10-4], %s" % name]
    if kind.sort == "record":
        return ["ldx%s r0, [%s%+d]" % (size, name, offset)]
    return ["st%s [%s%+d], 1" % (size, name, offset)]


# Uses of a register. If nothing is known of it, only those that don't read it pass.
UNKNOWN_USED = (
    "mov r0, %s",
    "add r0, %s",
    "neg %s",
    "ldxb r0, [%s+0]",
    "stb [%s+0], 1",
    "jeq %s, 1, +0",
    "jne r0, %s, +0",
    "movsx8 r0, %s",
    "mov %s, r0",
    "lddw %s, 7",
    "mov32 %s, 3",
)
EVERYTHING = number(0, WORD - 1)


def probe(draw: Draw, name: str, state: State | None, before: Kind, ask: str) -> list[str]:
    """Returns lines that pass, or fail, with what is known of a register."""
    if state is UNREACHED:
        return fault_drawn(draw)
    kind, record = state.registers[index(name)], state.registers[1]
    if kind is NOTHING:
        return [draw.one_of(UNKNOWN_USED) % name]
    if kind.pointer():
        return access(draw, name, kind, ask != "beyond")
    small = record.sort == "record" and kind.high + record.high <= GREATEST_OFFSET and kind.low == before.low
    if small and ask in ("ends", "beyond") and draw.chance(3):
        there = Kind("record", record.low + kind.low, record.high + kind.high)
        return ["add r1, %s" % name, *access(draw, "r1", there, ask != "beyond")]
    return number_probe(draw, name, kind, before, ask)


def kind_before(search: Search, least: Annotation, name: str) -> Kind:
    """Returns the kind of a register before the last jump if it is a number, else any number."""
    states = [state for place, state in least.items() if search.program[place].form == "jump"]
    kinds = [state.registers[index(name)] for state in states if state is not UNREACHED]
    return kinds[-1] if kinds and kinds[-1].sort == "number" else EVERYTHING


def finished(draw: Draw, body: list[str], name: str, ask: str) -> str:
    """Returns the program of a body, followed by a probe unless the body fails."""
    wanted = {name, "r0"} | {register for register in ("r1",) if register in " ".join(body)}
    search = Search(read_program(linked(body + ["ja +0", "exit"])), wanted)
    least = search.least()
    if search.places[-2] not in least:
        return linked(body + ["exit"])
    state, before = least[search.places[-2]], kind_before(search, least, name)
    if ask == "ends" and state is not UNREACHED and state.registers[index(name)] == before:
        ask = "beyond"
    lines = body + probe(draw, name, state, before, ask)
    if state is not UNREACHED and state.registers[0].sort != "number" and "r0" not in lines[-1]:
        lines.append("mov r0, 1")
    return linked(lines + ["exit"])


# Each family of bodies returns lines, the register to probe, and maybe what the probe needs.


# The rows for results, by operands and by what the probe needs. A is a number from 1 to 1001, B a byte, D any number of the width, N a
# negative number. A pair gives the bounds of an immediate.
CASES: tuple[tuple[str, str, str | tuple[int, int], str], ...] = (
    ("add", "A", (1, 5000), "low high"),
    ("add", "A", (-1, -1), "high beyond"),
    ("add", "B", (-255, -1), "beyond"),
    ("add", "A", "B", "high"),
    ("sub", "A", (1, 1), "high beyond"),
    ("sub", "B", (256, 5000), "low high"),
    ("sub", "B", (1, 255), "beyond"),
    ("sub", "B", "A", "beyond"),
    ("mul", "A", (2, 9), "low high"),
    ("mul", "D", (2, 9), "beyond"),
    ("mul", "B", "A", "high"),
    ("div", "A", (2, 9), "high beyond"),
    ("div", "B", "A", "high"),
    ("div", "A", "B", "high beyond"),
    ("div", "A", (0, 0), "high"),
    ("mod", "A", (2, 9), "high beyond"),
    ("mod", "A", (1002, 5000), "high beyond"),
    ("mod", "A", "B", "high"),
    ("mod", "A", (0, 0), "high"),
    ("and", "A", (2, 100), "high beyond"),
    ("and", "A", (1024, 5000), "high"),
    ("and", "A", "B", "high"),
    ("or", "A", (16, 100), "low high beyond"),
    ("or", "A", "B", "low high"),
    ("xor", "A", (16, 100), "high beyond"),
    ("xor", "A", "B", "high"),
    ("lsh", "A", (1, 3), "low high"),
    ("lsh", "A", (65, 67), "high"),
    ("lsh", "A", (62, 63), "beyond"),
    ("lsh", "A", "B", "beyond"),
    ("rsh", "A", (1, 3), "high beyond"),
    ("rsh", "A", (65, 67), "high"),
    ("rsh", "A", "B", "high beyond"),
    ("arsh", "A", (1, 3), "high"),
    ("arsh", "N", (1, 3), "low high"),
    ("arsh", "D", (1, 3), "beyond"),
    ("arsh", "A", "B", "beyond"),
    ("sdiv", "A", (2, 9), "beyond"),
    ("smod", "A", (2, 9), "beyond"),
)


def operated(draw: Draw, subject: tuple[str, str, str | tuple[int, int], str, str]) -> Body:
    """Draws an operation on intervals."""
    name, left, right, ask, width = subject
    any_number = loaded(draw, "r0", "w" if width else "dw")
    negative = "sub r0, %d" % draw.between(1001, 9999)
    start = {"A": ["call 4"], "B": [loaded(draw, "r0", "b")], "D": [any_number], "N": ["call 4", negative]}[left]
    if isinstance(right, tuple):
        return start + ["%s%s r0, %d" % (name, width, draw.between(*right))], "r0", ask
    to, source = ("r0", "r6") if left == "A" else ("r6", "r0")
    return [loaded(draw, "r6", "b"), "call 4", "%s%s %s, %s" % (name, width, to, source)], to, ask


def with_numbers(draw: Draw, operation: str) -> Body:
    """Draws an operation on two single numbers. If a computation with interval ends gives the same result, the probe needs one more."""
    start = draw.one_of(("mov r0, %d", "mov32 r0, %d")) % draw.one_of(IMMEDIATES[2:])
    line = "%s r0, %d" % (operation, draw.one_of((3, 5, 7, 15, 100, 255, -3, -8, -255)))
    return (
        [start, line],
        "r0",
        "ends" if operation.startswith(("and", "or", "xor", "mod", "sdiv", "smod")) else "beyond",
    )


def of_one(draw: Draw, subject: tuple[str, str, str]) -> Body:
    """Draws an operation on a single number, on one from 1 to 1001 or to 127, on an interval that contains 65536, or on any number."""
    operation, start, ask = subject
    line = operation + (" r0, r0" if operation.startswith("mov") else " r0")
    if start == "single":
        return ["mov r0, %d" % draw.one_of((3, 200, 1000, 40000, -2, -200, -1000, -70000)), line], "r0", ask
    if start == "across":
        return ["call 4", "add r0, %d" % draw.between(65000, 65500), line], "r0", ask
    if start == "low":
        return ["call 4"] + ["and r0, 127"] * ("8" in operation) + [line], "r0", ask
    return ["ldxdw r0, [r1+%d]" % draw.between(0, 9), line], "r0", ask


def of_load(draw: Draw, size: str) -> Body:
    return ["ldx%s r0, [r1+%d]" % (size, draw.between(0, 9))], "r0", draw.one_of(("ends", "beyond", "beyond"))


def answered(draw: Draw, helper: int) -> Body:
    bound = max((bounds[1] for bounds in HELPERS[helper][0][:1] if bounds), default=0)
    lines = ["mov r1, %d" % draw.between(0, min(bound, 16))] * (helper not in (3, 4)) + ["mov r2, 9"] * (helper == 5)
    return lines + ["call %d" % helper], "r0", draw.one_of(("ends", "beyond", "beyond"))


def jumped(lines: list[str], condition: str, one: str, other: str | int, taken: bool) -> list[str]:
    """Returns the lines and a jump that is taken or not. The other edge leads to an exit."""
    if taken:
        return lines + ["%s %s, %s, +1" % (condition, one, other), "exit"]
    return lines + ["%s %s, %s, +END" % (condition, one, other)]


def narrowed_left(draw: Draw, subject: tuple[str, bool]) -> Body:
    """Draws a comparison that narrows the left side, with an immediate inside the interval, or at one of its ends for equality."""
    condition, taken = subject
    size = draw.one_of(("b", "b", "h"))
    greatest = (1 << 8 * SIZES[size]) - 1
    equal = condition[1:3] in ("eq", "ne")
    operand = draw.one_of((0, greatest)) if equal else draw.between(2, greatest - 2)
    return jumped(["ldx%s r0, [r1+%d]" % (size, draw.between(0, 9))], condition, "r0", operand, taken), "r0", "ends"


def narrowed_right(draw: Draw, subject: tuple[str, bool]) -> Body:
    """Draws a comparison that narrows a right side from 0 to 65535. The left side is from 1 to 1001, or a single number."""
    condition, taken = subject
    equal = (condition[1:3] == "eq") == (not taken) and condition[1:3] in ("eq", "ne")
    left = "mov r0, %d" % draw.one_of((0, 65535)) if equal else "call 4"
    return jumped(["ldxh r6, [r1+%d]" % draw.between(0, 9), left], condition, "r0", "r6", taken), "r6", "ends"


def not_narrowed(draw: Draw, subject: tuple[str, bool]) -> Body:
    """Draws a comparison that narrows nothing because a side may be too large."""
    condition, taken = subject
    sizes = "dw sb sh" if "32" not in condition else "w dw" if condition[1] == "s" else "dw"
    relation = condition.replace("32", "")[-2:]
    if relation in ("eq", "ne"):
        taken = relation == "eq"
    ask = "beyond low" if (relation in ("gt", "ge")) == taken else "beyond high"
    return jumped([loaded(draw, "r0", sizes)], condition, "r0", draw.between(1, 9), taken), "r0", ask


def decided(draw: Draw, subject: tuple[str, bool]) -> Body:
    """Draws a comparison of two single numbers, with lines that fail on the unreached edge or on the other one."""
    condition, on_other = subject
    one = draw.one_of((3, 64, 200, 65535, -1, -3, -200, 2147483647))
    other = min(2147483647, draw.one_of((one, one, one + 1, one - 1, -one, 7)))
    name, start = condition.replace("32", ""), draw.one_of(("mov", "mov32"))
    taken = holds(name, 64 if name == condition else 32, one % (1 << (64 if start == "mov" else 32)), other)
    return jumped(["%s r0, %d" % (start, one)], condition, "r0", other, taken == on_other) + fault_drawn(draw), None


def moved_pointer(draw: Draw, _: object) -> Body:
    """Draws a pointer that numbers are added to or subtracted from."""
    to, lines = "r1", []
    if draw.chance(3):
        to, lines = "r2", ["mov r2, %s" % draw.one_of(("r1", "r10"))]
    distance = draw.one_of((1, -1, 200, 227, -512, 32767, 32255, 32256, -32768, -32767, 32768, -32769))
    moves = ("add %s, %d" % (to, distance), "sub %s, %d" % (to, -distance))
    shape = draw.between(1, 4)
    if shape == 1:
        return (
            lines
            + [draw.one_of(moves), "%s %s, %d" % (draw.one_of(("add", "sub")), to, draw.one_of((1, -1, 100, -512)))],
            to,
        )
    if shape == 2:
        jump = "jgt r0, %d, +END" % draw.one_of((15, 227, 32767, 32768))
        return lines + [loaded(draw, "r0", "b h"), jump, "%s %s, r0" % (draw.one_of(("add", "sub")), to)], to
    if shape == 3:
        return (
            lines + [loaded(draw, "r0", "b"), draw.one_of(moves), "%s %s, r0" % (draw.one_of(("add", "sub")), to)],
            to,
        )
    return [
        loaded(draw, "r0", "b h"),
        "mov r3, r0",
        "%s r3, %s" % (draw.one_of(("add", "add", "sub")), draw.one_of(("r1", "r10"))),
    ], "r3"


def joined_pointer(draw: Draw, _: object) -> Body:
    """Draws a pointer with one of two offsets."""
    base = draw.one_of(("r1", "r10"))
    lines = ["mov r2, %s" % base, loaded(draw, "r0", "b"), "jeq r0, %d, +1" % draw.one_of(SMALL)]
    return lines + ["%s r2, %d" % (draw.one_of(("add", "sub")), draw.one_of((1, 7, 227, -1, -8, -512)))], "r2"


def stored(draw: Draw) -> str:
    low = draw.between(1, 4)
    return draw.one_of(("stb [r10-%d], 1" % low, "sth [r10-%d], 1" % max(2, low), "stxb [r10-%d], r0" % low))


def marked(draw: Draw, _: object) -> Body:
    """Draws stores on one path or on both, and a load."""
    load = draw.one_of(
        ("ldxb r0, [r10-%d]" % draw.between(1, 4), "ldxh r0, [r10-%d]" % draw.between(2, 4), "ldxsh r0, [r10-2]")
    )
    start = loaded(draw, "r0", "b")
    jump = "%s r0, %d, +" % (draw.one_of(("jeq", "jgt", "jset", "jslt32")), draw.one_of(SMALL))
    shape = draw.between(1, 4)
    if shape == 1:
        return [start, stored(draw), jump + "1", stored(draw), load], None
    if shape == 2:
        return [start, jump + "2", stored(draw), "ja +1", stored(draw), load], None
    if shape == 3:
        access = draw.one_of(("stb [r2-2], 1", "ldxb r0, [r2-2]", "ldxh r0, [r2-3]"))
        return [start, "and r0, 1", "mov r2, r10", "sub r2, r0", stored(draw), access, load], None
    return [start, stored(draw), stored(draw), load], None


def copied(draw: Draw, helper: int) -> Body:
    """Draws a call of a helper that takes bytes of the frame, at its limits."""
    length, at = draw.one_of((1, 2, 4, 30)), draw.one_of((1, 2, 4, 30, 512))
    given = draw.one_of((length, length, length, 0, 31))
    lines = ["mov r1, 0", "mov r2, r10", "add r2, -%d" % at, "mov r3, %d" % given, "call %d" % helper]
    if helper == NAME_IS:
        return [draw.one_of(("sth [r10-2], 1", "stb [r10-1], 1", "stw [r10-4], 1"))] + lines, None
    return lines + [draw.one_of(("ldxb r0, [r10-1]", "ldxh r0, [r10-2]", "ldxb r0, [r10-%d]" % at))], None


# Stores between a store to the last slot and a load from it: next to the slot, in it, and across its borders.
BETWEEN = (
    "stb [r10-9], 1",
    "stw [r10-12], 1",
    "stdw [r10-16], 1",
    "stb [r10-8], 1",
    "stb [r10-1], 1",
    "sth [r10-5], 1",
    "stw [r10-10], 1",
    "stdw [r10-15], 1",
    "sth [r10-9], 1",
)


def kept_number(draw: Draw, between: str) -> Body:
    """Draws a number that is stored in a slot and loaded again."""
    start = draw.one_of((["call 4"], ["call 3"], ["mov r0, %d" % draw.one_of(SMALL)], [loaded(draw, "r0", "b h w")]))
    return start + ["stxdw [r10-8], r0", between, "ldxdw r0, [r10-8]"], "r0"


def kept_pointer(draw: Draw, between: str) -> Body:
    """Draws a pointer that is stored in a slot and loaded again."""
    to = draw.one_of(("r1", "r6"))
    lines = ["mov r6, r10"] * (to == "r6") + ["add %s, %d" % (to, draw.one_of((1, 7, 200, -1, -8, -512)))]
    return lines + ["stxdw [r10-8], %s" % to, between, "ldxdw r6, [r10-8]"], "r6"


def kept_once(draw: Draw, kept: bool) -> Body:
    """Draws a comparison of a register. It narrows neither the slot that the register was stored in nor any other slot."""
    jump = "%s r0, %d, +END" % (draw.one_of(("jgt", "jge", "jlt")), draw.one_of((9, 15, 200)))
    at = draw.one_of((8, 8, 16, 512)) if kept else 12
    return [loaded(draw, "r0", "b"), "stxdw [r10-%d], r0" % at, jump, "ldxdw r0, [r10-%d]" % at], "r0"


KEPT = (
    "stxdw [r10-8], r6",
    "stxdw [r10-8], r10",
    "stdw [r10-8], %d",
    "stdw [r10-8], -1",
    "stw [r10-8], 1",
    "stb [r10-3], 1",
)


def kept_joined(draw: Draw, stores: tuple[str, str]) -> Body:
    """Draws slots that are joined. The first pointer leads into the record, or to another offset than the second."""
    first, second = (store % draw.one_of(SMALL) if "%" in store else store for store in stores)
    lines = (
        ["mov r6, r1"] * ("r6" in first + second)
        + [first]
        + ["add r6, %d" % draw.one_of((0, 7, 100))] * ("r6" in second)
    )
    return lines + ["call 3", "jeq r0, %d, +1" % draw.between(0, 9), second, "ldxdw r0, [r10-8]"], "r0"


def unreached(draw: Draw, _: object) -> Body:
    fault = fault_drawn(draw)
    start = draw.one_of(("mov r0, 1", "call 3"))
    return [start, draw.one_of(("ja +END", "exit")), *fault], None


def against_itself(draw: Draw, condition: str) -> Body:
    """Draws a comparison of a register with itself. Both edges are reached, and nothing is narrowed."""
    if draw.chance(2):
        return [loaded(draw, "r0"), "%s r0, r0, +END" % condition], "r0"
    return ["mov r0, %d" % draw.one_of(SMALL), "%s r0, r0, +END" % condition], "r0"


KIND_SOURCES: dict[str, tuple[str, ...]] = {
    "number": ("mov %s, 7", "mov %s, -1", "mov32 %s, 300", "mov %s, 0"),
    "record": ("mov %s, r1",),
    "frame": ("mov %s, r10",),
    "nothing": ("call 3",),
}


def joined_kinds(draw: Draw, sorts: tuple[str, str]) -> Body:
    """Draws two kinds that are joined. A call makes a register Nothing."""
    first, second = sorts
    to = "r2" if second == "nothing" else "r6"
    lines = [] if first == "nothing" else [draw.one_of(KIND_SOURCES[first]) % to]
    lines += ["call 3" if second == "number" else loaded(draw, "r0", "b h"), "jeq r0, %d, +1" % draw.between(0, 9)]
    if first == second == "nothing":
        return lines + ["mov r0, 1"], to
    last = draw.one_of(KIND_SOURCES[second])
    return lines + [last if second == "nothing" else last % to], to


# Checks that pass up to a bound of r0.
BOUNDED: tuple[tuple[int, tuple[str, ...]], ...] = (
    (32767, ("add r1, r0",)),
    (32760, ("add r1, 7", "add r1, r0")),
    (200, ("add r1, r0", "ldxb r0, [r1+27]")),
    (220, ("add r1, r0", "ldxdw r0, [r1+0]")),
    (511, ("mov r2, r10", "sub r2, r0", "stb [r2-1], 1")),
    (16, ("mov r1, r0", "call 1")),
    (16, ("mov r1, r0", "call 2")),
    (3, ("mov r1, r0", "call 9")),
)


def bounded(draw: Draw, shape: str) -> Body:
    """Draws a check at its bound or one past it. Only a join, a narrowing, or both decide it."""
    bound, lines = draw.one_of(BOUNDED)
    bound += draw.chance(2)
    if shape == "join":
        return [
            "mov r0, %d" % draw.between(0, 2),
            loaded(draw, "r3", "b"),
            "jne r3, 9, +1",
            "mov r0, %d" % bound,
            *lines,
        ], None
    if shape == "narrowing":
        jump = draw.one_of(("jgt r0, %d, +END" % bound, "jge r0, %d, +END" % (bound + 1)))
        return [loaded(draw, "r0", "h w dw"), jump, *lines], None
    jump = draw.one_of(("jle r0, %d, +1", "jlt r0, %d, +1", "jeq r0, %d, +1")) % draw.between(1, bound)
    return [loaded(draw, "r0", "h w dw"), jump, "mov r0, %d" % bound, *lines], None


WIDTHS = ("", "32")
BINARY = [name + width for name in OPERATIONS.split("|") if name != "mov" for width in WIDTHS]
EXTENSIONS = ["movsx8", "movsx16", "movsx32", "movsx8_32", "movsx16_32"]
# Operations with one operand: the operands, and what the probe needs.
UNARY: tuple[tuple[Sequence[str], tuple[tuple[str, str], ...]], ...] = (
    (("neg", "neg32"), (("single", "ends"), ("low", "beyond"))),
    (("mov32",), (("single", "ends"), ("low", "low"), ("any", "high"), ("any", "beyond"))),
    (EXTENSIONS, (("single", "ends"), ("low", "high"), ("any", "beyond"))),
    (("le16", "le32", "le64"), (("single", "ends"), ("low", "low"), ("any", "beyond"))),
    (("be16", "be32", "be64"), (("single", "ends"), ("low", "high"))),
    (("swap16", "swap32", "swap64"), (("single", "ends"), ("low", "beyond"))),
    (("le16", "movsx16"), (("across", "beyond"),)),
)
JUMPS = [name + width for name in CONDITIONS.split("|") for width in WIDTHS]
ORDERINGS = [jump for jump in JUMPS if not jump.startswith("jset")]
LIMITED = [jump for jump in ORDERINGS if "32" in jump or jump[1] == "s"]
SORT_PAIRS = [(one, other) for one in KIND_SOURCES for other in KIND_SOURCES]


def pairs(ones: Iterable[Any], others: Iterable[Any]) -> list[tuple[Any, Any]]:
    return list(itertools.product(ones, others))


def alternating(jumps: list[str], first: int) -> list[tuple[str, bool]]:
    """Pairs each jump with whether it is taken. Each condition has both cases in its two widths."""
    return [(jump, (at + at // 2) % 2 == first) for at, jump in enumerate(jumps)]


# Groups of rows: the title, the family, and the subject of each row.
GROUPS: tuple[tuple[str, Family, Iterable[Any]], ...] = (
    (
        "Results of operations.",
        operated,
        [(*case[:3], ask, WIDTHS[at % 2]) for at, case in enumerate(CASES) for ask in case[3].split()],
    ),
    ("Operations on single numbers.", with_numbers, BINARY[::3] + BINARY[1::3]),
    (
        "Operations of one operand, loads and calls.",
        of_one,
        [(name, *how) for names, hows in UNARY for name in names for how in hows],
    ),
    ("", of_load, ("b", "h", "w", "dw", "sb", "sh", "sw")),
    ("", answered, (1, 2, 3, 4, 5, 9)),
    (
        "Narrowing of the left side, where a jump is taken and where it isn't.",
        narrowed_left,
        pairs(ORDERINGS, (True, False)),
    ),
    ("Narrowing of the right side.", narrowed_right, alternating(ORDERINGS, 0)),
    ("Comparisons that narrow nothing.", not_narrowed, alternating(LIMITED, 1)),
    ("Comparisons of single numbers.", decided, alternating(JUMPS, 0)),
    ("Comparisons of a register with itself.", against_itself, JUMPS[::5]),
    ("Pointers.", moved_pointer, range(10)),
    ("", joined_pointer, range(4)),
    ("Marks.", marked, range(10)),
    ("", copied, (6, 6, 6, 7, 7, 7)),
    ("Kinds that meet.", joined_kinds, SORT_PAIRS),
    ("Bounds of a check that only a join, a narrowing, or both tell.", bounded, ("join", "narrowing", "both") * 4),
    ("Code that isn't reached.", unreached, range(5)),
    ("Numbers and pointers that slots keep.", kept_number, BETWEEN),
    ("", kept_pointer, BETWEEN),
    ("", kept_once, (True, True, False)),
    ("Slots that meet.", kept_joined, pairs(KEPT, KEPT)),
)
