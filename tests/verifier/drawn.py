"""Programs that are drawn, and source lines for them.

A program is a list of idioms, lines that belong together. Each is drawn for the state before it, and mostly drawn
again if one of its checks fails, so that programs grow long. Jumps lead to labels between idioms.
"""
from collections.abc import Callable, Iterator
from typing import NamedTuple

from verifier.generated import IMMEDIATES, SMALL
from verifier.helpers import NAME_COPY, NAME_IS
from verifier.kinds import ENTRY, FRAME_BYTES, UNREACHED, WORD, Fault, State
from verifier.listing import REGISTERS, kind_of
from verifier.program_text import CONDITIONS, OPERATIONS, read_instructions
from verifier.search import Draw
from verifier.steps import step
from verifier.walk import Program, joined

NUMBERS, POINTERS = ("number",), ("record", "frame")
WRITABLE = REGISTERS[:-1]
OFFSETS = (-512, -256, -33, -32, -24, -17, -16, -12, -9, -8, -8, -7, -4, -2, -1)
Idiom = Callable[[Draw, State], list[str]]


class Case(NamedTuple):
    """A program's text, with the verdict that its row has."""

    name: str
    text: str
    verdict: str | None = None


def known(draw: Draw, state: State, sorts: tuple[str, ...]) -> str:
    """Draws a register of these sorts; any if there is none, and now and then."""
    fitting = [name for name in REGISTERS if kind_of(state, name).sort in sorts]
    return draw.one_of(fitting if fitting and not draw.chance(40) else REGISTERS)


def operand_drawn(draw: Draw, state: State) -> str:
    return known(draw, state, NUMBERS) if draw.chance(2) else str(draw.one_of(IMMEDIATES))


def written(draw: Draw, name: str) -> str:
    """Returns the register, or another one if it can't be written."""
    return name if name in WRITABLE else draw.one_of(WRITABLE)


def arithmetic_drawn(draw: Draw, state: State) -> list[str]:
    name = draw.one_of(OPERATIONS.split("|")) + draw.one_of(("", "", "32"))
    return [f"{name} {written(draw, known(draw, state, NUMBERS))}, {operand_drawn(draw, state)}"]


def unary_drawn(draw: Draw, state: State) -> list[str]:
    name = draw.one_of(("neg", "neg32", "le16", "le64", "be16", "be32", "swap32", "swap64"))
    extension = draw.one_of(("movsx8", "movsx16", "movsx32", "movsx8_32", "movsx16_32"))
    to = written(draw, known(draw, state, NUMBERS))
    return [draw.one_of((f"{name} {to}", f"{extension} {to}, {known(draw, state, NUMBERS)}"))]


def pointer_drawn(draw: Draw, state: State) -> list[str]:
    to, name = draw.one_of(WRITABLE), known(draw, state, POINTERS)
    if draw.chance(4):
        return [f"and {to}, 15", f"add {written(draw, name)}, {to}"]
    distance = draw.one_of((*OFFSETS, *SMALL))
    return [f"mov {to}, {name}", *[f"{draw.one_of(('add', 'add', 'sub'))} {to}, {distance}"] * draw.chance(2)]


def number_drawn(draw: Draw, state: State) -> list[str]:
    to, width = draw.one_of(WRITABLE), draw.one_of(("", "32"))
    wide = draw.one_of((f"lddw {to}, {draw.bits() << 33 | draw.bits()}", f"lddw {to}, {WORD - draw.one_of(SMALL) - 1}"))
    narrow = f"mov{width} {to}, {draw.one_of(IMMEDIATES)}"
    return [draw.one_of((narrow, wide, f"ldxb {to}, [r1+{draw.between(0, 227)}]"))]


def load_drawn(draw: Draw, state: State) -> list[str]:
    base = known(draw, state, POINTERS)
    pointer, size = kind_of(state, base), draw.one_of(("b", "h", "w", "dw", "dw", "sb", "sh", "sw"))
    offset = draw.between(0, 220) if pointer.sort == "record" else FRAME_BYTES + draw.one_of(OFFSETS)
    return [f"ldx{size} {draw.one_of(WRITABLE)}, [{base}{max(-32768, offset - pointer.low):+d}]"]


def store_drawn(draw: Draw, state: State) -> list[str]:
    base, size = known(draw, state, ("frame",)), draw.one_of(("b", "h", "w", "dw"))
    address = f"[{base}{max(-32768, FRAME_BYTES + draw.one_of(OFFSETS) - kind_of(state, base).high):+d}]"
    stored = f"stx{size} {address}, {known(draw, state, NUMBERS)}"
    return [draw.one_of((stored, f"st{size} {address}, {draw.one_of(IMMEDIATES)}"))]


def slot_drawn(draw: Draw, state: State) -> list[str]:
    slot = f"[r10-{draw.one_of((8, 8, 16, 24, 512))}]"
    stored = f"stxdw {slot}, {known(draw, state, POINTERS + NUMBERS)}"
    return [draw.one_of((stored, f"ldxdw {draw.one_of(WRITABLE)}, {slot}"))]


def call_drawn(draw: Draw, state: State) -> list[str]:
    helper = draw.one_of((1, 2, 3, 4, 5, 6, 7, 6, 7, 8, 9) + (10, -1) * draw.chance(20))
    lines = [f"mov r1, {draw.one_of((0, 1, 3, 3, 16, 17))}"] * (not draw.chance(8))
    if helper in (NAME_COPY, NAME_IS):
        length = draw.one_of((f"mov r3, {draw.one_of((1, 4, 8, 9, 30, 31))}", "and r3, 7", "mod r3, 30", "add r3, 1"))
        lines += ["mov r2, r10", f"add r2, {draw.one_of(OFFSETS)}", length]
    elif helper == 5:
        lines.append("mov r2, 1785")
    return lines + [f"call {helper}"]


def jump_drawn(draw: Draw, state: State, label: str) -> list[str]:
    if draw.chance(12):
        return [f"{draw.one_of(('ja', 'ja32'))} {label}"]
    condition = draw.one_of(CONDITIONS.split("|")) + draw.one_of(("", "", "32"))
    return [f"{condition} {known(draw, state, NUMBERS)}, {operand_drawn(draw, state)}, {label}"]


IDIOMS: tuple[Idiom, ...] = (
    arithmetic_drawn,
    arithmetic_drawn,
    unary_drawn,
    pointer_drawn,
    pointer_drawn,
    number_drawn,
    load_drawn,
    load_drawn,
    store_drawn,
    store_drawn,
    slot_drawn,
    call_drawn,
)
EVENTUALLY = ["mov r0, 1", "exit"]


def edges_of(lines: list[str], state: State | None) -> list[State | None] | None:
    """Returns the states on the edges of the last line, that of a jump taken first; None if a check fails."""
    last = [state]
    for instruction in read_instructions(" | ".join(lines)).values():
        try:
            last = [edge for _, edge in step(instruction, last[-1])]
        except Fault:
            return None
    return last


class DrawnProgram:
    """The lines of a program as it grows, with the states that lead to its labels."""

    def __init__(self, draw: Draw) -> None:
        self.draw, self.lines = draw, ["ldxb r2, [r1+55]", "mov r6, r1"]
        self.labels: dict[int, State | None] = {}
        start = edges_of(self.lines, ENTRY)
        assert start is not None
        self.state, self.length = start[-1], draw.between(2, 22)

    def grow(self) -> str:
        for number in range(self.length):
            self.begin(number)
            if not self.add(number):
                break
        for number in sorted(self.labels):
            self.begin(number)
        if self.state is not UNREACHED and kind_of(self.state, "r0").sort == "number":
            return " | ".join([*self.lines, "exit"])
        return " | ".join([*self.lines, *EVENTUALLY[self.draw.chance(6) :]])

    def begin(self, number: int) -> None:
        """Puts the label of an idiom, if a jump leads there."""
        if number in self.labels:
            self.lines.append(f"to{number}:")
            self.state = joined(self.state, self.labels.pop(number))

    def add(self, number: int) -> bool:
        """Adds an idiom, and returns whether its checks pass."""
        for _ in range(10):
            lines, target = self.drawn(number)
            edges = edges_of([line.replace(f"to{target}", "+0") for line in lines], self.state)
            if edges is not None or self.draw.chance(60):
                break
        self.lines += lines
        if target is not None:
            self.labels[target] = joined(self.labels.get(target, UNREACHED), edges[0] if edges else UNREACHED)
        if edges is None:
            return False
        falls_through = edges[target is not None :]
        self.state = falls_through[0] if falls_through else UNREACHED
        return True

    def drawn(self, number: int) -> tuple[list[str], int | None]:
        """Returns the lines of an idiom, and the idiom that they jump to."""
        state = self.state or ENTRY
        if self.draw.chance(4):
            target = number + self.draw.between(1, 5)
            return jump_drawn(self.draw, state, f"to{target}"), target
        return (EVENTUALLY if self.draw.chance(60) else self.draw.one_of(IDIOMS)(self.draw, state)), None


def drawn_programs(count: int, seed: int) -> Iterator[Case]:
    draw = Draw(seed)
    for number in range(count):
        yield Case(f"drawn program {number} of seed {seed}", DrawnProgram(draw).grow())


# Source lines that are drawn: some places have none, some several, and some are past the end.
SOURCE_TEXTS = ("if (number > 227)", "", "    return 0;", "Straße", "a\tb", "; x")


def drawn_lines(draw: Draw, program: Program) -> str:
    end = list(program.values())[-1].after
    places = (place for place in range(end + 3) for _ in range(draw.one_of((0, 0, 0, 1, 1, 2))))
    return "".join(f"{place}\t{draw.one_of(SOURCE_TEXTS)}\n" for place in places)
