"""The listing of a program, as `explain` writes it."""
from collections.abc import Callable, Iterable, Mapping
from dataclasses import dataclass
from typing import NamedTuple

from verifier.helpers import HELPERS, NAME_COPY, NAME_IS
from verifier.kinds import (
    ENTRY,
    FRAME_BYTES,
    NOTHING,
    RECORD_BYTES,
    SLOT_BYTES,
    UNREACHED,
    WORD,
    Kind,
    State,
    index,
    own_bytes,
)
from verifier.program_text import SIZES, Instruction
from verifier.walk import Program, Refusal, Walk

# ---- The text of an instruction, as `dis` writes it


def spelled_operand(operand: str | int | tuple[str, int]) -> str:
    return "[%s%+d]" % operand if isinstance(operand, tuple) else str(operand)


def spelled(instruction: Instruction) -> str:
    operands = [spelled_operand(operand) for operand in instruction.operands]
    if instruction.form in ("jump", "always"):
        operands[-1] = f"{instruction.operands[-1]:+d}"
    if instruction.form == "wide":
        operands[-1] = f"0x{instruction.operands[-1]:016x}"
    return f"{instruction.mnemonic} {', '.join(operands)}".rstrip()


# ---- Facts: the text of a register or a slot

SLOT_DISTANCES = range(SLOT_BYTES, FRAME_BYTES + 1, SLOT_BYTES)
REGISTERS = [f"r{number}" for number in range(len(ENTRY.registers))]
SLOTS = {f"[r10-{distance}]": (FRAME_BYTES - distance) // SLOT_BYTES for distance in SLOT_DISTANCES}
PARTS = [*REGISTERS, *SLOTS]
UNKNOWN, UNWRITTEN = "?", "?" * SLOT_BYTES
Texts = dict[str, str]


def interval_text(low: int, high: int) -> str:
    return str(low) if low == high else f"{low}..{high}"


def number_text(kind: Kind) -> str:
    if (kind.low, kind.high) == (0, WORD - 1):
        return "any number"
    if kind.low >= WORD // 2:
        return interval_text(kind.low - WORD, kind.high - WORD)
    return interval_text(kind.low, kind.high)


def kind_text(kind: Kind) -> str:
    if kind.pointer():
        return f"{kind.sort} + {interval_text(kind.low, kind.high)}"
    return UNKNOWN if kind is NOTHING else number_text(kind)


def slot_text(state: State, kinds: dict[int, Kind], slot: int) -> str:
    if slot in kinds:
        return kind_text(kinds[slot])
    return "".join("m" if byte in state.marks else "?" for byte in own_bytes(slot))


def texts_of(state: State) -> Texts:
    """Returns the text of each register and each slot."""
    kinds = dict(state.slots)
    texts = dict(zip(REGISTERS, map(kind_text, state.registers)))
    for name, slot in SLOTS.items():
        texts[name] = slot_text(state, kinds, slot)
    return texts


NOTHING_KNOWN: Texts = {**dict.fromkeys(REGISTERS, UNKNOWN), **dict.fromkeys(SLOTS, UNWRITTEN)}


def facts(texts: Texts, names: Iterable[str]) -> str:
    shown = set(names)
    return ", ".join(f"{name} = {texts[name]}" for name in PARTS if name in shown)


# ---- What an instruction reads


class Access(NamedTuple):
    """The bytes that a load, a store or a helper may touch, both ends included."""

    area: str
    first: int
    last: int


def memory_operand(instruction: Instruction) -> tuple[str, int]:
    """Returns the base and the offset of a load or a store."""
    base, offset = next(operand for operand in instruction.operands if isinstance(operand, tuple))
    return base, offset


def kind_of(state: State, register: str) -> Kind:
    return state.registers[index(register)]


def access(instruction: Instruction, state: State) -> Access | None:
    """Returns what an instruction may touch, if it goes through a pointer."""
    if instruction.form in ("load", "store"):
        base, offset = memory_operand(instruction)
        pointer = kind_of(state, base)
        first, last = pointer.low + offset, pointer.high + offset + SIZES[instruction.parts[1]] - 1
        return Access(pointer.sort, first, last) if pointer.pointer() else None
    if instruction.form == "call" and instruction.operands[0] in (NAME_COPY, NAME_IS):
        pointer, length = kind_of(state, "r2"), kind_of(state, "r3")
        lent = pointer.sort == "frame" and length.sort == "number"
        return Access("frame", pointer.low, pointer.high + length.high - 1) if lent else None
    return None


def slots_read(instruction: Instruction, state: State) -> set[str]:
    """Returns the slots that have one of the frame's bytes which may be read."""
    reads = instruction.form == "load" or (instruction.form == "call" and instruction.operands[0] == NAME_IS)
    touched = access(instruction, state) if reads else None
    if touched is None or touched.area != "frame":
        return set()
    inside = range(max(touched.first, 0), min(touched.last, FRAME_BYTES - 1) + 1)
    slots = {byte // SLOT_BYTES for byte in inside}
    return {name for name, slot in SLOTS.items() if slot in slots}


def parts_read(instruction: Instruction, state: State) -> set[str]:
    return instruction.read() | slots_read(instruction, state)


# ---- Why a check fails

LAST_BYTES = {"record": RECORD_BYTES - 1, "frame": FRAME_BYTES - 1}


@dataclass(frozen=True)
class Failure:
    """A check that fails at an instruction, with what is known before it."""

    instruction: Instruction
    state: State
    name: str

    def texts(self) -> Texts:
        return texts_of(self.state)

    def argument(self) -> int:
        """Returns the number in parentheses."""
        return int(self.name.partition("(")[2].removesuffix(")"))

    def registers(self) -> str:
        return facts(self.texts(), self.instruction.read())

    def address(self) -> str:
        """Returns what the bytes of an access are found from."""
        if self.instruction.form == "call":
            return facts(self.texts(), ("r2", "r3"))
        base, _ = memory_operand(self.instruction)
        return facts(self.texts(), (base,)) + self.offset()

    def offset(self) -> str:
        return f", offset {memory_operand(self.instruction)[1]}"

    def touched(self) -> Access:
        touched = access(self.instruction, self.state)
        assert touched is not None, self.instruction
        return touched

    def bytes_read(self, verb: str) -> str:
        touched = self.touched()
        return f"{verb} bytes {touched.first}..{touched.last} of the {touched.area}"


def reads_nothing(failure: Failure) -> str:
    return f"reads r{failure.argument()}, of which nothing is known"


def is_pointer(failure: Failure, operand: str | int) -> bool:
    return isinstance(operand, str) and kind_of(failure.state, operand).pointer()


def moves_pointer(failure: Failure) -> bool:
    """Returns whether the instruction adds a number to a pointer, or subtracts one from it, with 64 bits."""
    mnemonic, operands = failure.instruction.mnemonic, failure.instruction.operands
    pointers = [is_pointer(failure, operand) for operand in operands]
    return (mnemonic == "add" and not all(pointers)) or (mnemonic == "sub" and not pointers[1])


def pointer_arithmetic(failure: Failure) -> str:
    if moves_pointer(failure):
        fact = "moves a pointer only by a number from -32768 to 32767"
    else:
        fact = "of a pointer, which is only copied by mov, or moved by add or sub of a number"
    return f"{failure.instruction.mnemonic} {fact}: {failure.registers()}"


def leaves_area(failure: Failure) -> str:
    return f"moves a pointer to an offset outside -32768..32767: {failure.registers()}"


def not_pointer(failure: Failure) -> str:
    base, _ = memory_operand(failure.instruction)
    return f"the base is no pointer: {facts(failure.texts(), (base,))}"


def out_of_bounds(failure: Failure) -> str:
    writes = failure.instruction.form == "store" or failure.instruction.operands[0] == NAME_COPY
    bytes_read = failure.bytes_read("writes" if writes else "reads")
    return f"{bytes_read}, which has 0..{LAST_BYTES[failure.touched().area]}: {failure.address()}"


def unwritten_frame(failure: Failure) -> str:
    slots = facts(failure.texts(), slots_read(failure.instruction, failure.state))
    return f"{failure.bytes_read('reads')}, not all of which are written: {failure.address()}, {slots}"


def writes_record(failure: Failure) -> str:
    return f"writes to the record, which is read-only: {failure.address()}"


def stores_pointer(failure: Failure) -> str:
    allowed = "a pointer is stored only by stxdw, at one known offset divisible by 8"
    return f"{allowed}: {failure.registers()}{failure.offset()}"


def compares_pointer(failure: Failure) -> str:
    return f"compares a pointer: {failure.registers()}"


def unknown_helper(failure: Failure) -> str:
    return f"there is no helper function {failure.instruction.operands[0] % (1 << 32)}"


def numbers_text(low: int, high: int) -> str:
    return "any number" if (low, high) == (0, WORD - 1) else f"a number from {low} to {high}"


def bad_argument(failure: Failure) -> str:
    number = failure.argument()
    bounds = HELPERS[failure.instruction.operands[0]][0][number - 1]
    wanted = "a pointer into the frame" if bounds is None else numbers_text(*bounds)
    return f"argument {number} must be {wanted}: {facts(failure.texts(), (f'r{number}',))}"


def exit_not_number(failure: Failure) -> str:
    return f"exits with a pointer: {facts(failure.texts(), ('r0',))}"


FAILURE_TEXTS: dict[int, Callable[[Failure], str]] = {
    40: reads_nothing,
    41: pointer_arithmetic,
    42: leaves_area,
    43: not_pointer,
    44: out_of_bounds,
    45: unwritten_frame,
    46: writes_record,
    47: stores_pointer,
    48: compares_pointer,
    49: unknown_helper,
    50: bad_argument,
    51: exit_not_number,
}

# ---- The listing

NOTE_COLUMN = 40


class SourceLine(NamedTuple):
    place: int
    text: str


def source_lines(text: str) -> list[SourceLine]:
    """Reads lines of a place, a tab and a text."""
    rows = (line.split("\t", 1) for line in text.removesuffix("\n").split("\n") if line)
    return [SourceLine(int(place), line) for place, line in rows]


def note(instruction: Instruction, texts: Texts, read: set[str], last: Texts) -> str:
    """Returns the facts that are shown: of what is read, and of what differs from the last reached instruction."""
    return facts(texts, (name for name in PARTS if name in read or texts[name] != last[name]))


def instruction_line(place: int, instruction: Instruction, shown: str) -> str:
    prefix = f"{place}: {spelled(instruction)}"
    return f"{prefix:{NOTE_COLUMN}}; {shown}" if shown else prefix


def listing(program: Program, found: Walk, source: Iterable[SourceLine] = (), words: bytes = b"") -> str:
    """Returns the text that `explain` writes on standard output. The program's words are needed if its jumps have a fault."""
    if found.refusal and not found.states:
        spellings = {place: spelled(instruction) for place, instruction in program.items()}
        return excerpt(words, spellings, found.refusal.place, jump_reason(program, found.refusal), source)
    lines: list[str] = []
    left = list(source)
    last = NOTHING_KNOWN
    for place, state in found.states.items():
        while left and left[0].place <= place:
            lines.append(f"; {left.pop(0).text}")
        instruction, shown = program[place], "unreached"
        if state is not UNREACHED:
            texts = texts_of(state)
            shown = note(instruction, texts, parts_read(instruction, state), last)
            last = texts
        lines.append(instruction_line(place, instruction, shown))
    if found.refusal:
        lines.append(refused_line(program, found.states[found.refusal.place], found.refusal))
    else:
        lines += [*(f"; {line.text}" for line in left), "accepted"]
    return "".join(f"{line}\n" for line in lines)


def refused_line(program: Program, state: State | None, refusal: Refusal) -> str:
    assert state is not UNREACHED, refusal
    failure = Failure(program[refusal.place], state, refusal.name)
    return f"refused: {FAILURE_TEXTS[refusal.number](failure)}"


# ---- The words around a refused one

WORDS_AROUND = 5
JUMP_REASONS = {30: "jumps back", 31: "jumps past the last word", 32: "jumps to the second word of a wide load"}


def jump_reason(program: Program, refusal: Refusal) -> str:
    if refusal.number not in JUMP_REASONS:
        return "the last instruction isn't exit"
    jump = program[refusal.place]
    return f"{JUMP_REASONS[refusal.number]}, to place {jump.after + jump.operands[-1]}"


def excerpt(
    words: bytes, texts: Mapping[int, str], refused: int, reason: str, source: Iterable[SourceLine] = ()
) -> str:
    """Returns the words around a refused one, each with the text of the instruction that begins with it."""
    lines: list[str] = []
    for place in range(max(refused - WORDS_AROUND, 0), min(refused + WORDS_AROUND + 1, len(words) // 8)):
        lines += [f"; {line.text}" for line in source if line.place == place]
        lines.append(f"{place}: {words[8 * place : 8 * place + 8].hex(' ')}  {texts.get(place, '')}".rstrip())
        lines += [f"refused: {reason}"] if place == refused else []
    return "".join(f"{line}\n" for line in lines)
