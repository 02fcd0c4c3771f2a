"""A program's verdict by one walk that joins states, with the states before its instructions."""
from dataclasses import dataclass, field

from verifier.kinds import ENTRY, NOTHING, UNREACHED, Fault, Kind, State
from verifier.program_text import Instruction
from verifier.search import Search, TooLarge
from verifier.steps import step

# Instructions; a longer program has too many annotations to try.
SEARCHED_AT_MOST = 64
Program = dict[int, Instruction]


@dataclass(frozen=True)
class Refusal:
    number: int
    place: int
    name: str

    def __str__(self) -> str:
        return f"refused {self.number} place {self.place} {self.name}"


@dataclass
class Walk:
    """The states before the instructions, up to the refused one if there is a refusal."""

    states: dict[int, State | None] = field(default_factory=dict)
    refusal: Refusal | None = None

    def verdict(self) -> str:
        return str(self.refusal or "accepted")


def jump_refusal(program: Program) -> Refusal | None:
    """Returns the first fault of the jumps, or of the last instruction."""
    places = list(program)
    for place, instruction in program.items():
        if instruction.form in ("jump", "always"):
            distance = instruction.operands[-1]
            target = instruction.after + distance
            if distance < 0:
                return Refusal(30, place, "BackwardJump")
            if target >= program[places[-1]].after:
                return Refusal(31, place, "OutOfProgram")
            if target not in program:
                return Refusal(32, place, "IntoWide")
    return None if program[places[-1]].form == "exit" else Refusal(33, places[-1], "LastNotExit")


def joined_kind(one: Kind, other: Kind) -> Kind:
    if one.sort != other.sort or one.sort == NOTHING.sort:
        return NOTHING
    return Kind(one.sort, min(one.low, other.low), max(one.high, other.high))


def joined(one: State | None, other: State | None) -> State | None:
    """Returns what is known where two ways meet."""
    if one is UNREACHED or other is UNREACHED:
        return other if one is UNREACHED else one
    registers = tuple(map(joined_kind, one.registers, other.registers))
    slots = {slot: joined_kind(kind, other.slot(slot)) for slot, kind in one.slots}
    known = frozenset((slot, kind) for slot, kind in slots.items() if kind is not NOTHING)
    return State(registers, one.marks & other.marks, known)


def walk(program: Program) -> Walk:
    """Goes over a program with good jumps once, upwards."""
    done = Walk()
    waiting: dict[int, State | None] = {0: ENTRY}
    for place, instruction in program.items():
        state = done.states[place] = waiting.pop(place, UNREACHED)
        try:
            for target, edge in step(instruction, state):
                waiting[target] = joined(waiting.get(target, UNREACHED), edge)
        except Fault as fault:
            number, name = fault.args
            done.refusal = Refusal(int(number), place, name)
            break
    return done


def verified(program: Program) -> Walk:
    refusal = jump_refusal(program)
    return Walk(refusal=refusal) if refusal else walk(program)


def is_least(program: Program, found: Walk) -> bool:
    """Returns whether the search for annotations finds these states. A program that is too large to search passes."""
    if not found.states or len(program) > SEARCHED_AT_MOST:
        return True
    try:
        search = Search(program)
        least = search.least()
    except TooLarge:
        return True
    states = {place: state and search.only(place, state) for place, state in found.states.items()}
    return least == states and search.verdict() == found.verdict()
