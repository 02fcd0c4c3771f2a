"""The search for annotations of a program: its domain, all annotations of that, and others that are drawn."""
import itertools
from collections.abc import Callable, Iterable, Iterator, Mapping, Sequence
from typing import Any, Generic, TypeVar

from verifier.kinds import (
    ENTRY,
    GREATEST_OFFSET,
    LEAST_OFFSET,
    NOTHING,
    UNREACHED,
    WORD,
    Fault,
    Kind,
    State,
    below,
    index,
)
from verifier.program_text import Instruction
from verifier.steps import step

Marks = frozenset[int]
Value = TypeVar("Value")
# A state for each place.
Annotation = dict[int, State | None]
Edge = tuple[int, State | None]

# ---- The domain of a program


class TooLarge(Exception):
    """The domain has more states than the script tries."""


SORTS: dict[str, tuple[int, ...]] = {"number": (0, WORD - 1), "record": (GREATEST_OFFSET,), "frame": ()}


def kinds_tried(coming: set[Kind]) -> tuple[set[Kind], set[Kind]]:
    """Returns the kinds to try for a register from the arriving ones, and those of them that are followed to later places."""
    tried, followed = {NOTHING}, coming & {NOTHING}
    for sort, outermost in SORTS.items():
        lows = {kind.low for kind in coming if kind.sort == sort}
        highs = {kind.high for kind in coming if kind.sort == sort}
        if lows:
            ends = lows.union(highs, outermost)
            tried |= {Kind(sort, low, high) for low in ends for high in ends if low <= high}
            followed |= {Kind(sort, low, high) for low in lows for high in highs if low <= high}
    if len({kind.sort for kind in coming}) > 1:
        followed.add(NOTHING)
    return tried, followed or {NOTHING}


def marks_tried(coming: set[Marks]) -> tuple[set[Marks], set[Marks]]:
    """Does the same for sets of marks."""
    followed: set[Marks] = set()
    more, nothing = coming, {Marks()}
    while more:
        followed |= more
        more = {one & other for one in followed for other in followed} - followed
    return followed | nothing, followed or nothing


class Column(Generic[Value]):
    """The values that are tried for one register or slot, or for the marks, at one place. Each value is a bit, starting at `first`."""

    def __init__(
        self, tried: set[Value], followed: set[Value], is_below: Callable[[Value, Value], bool], first: int
    ) -> None:
        self.values = sorted(tried, key=repr)
        self.followed = followed
        self.is_below = is_below
        self.bits = {value: 1 << first + at for at, value in enumerate(self.values)}
        self.known: dict[Value, int] = {}

    def bit(self, value: Value) -> int:
        return self.bits[value]

    def above(self, value: Value) -> int:
        """Returns the bits of the values that are above this one."""
        if value not in self.known:
            self.known[value] = sum(bit for other, bit in self.bits.items() if self.is_below(value, other))
        return self.known[value]


class Domain:
    """The states that are tried at one place. The states above given ones are a product over the columns, so a set of states is a number
    with the bits of each column and one bit for Unreached."""

    def __init__(self, used: list[int], coming: Iterable[State | None], first: int) -> None:
        self.used, self.unreached = used, 1 << first
        self.columns: list[Column[Any]] = []
        self.end = first + 1
        arrived = [state for state in coming if state is not UNREACHED]
        for at in used:
            self.add(*kinds_tried({state.registers[at] for state in arrived}), Kind.below)
        self.slots = sorted({slot for state in arrived for slot, _ in state.slots})
        for slot in self.slots:
            self.add(*kinds_tried({state.slot(slot) for state in arrived}), Kind.below)
        self.add(*marks_tried({state.marks for state in arrived}), frozenset.issuperset)
        self.everything = (1 << self.end) - (1 << first)

    def add(self, tried: set[Value], followed: set[Value], is_below: Callable[[Value, Value], bool]) -> None:
        self.columns.append(Column(tried, followed, is_below, self.end))
        self.end += len(tried)

    def parts(self, state: State) -> Iterable[tuple[Column[Any], Any]]:
        kinds = [state.registers[at] for at in self.used] + [state.slot(slot) for slot in self.slots]
        return zip(self.columns, [*kinds, state.marks])

    def alone(self, state: State) -> int:
        return sum(column.bit(part) for column, part in self.parts(state))

    def above(self, state: State | None) -> int:
        """Returns the states that are above this one."""
        if state is UNREACHED:
            return self.everything
        return sum(column.above(part) for column, part in self.parts(state))

    def product(self, choices: list[Iterable[Any]]) -> Iterator[State]:
        for parts in itertools.product(*choices):
            registers = [NOTHING] * len(ENTRY.registers)
            for at, kind in zip(self.used, parts):
                registers[at] = kind
            slots = zip(self.slots, parts[len(self.used) : -1])
            state = State(tuple(registers), parts[-1], frozenset(pair for pair in slots if pair[1] is not NOTHING))
            if state.is_proper():
                yield state

    def followed(self) -> Iterator[State]:
        return self.product([column.followed for column in self.columns])

    def states(self) -> Iterator[tuple[int, State | None]]:
        """Yields all states, each with the set that contains only this state."""
        yield self.unreached, UNREACHED
        for state in self.product([column.values for column in self.columns]):
            yield self.alone(state), state

    def count(self) -> int:
        total = 1
        for column in self.columns:
            total *= len(column.values)
        return total + 1


# ---- The search

STATES_AT_MOST, STEPS_AT_MOST = 800, 100000


def outcome(instruction: Instruction, state: State | None) -> tuple[list[Edge] | None, Fault | None]:
    """Returns the edges, or the fault."""
    try:
        return step(instruction, state), None
    except Fault as fault:
        return None, fault


# The set of a state alone, the state, and what it allows at later places.
Passing = tuple[int, State | None, int]


class Search:
    """All annotations of a program's domain, extended place by place. An annotation that is good up to a place is stored as its front: a
    number with the states that it allows at all places from there on, in the bits of their domains."""

    def __init__(self, program: Mapping[int, Instruction], wanted: Iterable[str] = ()) -> None:
        """Counts the `wanted` registers as read at the end."""
        self.program = program
        self.places = list(program)
        self.find_used(wanted)
        self.entry = self.only(0, ENTRY)
        self.make_domains()
        self.follow()

    def find_used(self, wanted: Iterable[str]) -> None:
        """Finds the registers that may be read from each place on before they are written. Goes backwards, since all edges lead forwards."""
        self.used: dict[int, set[str]] = {}
        for place in reversed(self.places):
            instruction = self.program[place]
            behind = (
                set().union(*(self.used[target] for target in instruction.targets()))
                if instruction.targets()
                else set(wanted)
            )
            self.used[place] = behind - instruction.written() | instruction.read()

    def only(self, place: int, state: State) -> State:
        """Returns a state reduced to the registers that are used from a place on."""
        kinds = (kind if f"r{at}" in self.used[place] else NOTHING for at, kind in enumerate(state.registers))
        return state._replace(registers=tuple(kinds))

    def make_domains(self) -> None:
        """Makes the domains. Goes forwards, as all edges do."""
        self.domains: dict[int, Domain] = {}
        coming: dict[int, set[State | None]] = {place: set() for place in self.places}
        first = 0
        coming[0].add(self.entry)
        for place in self.places:
            used = sorted(map(index, self.used[place]))
            domain = self.domains[place] = Domain(used, coming[place], first)
            first = domain.end
            if domain.count() > STATES_AT_MOST:
                raise TooLarge
            for state in domain.followed():
                for target, edge in outcome(self.program[place], state)[0] or ():
                    coming[target].add(edge)

    def behind(self, place: int, edges: Iterable[Edge]) -> int:
        """Returns what edges allow at the places after this one."""
        allowed = -1 << self.domains[place].end
        for target, edge in edges:
            domain = self.domains[target]
            allowed &= ~domain.everything | domain.above(edge)
        return allowed

    def passing(self, place: int) -> list[Passing]:
        """Returns the states of a domain that pass, each with the set of it alone and with what it allows at later places."""
        found: list[Passing] = []
        for alone, state in self.domains[place].states():
            edges, _ = outcome(self.program[place], state)
            if edges is not None:
                found.append((alone, state, self.behind(place, edges)))
        return found

    def follow(self) -> None:
        """Finds `layers`: for each place that annotations are good up to, their fronts, each with the states that pass."""
        start = self.domains[0]
        last = self.domains[self.places[-1]].end
        fronts = {(1 << last) - (1 << start.end) | start.above(self.entry)}
        self.layers: list[dict[int, list[Passing]]] = []
        steps = 0
        for place in self.places:
            everything, passing = self.domains[place].everything, self.passing(place)
            sets = {
                bits: [found for found in passing if not found[0] & ~bits]
                for bits in {front & everything for front in fronts}
            }
            layer = {front: sets[front & everything] for front in fronts}
            steps += sum(map(len, layer.values()))
            if steps > STEPS_AT_MOST:
                raise TooLarge
            self.layers.append(layer)
            fronts = {front & allowed for front, states in layer.items() for _, _, allowed in states}

    def accepted(self) -> bool:
        return any(self.layers[-1].values())

    def states_met(self) -> dict[int, set[State | None]]:
        """Returns, for each place up to the verdict's, its states in all annotations that are good up to the verdict's place or to the end."""
        layers = [layer for layer in self.layers if layer]
        met: list[set[State | None]] = []
        fronts = {0}
        if not self.accepted():
            fronts = set(layers.pop())
            domain = self.domains[self.places[len(layers)]]
            met.append({state for alone, state in domain.states() if any(not alone & ~front for front in fronts)})
        for layer in reversed(layers):
            going_on = [
                (front, state)
                for front, states in layer.items()
                for _, state, allowed in states
                if front & allowed in fronts
            ]
            fronts = {front for front, _ in going_on}
            met.append({state for _, state in going_on})
        return dict(zip(self.places, reversed(met)))

    def least(self) -> Annotation:
        """Returns the annotation that is below all others, up to the verdict's place. It must exist."""
        annotation = {place: least_of(states) for place, states in self.states_met().items()}
        assert is_good(self.program, annotation, self.entry)
        return annotation

    def verdict(self) -> str:
        if self.accepted():
            return "accepted"
        place, state = list(self.least().items())[-1]
        _, fault = outcome(self.program[place], state)
        assert fault is not None
        cause, name = fault.args
        return f"refused {cause} place {place} {name}"


def least_of(states: set[State | None]) -> State | None:
    least = UNREACHED if UNREACHED in states else next(iter(states))
    for state in states:
        least = state if below(state, least) else least
    assert all(below(least, state) for state in states)
    return least


def is_good(program: Mapping[int, Instruction], annotation: Annotation, entry: State) -> bool:
    """Returns whether an annotation is good up to its last place."""
    last = max(annotation)
    if not below(entry, annotation[0]):
        return False
    for place in annotation:
        if place < last:
            edges, _ = outcome(program[place], annotation[place])
            if edges is None or not all(target > last or below(edge, annotation[target]) for target, edge in edges):
                return False
    return True


# ---- Annotations outside the domain


class Draw:
    """A generator of random numbers that doesn't depend on the version of Python."""

    def __init__(self, seed: int) -> None:
        self.state = seed

    def bits(self) -> int:
        self.state = (self.state * 6364136223846793005 + 1442695040888963407) % WORD
        return self.state >> 33

    def between(self, low: int, high: int) -> int:
        return low + ((high - low + 1) * (self.bits() << 31 | self.bits()) >> 62)

    def one_of(self, choices: Sequence[Value]) -> Value:
        return choices[self.between(0, len(choices) - 1)]

    def chance(self, among: int) -> bool:
        return self.between(1, among) == 1


EXTENTS = {"number": (0, WORD - 1), "record": (LEAST_OFFSET, GREATEST_OFFSET), "frame": (LEAST_OFFSET, GREATEST_OFFSET)}


def kind_above(draw: Draw, kinds: Sequence[Kind]) -> Kind:
    if len({kind.sort for kind in kinds}) > 1 or NOTHING in kinds or draw.chance(8):
        return NOTHING
    least, greatest = EXTENTS[kinds[0].sort]
    low, high = min(kind.low for kind in kinds), max(kind.high for kind in kinds)
    low = draw.one_of((low, low, low, max(least, low - 1), draw.between(least, low)))
    high = draw.one_of((high, high, high, min(greatest, high + 1), draw.between(high, greatest)))
    return Kind(kinds[0].sort, low, high)


def state_above(draw: Draw, states: list[State | None], entry: State) -> State | None:
    reached = [state for state in states if state is not UNREACHED]
    if not reached and not draw.chance(4):
        return UNREACHED
    reached = reached or [entry]
    marks = frozenset.intersection(*(state.marks for state in reached))
    registers = tuple(kind_above(draw, kinds) for kinds in zip(*(state.registers for state in reached)))
    marks = frozenset(at for at in marks if not draw.chance(8))
    slots = {slot: kind_above(draw, [state.slot(slot) for state in reached]) for slot, _ in sorted(reached[0].slots)}
    fitting = (State(registers, marks, frozenset({pair})) for pair in slots.items() if pair[1] is not NOTHING)
    return State(
        registers, marks, frozenset[tuple[int, Kind]]().union(*(state.slots for state in fitting if state.is_proper()))
    )


def sample(draw: Draw, search: Search, least: Annotation) -> None:
    """Draws an annotation. It must be above the least one, and if the program is refused, fail at the verdict's place or earlier."""
    annotation: Annotation = {}
    coming: dict[int, list[State | None]] = {place: [] for place in search.places}
    coming[0].append(search.entry)
    for place in least:
        state = annotation[place] = state_above(draw, coming[place], search.entry)
        assert below(least[place], state)
        edges, _ = outcome(search.program[place], state)
        if edges is None:
            break
        for target, edge in edges:
            coming[target].append(edge and search.only(target, edge))
    else:
        assert search.accepted()
    assert is_good(search.program, annotation, search.entry)
