"""What the verifier knows of values and of a state: kinds, their order, and faults."""
from collections.abc import Iterable
from typing import Final, NamedTuple

WORD = 1 << 64
RECORD_BYTES, FRAME_BYTES, SLOT_BYTES = 228, 512, 8
LEAST_OFFSET, GREATEST_OFFSET = -32768, 32767


class Kind(NamedTuple):
    sort: str
    low: int
    high: int

    def below(self, other: "Kind") -> bool:
        within = other.sort == self.sort and other.low <= self.low and self.high <= other.high
        return other is NOTHING or within

    def single(self) -> bool:
        return self.low == self.high

    def pointer(self) -> bool:
        return self.sort in ("record", "frame")


NOTHING = Kind("nothing", 0, 0)


def number(low: int, high: int | None = None) -> Kind:
    return Kind("number", low, low if high is None else high)


class State(NamedTuple):
    """The registers, the marks, and pairs of a slot and its kind for the slots that hold a known value."""

    registers: tuple[Kind, ...]
    marks: frozenset[int]
    slots: frozenset[tuple[int, Kind]] = frozenset()

    def read(self, name: str) -> Kind:
        """Returns the kind of a register. Fails if nothing is known of it."""
        kind = self.registers[index(name)]
        check(kind is not NOTHING, "40", f"ReadsNothing({index(name)})")
        return kind

    def put(self, name: str, kind: Kind) -> "State":
        at = index(name)
        return self._replace(registers=self.registers[:at] + (kind,) + self.registers[at + 1 :])

    def mark(self, first: int, count: int) -> "State":
        return self._replace(marks=self.marks.union(range(first, first + count)))

    def slot(self, slot: int | None) -> Kind:
        return NOTHING if slot is None else dict(self.slots).get(slot, NOTHING)

    def forget(self, reached: Iterable[int]) -> "State":
        """Forgets the slots that contain one of these bytes."""
        return self._replace(
            slots=frozenset(pair for pair in self.slots if not set(own_bytes(pair[0])).intersection(reached))
        )

    def keep(self, slot: int, kind: Kind) -> "State":
        """Puts a kind into a slot. A number marks the slot's bytes, and a pointer unmarks them."""
        own = own_bytes(slot)
        marks = self.marks.difference(own) if kind.pointer() else self.marks.union(own)
        return State(self.registers, marks, self.forget(own).slots | {(slot, kind)})

    def is_proper(self) -> bool:
        """Returns whether marks and slots agree."""
        return all(
            self.marks.isdisjoint(own_bytes(slot)) if kind.pointer() else self.marks.issuperset(own_bytes(slot))
            for slot, kind in self.slots
        )

    def below(self, other: "State | None") -> bool:
        if other is UNREACHED or not self.marks >= other.marks:
            return False
        return all(kind.below(above) for kind, above in zip(self.registers, other.registers)) and all(
            self.slot(slot).below(above) for slot, above in other.slots
        )


def own_bytes(slot: int) -> range:
    return range(SLOT_BYTES * slot, SLOT_BYTES * (slot + 1))


UNREACHED: Final = None
ENTRY = State(
    (NOTHING, Kind("record", 0, 0)) + (NOTHING,) * 8 + (Kind("frame", FRAME_BYTES, FRAME_BYTES),), frozenset()
)


def below(state: State | None, other: State | None) -> bool:
    return state is UNREACHED or state.below(other)


class Fault(Exception):
    """The first failing check."""


def check(passes: bool, cause: str, name: str) -> None:
    if not passes:
        raise Fault(cause, name)


def index(register: str) -> int:
    return int(register[1:])
