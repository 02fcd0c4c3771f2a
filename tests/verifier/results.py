"""Results of operations on numbers and on intervals, and what a comparison leaves of two intervals."""
from collections.abc import Callable

from verifier.kinds import Kind, number

# The intervals of both operands, or None for an empty one.
Pair = tuple[Kind | None, Kind | None]
Narrowing = Callable[[Kind, Kind], Pair]

# ---- Arithmetic on single numbers


def signed(value: int, width: int) -> int:
    return value - (1 << width) if value >> (width - 1) else value


def quotient_towards_zero(x: int, y: int) -> int:
    return abs(x) // abs(y) * (1 if (x < 0) == (y < 0) else -1)


def exact(name: str, width: int, x: int, y: int) -> int:
    """Returns the result of an operation on two numbers below 2^width."""
    amount = y % width
    sx, sy = signed(x, width), signed(y, width)
    results: dict[str, Callable[[], int]] = {
        "add": lambda: x + y,
        "sub": lambda: x - y,
        "mul": lambda: x * y,
        "div": lambda: x // y if y else 0,
        "mod": lambda: x % y if y else x,
        "sdiv": lambda: quotient_towards_zero(sx, sy) if y else 0,
        "smod": lambda: sx - sy * quotient_towards_zero(sx, sy) if y else x,
        "or": lambda: x | y,
        "and": lambda: x & y,
        "xor": lambda: x ^ y,
        "lsh": lambda: x << amount,
        "rsh": lambda: x >> amount,
        "arsh": lambda: sx >> amount,
        "neg": lambda: -x,
    }
    return results[name]() % (1 << width)


def reversed_bytes(value: int, bits: int) -> int:
    return int.from_bytes((value % (1 << bits)).to_bytes(bits // 8, "little"), "big")


# ---- Results on intervals


def cut(x: Kind, bits: int) -> Kind:
    size = 1 << bits
    if x.low // size == x.high // size:
        return number(x.low % size, x.high % size)
    return number(0, size - 1)


def result(name: str, width: int, x: Kind, y: Kind) -> Kind:
    """Returns the interval of the result of NEG or of an operation with two operands."""
    size = 1 << width
    if width == 32:
        x, y = cut(x, 32), cut(y, 32)
    if name == "mov":
        return y
    if x.single() and y.single():
        return number(exact(name, width, x.low, y.low))
    low, high = RESULTS.get(name, unknown)(size, x.low, x.high, y.low, y.high)
    return number(low, high)


def unknown(size: int, *_: int) -> tuple[int, int]:
    return 0, size - 1


def added(size: int, a: int, b: int, c: int, d: int) -> tuple[int, int]:
    if b + d < size:
        return a + c, b + d
    if a + c >= size:
        return a + c - size, b + d - size
    return unknown(size)


def subtracted(size: int, a: int, b: int, c: int, d: int) -> tuple[int, int]:
    if a >= d:
        return a - d, b - c
    if b < c:
        return a - d + size, b - c + size
    return unknown(size)


def multiplied(size: int, a: int, b: int, c: int, d: int) -> tuple[int, int]:
    return (a * c, b * d) if b * d < size else unknown(size)


def divided(size: int, a: int, b: int, c: int, d: int) -> tuple[int, int]:
    return (a // d, b // c) if c >= 1 else (0, b)


def remainder(size: int, a: int, b: int, c: int, d: int) -> tuple[int, int]:
    return (0, min(b, d - 1)) if c >= 1 else (0, b)


def all_ones(b: int, d: int) -> int:
    return (1 << max(b, d).bit_length()) - 1


def shifted_left(size: int, a: int, b: int, c: int, d: int) -> tuple[int, int]:
    amount = c % (size.bit_length() - 1)
    return (a << amount, b << amount) if c == d and b << amount < size else unknown(size)


def shifted_right(size: int, a: int, b: int, c: int, d: int) -> tuple[int, int]:
    amount = c % (size.bit_length() - 1)
    return (a >> amount, b >> amount) if c == d else (0, b)


def shifted_with_sign(size: int, a: int, b: int, c: int, d: int) -> tuple[int, int]:
    width = size.bit_length() - 1
    if c == d and (a < size // 2) == (b < size // 2):
        return exact("arsh", width, a, c), exact("arsh", width, b, c)
    return unknown(size)


RESULTS: dict[str, Callable[[int, int, int, int, int], tuple[int, int]]] = {
    "add": added,
    "sub": subtracted,
    "mul": multiplied,
    "div": divided,
    "mod": remainder,
    "and": lambda size, a, b, c, d: (0, min(b, d)),
    "or": lambda size, a, b, c, d: (max(a, c), all_ones(b, d)),
    "xor": lambda size, a, b, c, d: (0, all_ones(b, d)),
    "lsh": shifted_left,
    "rsh": shifted_right,
    "arsh": shifted_with_sign,
}


def extended(bits: int, width: int, x: Kind) -> Kind:
    """Returns the result of MOVSX."""
    if width == 32:
        x = cut(x, 32)
    if x.single():
        return number(signed(x.low % (1 << bits), bits) % (1 << width))
    low_bits = cut(x, bits)
    return low_bits if low_bits.high < 1 << (bits - 1) else number(0, (1 << width) - 1)


def swapped(order: str, bits: int, x: Kind) -> Kind:
    """Returns the result of END, which reads the whole register."""
    if order == "le":
        return cut(x, bits)
    return number(reversed_bytes(x.low, bits)) if x.single() else number(0, (1 << bits) - 1)


# ---- Narrowing


def holds(name: str, width: int, x: int, y: int) -> bool:
    """Returns whether a comparison of two numbers is true."""
    x, y = x % (1 << width), y % (1 << width)
    if name[1] == "s" and name != "jset":
        name, x, y = "j" + name[2:], signed(x, width), signed(y, width)
    return {
        "jeq": x == y,
        "jne": x != y,
        "jset": x & y != 0,
        "jgt": x > y,
        "jge": x >= y,
        "jlt": x < y,
        "jle": x <= y,
    }[name]


def interval(low: int, high: int) -> Kind | None:
    """Returns the interval, or None if it is empty."""
    return number(low, high) if low <= high else None


def narrowed_equal(x: Kind, y: Kind) -> Pair:
    both = interval(max(x.low, y.low), min(x.high, y.high))
    return both, both


def without(x: Kind, y: Kind) -> Kind | None:
    if not y.single():
        return x
    return interval(x.low + (x.low == y.low), x.high - (x.high == y.low))


def narrowed_unequal(x: Kind, y: Kind) -> Pair:
    return without(x, y), without(y, x)


def narrowed_above(x: Kind, y: Kind) -> Pair:
    return interval(max(x.low, y.low + 1), x.high), interval(y.low, min(y.high, x.high - 1))


def narrowed_not_below(x: Kind, y: Kind) -> Pair:
    return interval(max(x.low, y.low), x.high), interval(y.low, min(y.high, x.high))


def exchanged(narrowing: Narrowing) -> Narrowing:
    def narrowed(x: Kind, y: Kind) -> Pair:
        right, left = narrowing(y, x)
        return left, right

    return narrowed


# The intervals of both operands, once if the jump is taken and once if it isn't.
NARROWINGS: dict[str, tuple[Narrowing, Narrowing]] = {
    "eq": (narrowed_equal, narrowed_unequal),
    "ne": (narrowed_unequal, narrowed_equal),
    "gt": (narrowed_above, exchanged(narrowed_not_below)),
    "ge": (narrowed_not_below, exchanged(narrowed_above)),
    "lt": (exchanged(narrowed_above), narrowed_not_below),
    "le": (exchanged(narrowed_not_below), narrowed_above),
}


def compared(name: str, width: int, x: Kind, y: Kind) -> list[tuple[Kind, Kind] | None]:
    """Returns the operands' kinds if the jump is taken, and if it isn't. None stands for an edge that isn't reached."""
    is_signed = name[1] == "s" and name != "jset"
    limit = 1 << (width - 1 if is_signed else width)
    if name != "jset" and x.high < limit and y.high < limit:
        edges = [narrowing(x, y) for narrowing in NARROWINGS[name[-2:]]]
        return [None if left is None or right is None else (left, right) for left, right in edges]
    if x.single() and y.single():
        taken = holds(name, width, x.low, y.low)
        return [(x, y) if taken else None, None if taken else (x, y)]
    return [(x, y), (x, y)]
