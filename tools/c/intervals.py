"""Intervals of numbers: what operations result in, and what comparisons narrow.

The rules are those of docs/verifier.md, but an interval may go through 0: one from -2 to 5 has the greatest two numbers
and those from 0 to 5.
"""

from collections.abc import Callable

__all__ = [
    "ADD",
    "ALL",
    "CONDITIONS",
    "OPPOSITES",
    "TOP",
    "Interval",
    "cut",
    "divide_signed",
    "hull",
    "narrow",
    "normal",
    "operate",
    "signed",
    "signed_view",
    "smaller",
]

# The least and the greatest number. If the least is negative, the interval goes through 0.
Interval = tuple[int, int]

TOP = 2**64
ALL = (0, TOP - 1)
ADD, SUB, MUL, DIV, OR, AND, LSH, RSH, NEG, MOD, XOR, MOV, ARSH = range(13)


def signed(number: int, bits: int = 64) -> int:
    return number - (1 << bits) if number >> (bits - 1) else number


def normal(low: int, high: int) -> Interval:
    """Returns the same numbers with the greatest from 0, or all numbers if these aren't an interval."""
    turns = (high // TOP) * TOP
    low, high = low - turns, high - turns
    return (low, high) if low >= -TOP // 2 else ALL


def unsigned_view(interval: Interval) -> Interval:
    return interval if interval[0] >= 0 else ALL


def signed_view(interval: Interval) -> Interval:
    low, high = interval
    if low >= TOP // 2:
        return low - TOP, high - TOP
    return interval if high < TOP // 2 else (-TOP // 2, TOP // 2 - 1)


def cut(interval: Interval, bits: int) -> Interval:
    """Returns the low bits of the numbers."""
    low, high = interval
    if low >> bits == high >> bits:
        return low % 2**bits, high % 2**bits
    return 0, 2**bits - 1


def hull(one: Interval, other: Interval) -> Interval:
    """Returns the smallest interval around both."""
    (a, b), (c, d) = one, other
    around = [(min(a, c + turn), max(b, d + turn)) for turn in (0, TOP, -TOP)]
    low, high = min(around, key=lambda interval: (interval[1] - interval[0], interval[0] < 0))
    return normal(low, high) if high - low < TOP else ALL


EXACT: dict[int, Callable[[int, int, int], int]] = {
    ADD: lambda x, y, bits: x + y,
    SUB: lambda x, y, bits: x - y,
    MUL: lambda x, y, bits: x * y,
    DIV: lambda x, y, bits: x // y if y else 0,
    OR: lambda x, y, bits: x | y,
    AND: lambda x, y, bits: x & y,
    LSH: lambda x, y, bits: x << y % bits,
    RSH: lambda x, y, bits: x >> y % bits,
    NEG: lambda x, y, bits: -x,
    MOD: lambda x, y, bits: x % y if y else x,
    XOR: lambda x, y, bits: x ^ y,
    ARSH: lambda x, y, bits: signed(x, bits) >> y % bits,
}


def moved(operation: int, x: Interval, y: Interval) -> Interval:
    """Returns a sum or a difference of 64 bits."""
    low, high = (x[0] + y[0], x[1] + y[1]) if operation == ADD else (x[0] - y[1], x[1] - y[0])
    return normal(low, high) if high - low < TOP else ALL


def multiplied(x: Interval, factor: int) -> Interval:
    for low, high in (x, signed_view(x)):
        if -TOP // 2 <= low * factor and high * factor < TOP and (high - low) * factor < TOP:
            return normal(low * factor, high * factor)
    return ALL


def wide(operation: int, x: Interval, y: Interval) -> Interval | None:
    """Returns the result of an operation of 64 bits that knows signed numbers, or None if it isn't one of these."""
    if operation in (ADD, SUB):
        return moved(operation, x, y)
    if operation == NEG:
        return moved(SUB, (0, 0), x)
    if y[0] != y[1]:
        return None
    if operation == LSH:
        return multiplied(x, 2 ** (y[0] % 64))
    if operation == MUL and y[0] < 2**32:
        return multiplied(x, y[0])
    if operation == ARSH:
        low, high = signed_view(x)
        return normal(low >> y[0] % 64, high >> y[0] % 64)
    return None


def shifted(operation: int, x: Interval, y: Interval, bits: int) -> Interval:
    (low, high), top = x, 2**bits
    if y[0] != y[1]:
        return (0, high) if operation == RSH else (0, top - 1)
    amount = y[0] % bits
    if operation == RSH:
        return low >> amount, high >> amount
    if operation == LSH:
        return (low << amount, high << amount) if high << amount < top else (0, top - 1)
    if high < top // 2 or low >= top // 2:
        return (signed(low, bits) >> amount) % top, (signed(high, bits) >> amount) % top
    return 0, top - 1


def ranged(operation: int, x: Interval, y: Interval, bits: int) -> Interval:
    (a, b), (c, d), top = x, y, 2**bits
    filled = int(2 ** max(b, d).bit_length()) - 1
    match operation:
        case 0 if b + d < top:
            return a + c, b + d
        case 0 if a + c >= top:
            return a + c - top, b + d - top
        case 1 if a >= d:
            return a - d, b - c
        case 1 if b < c:
            return a - d + top, b - c + top
        case 2 if b * d < top:
            return a * c, b * d
        case 3:
            return (a // d, b // c) if c else (0, b)
        case 9:
            return (0, min(b, d - 1)) if c else (0, b)
        case 5:
            return 0, min(b, d)
        case 4:
            return max(a, c), filled
        case 10:
            return 0, filled
        case 6 | 7 | 12:
            return shifted(operation, x, y, bits)
    return 0, top - 1


def operate(operation: int, x: Interval, y: Interval, bits: int) -> Interval:
    """Returns the numbers that an unsigned operation of 32 or 64 bits may result in."""
    if bits == 32:
        x, y = cut(x, 32), cut(y, 32)
    if operation == MOV:
        return y
    if x[0] == x[1] and y[0] == y[1]:
        number = EXACT[operation](x[0], y[0], bits) % 2**bits
        return number, number
    found = wide(operation, x, y) if bits == 64 else None
    return ranged(operation, unsigned_view(x), unsigned_view(y), bits) if found is None else found


def toward_zero(number: int, divisor: int) -> int:
    return number // divisor if number >= 0 else -(-number // divisor)


def divide_signed(is_remainder: bool, x: Interval, y: Interval, bits: int) -> Interval:
    """Returns the numbers that `sdiv` or `smod` may result in."""
    if bits == 32:
        x, y = cut(x, 32), cut(y, 32)
        if max(x[1], y[1]) >= 2**31:
            return 0, 2**32 - 1
    (a, b), (c, d) = signed_view(x), signed_view(y)
    if c <= 0:
        return ALL
    if is_remainder:
        return normal(max(a, 1 - d) if a < 0 else 0, min(b, d - 1) if b > 0 else 0)
    return normal(min(toward_zero(a, c), toward_zero(a, d)), max(toward_zero(b, c), toward_zero(b, d)))


# Each condition's number, and that of its opposite. 4 is `jset`, which narrows nothing.
EQ, GT, GE, SET, NE, SGT, SGE, LT, LE, SLT, SLE = 1, 2, 3, 4, 5, 6, 7, 10, 11, 12, 13
OPPOSITES = {EQ: NE, NE: EQ, GT: LE, LE: GT, GE: LT, LT: GE, SGT: SLE, SLE: SGT, SGE: SLT, SLT: SGE}
UNSIGNED = {SGT: GT, SGE: GE, SLT: LT, SLE: LE}
CONDITIONS = frozenset(OPPOSITES) | {SET}
# What a condition says of its second operand.
MIRRORED = {EQ: EQ, NE: NE, GT: LT, GE: LE, LT: GT, LE: GE}


def holding(condition: int, x: Interval, y: Interval) -> Interval:
    """Returns the part of x for which the condition may hold. It may be empty."""
    (a, b), (c, d) = x, y
    match condition:
        case 1:
            return max(a, c), min(b, d)
        case 5:
            return (a + (a == c), b - (b == c)) if c == d else x
        case 2:
            return max(a, c + 1), b
        case 3:
            return max(a, c), b
        case 10:
            return a, min(b, d - 1)
    return a, min(b, d)


def decides(condition: int, x: int, y: int, bits: int) -> bool:
    x, y = x % 2**bits, y % 2**bits
    if condition in UNSIGNED:
        x, y, condition = signed(x, bits), signed(y, bits), UNSIGNED[condition]
    match condition:
        case 1:
            return x == y
        case 5:
            return x != y
        case 2:
            return x > y
        case 3:
            return x >= y
        case 10:
            return x < y
        case 11:
            return x <= y
    return x & y != 0


def views(condition: int, x: Interval, y: Interval, bits: int) -> tuple[Interval, Interval] | None:
    """Returns both operands so that they compare like whole numbers, or None if they don't."""
    if bits == 64 and (condition in UNSIGNED or (condition in (EQ, NE) and min(x[0], y[0]) < 0)):
        return signed_view(x), signed_view(y)
    if bits == 64:
        return unsigned_view(x), unsigned_view(y)
    limit = 2 ** (31 if condition in UNSIGNED else 32)
    if condition not in (GT, GE, LT, LE) and min(x[0], y[0]) >= -(2**31) and max(x[1], y[1]) < 2**31:
        return x, y
    return (x, y) if min(x[0], y[0]) >= 0 and max(x[1], y[1]) < limit else None


def narrow(condition: int, x: Interval, y: Interval, bits: int, taken: bool) -> tuple[Interval, Interval] | None:
    """Returns what is left of both operands if the jump is taken or isn't, or None if that can't happen."""
    if x[0] == x[1] and y[0] == y[1]:
        return (x, y) if decides(condition, x[0], y[0], bits) == taken else None
    if condition != SET and not taken:
        condition = OPPOSITES[condition]
    seen = views(condition, x, y, bits) if condition != SET else None
    if seen is None:
        return x, y
    condition = UNSIGNED.get(condition, condition)
    left, right = holding(condition, *seen), holding(MIRRORED[condition], seen[1], seen[0])
    if left[0] > left[1] or right[0] > right[1]:
        return None
    return smaller(normal(*left), x), smaller(normal(*right), y)


def smaller(one: Interval, other: Interval) -> Interval:
    return one if one[1] - one[0] < other[1] - other[0] else other
