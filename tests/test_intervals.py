"""What an operation results in for numbers of two intervals is in the interval that tools/c/intervals.py computes for these."""

from random import Random

import intervals
import pytest
from harness.batches import add_batches

BATCHES = 1
# Of a batch.
OPERATIONS = 20_000
NAMES = ("add", "sub", "mul", "div", "or", "and", "lsh", "rsh", "neg", "mod", "xor", "mov", "arsh")


def pytest_generate_tests(metafunc: pytest.Metafunc) -> None:
    add_batches(metafunc, BATCHES)


def drawn(dice: Random) -> intervals.Interval:
    low = dice.choice((0, 1, 2**31, 2**32 - 3, 2**63 - 2, 2**64 - 40, -5, -(2**31))) + dice.randrange(4)
    return intervals.normal(low, low + dice.choice((0, 1, 7, 300, 2**32)))


def is_in(number: int, interval: intervals.Interval) -> bool:
    low, high = interval
    return low <= number <= high or low <= number - 2**64 <= high


def test_operations(batch: int) -> None:
    dice = Random(f"operations {batch}")
    for _ in range(OPERATIONS):
        operation, bits = dice.randrange(len(NAMES)), dice.choice((32, 64))
        x, y = drawn(dice), drawn(dice)
        one, other = dice.randint(*x) % 2**64, dice.randint(*y) % 2**64
        result = computed(NAMES[operation], one % 2**bits, other % 2**bits, bits)
        assert is_in(result, intervals.operate(operation, x, y, bits)), (NAMES[operation], bits, x, y)


def test_signed_division(batch: int) -> None:
    dice = Random(f"division {batch}")
    for _ in range(OPERATIONS):
        is_remainder, bits = dice.random() < 0.5, dice.choice((32, 64))
        x, y = drawn(dice), drawn(dice)
        one, other = dice.randint(*x) % 2**64, dice.randint(*y) % 2**64
        result = divided(is_remainder, one % 2**bits, other % 2**bits, bits)
        assert is_in(result, intervals.divide_signed(is_remainder, x, y, bits)), (is_remainder, bits, x, y)


def test_comparisons(batch: int) -> None:
    dice = Random(f"comparisons {batch}")
    for _ in range(OPERATIONS):
        condition, bits = dice.choice(sorted(intervals.CONDITIONS)), dice.choice((32, 64))
        x, y = drawn(dice), drawn(dice)
        one, other = dice.randint(*x) % 2**64, dice.randint(*y) % 2**64
        taken = holds(condition, one % 2**bits, other % 2**bits, bits)
        left = intervals.narrow(condition, x, y, bits, taken)
        assert left is not None, (condition, bits, x, y)
        assert is_in(one, left[0]) and is_in(other, left[1]), (condition, bits, x, y)


def as_signed(number: int, bits: int) -> int:
    return int.from_bytes(number.to_bytes(bits // 8, "little"), "little", signed=True)


def computed(name: str, x: int, y: int, bits: int) -> int:
    """Returns the result by RFC 9669, section 4.1."""
    match name:
        case "div":
            return x // y if y else 0
        case "mod":
            return x % y if y else x
        case "lsh":
            return (x << y % bits) % (1 << bits)
        case "rsh":
            return x >> y % bits
        case "arsh":
            return (as_signed(x, bits) >> y % bits) % (1 << bits)
        case "neg":
            return -x % (1 << bits)
        case "mov":
            return y
    return {"add": x + y, "sub": x - y, "mul": x * y, "or": x | y, "and": x & y, "xor": x ^ y}[name] % (1 << bits)


def divided(is_remainder: bool, x: int, y: int, bits: int) -> int:
    """Returns the result of `sdiv` or `smod` by RFC 9669, section 4.1."""
    a, b = as_signed(x, bits), as_signed(y, bits)
    quotient = abs(a) // abs(b) * (1 if (a < 0) == (b < 0) else -1) if b else 0
    return (a - b * quotient if is_remainder else quotient) % (1 << bits)


def holds(condition: int, x: int, y: int, bits: int) -> bool:
    """Whether the comparison holds by RFC 9669, section 4.3."""
    a, b = as_signed(x, bits), as_signed(y, bits)
    return {1: x == y, 2: x > y, 3: x >= y, 4: x & y != 0, 5: x != y, 6: a > b, 7: a >= b, 10: x < y, 11: x <= y,
            12: a < b, 13: a <= b}[condition]  # fmt: skip
