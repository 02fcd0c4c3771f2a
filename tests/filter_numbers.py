"""Numeric expressions of the filters that are compared with SQL: how they are written, their bounds, and what is drawn."""

from enum import IntEnum
from typing import NamedTuple

from filter_counties import COLUMNS, Column, Kind
from filter_terms import TermDice

# An expression's parts have to be less than this, whatever the columns hold. (93)
BOUND = 1 << 62
NUMBER_RANGE, TOO_DEEP = 93, 95
# An expression needs no more kept values than this while its last one is computed (95), and no more operators. A comparison keeps its first number, too.
MOST_KEPT = 2
MOST_OPERATORS = 64
# Literals have up to 18 digits; degrees are below 1000.
LITERAL_BOUNDS = {Kind.NUMBER: 10**18, Kind.COORDINATE: 10**9}
COORDINATE_BOUND = 10**9 - 1

SUMS, PRODUCTS = ("+", "-"), ("*", "div", "%")
SQL_OPERATORS = {"+": "+", "-": "-", "*": "*", "div": "/", "%": "%"}
COLUMNS_OF = {kind: [column for column in COLUMNS if column.kind is kind] for kind in LITERAL_BOUNDS}


class Level(IntEnum):
    """The precedence of an expression's outermost operator; a higher level binds tighter."""

    SUM = 0
    PRODUCT = 1
    FACTOR = 2
    OPERAND = 3


class Number(NamedTuple):
    """A numeric expression as CQL2 tokens and as SQL, with the greatest absolute values of itself and of its parts."""

    tokens: list[str]
    sql: str
    bound: int
    greatest: int
    level: Level = Level.OPERAND
    kept: int = 0
    operators: int = 0
    is_literal: bool = False
    has_column: bool = False
    # How many parentheses and minus signs are in one another.
    nested: int = 0

    @property
    def words(self) -> int:
        """An upper bound for the program: 10 words per operator, and 6 per operand."""
        return 16 * self.operators + 6

    @property
    def refusals(self) -> frozenset[int]:
        """The refusals of which the filter must have one, if any."""
        range_refusal = {NUMBER_RANGE} if self.greatest >= BOUND else set()
        return frozenset(range_refusal | ({TOO_DEEP} if self.kept > MOST_KEPT else set()))


def bracketed(inner: Number, times: int = 1) -> Number:
    tokens = ["("] * times + inner.tokens + [")"] * times
    return inner._replace(tokens=tokens, level=Level.OPERAND, nested=inner.nested + times)


def negated(inner: Number) -> Number:
    inner = inner if inner.level is Level.OPERAND else bracketed(inner)
    tokens, sql = ["-", *inner.tokens], f"(-{inner.sql})"
    if inner.is_literal and inner.nested == 0:
        # It is the sign of the literal.
        return inner._replace(tokens=tokens, sql=sql, level=Level.FACTOR)
    operators, nested = inner.operators + 1, inner.nested + 1
    return inner._replace(
        tokens=tokens, sql=sql, level=Level.FACTOR, operators=operators, is_literal=False, nested=nested
    )


def bound_of(operator: str, first: int, second: int) -> int:
    if operator in SUMS:
        return first + second
    return first * second if operator == "*" else first


def combined(operator: str, first: Number, second: Number) -> Number:
    level = Level.SUM if operator in SUMS else Level.PRODUCT
    first = first if first.level >= level else bracketed(first)
    second = second if second.level > level else bracketed(second)
    bound = bound_of(operator, first.bound, second.bound)
    return Number(
        [*first.tokens, operator, *second.tokens],
        f"({first.sql} {SQL_OPERATORS[operator]} {second.sql})",
        bound,
        max(bound, first.greatest, second.greatest),
        level,
        max(first.kept, 0 if second.is_literal else 1 + second.kept),
        first.operators + 1 + second.operators,
        has_column=first.has_column or second.has_column,
        nested=max(first.nested, second.nested),
    )


class NumberDice(TermDice):
    """Draws numeric expressions, in which all columns are numbers, or all are coordinates."""

    # Whether they may be over a limit.
    oversteps = False

    # Operands

    def literal(self, number: int, kind: Kind) -> Number:
        """Writes a literal: a whole number, or millionths as degrees."""
        text = self.spelled(number) if kind is Kind.NUMBER else self.spelled_degrees(number)
        level = Level.OPERAND if text[0].isdecimal() else Level.FACTOR
        return Number([text], f"({number})", abs(number), abs(number), level, is_literal=True)

    def column_number(self, kind: Kind) -> Number:
        column, term = self.column(COLUMNS_OF[kind])
        bound = COORDINATE_BOUND if kind is Kind.COORDINATE else 10**column.width - 1
        return Number(term.tokens, term.sql, bound, bound, has_column=True)

    def literal_value(self, kind: Kind) -> int:
        column: Column = self.dice.choice(COLUMNS_OF[kind])
        if kind is Kind.COORDINATE:
            return self.coordinate(column) if self.chance(50) else self.dice.choice((0, 1, -1, 500, 10**6))
        return self.number(column) if self.chance(30) else self.dice.randrange(-3, self.dice.choice((5, 5, 12, 101)))

    def operand(self, kind: Kind) -> Number:
        return self.column_number(kind) if self.chance(65) else self.literal(self.literal_value(kind), kind)

    # Expressions

    def operator(self, kind: Kind, first: Number, second: Number) -> str:
        """Draws an operator whose result keeps within the bound."""
        drawn: str = self.dice.choice(SUMS if kind is Kind.COORDINATE else SUMS + PRODUCTS)
        return drawn if bound_of(drawn, first.bound, second.bound) < BOUND else self.dice.choice(("div", "%"))

    def expression(self, kind: Kind, operators: int, kept: int) -> Number:
        """Draws an expression with this many operators, which needs this many kept values at most."""
        if operators == 0:
            return self.operand(kind)
        if self.chance(15):
            return negated(self.expression(kind, operators - 1, kept))
        behind = self.dice.choice((0, 0, 0, self.dice.randrange(operators))) if kept > 0 else 0
        first = self.expression(kind, operators - 1 - behind, kept)
        second = self.expression(kind, behind, kept - 1) if kept > 0 else self.literal(self.literal_value(kind), kind)
        operator = self.operator(kind, first, second)
        if operator in ("div", "%") and behind == 0 and self.chance(60):
            second = self.literal(self.dice.randrange(-4, 13), kind)
        made = combined(operator, first, second)
        return bracketed(made, self.dice.choice((1, 1, 2, 12))) if self.chance(4) else made

    def size(self) -> int:
        """Draws a number of operators."""
        return self.dice.choice(
            (
                1,
                1,
                1,
                1,
                2,
                2,
                2,
                2,
                3,
                3,
                3,
                4,
                5,
                6,
                self.dice.randint(7, 20),
                self.dice.randint(20, 63),
                MOST_OPERATORS,
            )
        )

    def deep(self, kind: Kind, kept: int) -> Number:
        """Draws an expression that needs exactly this many kept values."""
        made = self.column_number(kind)
        for _ in range(kept):
            first = self.expression(kind, self.dice.randrange(3), 1)
            made = combined(self.operator(kind, first, made), first, made)
        return made

    def at_the_bound(self) -> Number:
        """Draws an expression whose greatest value is the greatest allowed one, or the least that isn't."""
        made = self.column_number(Kind.NUMBER)
        for _ in range(self.dice.randrange(3)):
            more = combined(self.dice.choice(SUMS + PRODUCTS), made, self.column_number(Kind.NUMBER))
            made = more if more.bound < LITERAL_BOUNDS[Kind.NUMBER] else made
        factor = (BOUND - 1) // made.bound
        made = combined("*", made, self.literal(factor * self.dice.choice((-1, 1)), Kind.NUMBER))
        missing = BOUND - made.bound - (0 if self.oversteps else 1)
        made = combined(self.dice.choice(SUMS), made, self.literal(missing, Kind.NUMBER))
        return combined("div", made, self.literal(factor, Kind.NUMBER)) if self.chance(70) else made

    def any_number(self, kind: Kind) -> Number:
        if self.chance(50):
            return self.operand(kind)
        if self.chance(40 if self.oversteps else 15):
            return (
                self.at_the_bound()
                if kind is Kind.NUMBER and self.chance(60)
                else self.deep(kind, MOST_KEPT + self.oversteps)
            )
        return self.expression(kind, self.size(), MOST_KEPT)

    # Numbers that meet others

    def meeting(self, other: Number, kind: Kind) -> Number:
        """Draws a number that mostly is, on some segment, the other one or next to it."""
        identity = self.dice.randrange(len(self.county.segments))
        wanted = self.county.number(other.sql, identity) if not other.refusals else None
        if wanted is None or self.chance(25):
            return self.any_number(kind)
        wanted += self.dice.choice((0, 0, 0, -1, 1))
        if self.chance(40) and abs(wanted) < LITERAL_BOUNDS[kind]:
            return self.literal(wanted, kind)
        return self.corrected(self.any_number(kind), wanted, identity, kind)

    def corrected(self, made: Number, wanted: int, identity: int, kind: Kind) -> Number:
        """Adds a literal, so that a number has the wanted value on a segment, if there is such a literal."""
        value = self.county.number(made.sql, identity) if not made.refusals else None
        if value is None or abs(wanted - value) >= LITERAL_BOUNDS[kind] or made.operators == MOST_OPERATORS:
            return made
        corrected = combined("+", made, self.literal(wanted - value, kind))
        return made if corrected.refusals else corrected
