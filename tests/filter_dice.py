"""Filters to compare with SQL: how predicates are drawn, and how they are joined."""

from collections.abc import Callable
from enum import IntEnum
from random import Random
from typing import NamedTuple

from filter_counties import BY_NAME, COLUMNS, TEXTS, Column, County, Kind
from filter_geometry import Shape
from filter_numbers import Number
from filter_outlines import ShapeDice, shapes
from filter_terms import Folding, Term, folded, widths

MOST_PARENTHESES = 64
# The most words of a filter's program, if no comparison needs a jump of its own to skip more than 32,767 words. The compiler refuses 65,537.
MOST_WORDS = 45_000
WORDS_OF_EDGE = 150
USUAL_NAMES = 63
# Those of Latin-1 beyond ASCII, with × and ÷, which have their codes among them, and some of ASCII that are alike.
LETTERS = [chr(code) for code in range(0xC0, 0x100)] + list("AaEeNnOoSsUuYyDdTt")
OPERATORS = ("=", "<>", "<", "<=", ">", ">=")


class Level(IntEnum):
    """The precedence of an operator; a higher level binds tighter."""

    OR = 0
    AND = 1
    NOT = 2
    PRIMARY = 3


class Filter(NamedTuple):
    """A filter as CQL2 tokens and as SQL, with upper bounds for its program's words and for its nested parentheses.

    If it has to be refused, `refusals` are the allowed numbers."""

    tokens: list[str]
    sql: str
    words: int
    level: Level = Level.PRIMARY
    depth: int = 0
    refusals: frozenset[int] = frozenset()


def in_parentheses(inner: Filter) -> Filter:
    return inner._replace(tokens=["(", *inner.tokens, ")"], level=Level.PRIMARY, depth=inner.depth + 1)


def negated(inner: Filter) -> Filter:
    inner = inner if inner.level is Level.PRIMARY else in_parentheses(inner)
    return inner._replace(tokens=["NOT", *inner.tokens], sql=f"(NOT {inner.sql})", level=Level.NOT)


def joined(level: Level, terms: list[Filter]) -> Filter:
    """Joins filters by AND or by OR."""
    terms = [term if term.level > level else in_parentheses(term) for term in terms]
    tokens = [token for term in terms for token in (level.name, *term.tokens)]
    sql = f"({f' {level.name} '.join(term.sql for term in terms)})"
    refusals = frozenset[int]().union(*(term.refusals for term in terms))
    return Filter(
        tokens[1:], sql, sum(term.words for term in terms), level, max(term.depth for term in terms), refusals
    )


def compared(first: Term, operator: str, second: Term) -> Filter:
    return Filter(
        [*first.tokens, operator, *second.tokens], f"({first.sql} {operator} {second.sql})", first.words + second.words
    )


def listed(subject: Term, negation: list[str], members: list[Term]) -> Filter:
    tokens = [token for member in members for token in (",", *member.tokens)]
    sql = f"({subject.sql} {' '.join(negation)} IN ({', '.join(member.sql for member in members)}))"
    words = sum(subject.words + member.words for member in members)
    return Filter([*subject.tokens, *negation, "IN", "(", *tokens[1:], ")"], sql, words)


def words_of_columns(column: Column, other: Column) -> int:
    """Returns the most words that a comparison of the texts in two columns takes."""
    return sum(40 * min(width, beside) + 10 for width in widths(column) for beside in widths(other))


def of_numbers(made: Filter, numbers: list[Number]) -> Filter:
    """Adds what the filter's numbers have."""
    refusals = frozenset[int]().union(*(number.refusals for number in numbers))
    return made._replace(depth=max(number.nested for number in numbers), refusals=refusals)


def term_of(number: Number) -> Term:
    return Term(number.tokens, number.sql, 50 + number.words)


class FilterDice(ShapeDice):
    """Draws filters."""

    def __init__(self, dice: Random, county: County) -> None:
        super().__init__(dice, county)
        self.predicates: list[Callable[[], Filter]] = [
            *[self.comparison_of_numbers] * 5,
            *[self.comparison_of_texts] * 5,
            *[self.comparison_of_columns] * 2,
            *[self.list_of_numbers] * 2,
            *[self.list_of_texts] * 3,
            *[self.list_of_columns] * 2,
            *[self.between] * 2,
            *[self.like] * 7,
            self.is_null,
            self.has_number,
            *[self.has_name] * 2,
            self.starts_in,
            self.constant,
            *self.spatial_predicates,
        ]

    @property
    def spatial_predicates(self) -> list[Callable[[], Filter]]:
        return [*[self.intersects] * 6, *[self.disjoint] * 3, self.within, *[self.starts_in_shape] * 4]

    def negation(self) -> list[str]:
        return ["NOT"] if self.chance(35) else []

    # Predicates of numbers

    def kind(self) -> Kind:
        return self.dice.choice((Kind.NUMBER, Kind.NUMBER, Kind.COORDINATE))

    def subject(self, kind: Kind) -> Number:
        """Draws a number. Literals beside it are degrees only if it has a coordinate."""
        while True:
            made = self.any_number(kind)
            if kind is Kind.NUMBER or made.has_column:
                return made

    def comparison_of_numbers(self) -> Filter:
        kind = self.kind()
        first = self.subject(kind)
        second = self.meeting(first, kind)
        numbers = [second, first] if self.chance(35) else [first, second]
        return of_numbers(compared(term_of(numbers[0]), self.dice.choice(OPERATORS), term_of(numbers[1])), numbers)

    def subject_and_others(self, count: int) -> tuple[Number, list[Number]]:
        """Draws a number and others to compare it with, now and then a literal and columns."""
        kind = self.kind()
        if self.chance(15):
            others = [self.column_number(kind) for _ in range(count)]
            wanted = self.county.number(others[0].sql, self.dice.randrange(len(self.county.segments)))
            return self.literal(self.literal_value(kind) if wanted is None else wanted, kind), others
        first = self.subject(kind)
        return first, [self.meeting(first, kind) for _ in range(count)]

    def list_of_numbers(self) -> Filter:
        subject, members = self.subject_and_others(self.dice.randint(1, 4))
        return of_numbers(listed(term_of(subject), self.negation(), list(map(term_of, members))), [subject, *members])

    def between(self) -> Filter:
        subject, (low, high) = self.subject_and_others(2)
        negation, words = self.negation(), 100 + 2 * subject.words + low.words + high.words
        sql = f"({subject.sql} {' '.join(negation)} BETWEEN {low.sql} AND {high.sql})"
        tokens = [*subject.tokens, *negation, "BETWEEN", *low.tokens, "AND", *high.tokens]
        return of_numbers(Filter(tokens, sql, words), [subject, low, high])

    # Predicates of texts

    def comparison_of_texts(self) -> Filter:
        """Draws a comparison of a column and a literal, either of them first."""
        column, subject = self.column(TEXTS)
        folding = self.folding()
        operator = self.dice.choice(OPERATORS[:2] if folding else OPERATORS)
        terms = [folded(subject, folding), folded(self.text_literal(column, folding), self.reordered(folding))]
        if self.chance(25):
            terms.reverse()
        return compared(terms[0], operator, terms[1])

    def comparison_of_columns(self) -> Filter:
        (column, first), (other, second) = self.column(TEXTS), self.column(TEXTS)
        return compared(first, self.dice.choice(OPERATORS), second)._replace(words=words_of_columns(column, other))

    def list_of_texts(self) -> Filter:
        """Draws a column and a list of texts, or now and then of letters for a column of one character."""
        folding = self.folding()
        if folding and self.chance(30):
            _, subject = self.column([column for column in TEXTS if column.width == 1])
            members = [self.text_term(letter) for letter in self.dice.sample(LETTERS, 24)]
        else:
            column, subject = self.column(TEXTS)
            members = [self.member(column, folding) for _ in range(self.dice.randint(1, 4))]
        return listed(
            folded(subject, folding), self.negation(), [folded(member, self.reordered(folding)) for member in members]
        )

    def member(self, column: Column, folding: Folding) -> Term:
        """Draws a literal to compare with this column, or now and then another column if nothing is ignored."""
        if not folding and self.chance(25):
            other, term = self.column(TEXTS)
            return term._replace(words=words_of_columns(column, other))
        return self.text_literal(column, folding)

    def list_of_columns(self) -> Filter:
        """Draws a literal and a list of columns, which are wide enough for it."""
        folding = self.folding()
        column, first = self.column(TEXTS)
        wide = [other for other in TEXTS if other.width >= column.width]
        columns = [first, *(self.column(wide)[1] for _ in range(self.dice.randint(0, 3)))]
        literal = folded(self.text_literal(column, folding), folding)
        members = [folded(member, self.reordered(folding)) for member in self.dice.sample(columns, len(columns))]
        return listed(literal, self.negation(), members)

    def like(self) -> Filter:
        column, subject = self.column(TEXTS if self.chance(60) else [BY_NAME["FENAME"]])
        folding, negation = self.folding(), self.negation()
        subject, pattern = folded(subject, folding), folded(self.pattern(column, folding), self.reordered(folding))
        sql = f"({subject.sql} {' '.join(negation)} LIKE {pattern.sql} ESCAPE '\\')"
        return Filter([*subject.tokens, *negation, "LIKE", *pattern.tokens], sql, pattern.words)

    # Other predicates

    def is_null(self) -> Filter:
        _, subject = self.column(COLUMNS)
        negation = self.negation()
        return Filter([*subject.tokens, "IS", *negation, "NULL"], f"({subject.sql} IS {' '.join(negation)} NULL)", 50)

    def has_number(self) -> Filter:
        """Draws a test for a house number. A side has all numbers between its ends, or every second one if both ends are odd or both even."""
        number = self.dice.randrange(60) if self.chance(90) else self.dice.randrange(10**11)
        parity = f"(start % 2 <> finish % 2 OR start % 2 = {number % 2})"
        on_side = f"segment = id AND {number} BETWEEN min(start, finish) AND max(start, finish) AND {parity}"
        return Filter(["HAS_NUMBER", "(", str(number), ")"], f"EXISTS (SELECT 1 FROM sides WHERE {on_side})", 6000)

    def has_name(self) -> Filter:
        """Draws a test for a name. SQLite's lower() folds only the letters A to Z, and so does HAS_NAME."""
        name = self.text_term(self.text(self.dice.choice(self.county.pools.names).rstrip(" ") or None, 30, ("CASEI",)))
        most = self.dice.choice((USUAL_NAMES, self.dice.randrange(6), self.dice.randrange(100)))
        limit = [] if most == USUAL_NAMES and self.chance(90) else [",", str(most)]
        is_name = f"segment = id AND number <= {most} AND lower(name) = lower({name.sql})"
        is_known = f"(SELECT max(number) FROM names WHERE segment = id) <= {most}"
        sql = f"CASE WHEN EXISTS (SELECT 1 FROM names WHERE {is_name}) THEN 1 WHEN {is_known} THEN 0 END"
        return Filter(["HAS_NAME", "(", *name.tokens, *limit, ")"], f"({sql})", 20 * most + 100)

    def edges(self, column: Column) -> list[int]:
        """Draws two bounds in femtodegrees, the lesser one first."""
        return self.bounds(self.coordinate(column), self.coordinate(column))

    def box_around(self, *points: str) -> tuple[list[str], str]:
        """Draws a box, and returns it with an SQL expression for points in it, which are named as their columns are, without LONG and LAT."""
        (west, east), (south, north) = self.edges(BY_NAME[f"{points[-1]}LONG"]), self.edges(BY_NAME[f"{points[-1]}LAT"])
        ends = ", ".join(f"{point}LONG, {point}LAT" for point in points)
        return self.box_tokens(west, south, east, north), f"lies_in({west}, {south}, {east}, {north}, {ends})"

    def starts_in(self) -> Filter:
        tokens, sql = self.box_around("FR")
        return Filter(["STARTS_IN", "(", *tokens, ")"], sql, 100)

    def constant(self) -> Filter:
        return Filter(["TRUE"], "1", 10) if self.chance(50) else Filter(["FALSE"], "0", 10)

    # Predicates of geometries

    def property_geometry(self) -> str:
        return self.dice.choice(("geometry", "geometry", "geometry", "GEOMETRY", '"geometry"'))

    def about_shape(self, tokens: list[str], shape: Shape, arguments: str) -> Filter:
        shapes.append(shape)
        return Filter(tokens, f"meets({len(shapes) - 1}, {arguments})", 200 + WORDS_OF_EDGE * len(shape.edges))

    def about_geometry(self, function: str) -> Filter:
        tokens, shape = self.shape()
        arguments = [[self.property_geometry()], tokens]
        first, second = arguments if self.chance(75) else arguments[::-1]
        return self.about_shape([function, "(", *first, ",", *second, ")"], shape, "FRLONG, FRLAT, TOLONG, TOLAT")

    def intersects(self) -> Filter:
        return self.about_geometry("S_INTERSECTS")

    def disjoint(self) -> Filter:
        made = self.about_geometry("S_DISJOINT")
        return made._replace(sql=f"(NOT {made.sql})")

    def within(self) -> Filter:
        tokens, sql = self.box_around("FR", "TO")
        return Filter(["S_WITHIN", "(", self.property_geometry(), ",", *tokens, ")"], sql, 200)

    def starts_in_shape(self) -> Filter:
        drawn = self.polygons()
        return self.about_shape(["STARTS_IN", "(", *drawn[0], ")"], drawn[1], "FRLONG, FRLAT")

    # Trees

    def tree(self, depth: int) -> Filter:
        if depth == 0 or self.chance(20):
            tree = self.dice.choice(self.predicates)()
        elif self.chance(20):
            tree = negated(self.tree(depth - 1))
        else:
            terms = self.dice.randint(5, 40) if self.chance(3) else self.dice.randint(2, 3)
            tree = joined(self.dice.choice((Level.AND, Level.OR)), [self.tree(depth - 1) for _ in range(terms)])
        while self.chance(5):
            tree = in_parentheses(tree)
        return tree

    def filter(self) -> Filter:
        """Draws a filter whose program isn't too long, now and then with as many nested parentheses as allowed."""
        self.oversteps = self.chance(7)
        while True:
            tree = self.tree(self.dice.choice((0, 0, 0, 1, 1, 2, 3, 5)))
            while tree.depth < MOST_PARENTHESES and self.chance(2 if tree.depth < 8 else 95):
                tree = in_parentheses(tree)
            if tree.words <= MOST_WORDS and tree.depth <= MOST_PARENTHESES:
                return tree
