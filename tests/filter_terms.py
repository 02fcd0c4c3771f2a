"""What the filters that are compared with SQL consist of: columns, literals and patterns, as CQL2 and as SQL."""

from collections.abc import Sequence
from random import Random
from typing import NamedTuple

from filter_counties import MISTAKABLE, USUAL, Column, County, chance, mistaken, reaccented, swapped

# The names of functions, applied from the last to the first.
Folding = tuple[str, ...]
FOLDINGS: tuple[Folding, ...] = (("CASEI",), ("ACCENTI",), ("CASEI", "ACCENTI"), ("ACCENTI", "CASEI"))
WHITE_SPACE = (" ", "  ", "\n", "\t", "\r\n", " \n  ")
# How often a pattern has this many `%`.
WILDCARDS = (0, 0, 0, 0, 1, 1, 1, 1, 2, 2, 2, 2, 3, 3, 4, 6)


class Term(NamedTuple):
    """A column or a literal, as CQL2 tokens and as SQL, with an upper bound for the words of a comparison with it."""

    tokens: list[str]
    sql: str
    words: int = 50


def quoted(text: str) -> str:
    return "'" + text.replace("'", "''") + "'"


def folded(term: Term, folding: Folding) -> Term:
    """Applies CASEI and ACCENTI, and in SQL the functions of the same names."""
    tokens, sql = term.tokens, term.sql
    for function in reversed(folding):
        tokens, sql = [function, "(", *tokens, ")"], f"{function.lower()}({sql})"
    return Term(tokens, sql, term.words)


def is_spellable(character: str) -> bool:
    """Returns whether a literal can have a character of Latin-1."""
    return " " <= character <= "~" or character >= "\xa0"


def in_degrees(millionths: int) -> int:
    """Returns the nearest number of millionths that a literal can have, which is below 1000 degrees."""
    return max(1 - 10**9, min(millionths, 10**9 - 1))


def widths(column: Column) -> Sequence[int]:
    """Returns how wide the rest of a field is from each place on at which its text may begin."""
    return range(1, column.width + 1) if column.is_right_justified else (column.width,)


def words_of_pattern(pieces: list[list[str]], column: Column) -> int:
    """Returns an upper bound. A piece after a `%` is looked for at each place of the rest of the field, and at its end."""
    is_fixed = len(pieces) == 1 or len(pieces) == 2 and not pieces[1]
    places = [1 if is_fixed else width + 1 for width in widths(column)]
    return 110 * len(places) + sum(places) * sum(24 * len(piece) + 12 for piece in pieces)


class TermDice:
    """Draws columns, literals and patterns. Most literals are values of a county's segments."""

    def __init__(self, dice: Random, county: County) -> None:
        self.dice = dice
        self.county = county

    def chance(self, percent: int) -> bool:
        return chance(self.dice, percent)

    def column(self, columns: list[Column]) -> tuple[Column, Term]:
        """Draws a column. Writes its name in either case, and now and then in double quotes."""
        column = self.dice.choice(columns)
        name = column.name.lower() if self.chance(20) else column.name
        return column, Term([f'"{name}"' if self.chance(10) else name], column.name)

    def present(self, column: Column) -> int | str | None:
        return column.value(self.dice.choice(self.county.segments).line)

    # Numbers

    def spelled(self, number: int) -> str:
        """Writes a whole number of up to 18 digits, now and then with a plus or leading zeros."""
        digits = str(abs(number))
        sign = "-" if number < 0 else "+" if self.chance(5) else ""
        return sign + (digits.zfill(self.dice.randint(1, 18)) if self.chance(5) else digits)

    def spelled_degrees(self, millionths: int) -> str:
        degrees = self.spelled(abs(millionths) // 10**6).lstrip("+")
        decimals = f".{abs(millionths) % 10**6:06}"
        decimals = decimals.rstrip("0").rstrip(".") if self.chance(50) else decimals
        return ("-" if millionths < 0 else "") + degrees + decimals

    def number(self, column: Column) -> int:
        number = self.present(column)
        if not isinstance(number, int) or self.chance(10):
            number = self.dice.randrange(-(10**4), 10 ** self.dice.randint(1, 18) - 1)
        return number + self.dice.choice((0, 0, 0, -1, 1))

    def coordinate(self, column: Column) -> int:
        """Draws millionths of a degree."""
        millionths = self.present(column)
        if not isinstance(millionths, int) or self.chance(10):
            millionths = self.dice.randrange(-(10**9) + 2, 10**9 - 1000)
        return in_degrees(millionths + self.dice.choice((0, 0, 0, -1, 1, 1000)))

    # Texts

    def folding(self) -> Folding:
        return self.dice.choice(FOLDINGS) if self.chance(60) else ()

    def reordered(self, folding: Folding) -> Folding:
        """Returns what ignores the same."""
        return tuple(self.dice.sample(folding, len(folding)))

    def text(self, text: int | str | None, width: int, folding: Folding) -> str:
        """Draws a text to compare with a column of this width, mostly the given one but for what is ignored."""
        if not isinstance(text, str) or self.chance(10):
            text = "".join(self.dice.choices(USUAL, k=width))
        if self.chance(20):
            text = text[: self.dice.randint(1, width)]
        if self.chance(25 if folding else 10):
            at = self.dice.choice(
                [at for at, character in enumerate(text) if character in MISTAKABLE] or range(len(text))
            )
            text = text[:at] + (self.dice.choice(USUAL) if self.chance(40) else mistaken(text[at])) + text[at + 1 :]
        if self.chance(60 if "CASEI" in folding else 10):
            text = swapped(text)
        if self.chance(60 if "ACCENTI" in folding else 10):
            text = reaccented(self.dice, text)
        text = "".join(character if is_spellable(character) else "a" for character in text)
        return text.rstrip(" ") or "m"

    def text_term(self, text: str) -> Term:
        """Returns a text as a term. Blanks at a literal's end don't count."""
        blanks = " " * self.dice.randint(1, 9) if self.chance(10) else ""
        return Term([quoted(text + blanks)], quoted(text), 24 * len(text) + 100)

    def text_literal(self, column: Column, folding: Folding) -> Term:
        literal = self.text_term(self.text(self.present(column), column.width, folding))
        return literal._replace(words=(literal.words + 10) * len(widths(column)))

    # Patterns

    def pattern(self, column: Column, folding: Folding) -> Term:
        """Draws a pattern. Without its `%`, it has as many characters as the column at most."""
        text = self.text(self.present(column), column.width, folding)
        escaped = 40 if self.chance(15) else 4
        pieces = [[self.pattern_character(character, escaped) for character in piece] for piece in self.cut(text)]
        if self.chance(30):
            self.lengthen(self.dice.choice(pieces), column.width)
        while sum(map(len, pieces)) > column.width:
            max(pieces, key=len).pop()
        pattern = quoted("%".join("".join(piece) for piece in pieces))
        return Term([pattern], pattern, words_of_pattern(pieces, column))

    def cut(self, text: str) -> list[str]:
        """Cuts what is before, between and after the `%` of a pattern out of a text. Now and then, pieces overlap, or one is there twice."""
        wildcards = self.dice.choice(WILDCARDS)
        if wildcards == 0:
            return [text if self.chance(70) else text[: self.dice.randint(0, len(text))]]
        cuts = sorted(self.dice.choices(range(len(text) + 1), k=2 * wildcards))
        starts, ends = [0, *cuts[1::2]], [*cuts[::2], len(text)]
        if self.chance(20):
            starts = [max(0, start - self.dice.randint(0, 2)) for start in starts]
        pieces = [text[start:end] for start, end in zip(starts, ends)]
        if wildcards > 1 and self.chance(10):
            pieces[self.dice.randrange(wildcards)] = self.dice.choice(pieces)
        for at in (0, -1):
            pieces[at] = "" if self.chance(50) else pieces[at]
        return pieces

    def lengthen(self, piece: list[str], width: int) -> None:
        """Adds blanks, or wildcards for one character, to the end of a piece or in front of it."""
        more = [self.dice.choice((" ", "_"))] * (width - len(piece) if self.chance(20) else self.dice.randint(1, 2))
        at = len(piece) if self.chance(70) else 0
        piece[at:at] = more

    def pattern_character(self, character: str, escaped: int) -> str:
        """Writes a character of a pattern, or a wildcard for it. So many percent have a backslash that need none."""
        if self.chance(8):
            return "_"
        return "\\" + character if character in "%_\\" or self.chance(escaped) else character
