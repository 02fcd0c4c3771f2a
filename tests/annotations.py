#!/usr/bin/env python3
"""Generates programs and finds their verdicts by a search for annotations.

    python3 annotations.py             writes the file tests/verdicts/generated.txt to standard output
    python3 annotations.py PROGRAM     prints the verdict on one program, with `|` between its lines

A verdict is `accepted` or the line of a refusal. The rules are those of docs/verifier.md, implemented a second time in `verifier`: kinds and
their order, and the checks and edges of each instruction. The verdict is found in a different way. The verifier walks over a program once and
joins the states that meet; this script joins nothing. An annotation assigns a state to each instruction. It is good up to a place if the
entry state is below the first state and if, for every instruction before the place, no check fails and the state on each edge is below the
state at the edge's target. The script tries all annotations of a small domain. If one of them is good to the end, the program is accepted.
Otherwise it is refused at the first place that no annotation passes, with the failure of the least annotation that is good up to there. A
least one must exist.

The domain of each place contains Unreached and every combination of:
- for each register that may be read from there on before it is written: Nothing, and intervals of each sort (number, record, frame) that
  arrives there. Their ends are ends of arriving intervals, or 0 and 2^64 - 1 for numbers and 32767 for offsets in the record. All other
  registers are Nothing;
- the same for each slot of the frame;
- the empty set of marks, every set of marks that arrives, and every intersection of such sets.
Marks and slots must agree: the bytes of a number are marked, and those of a pointer aren't.
A state arrives at a place on an edge from a state of the source's domain whose intervals run from an arriving lower end to an arriving
upper end, and whose marks are an intersection of arriving sets.

Programs have few places, so no annotation of the domain is left out: annotations that allow the same states at all later places continue
in the same ways, and are followed together. A program whose domain is too large isn't used. The domain is only a part of all annotations,
so it can't show by itself that none is good. Therefore others are drawn, with arbitrary ends. None of them may pass a place that no
annotation of the domain passes, and each must be above the domain's least annotation.
"""
import sys
from typing import Any

from verifier.generated import GROUPS, Family, finished, kept_joined, kept_number, kept_once, kept_pointer, linked
from verifier.program_text import read_program
from verifier.search import Draw, Search, TooLarge, sample

SEED = 5
# Rows of these families may take two lines.
LONG: tuple[Family, ...] = (kept_number, kept_pointer, kept_once, kept_joined)
COLUMNS, SAMPLES = 120, 10


def judged(text: str, samples: int) -> str:
    """Returns the verdict on a program."""
    search = Search(read_program(text))
    draw, least = Draw(SEED), search.least()
    for _ in range(samples):
        sample(draw, search, least)
    return search.verdict()


def row(draw: Draw, family: Family, subject: Any, known: set[str]) -> str:
    """Draws a row that is short enough and isn't known yet."""
    columns = 2 * COLUMNS if family in LONG else COLUMNS
    while True:
        body, name, *asked = family(draw, subject)
        ask = asked[0] if asked else draw.one_of(("ends", "ends", "beyond"))
        try:
            text = finished(draw, body, name, ask) if name else linked(body + ["exit"])
            if len("accepted; " + text) > columns:
                continue
            line = f"{text}; {judged(text, SAMPLES)}"
        except TooLarge:
            continue
        if len(line) <= columns and line not in known:
            return line


def wrapped(line: str) -> list[str]:
    """Splits a row into lines. A row continues after a line that ends with `|`."""
    if len(line) <= COLUMNS:
        return [line]
    first = line[: COLUMNS + 1].rpartition(" | ")[0] + " |"
    return [first] + wrapped("    " + line[len(first) + 1 :])


HEAD = [
    "# Verdicts on generated programs. annotations.py writes this file, from a fixed seed: it searches for annotations, and",
    "# joins no states.",
]


def table() -> list[str]:
    """Returns the lines of the file: groups of rows, each under its title."""
    draw, lines = Draw(SEED), list(HEAD)
    known: set[str] = set()
    for title, family, subjects in GROUPS:
        if title:
            lines += ["", "# " + title]
        for subject in subjects:
            line = row(draw, family, subject, known)
            lines += wrapped(line)
            known.add(line)
    return lines


def main(arguments: list[str]) -> None:
    if not arguments:
        print("\n".join(table()))
        return
    try:
        print(judged(arguments[0], SAMPLES))
    except TooLarge:
        sys.exit("there are too many states to try")
    except ValueError as fault:
        sys.exit(str(fault))


if __name__ == "__main__":
    main(sys.argv[1:])
