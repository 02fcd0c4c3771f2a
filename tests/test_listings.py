"""The listings of `extractd explain` are those of a second reading of the verifier's rules, byte for byte. The second reading follows
docs/verifier.md and is in `verifier`. The built program supplies nothing but the words of a text, by `asm`.

For each program of tests/verdicts and of the documents, and for some that are drawn, `explain` has to write the listing that is made here, without source
lines and with some. Its standard error and exit status have to be those of `verify`, and the verdict has to be that of the second reading and of the
program's row. If the program's annotations can be searched, the least one has to hold the states of the listing. Each text of a failed check has to occur in
some listing, and each line `refused: ..` that docs/refused-programs.md quotes.
"""

import difflib
import re
import subprocess
from collections.abc import Iterator
from itertools import chain
from pathlib import Path
from typing import NamedTuple

import pytest
from harness.batches import add_batches
from harness.program import TOP
from harness.verdicts import programs_of
from verifier.drawn import Case, drawn_lines, drawn_programs
from verifier.listing import excerpt, listing, source_lines
from verifier.program_text import read_instructions
from verifier.search import Draw
from verifier.walk import Walk, is_least, verified

BATCHES = 10
# Of a batch.
PROGRAMS = 30

pytestmark = pytest.mark.usefixtures("extractd")


def pytest_generate_tests(metafunc: pytest.Metafunc) -> None:
    add_batches(metafunc, BATCHES)


# ---- Programs with verdicts


def table_lines(file: Path) -> list[tuple[int, str]]:
    """Returns the numbered lines of a table of verdicts, or those of a document's blocks of verdicts."""
    lines, inside = [], file.suffix != ".md"
    for number, line in enumerate(file.read_text("utf-8").splitlines(), 1):
        if line.startswith("```"):
            inside = line == "```verdicts"
        elif inside:
            lines.append((number, line))
    return lines


def widest() -> Case:
    """A line of 38 bytes before its note, which is the most: a place of five digits, and the longest instruction."""
    lines = ["mov r0, 1", *["exit"] * 9999, "jsgt32 r10, -2147483648, +32767", *["exit"] * 32768]
    return Case("the widest line", " | ".join(lines), "accepted")


def read_cases() -> Iterator[Case]:
    for file in (*sorted((TOP / "tests/verdicts").glob("*.txt")), *sorted((TOP / "docs").glob("*.md"))):
        for number, program, verdict in programs_of(table_lines(file)):
            yield Case(f"{file.name}, line {number}", program.replace("\n", "|").strip(), verdict)
    yield widest()


CASES = list(read_cases())

# ---- Forms

OF_RECORD, OF_FRAME = r"bytes \S+ of the record, which has 0\.\.227", r"bytes \S+ of the frame, which has 0\.\.511"
UNWRITTEN_BYTES = r"refused: reads bytes \S+ of the frame, not all of which are written"
LENT = r"r2 = frame \+ .*, r3 = \S+"
# What has to occur in the listings, so that no text goes untried.
FORMS = {
    "40": r"refused: reads r\d+, of which nothing is known$",
    "30": r"refused: jumps back, to place -?\d+$",
    "31": r"refused: jumps past the last word, to place \d+$",
    "32": r"refused: jumps to the second word of a wide load, to place \d+$",
    "33": r"refused: the last instruction isn't exit$",
    "41, an operation": r"refused: \w+ of a pointer, which is only copied by mov, or moved by add or sub of a number: r",
    "41, a number": r"refused: (add|sub) moves a pointer only by a number from -32768 to 32767: r",
    "42": r"refused: moves a pointer to an offset outside -32768\.\.32767: r",
    "43": r"refused: the base is no pointer: r\d+ = ",
    "44, a load from the record": rf"refused: reads {OF_RECORD}: r\d+ = record \+ .*, offset -?\d+$",
    "44, a load from the frame": rf"refused: reads {OF_FRAME}: r\d+ = frame \+ .*, offset -?\d+$",
    "44, a store": rf"refused: writes {OF_FRAME}: r\d+ = frame \+ .*, offset -?\d+$",
    "44, a helper that reads": rf"refused: reads {OF_FRAME}: {LENT}$",
    "44, a helper that writes": rf"refused: writes {OF_FRAME}: {LENT}$",
    "45, a load": rf"{UNWRITTEN_BYTES}: r\d+ = frame \+ .*, offset -?\d+, \[r10-\d+\] = ",
    "45, a helper": rf"{UNWRITTEN_BYTES}: {LENT}, \[r10-\d+\] = ",
    "46": r"refused: writes to the record, which is read-only: r\d+ = record \+ .*, offset -?\d+$",
    "47": r"refused: a pointer is stored only by stxdw, at one known offset divisible by 8: r.*, offset -?\d+$",
    "48": r"refused: compares a pointer: r",
    "49": r"refused: there is no helper function \d+$",
    "50, a pointer": r"refused: argument [23] must be a pointer into the frame: r[23] = ",
    "50, any number": r"refused: argument [1-3] must be any number: r[1-3] = ",
    "50, a number": r"refused: argument [1-3] must be a number from \d+ to \d+: r[1-3] = ",
    "51": r"refused: exits with a pointer: r0 = ",
    "an instruction without a note": r"^\d+: \S[^;]*[^; ]$",
    "an unreached instruction": r"; unreached$",
    "any number": r"r\d+ = any number",
    "negative numbers": r"r\d+ = -\d+\.\.-\d+",
    "negative offsets": r"= (record|frame) \+ -\d+\.\.\d+",
    "a register that lost its kind": r"r\d = \?",
    "a slot with a number": r"\[r10-\d+\] = \d+\.\.\d+",
    "a slot with a pointer": r"\[r10-\d+\] = record \+ ",
    "a slot of which some bytes are written": r"\[r10-\d+\] = (m+\?|\?+m)[m?]*",
    "source lines": r"^; ",
}


class Refused(NamedTuple):
    """Bytes that are no program, with the place of the refused word, the reason, and the words that are instructions."""

    content: str
    place: int = 0
    reason: str = ""
    texts: dict[int, str] = {}

    def words(self) -> bytes:
        return bytes.fromhex(self.content)

    def listing(self) -> str:
        return excerpt(self.words(), self.texts, self.place, self.reason) if self.reason else ""


# No bytes, one byte, unknown opcodes, half a wide load, r10 and r11 as destinations, the start of an object file; calls and a wide load as
# clang leaves them to a linker.
REFUSED_BYTES = (
    Refused(""),
    Refused("95"),
    Refused("00 00 00 00 00 00 00 00", 0, "no instruction has this opcode"),
    Refused("95 00 00 00 00 00 00 00 ff 00 00 00 00 00 00 00", 1, "no instruction has this opcode", {0: "exit"}),
    Refused("18 00 00 00 00 00 00 00", 0, "the second word of the wide load is missing"),
    Refused("b7 0a 00 00 00 00 00 00", 0, "writes r10, which is read-only"),
    Refused("b7 0b 00 00 00 00 00 00", 0, "there is no register above r10"),
    Refused("d4 00 00 00 08 00 00 00", 0, "the instruction has no such width"),
    Refused(
        "7f 45 4c 46 02 01 01 00 00 00 00 00 00 00 00 00", 0, "a field that the instruction doesn't use isn't zero"
    ),
    Refused(
        "b7 03 00 00 05 00 00 00 85 10 00 00 ff ff ff ff 95 00 00 00 00 00 00 00",
        1,
        "calls another function (src_reg 1), whose place clang left to a linker",
        {0: "mov r3, 5", 2: "exit"},
    ),
    Refused("85 10 00 00 01 00 00 00 95 00 00 00 00 00 00 00", 0, "calls another function (src_reg 1)", {1: "exit"}),
    Refused("85 20 00 00 01 00 00 00", 0, "calls a function of the kernel (src_reg 2)"),
    Refused("85 01 00 00 01 00 00 00", 0, "a field that the instruction doesn't use isn't zero"),
    Refused(
        "18 11 00 00 01 00 00 00 00 00 00 00 00 00 00 00 95 00 00 00 00 00 00 00",
        0,
        "loads the address of a map or a variable (src_reg isn't 0)",
        {2: "exit"},
    ),
    Refused(
        "18 01 00 00 01 00 00 00 00 00 00 00 00 00 00 00 18 01 00 00 01 00 00 00 05 00 00 00 00 00 00 00",
        2,
        "a field that the instruction doesn't use isn't zero",
        {0: "lddw r1, 0x0000000000000001", 3: "ja +0"},
    ),
)


# ---- The comparison


class Said(NamedTuple):
    """What a command wrote, and ended with."""

    status: int
    output: bytes
    errors: bytes


def said(*arguments: str) -> Said:
    done = subprocess.run(["extractd", *arguments], stdin=subprocess.DEVNULL, capture_output=True)
    return Said(done.returncode, done.stdout, done.stderr)


def check_text(name: str, expected: bytes, written: bytes) -> None:
    one, other = (text.decode("utf-8", "replace").splitlines() for text in (expected, written))
    difference = difflib.unified_diff(one, other, "expected", "written", lineterm="")
    assert written == expected, "\n".join([f"{name}:", *difference])


class Expected(NamedTuple):
    """The second reading of a program: its walk, lines of a source, and the listings without these and with them."""

    found: Walk
    lines: str
    plain: str
    with_lines: str


def expected_of(case: Case, words: bytes) -> Expected:
    """The words are needed if the program's jumps have a fault."""
    program = read_instructions(case.text)
    found, lines = verified(program), drawn_lines(Draw(len(case.text)), program)
    with_lines = listing(program, found, source_lines(lines), words)
    return Expected(found, lines, listing(program, found, (), words), with_lines)


def assembled(case: Case, folder: Path) -> bytes:
    source = folder / "program.s"
    source.write_text(case.text.replace("|", "\n") + "\n", "utf-8")
    made = said("asm", "--source", str(source))
    assert (made.status, made.errors) == (0, b"")
    return made.output


def check(case: Case, folder: Path) -> None:
    """Compares what is expected of a program with what the built program writes."""
    words = assembled(case, folder)
    it = expected_of(case, words)
    (folder / "program.bpf").write_bytes(words)
    (folder / "places").write_text(it.lines, "utf-8", newline="")
    assert it.found.verdict() == (case.verdict or it.found.verdict())
    assert is_least(read_instructions(case.text), it.found), "the search finds other states"
    errors, output = (f"{it.found.refusal}\n", "") if it.found.refusal else ("", "accepted\n")
    verify = Said(int(it.found.refusal is not None), output.encode(), errors.encode())
    assert said("verify", "--program", "program.bpf") == verify
    check_explained("explain", it.plain, verify, said("explain", "--program", "program.bpf"))
    with_lines = said("explain", "--program", "program.bpf", "--lines", "places")
    check_explained("explain --lines", it.with_lines, verify, with_lines)


def check_explained(name: str, expected: str, verify: Said, explain: Said) -> None:
    assert (explain.status, explain.errors) == (verify.status, verify.errors)
    check_text(f"the output of {name}", expected.encode(), explain.output)


@pytest.mark.parametrize("case", CASES, ids=[case.name for case in CASES])
def test_listing(case: Case, here: Path) -> None:
    check(case, here)


def test_listings_of_drawn_programs(batch: int, here: Path) -> None:
    cases = list(drawn_programs(PROGRAMS, batch))
    for case in cases:
        print(f"{case.name}: {case.text}")
        check(case, here)
    assert len(cases) == PROGRAMS


@pytest.mark.parametrize("refused", REFUSED_BYTES, ids=[refused.content or "no bytes" for refused in REFUSED_BYTES])
def test_listing_of_bytes(refused: Refused, here: Path) -> None:
    (here / "program.bpf").write_bytes(refused.words())
    verify, explain = (said(command, "--program", "program.bpf") for command in ("verify", "explain"))
    assert verify.status == 1
    check_explained("explain", refused.listing(), verify, explain)


# ---- All that has to occur in some listing

QUOTED = re.findall("`(refused: [^`]+)`", (TOP / "docs/refused-programs.md").read_text("utf-8"))


@pytest.fixture(scope="module")
def listings(extractd: str, tmp_path_factory: pytest.TempPathFactory) -> str:
    """Returns the listings of all programs of the tests above, which those compare."""
    folder = tmp_path_factory.mktemp("listings")

    def texts_of(case: Case) -> tuple[str, ...]:
        has_states = verified(read_instructions(case.text)).states
        return expected_of(case, b"" if has_states else assembled(case, folder))[2:]

    drawn = chain.from_iterable(drawn_programs(PROGRAMS, batch) for batch in range(1, BATCHES + 1))
    texts = [text for case in (*CASES, *drawn) for text in texts_of(case)]
    return "".join([*texts, *(refused.listing() for refused in REFUSED_BYTES)])


@pytest.mark.xdist_group("forms of listings")
@pytest.mark.parametrize("name", FORMS)
def test_form(name: str, listings: str) -> None:
    assert re.search(FORMS[name], listings, re.MULTILINE), f"no listing has this: {FORMS[name]}"


@pytest.mark.xdist_group("forms of listings")
@pytest.mark.parametrize("line", sorted(set(QUOTED)))
def test_quoted_line(line: str, listings: str) -> None:
    assert line in listings.splitlines()
