"""Tables of programs and what the commands make of them. A line that begins with `#` is a comment, one that begins with two blanks
continues the row above, and `;` separates cells. A table's kind is its name up to the first `_` or `.`:

words    bytes; their text, with ` | ` between its lines, or a refusal. `dis` must write the text and `asm` turn it back into the bytes; or `dis` and
         `verify` must refuse the bytes.
sources  a text; the program that it means, or a refusal: by `asm`.
values   an instruction; its results for r1 and r2, `x,y=z`, or for its only operand, `x=z`, in hexadecimal. A jump's result is 1 if it is taken, else 0.
answers  an outcome; a program; optionally the county's four files, by default a segment with two alternate names and a further range; optionally a
         limit of steps. `trace` must end this way on line 1: with `N` in r0 and `score S` unless it is 0, `running`, or stuck as the refusal says.
         If the program is accepted and N isn't 0, `run` must write the row of line 1.
extracts a program; the county's four files; `ok` and the number of rows, or a refusal; the rows: by `run`.

Programs and bytes use the notation of the tests: crates/fixtures has the notation, its named programs, its records and their fields.
"""

import re
import subprocess
import tempfile
from collections.abc import Callable, Iterable, Iterator
from functools import partial
from pathlib import Path
from typing import NamedTuple

import pytest

from harness.program import TOP
from harness.tables import RowItem, rows_of

FIXTURES = TOP / "crates" / "fixtures" / "src"
COUNTY = "01001"
# A limit that the run of no row reaches.
STEPS = "100000"
NAMED = [
    r"{rt1}\n",
    r"{rt4 FEAT2=8}\n",
    r"{rt5 FENAME=Elm}\n{rt5 FEAT=8}\n",
    r"{rt6 FRADDR=200 TOADDR=300 ZIPL=36068 ZIPR=36068}\n",
]


class Said(NamedTuple):
    """How a command ended, and what it printed."""

    status: int
    output: bytes
    errors: str

    def is_refused(self, line: str) -> bool:
        return (self.status, self.errors) == (1, line + "\n")


def constant(file: str, name: str) -> str:
    """Returns a text of the tests' library: the literal of a constant, without its line continuations."""
    source = (FIXTURES / file).read_text(encoding="utf-8")
    literal = re.search(rf'const {name}: [^=]*=\s*b?"((?:[^"\\]|\\.|\\\n)*)"', source)
    if not literal:
        raise ValueError(f"{file} has no constant {name}")
    return re.sub(r"\\\n\s*", "", literal[1])


def cells_of(row: str) -> list[str]:
    return [cell.strip() for cell in row.split(";")]


def unescaped(text: str) -> bytes:
    simple = {"n": b"\n", "r": b"\r", "t": b"\t"}
    pieces = re.split(r"\\(x[0-9a-f]{2}|[nrt])", text)
    return b"".join(
        piece.encode() if number % 2 == 0 else simple.get(piece) or bytes([int(piece[1:], 16)])
        for number, piece in enumerate(pieces)
    )


class Notation:
    """The notation of programs and bytes."""

    def __init__(self, assemble: Callable[[str], bytes]) -> None:
        self.assemble = assemble
        self.words: dict[str, bytes] = {}
        self.programs = dict(cells_of(row)[:2] for row in constant("programs.rt", "PROGRAMS").splitlines())
        self.records = {name.lower(): constant("records.rt", name).encode() for name in ("RT1", "RT4", "RT5", "RT6")}
        self.places = self.read_places()

    @staticmethod
    def read_places() -> dict[tuple[str, str], slice]:
        places = {}
        for row in constant("records.rt", "FIELDS").splitlines():
            record, *words = row.split()
            for field, first, last in zip(words[::3], words[1::3], words[2::3]):
                places[record, field] = slice(int(first) - 1, int(last))
        return places

    def line(self, line: str) -> bytes:
        """Returns the words of a line of a program."""
        if line.startswith("hex "):
            return bytes.fromhex(line[len("hex ") :])
        if line not in self.words:
            self.words[line] = self.assemble(line) if line else b""
        return self.words[line]

    def program(self, text: str) -> bytes:
        """Returns the bytes of a program with this name or text."""
        program = b""
        for line in self.programs.get(text, text).split("|"):
            line, _, count = line.strip().partition(" *")
            program += self.line(line) * int(count or "1")
        return program

    def record(self, words: str) -> bytes:
        """Returns a record's example line with changes: texts for fields, and ranges of places to keep."""
        name, *changes = words.split()
        line = self.records[name]
        for change in changes:
            field, is_text, text = change.partition("=")
            if is_text:
                place = self.places[name, field]
                width = place.stop - place.start
                line = (
                    line[: place.start] + unescaped(text).replace(b"_", b" ").ljust(width)[:width] + line[place.stop :]
                )
            else:
                first, _, last = change.partition("..")
                line = line[int(first or "1") - 1 : int(last or len(line))]
        return line

    def named(self, name: str) -> bytes:
        """Returns the meaning of braces without a count: a record, a row of a record, a program or a text."""
        if name.startswith("rt"):
            return self.record(name)
        score, is_row, record = name.partition(r"\t")
        if is_row and record.startswith("rt"):
            return unescaped(score) + b"\t" + self.record(record)
        if name.startswith("asm "):
            return self.program(name[len("asm ") :])
        return self.program(name) if name in self.programs else unescaped(name)

    def braced(self, text: str) -> bytes:
        numbered = re.fullmatch(r"(rt.*)#(\d+)\.\.(\d+)", text)
        if numbered:
            line = self.with_end(numbered[1])
            tlids = range(int(numbered[2]), int(numbered[3]) + 1)
            return b"".join(line[:5] + b"%010d" % tlid + line[15:] for tlid in tlids)
        counted = re.fullmatch(r"(.*)\*(\d+)", text)
        return self.with_end(counted[1]) * int(counted[2]) if counted else self.with_end(text)

    def with_end(self, text: str) -> bytes:
        return self.named(text[:-2]) + b"\n" if text.endswith(r"\n") else self.named(text)

    def bytes(self, text: str) -> bytes:
        pieces = re.split(r"\{([^}]*)\}", text)
        return b"".join(self.braced(piece) if number % 2 else unescaped(piece) for number, piece in enumerate(pieces))


class Asked:
    """Runs the built program, in a new folder for each row."""

    def __init__(self) -> None:
        self.notation = Notation(self.assemble)

    def run(self, folder: str, *words: str) -> Said:
        ran = subprocess.run(
            ["extractd", *words], cwd=folder, stdin=subprocess.DEVNULL, stdout=subprocess.PIPE, stderr=subprocess.PIPE
        )
        return Said(ran.returncode, ran.stdout, ran.stderr.decode(errors="replace"))

    def asm(self, folder: str, text: bytes) -> Said:
        Path(folder, "p.s").write_bytes(text)
        return self.run(folder, "asm", "--source", "p.s")

    def assemble(self, text: str) -> bytes:
        with tempfile.TemporaryDirectory() as folder:
            said = self.asm(folder, text.encode())
        if said.status:
            raise ValueError(f"{text}: {said.errors.strip()}")
        return said.output

    def write_files(self, folder: str, cells: list[str]) -> None:
        for number, cell in zip("1456", cells):
            Path(folder, f"TGR{COUNTY}.RT{number}").write_bytes(self.notation.bytes(cell))

    def write_program(self, folder: str, program: bytes) -> None:
        Path(folder, "p.bpf").write_bytes(program)

    def words(self, folder: str, row: list[str]) -> str | None:
        program, said = self.notation.program(row[0]), row[1]
        self.write_program(folder, program)
        shown = self.run(folder, "dis", "--program", "p.bpf")
        if said.startswith("refused"):
            verdict = self.run(folder, "verify", "--program", "p.bpf")
            return None if shown.is_refused(said) and verdict.is_refused(said) else f"{shown} and {verdict}"
        text = "".join(line.strip() + "\n" for line in said.split("|")).encode()
        made = self.asm(folder, text)
        return None if shown == Said(0, text, "") and made == Said(0, program, "") else f"{shown} and {made}"

    def sources(self, folder: str, row: list[str]) -> str | None:
        made = self.asm(folder, self.notation.bytes(row[0]))
        if row[1].startswith("refused"):
            return None if made.is_refused(row[1]) else str(made)
        return None if made == Said(0, self.notation.program(row[1]), "") else str(made)

    def values(self, folder: str, row: list[str]) -> str | None:
        """Checks all values of a row by one program. It returns the number of the first wrong one, counted from 1, or 0."""
        made = self.asm(folder, "\n".join([*value_lines(row[0], row[1].split()), ""]).encode())
        self.write_program(folder, made.output)
        self.write_files(folder, NAMED)
        said = self.trace(folder, STEPS)
        return None if made.status == 0 and said == Said(0, b"exit 0 score 0\n", "") else f"{made.errors} {said}"

    def trace(self, folder: str, limit: str) -> Said:
        return self.run(folder, "trace", "--program", "p.bpf", "--data", ".", "--line", "1", "--limit", limit, COUNTY)

    def answers(self, folder: str, row: list[str]) -> str | None:
        self.write_program(folder, self.notation.program(row[1]))
        self.write_files(folder, row[2:6] if len(row) > 2 else NAMED)
        said = self.trace(folder, row[6] if len(row) > 6 else STEPS)
        if said != Said(0, traced(row[0]), ""):
            return str(said)
        if self.run(folder, "verify", "--program", "p.bpf").status:
            return None
        answer, _, score = row[0].partition(" score ")
        line = Path(folder, f"TGR{COUNTY}.RT1").read_bytes()[:228]
        chosen = b"" if answer == "0" else (score or "0").encode() + b"\t" + line + b"\n"
        rows = self.run(folder, "run", "--program", "p.bpf", "--data", ".", COUNTY)
        return None if rows == Said(0, chosen, "") else str(rows)

    def extracts(self, folder: str, row: list[str]) -> str | None:
        self.write_program(folder, self.notation.program(row[0]))
        self.write_files(folder, row[1:5])
        said = self.run(folder, "run", "--program", "p.bpf", "--data", ".", COUNTY)
        rows = self.notation.bytes(row[6] if len(row) > 6 else "")
        is_counted = row[5] != f"ok {rows.count(10)}" and not row[5].startswith("refused")
        ended = said.status == 0 and not said.errors if row[5].startswith("ok") else said.is_refused(row[5])
        return None if ended and said.output == rows and not is_counted else str(said)

    def wrong(self, kind: str, row: str) -> str | None:
        """Returns what is wrong with a row, or None."""
        ask: dict[str, Callable[[str, list[str]], str | None]] = {
            "words": self.words,
            "sources": self.sources,
            "values": self.values,
            "answers": self.answers,
            "extracts": self.extracts,
        }
        try:
            with tempfile.TemporaryDirectory() as folder:
                return ask[kind](folder, cells_of(row))
        except (IndexError, KeyError, ValueError) as error:
            return f"the row can't be read: {error!r}"


def value_lines(instruction: str, values: Iterable[str]) -> Iterator[str]:
    """Yields the text of a program that returns which of these values an instruction doesn't compute."""
    is_jump = instruction.startswith("j")
    for number, value in enumerate(values, 1):
        operands, _, made = value.partition("=")
        x, _, y = operands.partition(",")
        yield from (f"mov r6, {number}", f"lddw r1, 0x{x}", f"lddw r2, 0x{y or x}")
        if is_jump:
            yield from ("mov r4, 1", f"{instruction.rpartition(',')[0]}, +1", "mov r4, 0", "mov r1, r4")
        else:
            yield instruction
        yield from (f"lddw r3, 0x{made}", "jne r1, r3, out")
    yield from ("mov r6, 0", "out:", "mov r0, r6", "exit")


def traced(outcome: str) -> bytes:
    """Returns the line that `trace` prints for an outcome."""
    stuck = re.fullmatch(r"refused (\d+) place (\d+) \S+", outcome)
    if stuck:
        return f"stuck place {stuck[2]} cause {stuck[1]}\n".encode()
    if outcome == "running":
        return b"running\n"
    answer, _, score = outcome.partition(" score ")
    return f"exit {answer} score {score or 0}\n".encode()


class RowTable(pytest.File):
    """A table of tests/rows. Lines of programs are assembled once for all of its rows."""

    def collect(self) -> Iterator[pytest.Item]:
        kind = re.split(r"[_.]", self.path.name)[0]
        for line, row in rows_of(self.path):
            item = RowItem.from_parent(self, name=f"line {line}", line=line, check=partial(self.difference, kind, row))
            item.add_marker(pytest.mark.xdist_group(str(self.path)))
            yield item

    def setup(self) -> None:
        self.asked = Asked()

    def difference(self, kind: str, row: str) -> str | None:
        wrong = self.asked.wrong(kind, row)
        return f"{row[:300]}\nand it is {wrong[:600]}" if wrong else None
