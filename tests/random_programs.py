"""Programs in C that are drawn, and their builds for extractd and for this machine.

A program has early returns, nested conditions, switches, loops, gotos and calls of helper functions, and no undefined behavior. It is compiled for BPF as
compile.sh does, and for this machine by `cc` together with native.c. Each build has to be accepted, and has to write the rows of the native program over the
example county, byte for byte.

A build with more than 65,536 words, or with a jump over more than 32,767 words, is too long. The jump needs -mcpu=v4: at less, clang 14 cuts its distance,
and clang 19 reports it.
"""

import subprocess
from collections.abc import Callable, Iterator
from contextlib import contextmanager
from dataclasses import dataclass, field
from pathlib import Path
from random import Random

from forward import put_in_order
from harness.program import TOP
from instructions import LoopError, ProgramError
from link import Linker, find_function
from objects import ObjectFile

TOOLS = TOP / "tools" / "c"
COUNTY = TOP / "examples"
CODE = "01001"
LEVELS = ("-O1", "-O2", "-Os")

# ---- Programs

# The fields of struct record and their lengths.
BYTES = {
    "fedirp": 2, "fename": 30, "fetype": 4, "cfcc": 3, "fraddl": 11, "toaddr": 11, "imputed": 4, "zipl": 5, "zipr": 5,
    "countyl": 3, "cousubr": 5, "placel": 5, "tractl": 6, "blockr": 4, "frlong": 10, "tolat": 9,
}  # fmt: skip
IDS = (
    "TLID", "FRADDL", "TOADDL", "FRADDR", "TOADDR", "ZIPL", "ZIPR", "STATEL", "STATER", "COUNTYL", "COUNTYR", "PLACEL",
    "PLACER", "TRACTL", "TRACTR", "BLOCKL", "BLOCKR",
)  # fmt: skip
COORDINATES = ("FRLONG", "FRLAT", "TOLONG", "TOLAT")
LETTERS = "AABFH12467 0135aeinrtSMYW"
NAMES = ("Yarrow", "yarrow", "Northgate", "Lantern", "Pine Rest", "County Road 67", "US Hwy 480", "M")
OPERATORS = ("+", "-", "*", "&", "|", "^")
COMPARISONS = ("==", "!=", "<", "<=", ">", ">=")
DEEPEST_BLOCK = 4
# The bytes for a program's arrays, of the frame's 512. At -O1 each array has its own, and the compiler's values need some.
MOST_ARRAY_BYTES = 256
INLINE = "static inline __attribute__((always_inline))"


@dataclass
class ProgramWriter:
    """Draws a program. All its numbers are uint64_t, so only unsigned overflow can occur."""

    dice: Random
    lines: list[str] = field(default_factory=list)
    variables: list[str] = field(default_factory=list)
    counters: list[tuple[str, int]] = field(default_factory=list)
    parts: dict[str, int] = field(default_factory=dict)
    depth: int = 0
    arrays: int = 0
    array_bytes: int = 0
    gotos: bool = False

    def write(self, line: str) -> None:
        self.lines.append("    " * self.depth + line if line else "")

    def chance(self, percent: int) -> bool:
        return self.dice.randrange(100) < percent

    @contextmanager
    def block(self, head: str = "") -> Iterator[None]:
        self.write(f"{head} {{" if head else "{")
        self.depth += 1
        yield
        self.depth -= 1
        self.write("}")

    # ---- Expressions

    def constant(self) -> str:
        bits = self.dice.choice((2, 4, 6, 8, 16, 31, 32, 40, 64))
        return f"{self.dice.getrandbits(bits)}ull"

    def byte(self) -> str:
        """Returns an expression of type uint8_t that reads the record."""
        name = self.dice.choice(list(BYTES))
        if self.counters and self.chance(60):
            counter, rounds = self.dice.choice(self.counters)
            name = self.dice.choice([name for name, length in BYTES.items() if length >= rounds])
            return f"record->{name}[{counter}]"
        if self.variables and self.chance(15):
            return f"record->fename[bounded({self.dice.choice(self.variables)}, 15)]"
        return f"record->{name}[{self.dice.randrange(BYTES[name])}]"

    def leaf(self) -> str:
        kind = self.dice.randrange(10)
        if kind < 4 and self.variables:
            return self.dice.choice(self.variables)
        if kind < 6:
            return f"(uint64_t) {self.byte()}"
        if kind < 7:
            return self.constant()
        return self.call()

    def call(self) -> str:
        calls: list[Callable[[], str]] = [
            lambda: f"field({self.dice.choice(IDS)})",
            lambda: f"field({self.dice.choice(IDS)})",
            lambda: f"has({self.dice.choice(IDS)})",
            lambda: "names()",
            lambda: "ranges()",
            lambda: f"(uint64_t) coord({self.dice.choice(COORDINATES)})",
            lambda: f"in_range({self.dice.randrange(3)}, {self.dice.randrange(1, 4000)})",
            lambda: f"in_range({self.dice.randrange(3)}, field({self.dice.choice(IDS[1:5])}))",
        ]
        return self.dice.choice(calls)()

    def number(self, depth: int) -> str:
        """Returns an expression of type uint64_t."""
        if depth == 0:
            return self.leaf()
        first, second = self.number(depth - 1), self.number(self.dice.randrange(depth))
        forms = (
            f"{first} / ({second} | 1)", f"{first} % ({second} | 1)", f"{first} / {self.dice.randrange(1, 300)}",
            f"({first} << ({second} & 63))", f"({first} >> ({second} & 31))", f"~({first})",
            f"(uint64_t) ((uint32_t) ({first}) * (uint32_t) ({second}))",
            f"(uint64_t) ((uint32_t) ({first}) + (uint32_t) ({second}))",
            f"(uint64_t) ((int64_t) ({first}) >> ({second} & 63))", f"(uint64_t) (int64_t) (int8_t) ({first})",
            f"(uint64_t) (uint16_t) ({first})", f"(uint64_t) ({self.condition(depth - 1)})",
            f"({self.condition(depth - 1)} ? {first} : {second})",
        )  # fmt: skip
        if self.chance(45):
            return f"({first} {self.dice.choice(OPERATORS)} {second})"
        if self.parts and self.chance(10):
            part = self.dice.choice(list(self.parts))
            if self.takes_frame(self.parts[part]):
                return f"{part}(record, {first}, {second})"
        return f"({self.dice.choice(forms)})"

    def condition(self, depth: int) -> str:
        kind = self.dice.randrange(10)
        if kind < 4 or depth <= 0:
            return f"{self.byte()} {self.dice.choice(COMPARISONS)} {self.letter()}"
        if kind < 5:
            return f"has({self.dice.choice(IDS)})"
        if kind < 7:
            operator = self.dice.choice(("&&", "||"))
            return f"({self.condition(depth - 1)} {operator} {self.condition(depth - 1)})"
        if kind < 8:
            return f"!({self.condition(depth - 1)})"
        cast = self.dice.choice(("", "", "(int64_t) ", "(int32_t) ", "(uint32_t) "))
        return f"{cast}({self.number(depth - 1)}) {self.dice.choice(COMPARISONS)} {cast}({self.number(depth - 1)})"

    def letter(self) -> str:
        return f"'{self.dice.choice(LETTERS)}'"

    # ---- Statements

    def statements(self, count: int) -> None:
        for _ in range(count):
            self.statement()

    def statement(self) -> None:
        simple = (self.assign, self.assign, self.score, self.early_return, self.copied_name, self.compared_name)
        nested = (self.condition_block, self.condition_block, self.switch, self.loop)
        deeper = self.depth < DEEPEST_BLOCK and len(self.counters) < 2 and self.chance(55)
        self.dice.choice(nested if deeper else simple)()

    def assign(self) -> None:
        variable = self.dice.choice(self.variables)
        self.write(f"{variable} {self.dice.choice(('', '', '+', '^', '-'))}= {bare(self.number(2))};")

    def score(self) -> None:
        self.write(f"emit({bare(self.number(1))});")

    def early_return(self) -> None:
        leave = f"return {self.dice.choice(('0', '1', bare(self.number(1))))};"
        if self.gotos and self.chance(40):
            leave = f"goto {self.dice.choice(('found', 'missed'))};"
        # Clang often fails to unroll nested loops that end this way.
        if len(self.counters) == 1 and self.chance(50):
            leave = self.dice.choice(("break;", "continue;"))
        with self.block(f"if ({bare(self.condition(2))})"):
            if self.chance(40):
                self.score()
            self.write(leave)

    def condition_block(self) -> None:
        with self.block(f"if ({bare(self.condition(2))})"):
            self.statements(self.dice.randint(1, 3))
        if self.chance(50):
            with self.block("else"):
                self.statements(self.dice.randint(1, 2))

    def switch(self) -> None:
        values = self.dice.choice((range(8), [ord(letter) for letter in "ABDFH1"]))
        of = f"({self.number(1)}) & 7" if 0 in values else self.byte()
        counters, self.counters = self.counters, []
        with self.block(f"switch ({of})"):
            for value in self.dice.sample(list(values), self.dice.randint(2, 6)):
                self.write(f"case {value}:")
                self.depth += 1
                self.statements(self.dice.randint(1, 2))
                if self.chance(75):
                    self.write("break;")
                self.depth -= 1
            self.write("default:")
            self.depth += 1
            self.assign()
            self.depth -= 1
        self.counters = counters

    def loop(self) -> None:
        counter, rounds = "ijk"[len(self.counters)], self.dice.randint(2, 3 if self.counters else 7)
        if self.chance(50):
            self.write("UNROLL")
        with self.block(f"for (unsigned {counter} = 0; {counter} < {rounds}; {counter}++)"):
            self.counters.append((counter, rounds))
            self.statements(self.dice.randint(1, 2))
            self.counters.pop()

    def takes_frame(self, size: int) -> bool:
        """Takes bytes of the frame for arrays if enough are left."""
        if self.array_bytes + size > MOST_ARRAY_BYTES:
            return False
        self.array_bytes += size
        return True

    def copied_name(self) -> None:
        self.arrays += 1
        name, length = f"name{self.arrays}", self.dice.choice((4, 8, 13, 30))
        if not self.takes_frame(length):
            return self.assign()
        with self.block():
            self.write(f"uint8_t {name}[{length}];")
            self.write(f"{self.dice.choice(self.variables)} += name_copy({self.number(1)} & 3, {name}, sizeof {name});")
            byte = f"{name}[{self.dice.randrange(length)}]"
            with self.block(f"if ({byte} {self.dice.choice(COMPARISONS)} {self.letter()})"):
                self.assign()

    def compared_name(self) -> None:
        self.arrays += 1
        name, text = f"text{self.arrays}", self.dice.choice(NAMES)
        if not self.takes_frame(len(text)):
            return self.assign()
        with self.block():
            self.write(f'const char {name}[{len(text)}] = "{text}";')
            with self.block(f"if (name_is({self.dice.randrange(3)}, {name}, sizeof {name}))"):
                self.statements(1)

    # ---- Functions

    def function(self, head: str, count: int, variables: list[str]) -> None:
        self.write("")
        self.write(head)
        with self.block():
            self.variables = list(variables)
            for name in ("a", "b", "c")[: self.dice.randint(1, 3)]:
                self.write(f"uint64_t {name} = {bare(self.number(1))};")
                self.variables.append(name)
            endings_first = self.gotos and self.chance(50)
            if endings_first:
                self.write("goto begin;")
                self.endings()
                self.write("begin:")
            self.statements(count)
            self.write(f"return {bare(self.number(2)) if self.chance(50) else self.condition(2)};")
            if self.gotos and not endings_first:
                self.endings()

    def endings(self) -> None:
        """Writes the targets of the function's gotos."""
        self.write("found:")
        self.score()
        self.write("return 1;")
        self.write("missed:")
        self.write("emit(0);")
        self.write(f"return {self.condition(1)};")

    def program(self) -> str:
        self.lines = ['#include "extractd.h"']
        for index in range(self.dice.choice((0, 0, 1, 2))):
            parameters = "const struct record *record, uint64_t x, uint64_t y"
            before = self.array_bytes
            self.function(f"{INLINE} uint64_t part{index}({parameters})", 2, ["x", "y"])
            self.parts[f"part{index}"] = self.array_bytes - before
        self.gotos = self.chance(40)
        self.function("uint64_t choose(const struct record *record)", self.dice.randint(2, 6), [])
        return "\n".join(self.lines) + "\n"


def bare(expression: str) -> str:
    """Removes the parentheses around an expression."""
    depth = 0
    for position, character in enumerate(expression):
        depth += {"(": 1, ")": -1}.get(character, 0)
        if depth == 0:
            return bare(expression[1:-1]) if expression[0] == "(" and position == len(expression) - 1 else expression
    return expression


def draw_program(seed: int, number: int) -> str:
    return ProgramWriter(Random(f"{seed} {number}")).program()


# ---- Builds


class BuildFailure(Exception):
    """A command failed. Has its name and its standard error."""


class TooLong(Exception):
    """The program or one of its jumps is too long."""


def run(*command: str | Path) -> subprocess.CompletedProcess[bytes]:
    done = subprocess.run(command, stdin=subprocess.DEVNULL, capture_output=True, timeout=300)
    if done.returncode != 0:
        said = done.stderr.decode(errors="replace").strip()[:600]
        raise BuildFailure(f"{Path(command[0]).name}: status {done.returncode}: {said}")
    return done


@dataclass(frozen=True)
class Build:
    """How a program is compiled to BPF words, by clang."""

    level: str
    cpu: str

    def __str__(self) -> str:
        return f"clang {self.level} -mcpu={self.cpu}"

    def flags(self) -> list[str]:
        flags = (TOOLS / "flags").read_text().split()
        if self.level == "-O1":
            flags += (TOOLS / "flags-O1").read_text().split()
        return [*flags, f"-mcpu={self.cpu}", self.level, "-w"]

    def words(self, source: Path, scratch: Path) -> Path:
        """Returns the file of the program's words."""
        code, program = scratch / "program.o", scratch / "program.bpf"
        self.compile(source, code)
        file = ObjectFile(code.read_bytes())
        linker = Linker(file, find_function(file, "choose"))
        try:
            words, _ = put_in_order(linker.with_offsets(), linker.tables())
        except LoopError as error:
            raise BuildFailure(str(error)) from error
        except ProgramError as error:
            raise TooLong from error
        program.write_bytes(words)
        return program

    def compile(self, source: Path, code: Path) -> subprocess.CompletedProcess[bytes]:
        try:
            return run("clang", *self.flags(), f"-I{TOOLS}", "-c", source, "-o", code)
        except BuildFailure as failure:
            if "Branch target out of insn range" in str(failure):
                raise TooLong from failure
            raise


def native_rows(source: Path, harness: Path, scratch: Path) -> bytes:
    """Returns the rows that the program writes when it runs on this machine. Undefined behavior ends it."""
    program = scratch / "native"
    trap = ("-fsanitize=undefined", "-fsanitize-undefined-trap-on-error")
    run("cc", "-w", "-O1", *trap, f"-I{TOOLS}", "-include", TOOLS / "native.h", source, harness, "-o", program)
    return run(program, COUNTY, CODE).stdout


def rows_of(build: Build, source: Path, scratch: Path) -> bytes:
    """Returns the rows that `extractd run` writes with the build's program."""
    program = build.words(source, scratch)
    return run("extractd", "run", "--program", program, "--data", COUNTY, CODE).stdout


@dataclass
class Outcome:
    """How many builds of a program agree with it, how many are too long, and what the others say."""

    agree: int = 0
    too_long: int = 0
    differences: list[str] = field(default_factory=list)


def made_harness(scratch: Path) -> Path:
    """Returns native.c as an object file."""
    harness = scratch / "native.o"
    run("cc", "-std=c11", "-O1", "-c", TOOLS / "native.c", "-o", harness)
    return harness


def try_program(source: str, builds: list[Build], harness: Path, scratch: Path) -> Outcome:
    outcome = Outcome()
    path = scratch / "program.c"
    path.write_text(source)
    expected = native_rows(path, harness, scratch)
    for build in builds:
        try:
            rows = rows_of(build, path, scratch)
        except TooLong:
            outcome.too_long += 1
            continue
        except BuildFailure as failure:
            outcome.differences.append(f"{build}: {failure}")
            continue
        if rows == expected:
            outcome.agree += 1
        else:
            counts = f"{rows.count(10)} rows, natively {expected.count(10)}"
            outcome.differences.append(f"{build}: {counts}, or other scores")
    return outcome
