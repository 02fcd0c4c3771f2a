"""compile.sh and link.py: what they say about programs in C and about object files. The expected messages were worked out by hand. Programs that are accepted
have the rows of another spelling, which the table names.
"""

import os
import struct
import subprocess
import sys
from collections.abc import Callable
from pathlib import Path

import pytest
from harness.program import TOP

TOOLS, COUNTY = TOP / "tools/c", TOP / "examples"

pytestmark = [
    pytest.mark.needs("clang", "bpf-gcc", "llvm-objcopy", "llvm-objdump"),
    pytest.mark.usefixtures("extractd", "here"),
]

HEAD = '#include "extractd.h"\n#include <string.h>\n'
CHOOSE = "uint64_t choose(const struct record *record) { "
NOT_A_PART = ", which isn't part of the program"

# Sources after the head, and what compile.sh says. Line 3 is the first.
REFUSED = (
    (
        "int more(int); " + CHOOSE + "return more(record->cfcc[0]); }",
        f"choose calls more (program.c:3){NOT_A_PART}",
    ),
    (
        "static __attribute__((noinline)) int more(int x) { return x * x; }\n"
        + CHOOSE
        + "return more(record->cfcc[0]); }",
        f"choose calls more (program.c:4){NOT_A_PART}",
    ),
    (
        "extern int errno;\n" + CHOOSE + "return errno + record->cfcc[0]; }",
        f"choose uses errno (program.c:4){NOT_A_PART}",
    ),
    (
        "static uint64_t seen;\n" + CHOOSE + "(void) record;\nreturn ++seen; }",
        "the variable seen (program.c:5) would outlive a segment",
    ),
    (
        CHOOSE
        + "uint64_t n = 0;\nfor (uint64_t i = 0; i <= names(); i++)\nn += record->fename[0]; return n + names(); }",
        "a loop may have more than 256 rounds: the jump at place",
    ),
    (
        "uint64_t chose(const struct record *record) { return record->cfcc[0]; }",
        "there is no function choose (see --function); the functions are: chose",
    ),
    ("uint64_t choose(const struct record *record, int x) { return x; }", "conflicting types for 'choose'"),
)

# Sources that are accepted, each with another that has the same rows.
A_ROAD = CHOOSE + "return record->cfcc[0] == 'A'; }"
ACCEPTED = (
    # Another function comes first.
    ("uint64_t other(void) { return 1; }\n" + A_ROAD, A_ROAD),
    (
        "uint64_t is_road(const struct record *r) { return r->cfcc[0] == 'A'; }\n"
        + CHOOSE
        + "return is_road(record); }",
        A_ROAD,
    ),
    (
        '__attribute__((section("x"))) uint64_t other(void) { return 1; }\n__attribute__((section("x"))) ' + A_ROAD,
        A_ROAD,
    ),
    # Helpers of the header.
    (CHOOSE + 'return begins(record->cfcc, "A"); }', A_ROAD),
    (
        CHOOSE + 'return same(record->cfcc, "A4", 2); }',
        CHOOSE + "return record->cfcc[0] == 'A' && record->cfcc[1] == '4'; }",
    ),
    (CHOOSE + "uint8_t c[3]; copy(c, record->cfcc, 3); return at(c, field(FRADDL) * 0) == 'A'; }", A_ROAD),
    (CHOOSE + 'return memcmp(record->cfcc, "A", 1) == 0; }', A_ROAD),
    # Signed division.
    (CHOOSE + "return coord(FRLAT) / 1000000 == 32; }", CHOOSE + "return (uint64_t) coord(FRLAT) / 1000000 == 32; }"),
    # Bits of an index.
    (
        CHOOSE + "uint8_t g[4][8] = {{0}}; uint8_t c = record->cfcc[0]; g[c >> 6][c & 7]++; return g[1][1]; }",
        A_ROAD,
    ),
)

# Clang's option gives each function a section named .text, and each table one named .rodata.
ONE_NAME = "-fno-unique-section-names"
OTHER = "uint64_t other(const struct record *r) { return r->cfcc[0]; }\n"
TWO_TABLES = (
    "static const uint8_t one[5] = {'A', 1, 2, 3, 4}, two[7] = {5, 6, 7, '4', 8, 9, 10};\n"
    + OTHER
    + CHOOSE
    + "return one[record->cfcc[0] % 5] == record->cfcc[0] && two[record->cfcc[1] % 7] == record->cfcc[1]; }"
)
A_4 = CHOOSE + "return record->cfcc[0] == 'A' && record->cfcc[1] == '4'; }"
TWO_TOO_LARGE = (
    "static const uint8_t one[300] = {1}, two[290] = {2};\n"
    + OTHER
    + CHOOSE
    + "\nreturn one[field(FRADDL) % 300] + two[field(TOADDL) % 290]; }"
)

# Options that make another kind of object, by compiler, and what compile.sh says.
BITCODE = "link.py: program.o: this is LLVM's bitcode, which -flto or -emit-llvm makes; compile without the option"
INTERMEDIATE = "link.py: program.o: this object was compiled with -flto; compile without the option"
OBJECTS = (
    ("clang", "-flto", BITCODE),
    ("clang", "-flto=thin", BITCODE),
    ("clang", "-emit-llvm", BITCODE),
    ("bpf-gcc", "-flto", INTERMEDIATE),
    ("bpf-gcc", "-flto -ffat-lto-objects", INTERMEDIATE),
)


def change(offset: int, value: bytes) -> Callable[[bytes], bytes]:
    return lambda data: data[:offset] + value + data[offset + len(value) :]


# How an object is damaged, and what link.py says.
DAMAGED: tuple[tuple[Callable[[bytes], bytes], str], ...] = (
    (lambda data: b"", "this is no object file"),
    (lambda data: b"#include <stdio.h>\n", "this is no object file"),
    (
        lambda data: b"BC\xc0\xde" + data,
        "this is LLVM's bitcode, which -flto or -emit-llvm makes; compile without the option",
    ),
    (change(18, struct.pack("<H", 62)), "this object is for x86-64, not for BPF"),
    (change(5, b"\2"), "this object is for machine 63232, not for BPF"),
    (change(16, struct.pack("<H", 2)), "this is no object file of a compiler, which -c makes"),
    (lambda data: data[:200], "this object file is cut off"),
)


def run(*command: str | Path, compiler: str = "clang") -> subprocess.CompletedProcess[str]:
    variables = {**os.environ, "CC": compiler}
    return subprocess.run(command, stdin=subprocess.DEVNULL, capture_output=True, text=True, timeout=120, env=variables)


def compiled(source: str, *flags: str, compiler: str = "clang") -> subprocess.CompletedProcess[str]:
    Path("program.c").write_text(HEAD + source + "\n")
    return run(TOOLS / "compile.sh", "program.c", "program.bpf", *flags, compiler=compiler)


def rows(source: str, *flags: str) -> str:
    done = compiled(source, *flags)
    assert (done.returncode, done.stderr) == (0, "")
    ran = run("extractd", "run", "--program", "program.bpf", "--data", COUNTY, "01001")
    assert (ran.returncode, ran.stderr) == (0, "")
    return ran.stdout


@pytest.fixture
def whole(here: Path) -> Path:
    """Returns an object file of a program, which is `program.c`."""
    path = here / "whole.o"
    Path("program.c").write_text(HEAD + A_ROAD + "\n")
    flags = (f"@{TOOLS / 'flags'}", f"-I{TOOLS}", "-isystem", TOOLS / "include")
    made = run("clang", *flags, "-c", "-o", path, here / "program.c")
    assert made.returncode == 0, made.stderr
    return path


def link(path: Path, *options: str | Path) -> str:
    done = run(sys.executable, TOOLS / "link.py", *options, path, "linked.bpf")
    return done.stderr.removeprefix(f"link.py: {path.name}: ").rstrip("\n")


@pytest.mark.parametrize("source, said", REFUSED, ids=[said for _, said in REFUSED])
def test_refused(source: str, said: str) -> None:
    done = compiled(source)
    assert done.returncode == 1
    assert said in done.stderr
    assert not Path("program.bpf").exists()


@pytest.mark.parametrize("source, other", ACCEPTED, ids=[f"program {number}" for number, _ in enumerate(ACCEPTED, 1)])
def test_accepted(source: str, other: str) -> None:
    assert rows(source) == rows(other)


def test_sections_of_one_name() -> None:
    assert rows(TWO_TABLES, ONE_NAME) == rows(A_4)


def test_tables_of_one_name_that_are_too_large() -> None:
    tables = "the constants in .rodata[0], .rodata[1] have 600 bytes, and the frame has 512 left for them"
    assert compiled(TWO_TOO_LARGE, ONE_NAME).stderr == f"link.py: program.o: {tables} (program.c:6)\n"


def test_lines_of_sections_of_one_name() -> None:
    Path("program.c").write_text(HEAD + OTHER + A_ROAD + "\n")
    run(TOOLS / "compile.sh", "--lines", "lines", "program.c", "program.bpf", ONE_NAME)
    assert Path("lines").read_text().split("\n")[0] == f"0\t{A_ROAD}"


@pytest.mark.parametrize("compiler, flags, said", OBJECTS, ids=[f"{it[0]} {it[1]}" for it in OBJECTS])
def test_objects(compiler: str, flags: str, said: str) -> None:
    done = compiled(A_ROAD, *flags.split(), compiler=compiler)
    assert (done.returncode, done.stderr) == (1, said + "\n")


def test_undamaged(whole: Path) -> None:
    assert link(whole) == ""


@pytest.mark.parametrize("damage, said", DAMAGED, ids=[f"object {number}" for number, _ in enumerate(DAMAGED, 1)])
def test_damaged(damage: Callable[[bytes], bytes], said: str, whole: Path) -> None:
    path = Path("damaged.o")
    path.write_bytes(damage(whole.read_bytes()))
    assert link(path) == said


def test_without_symbols(whole: Path) -> None:
    other = Path("other.o")
    run("llvm-objcopy", "--strip-all", whole, other)
    assert link(other) == "this object has no symbols, so its functions can't be found; don't strip it"


def test_without_lines(whole: Path) -> None:
    other = Path("other.o")
    run("llvm-objcopy", "--strip-debug", whole, other)
    assert link(other, "--lines", "lines") == "there are no source lines; compile with -g"


def test_lines(whole: Path) -> None:
    assert link(whole, "--lines", "lines") == ""
    assert "return record->cfcc[0] == 'A'" in Path("lines").read_text()


def test_lines_without_the_source(whole: Path) -> None:
    Path("program.c").unlink()
    assert "there is no source file" in link(whole, "--lines", "lines")
