"""The harness fails wrong blocks, rows, verdicts and shell tests. One that lets everything pass would hide all else."""

import subprocess
from collections.abc import Iterator
from pathlib import Path

import pytest
from harness import pages, verdicts
from harness.pages import PageFile
from harness.program import TOP
from harness.rows import Asked
from harness.shell import RUNNER

# What a terminal shows, and whether it's right.
CONSOLES = [
    ("$ echo a\na\n", True),
    ("$ echo a\n> echo b\na\nb\n", True),
    ("$ echo a >&2\na\n", True),
    ("$ false\n$ echo $?\n1\n", True),
    ("$ echo a\nb\n", False),
    ("$ echo a\n", False),
    ("$ true\na\n", False),
    ("$ printf a\na\n", False),
]
# Scripts, and whether they succeed and print nothing.
SCRIPTS = [("true", True), ("false\ntrue", False), ("echo a", False), ("echo a >&2", False)]
# Blocks, and whether they have something to run.
BLOCKS = [
    ("console", "$ true", True),
    ("console", "true", False),
    ("console", "", False),
    ("bash", "true", True),
    ("bash", "", False),
    ("pycon", ">>> 1", True),
    ("pycon", "1", False),
    ("http examples", "$ curl x", True),
    ("http examples", "", False),
    ("hex", "", False),
    ("unknown", "", True),
]
# Rows of tables by kind, and whether they are right.
ROWS = [
    ("words", "hex 0f21000000000000; add r1, r2", True),
    ("words", "hex 0f21000000000000; add r1, r3", False),
    ("words", "hex 95; refused 11 NotWhole", True),
    ("words", "hex 95; refused 10 Empty", False),
    ("words", "hex 0f21000000000000; refused 11 NotWhole", False),
    ("words", "hex 95", False),
    ("sources", "frob; refused 21 line 1 UnknownMnemonic", True),
    ("sources", "frob; refused 21 line 2 UnknownMnemonic", False),
    ("sources", r"back:\nja32 back; hex 06000000ffffffff", True),
    ("sources", r"back:\nja32 back; hex 06000000fffffffe", False),
    ("values", "add r1, r2; 1,0=1 2,3=5", True),
    ("values", "add r1, r2; 1,0=1 2,3=6", False),
    ("values", "jeq r1, r2, +0; 1,1=1 1,2=0", True),
    ("values", "jeq r1, r2, +0; 1,1=0", False),
    ("answers", "0; mov r0, -1 | add r0, 1 | exit", True),
    ("answers", "1; mov r0, -1 | add r0, 1 | exit", False),
    ("answers", "0 score 1; mov r0, -1 | add r0, 1 | exit", False),
    ("answers", "refused 31 place 0 OutOfProgram; ja +0", True),
    ("answers", "running; ja +0", False),
    ("extracts", r"mov r0, 0 | exit; {rt1}\n;;;; ok 0;", True),
    ("extracts", r"mov r0, 1 | exit; {rt1}\n;;;; ok 1; {0\trt1\n}", True),
    ("extracts", r"mov r0, 1 | exit; {rt1}\n;;;; ok 1; {1\trt1\n}", False),
    ("extracts", r"mov r0, 1 | exit; {rt1}\n;;;; ok 0;", False),
]
# Programs, and verdicts on them.
VERDICTS = [
    ("mov r0, 0\nexit", "accepted", True),
    ("mov r0, 0\nexit", "refused 31 place 1 OutOfProgram", False),
    ("mov r0, r3\nexit", "accepted", False),
    ("frob", "accepted", False),
]
# Shell tests, whether they pass, and what they print.
SHELL = [
    ("pass", True, "1 passed, 0 failed\n"),
    ("equal a b b; case_of 0 2 '' 'echo b'", True, "2 passed, 0 failed\n"),
    (":", False, "test_it checks nothing\n0 passed, 1 failed\n"),
    ("pass; fail why", False, "why\n1 passed, 1 failed\n"),
    ("equal a b c", False, "a\nshould be: b\nand is: c\n0 passed, 1 failed\n"),
    ("pass; exit 0", True, ""),
]


@pytest.fixture(scope="module")
def page(request: pytest.FixtureRequest) -> Iterator[PageFile]:
    page: PageFile = PageFile.from_parent(request.session, path=TOP / "README.md")
    page.setup()
    yield page
    page.teardown()


@pytest.mark.parametrize(("text", "is_right"), CONSOLES)
def test_console(page: PageFile, text: str, is_right: bool) -> None:
    assert (page.console_fault(text) is None) == is_right


@pytest.mark.parametrize(("text", "is_right"), SCRIPTS)
def test_script(page: PageFile, text: str, is_right: bool) -> None:
    assert (page.quiet_fault(text) is None) == is_right


@pytest.mark.parametrize(("kind", "text", "has_test"), BLOCKS)
def test_block(kind: str, text: str, has_test: bool) -> None:
    (block,) = pages.parts_of(f"```{kind}\n{text}\n```\n")
    assert pages.has_test(block) == has_test


@pytest.mark.usefixtures("extractd")
@pytest.mark.parametrize(("kind", "row", "is_right"), ROWS)
def test_row(kind: str, row: str, is_right: bool) -> None:
    assert (Asked().wrong(kind, row) is None) == is_right


@pytest.mark.usefixtures("extractd")
@pytest.mark.parametrize(("program", "verdict", "is_right"), VERDICTS)
def test_verdict(tmp_path: Path, program: str, verdict: str, is_right: bool) -> None:
    assert (verdicts.difference(program, verdict, tmp_path) is None) == is_right


@pytest.mark.parametrize(("body", "is_passed", "said"), SHELL)
def test_shell(tmp_path: Path, body: str, is_passed: bool, said: str) -> None:
    (tmp_path / "test_it.sh").write_text(f"test_it() {{\n{body}\n}}\n")
    command = ["bash", str(RUNNER), str(tmp_path / "test_it.sh"), "test_it"]
    (tmp_path / "here").mkdir()
    done = subprocess.run(command, cwd=tmp_path / "here", capture_output=True, text=True)
    assert (done.returncode == 0, done.stdout) == (is_passed, said)


def test_shell_without_the_test(tmp_path: Path) -> None:
    (tmp_path / "test_it.sh").write_text("return\n")
    command = ["bash", str(RUNNER), str(tmp_path / "test_it.sh"), "test_it"]
    done = subprocess.run(command, cwd=tmp_path, capture_output=True, text=True)
    assert done.returncode == 1
    assert "test_it.sh doesn't define test_it" in done.stdout
