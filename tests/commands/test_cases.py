"""What the cases of this folder rest on: a case that isn't met fails, and a terminal shows what is written to it."""

from pathlib import Path

import pytest
from harness import cases, terminal
from harness.cases import Case

COMMAND = "printf 12345678; echo 'error: a.b [c] \\n' >&2; exit 3"
MET = r"""
|3|8|error: a.b [c] \n
|3|2 + 2 * 3|error: *
|3|*|*a?b*
"""
NOT_MET = r"""
|0|8|error: a.b [c] \n
|3|7|error: a.b [c] \n
|3|2 + 2 * 2|error: *
|3|8|
|3|8|error: a.b
|3|8|rror: a.b [c] \n
|3|8|error: axb [c] \n
|3|8|error: a.b c \n
|3|8|error: a.b ?c] n
"""


@pytest.mark.parametrize("row", MET.strip().splitlines())
def test_met(here: Path, row: str) -> None:
    assert cases.check(cases.case_of(row)._replace(command=COMMAND)) == b"12345678"


@pytest.mark.parametrize("row", NOT_MET.strip().splitlines())
def test_not_met(here: Path, row: str) -> None:
    with pytest.raises(pytest.fail.Exception):
        cases.check(cases.case_of(row)._replace(command=COMMAND))


def test_not_shown() -> None:
    with pytest.raises(pytest.fail.Exception):
        cases.check_shown("error: FILE: not a text of the page")


@pytest.mark.parametrize("descriptor, received, other", [(1, b"b\n", b"a\n"), (2, b"a\n", b"b\n")])
def test_terminal(here: Path, descriptor: int, received: bytes, other: bytes) -> None:
    command = f"test -t {descriptor} && echo a >&2; echo b; exit 3"
    assert terminal.run(descriptor, command) == (3, received, other)
