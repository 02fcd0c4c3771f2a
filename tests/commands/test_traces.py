"""The outcomes of `trace`, and its invalid arguments."""

from pathlib import Path

import pytest
from harness import cases
from harness.cases import Case

BARE = "exit\n"
KEPT = "stxdw [r10-8], r1\nmov r1, 1\ncall 2\nldxdw r1, [r10-8]\nldxb r0, [r1+0]\nexit\n"
PART = "stxdw [r10-8], r1\nldxw r0, [r10-8]\nexit\n"
# Arguments, and what they trace.
TRACED = """
--program $all --data $county --line 1 --limit 0 01001|running
--program $all --data $county --line 1 --limit 1 01001|running
--program $all --data $county --line 400 --limit 2 01001|exit 1 score 0
--program $all --data $county --line 0000000000000000400 --limit 9999999999999999999 01001|exit 1 score 0
--limit 1 --line 2 --program bare.bpf 01001 --data $county|stuck place 0 cause 40
--program kept.bpf --data $county --line 1 --limit 6 01001|exit 49 score 0
--program kept.bpf --data $county --line 1 --limit 5 01001|running
--program part.bpf --data $county --line 1 --limit 6 01001|stuck place 1 cause 45
"""
# In a row, the county's code follows the arguments.
ARGUMENTS = """
--line 0 --limit 1|2|0|error: the type 1 file has no line 0
--line 401 --limit 1|2|0|error: the type 1 file has no line 401
--line 9999999999999999999 --limit 1|2|0|error: the type 1 file has no line 9999999999999999999
--line 0x92 --limit 1|2|0|error: --line is 1 to 19 digits, and "0x92" isn't
--line +1 --limit 1|2|0|error: --line is 1 to 19 digits, and "+1" isn't
--line 10000000000000000000 --limit 1|2|0|error: --line is 1 to 19 digits, and "10000000000000000000" isn't
--line 1 --limit x|2|0|error: --limit is 1 to 19 digits, and "x" isn't
--line 1|2|0|error: the following required arguments were not provided:*--limit <L>*Usage: extractd trace *
--line 1 --limit 1 --line 2|2|0|error: the argument '--line <N>' cannot be used multiple times*
--line 1 --limit 1 --zip 36067|2|0|error: unexpected argument '--zip' found*
"""
FILES = """
--program $all --data empty --line 1 --limit 1 01001|2|0|error: the type 1 file has no line 1
--program nothing --data $county --line 1 --limit 1 01001|1|0|refused 10 Empty
--program bare.s --data $county --line 0 --limit 1 01001|1|0|refused 11 NotWhole
--program missing.bpf --data $county --line 0 --limit 1 01001|3|0|error: missing.bpf: not found
"""
SHOWN = """
error: the type 1 file has no line 401
error: --line is 1 to 19 digits, and "0x92" isn't
"""


@pytest.fixture
def programs(files: Path) -> Path:
    for name, text in {"bare": BARE, "kept": KEPT, "part": PART}.items():
        (files / f"{name}.s").write_text(text)
        (files / f"{name}.bpf").write_bytes(cases.check(Case(f"extractd asm --source {name}.s", 0, "*", "")))
    return files


@pytest.mark.parametrize("row", TRACED.strip().splitlines())
def test_traced(programs: Path, row: str) -> None:
    arguments, outcome = row.split("|")
    assert cases.check(Case(f"extractd trace {arguments}", 0, "*", "")) == f"{outcome}\n".encode()


@cases.rows(ARGUMENTS)
def test_argument(files: Path, case: Case) -> None:
    command = f"extractd trace --program $all --data $county {case.command} 01001"
    cases.check(case._replace(command=command))


@cases.rows(FILES, "extractd trace ")
def test_file(programs: Path, case: Case) -> None:
    cases.check(case)


@pytest.mark.parametrize("text", SHOWN.strip().splitlines())
def test_shown(text: str) -> None:
    cases.check_shown(text)
