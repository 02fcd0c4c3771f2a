"""The command line, and files that can't be used."""

import hashlib
from pathlib import Path

import pytest
from harness import cases
from harness.cases import Case
from harness.program import TOP

VERSION = f"extractd {(TOP / 'VERSION').read_text().strip()}"
STATUSES = """\
Exit status:
  0  success, even if no row was selected
  1  refused
  2  usage
  3  a file or output that can't be used
  4  out of memory
"""
COMMANDS = "select compile run trace geocode geocode-batch verify explain asm dis serve".split()
# all.bpf writes each line as a row, byte for byte.
ROWS = """
extractd run --program "$all" --data "$county" 01001|0|400 * 231|
extractd run --data "$county" 01001 --program "$all"|0|400 * 231|
mkdir 'a county'; cp $all 'a program.bpf'; cp $county/TGR01001.RT1 'a county'; extractd run --program "a program.bpf" --data "a county" 01001|0|400 * 231|
extractd run --program "$all" --data empty 01001|0|0|
extractd verify --program "$all"|0|9|
extractd asm --source <(extractd dis --program "$all")|0|16|
"""
EMPTY_PROGRAMS = """
extractd run --program nothing --data "$county" 01001|1|0|refused 10 Empty
extractd verify --program nothing|1|0|refused 10 Empty
extractd dis --program nothing|1|0|refused 10 Empty
extractd asm --source nothing|1|0|refused 26 line 1 CodeFault(10)
"""
# Texts of 16 MiB are read, and endless ones aren't.
LONG_TEXTS = r"""
extractd asm --source <(echo exit; head -c 16777211 /dev/zero | tr "\0" ";")|0|8|
extractd asm --source <(echo exit; head -c 16777212 /dev/zero | tr "\0" ";")|1|0|refused 130 TextTooLong
extractd asm --source <(yes)|1|0|refused 130 TextTooLong
extractd explain --program "$all" --lines <(yes $'0\tline')|1|0|refused 113 LinesTooLong
"""
# Arguments, the first line about them, which docs/refusals.md shows, and the beginning of a line below it.
ARGUMENTS = r"""
|error: 'extractd' requires a subcommand but one was not provided|Usage: extractd <COMMAND>
frob|error: unrecognized subcommand 'frob'|Usage: extractd <COMMAND>
run --program p|error: the following required arguments were not provided:|Usage: extractd run --program <FILE> --data <DIR> <CODE>
run --program p --data|error: a value is required for '--data <DIR>' but none was supplied|--help
run --program p --program q --data d 01001|error: the argument '--program <FILE>' cannot be used multiple times|Usage: extractd run
run --program p --data d 01001 01001|error: unexpected argument '01001' found|Usage: extractd run
run --help=1|error: unexpected value '1' for '--help' found; no more were expected|Usage: extractd run
run --program p --data d 1001|error: CODE is five digits, and "1001" isn't|
dis --program $'\377'|error: an argument isn't UTF-8|
--version|VERSION|
"""
MISSING_FILES = """
extractd run --program missing.bpf --data "$county" 01001|3|0|error: missing.bpf: not found
extractd run --program "$all" --data "$county" 99999|3|0|error: $county/TGR99999.RT1: not found
extractd verify --program missing.bpf|3|0|error: missing.bpf: not found
extractd dis --program missing.bpf|3|0|error: missing.bpf: not found
extractd asm --source missing.s|3|0|error: missing.s: not found
extractd asm --source ""|3|0|error: : not found
"""
# A control character in an echo is escaped.
ECHOES = r"""
extractd verify --program $'a\nb\e.bpf'|3|0|error: a\nb\u{1b}.bpf: not found
cp latin.s $'latin\t.s'; extractd asm --source $'latin\t.s'|3|0|error: latin\t.s: not UTF-8
extractd run --program x --data x $'010\n1'|2|0|error: CODE is five digits, and "010\n1" isn't
extractd verify --program x $'a\nb'|2|0|error: unexpected argument 'a\nb' found*Usage: extractd verify *
"""
WRONG_FILES = """
extractd run --program folder --data "$county" 01001|3|0|error: folder: is a directory
extractd verify --program folder|3|0|error: folder: is a directory
extractd dis --program folder|3|0|error: folder: is a directory
extractd asm --source folder|3|0|error: folder: is a directory
extractd run --program "$all" --data folders 01001|3|0|refused 5 rt1 line 1 Read
extractd dis --program nothing/all.bpf|3|0|error: nothing/all.bpf: not a directory
extractd asm --source latin.s|3|0|error: latin.s: not UTF-8
"""
SHOWN = """
error: FILE: not found
error: FILE: is a directory
error: FILE: not a directory
error: FILE: not UTF-8
error: FILE: permission denied
"""


def argument_rows() -> list[list[str]]:
    return [row.replace("VERSION", VERSION).split("|") for row in ARGUMENTS.strip().splitlines()]


def test_rows_are_the_lines(extractd: str) -> None:
    """Each row is a line of the file, following a score of 0 and a tab."""
    lines = (TOP / "examples/TGR01001.RT1").read_bytes().replace(b"\r", b"").splitlines(keepends=True)
    wanted = b"".join(b"0\t" + line for line in lines)
    rows = cases.check(Case('extractd run --program "$all" --data "$county" 01001', 0, "*", ""))
    assert hashlib.sha256(rows).hexdigest() == hashlib.sha256(wanted).hexdigest()
    assert len(lines) == 400


@cases.rows(
    ROWS
    + EMPTY_PROGRAMS.lstrip()
    + LONG_TEXTS.lstrip()
    + MISSING_FILES.lstrip()
    + ECHOES.lstrip()
    + WRONG_FILES.lstrip()
)
def test_file(files: Path, case: Case) -> None:
    cases.check(case)


@pytest.mark.parametrize(
    "arguments, front, usage", argument_rows(), ids=[row[0] or "no arguments" for row in argument_rows()]
)
def test_argument(files: Path, arguments: str, front: str, usage: str) -> None:
    cases.check(Case(f"extractd {arguments}", 2, "0", f"{front}*{usage}*"))


def test_help(extractd: str) -> None:
    cases.check(Case("extractd --help", 2, "0", f"*Usage: extractd <COMMAND>*Examples:*{STATUSES}\n{VERSION}"))


@pytest.mark.parametrize("command", COMMANDS)
def test_help_of(extractd: str, command: str) -> None:
    text = f"*Usage: extractd {command} *Example*:*extractd {command} *{STATUSES}\n{VERSION}"
    cases.check(Case(f"extractd {command} --help", 2, "0", text))


def test_forbidden_file(files: Path, unprivileged: str) -> None:
    closed = "mkdir closed; cp $all closed; chmod 000 closed/all.bpf"
    text = "error: closed/all.bpf: permission denied"
    cases.check(Case(f"{closed}; {unprivileged} dis --program closed/all.bpf", 3, "0", text))


@pytest.mark.parametrize("text", [*SHOWN.strip().splitlines(), *(row[1] for row in argument_rows())])
def test_shown(text: str) -> None:
    cases.check_shown(text)
