"""Batches of addresses: invalid files, invalid arguments of `geocode-batch`, and its progress."""

import re
import time
from pathlib import Path

import pytest
from harness import cases, terminal
from harness.cases import Case

FILES = {
    "no_name": b"id,number\n1,751\n",
    "latin": b"number,name\n751,Pe\xf1a\n",
    "open": b'number,name\n751,Main\n751,"Main\n751,Oak\n',
    "long": b"number,name,note\n751,Main," + b"x" * 1048576 + b"\n",
    "returns": b"number,name\r751,Main\r",
    "odd": b"number,name\n751,Ma\0in\n123456789012,Main\n751,abcdefghijklmnopqrstuvwxyzabcde\n",
    "marked": b"\xef\xbb\xbfName ,NUMBER\r\nmain,751\r\n\r\n",
    "lines": b'number,name\n751,"Main\nStreet"\n751,Main\n',
    "many": b"number,name\n" + b"751,Main\n" * 30000,
}
BATCHES = """
--addresses $county/addresses.csv --data $county 01001|0|641|
--addresses $county/addresses.csv --data empty 01001|0|426|
--addresses - --data $county 01001|1|0|refused 100 NoHeader*the file has no header
--addresses batch/no_name.csv --data $county 01001|1|0|refused 101 line 1 NoColumn*the header has no column `name`
--addresses batch/latin.csv --data $county 01001|1|0|refused 102 line 2 NotUtf8*a field isn't UTF-8
--addresses batch/open.csv --data $county 01001|1|0|refused 103 line 3 OpenQuote*a quotation mark isn't closed before the end of the file
--addresses batch/long.csv --data $county 01001|1|0|refused 104 line 2 LineTooLong*the record has more than 65,536 bytes
--addresses batch/returns.csv --data $county 01001|1|0|refused 105 line 1 NotOneRecord*a carriage return or an unquoted line break ends the record early
--addresses batch/missing.csv --data $county 01001|3|0|error: batch/missing.csv: not found
--addresses folder --data $county 01001|3|0|error: folder: is a directory
--addresses batch/open.csv --data faulty 01003|1|0|refused 1 rt1 line 1 WrongLength
--addresses batch/open.csv --data faulty 01005|3|0|error: faulty/TGR01005.RT1: not found
--addresses $county/addresses.csv --data $top/examples/town --shape 01007|0|*|
--addresses batch/open.csv --data $county --shape 01001|3|0|error: $county/TGR01001.RT2: not found
--addresses batch/open.csv --data faulty --shape 01003|3|0|error: faulty/TGR01003.RT2: not found
--addresses batch/open.csv --data $county|2|0|error: the following required arguments were not provided:*<CODE>...*Usage: extractd geocode-batch *
--addresses batch/many.csv --data $county 01001|0|*|
"""
# The lines that follow the header.
ODD = """\
2,no_match,no_such_street,,,,,,,,,,,,
3,no_match,not_a_number,,,,,,,,,,,,
4,no_match,name_too_long,,,,,,,,,,,,
"""
MARKED = """\
2,tie,,-86.852619,32.484638,107001116,L,,Main,Blvd,S,36003,01001,701,799
2,tie,,-86.685761,32.610428,107001350,L,,Main,St,,36067,01001,701,799
"""
LINES = """\
2,no_match,no_such_street,,,,,,,,,,,,
4,tie,,-86.852619,32.484638,107001116,L,,Main,Blvd,S,36003,01001,701,799
4,tie,,-86.685761,32.610428,107001350,L,,Main,St,,36067,01001,701,799
"""
# These show a terminal nothing.
QUIET = """
verify --program "$all"
dis --program "$all"
explain --program "$all"
run --program "$all" --data "$county" 01001
asm --source <(echo exit)
compile --filter <(echo TRUE)
trace --program "$all" --data "$county" --line 1 --limit 9 01001
geocode --data "$county" --number 751 --name main 01001
select --where TRUE --data "$county" 01001 01001 01001 01001
"""
PERIOD = 0.1
# Reads late, twice after three times the time in which a count is due. A pipe takes 64 KiB, so that who writes more waits.
LATE = "{ head -c 1; sleep 0.3; head -c 262144; sleep 0.3; cat; } > late"


@pytest.fixture(scope="module")
def batch(tmp_path_factory: pytest.TempPathFactory) -> Path:
    folder = tmp_path_factory.mktemp("batch")
    for name, data in FILES.items():
        (folder / f"{name}.csv").write_bytes(data)
    return folder


@pytest.fixture
def batches(files: Path, batch: Path) -> Path:
    (files / "batch").symlink_to(batch)
    return files


@cases.rows(BATCHES, "extractd geocode-batch ")
def test_batch(batches: Path, case: Case) -> None:
    cases.check(case)


@pytest.mark.parametrize(
    "name, lines", [("odd", ODD), ("marked", MARKED), ("lines", LINES)], ids=["odd", "marked", "lines"]
)
def test_lines(batches: Path, name: str, lines: str) -> None:
    command = f"extractd geocode-batch --addresses batch/{name}.csv --data $county 01001"
    assert cases.check(Case(command, 0, "*", "")).decode().partition("\n")[2] == lines


@pytest.fixture(scope="module")
def progress(batch: Path, extractd: str) -> tuple[bytes, bytes, float]:
    """Returns what a batch that takes a while shows on a terminal, what it writes, and how long it takes."""
    start = time.monotonic()
    command = f"set -o pipefail; cd {batch}; extractd geocode-batch --addresses many.csv --data $county 01001 | {LATE}"
    ran = terminal.run(2, command)
    assert (ran.status, ran.other) == (0, b"")
    return ran.received, (batch / "late").read_bytes(), time.monotonic() - start


def counts_in(shown: bytes) -> list[int]:
    return [int(count) for count in re.findall(rb"K([0-9]+) lines\r", shown)]


@pytest.mark.xdist_group("progress")
def test_progress(progress: tuple[bytes, bytes, float]) -> None:
    """The count of lines grows, and then is cleared."""
    shown, written, _ = progress
    assert re.fullmatch(rb"(\x1b\[K[0-9]+ lines\r)+\r\x1b\[K", shown)
    counts = counts_in(shown)
    assert len(counts) > 1 and counts == sorted(set(counts)) and counts[-1] <= 60001
    assert written.count(b"\n") == 60001


@pytest.mark.xdist_group("progress")
def test_progress_is_rare(progress: tuple[bytes, bytes, float]) -> None:
    """A count is shown ten times a second at most. The batch can't have taken longer than what was measured around it."""
    shown, _, seconds = progress
    assert len(counts_in(shown)) <= seconds / PERIOD + 1


def test_lines_on_a_terminal(files: Path) -> None:
    """With standard output as the terminal, there are the lines alone."""
    command = "extractd geocode-batch --addresses $county/addresses.csv --data $county 01001"
    lines = cases.check(Case(command, 0, "641", ""))
    assert terminal.run(1, command) == (0, lines, b"")


@pytest.mark.parametrize("command", QUIET.strip().splitlines())
def test_no_progress(files: Path, command: str) -> None:
    """Only a batch shows its progress, however long the others take."""
    assert terminal.run(2, f"set -o pipefail; extractd {command} | {LATE}") == (0, b"", b"")
    assert Path("late").stat().st_size > 0
