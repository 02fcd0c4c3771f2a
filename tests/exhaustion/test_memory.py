"""How a built program ends when memory runs out.

Each command runs in address spaces (`ulimit -v`) from far too small to ample, in which it isn't started, or exits with 4 and `refused memory`, or succeeds;
also with files of a gibibyte and endless sources. A system that runs out of memory and kills processes isn't tested.
"""

import re
import shutil
from functools import cache
from pathlib import Path

import pytest
from exhaustion.inputs import rows_of
from exhaustion.observed import ROW, Case, cases, content, observe, table
from exhaustion.spaces import limits, narrowed, start

# A name, the file that the output equals, what the output may be if the command is refused, and the command.
COMMANDS = """
verify        | accepted        | nothing | extractd verify --program all.bpf
asm           | all.words       | nothing | extractd asm --source all.text
dis           | all.text        | nothing | extractd dis --program all.bpf
explain       | all.listing     | nothing | extractd explain --program all.bpf
compile       | long_filter.bpf | nothing | extractd compile --filter long_filter.cql
select        | small.rows      | rows    | extractd select --where TRUE --data small 01001
run           | small.rows      | rows    | extractd run --program all.bpf --data small 01001
trace         | traced          | nothing | extractd trace --program all.bpf --data small --line 400 --limit 2 01001
geocode       | small.hits      | nothing | extractd geocode --data small --number 1785 --name persimmon 01001
batch         | batch.places    | lines   | extractd geocode-batch --addresses batch.csv --data small 01001
large_run     | large.rows      | rows    | extractd run --program asking.bpf --data large 01001
large_trace   | traced          | nothing | extractd trace --program all.bpf --data large --line 20000 --limit 2 01001
large_geocode | large.hits      | nothing | extractd geocode --data large --number 1785 --name persimmon 01001
late_run      | late.rows       | rows    | extractd run --program asking.bpf --data late 01001
"""
# Programs that are too long or no words, in the space that a small one needs and 768 KiB, which is less than two copies of the longest program.
LONG_PROGRAMS = "word_more many gibibyte byte_more uneven".split()
READERS = {"run": "--data small 01001", "verify": "", "dis": "", "trace": "--data small --line 1 --limit 65536 01001"}
# The longest program, and sources. One of up to 16 MiB is read into memory. `{asm+128}` is the space that `asm` needs and 128 KiB.
LONGEST = """
0 | | small.rows | extractd run --program longest.bpf --data small 01001
0 | | accepted | extractd verify --program longest.bpf
0 | | traced | extractd trace --program longest.bpf --data small --line 1 --limit 65536 01001
0 | | longest.s | extractd dis --program longest.bpf
4 | refused memory | | limited v {asm+128} extractd asm --source gibibyte.bpf
4 | refused memory | | limited v {asm+128} extractd asm --source <(yes 'mov r0, 1')
1 | refused 130 TextTooLong | | limited v {asm+65536} extractd asm --source <(yes 'mov r0, 1')
1 | refused 130 TextTooLong | | extractd asm --source gibibyte.bpf
1 | refused 20 line 1 Syntax | | extractd asm --source <(head -c 16M /dev/zero)
1 | refused 26 line 65537 CodeFault(12) | | extractd asm --source <(yes 'mov r0, 1' | head -c 16M)
"""


class Command:
    """A command that runs in limited spaces, and the most that it wrote before it was refused."""

    def __init__(self, file: str, partial: str, command: str) -> None:
        self.file, self.partial, self.command = file, partial, command
        self.written = 0

    def is_front(self, output: bytes) -> bool:
        """Returns whether a refused command may have written this."""
        parts = {"nothing": not output, "rows": len(output) % ROW == 0, "lines": output[-1:] in (b"", b"\n")}
        return parts[self.partial] and content(self.file).startswith(output)

    def suffices(self, limit: int) -> bool:
        """Returns whether it succeeds in so many KiB. Fails unless it is refused otherwise."""
        ended = observe(f"limited v {limit} {self.command}")
        if ended == (0, "", content(self.file)):
            return True
        is_refused = ended.status == 4 and re.fullmatch("refused memory\n(county 01001\n)?", ended.text)
        if not is_refused or not self.is_front(ended.output):
            pytest.fail(f"{self.command} in {limit} KiB should be refused or right, and gives {ended}")
        self.written = max(self.written, len(ended.output))
        return False

    @cache
    def least(self) -> int:
        """Returns the smallest space in which it succeeds."""
        return narrowed(self.suffices, 4)


SWEPT = {name: Command(*more) for name, *more in table(COMMANDS, 4)}


def test_start() -> None:
    """The loader ends the program in a little less space than it needs before its `main`."""
    ended = observe(f"limited v {start() - 64} extractd --version")
    assert ended.status == 127 and "error while loading shared libraries" in ended.text, ended


@pytest.mark.parametrize("name", SWEPT)
def test_unstarted(name: str) -> None:
    """It can't be executed, the loader finds no room for a library, or the system kills it before it is loaded."""
    for limit in (start() // 8, start() // 4, start() // 2, start() * 4 // 5, start() - 64):
        ended = observe(f"limited v {limit} {SWEPT[name].command}")
        assert ended.status in (126, 127, 137, 139) and not ended.output, f"in {limit} KiB it gives {ended}"


@pytest.mark.parametrize("name", SWEPT)
def test_space(name: str) -> None:
    """Below the smallest sufficient space the command is refused, or isn't started."""
    assert SWEPT[name].least() > start()


@pytest.mark.parametrize("name", SWEPT)
def test_growing_space(name: str) -> None:
    """The command is refused up to some space, and is right in each larger one."""
    found = [SWEPT[name].suffices(limit) for limit in limits()]
    assert found == sorted(found) and len(set(found)) == 2, dict(zip(limits(), found))


def test_late_refusal() -> None:
    """Memory runs out only at the last segment, after 399 rows."""
    SWEPT["late_run"].least()
    assert SWEPT["late_run"].written == 399 * ROW


def test_first_hit() -> None:
    """The large county begins with the small one, so both have the same first hit."""
    assert content("large.hits").startswith(content("small.hits"))


def test_long_county(folder: Path) -> None:
    """80,000 lines of type 1, 18 MB, need little more space than 400."""
    for kind in "456":
        shutil.copy(f"small/TGR01001.RT{kind}", folder)
    lines = 200 * content("small/TGR01001.RT1")
    (folder / "TGR01001.RT1").write_bytes(lines)
    limit = SWEPT["run"].least() + 256
    ended = observe(f"limited v {limit} extractd run --program all.bpf --data {folder} 01001")
    ended.check(0, "", rows_of(lines), f"run over 80,000 lines in {limit} KiB")


@pytest.mark.parametrize("file", LONG_PROGRAMS)
@pytest.mark.parametrize("command", READERS)
def test_long_program(command: str, file: str) -> None:
    text = "refused 11 NotWhole" if file in ("byte_more", "uneven") else "refused 12 TooLong"
    limit = SWEPT[command].least() + 768
    Case(1, text, "", f"limited v {limit} extractd {command} --program {file}.bpf {READERS[command]}").check()


@pytest.mark.parametrize("case", cases(LONGEST), ids=str)
def test_longest(case: Case) -> None:
    def space(match: re.Match[str]) -> str:
        return str(SWEPT[match[1]].least() + int(match[2]))

    case._replace(command=re.sub(r"{(\w+)\+(\d+)}", space, case.command)).check()
