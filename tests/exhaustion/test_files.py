"""How a built program ends when its files, pipes or descriptors fail.

Not tested here are a program that can't be opened because no descriptor is free, as the loader needs one more before `main` and closes it again; and a
read or a write that fails half-way without a limit, which crates/command_tests has.
"""

import os
import shutil
import subprocess
from collections.abc import Callable, Iterator
from pathlib import Path

import pytest
from exhaustion.observed import ROW, SECONDS, Case, Ended, cases, content, observe, table
from harness.program import TOP

CANT = "error: the output can't be written:"
FULL = f"{CANT} no space left"
BROKEN = f"{CANT} broken pipe"
RUN = "extractd run --program all.bpf --data"
SERVE = "extractd serve --data small --any-port 01001"
TYPE_1 = "TGR01001.RT1"

# Outputs without space, or whose reader has exited. Of the last, the first file that the program opens gets the descriptor, and is opened for reading.
WAYS = {
    "full device": ("{} > /dev/full", FULL),
    "no file size": ("limited f 0 {}", f"{CANT} File too large (os error 27)"),
    "no reader": ("exec 9> >(exec true); wait $!; {} >&9 9>&-", BROKEN),
    "closed": ("{} >&-", f"{CANT} Bad file descriptor (os error 9)"),
}
# An output that is smaller than the buffer of 64 KiB is written at the end, and those of `asm` and `compile` are.
COMMANDS = f"""
3 | refused 60 Write | | {RUN} small 01001
3 | refused 60 Write | | extractd geocode-batch --addresses batch.csv --data small 01001
3 | | | {RUN} one 01001
3 | | | extractd verify --program all.bpf
3 | | | extractd dis --program all.bpf
3 | | | extractd explain --program all.bpf
3 | | | extractd asm --source all.text
3 | | | extractd trace --program all.bpf --data small --line 1 --limit 1 01001
3 | | | extractd geocode --data small --number 751 --name main 01001
3 | | | extractd compile --filter long_filter.cql
3 | | | extractd geocode-batch --addresses addresses.csv --data small 01001
3 | | | extractd select --where TRUE --data one 01001
"""
CASES = rf"""
# What a refused request has written before is lost too, so the refusal is reported first, and then the output.
1 | refused 1 rt1 line 100 WrongLength | small.rows {99 * ROW} | {RUN} cut 01001
3 | refused 1 rt1 line 100 WrongLength\n{FULL} | | {RUN} cut 01001 > /dev/full
3 | refused 1 rt1 line 1 WrongLength\ncounty 01005\n{FULL} | | extractd select --where "CFCC = 'A41'" --data cut 01003 01005 > /dev/full
1 | refused 10 Empty | | extractd dis --program nothing > /dev/full
1 | | | extractd dis --program nothing 2> /dev/full
2 | | | extractd dis 2> /dev/full
3 | | | {RUN} small 01001 > /dev/full 2> /dev/full
# A file takes output up to the exact byte. Where it is too large, the bytes that don't fit are fewer than the buffer holds.
3 | refused 60 Write | large.rows 1024 | limited f 1 {RUN} large 01001
3 | refused 60 Write | large.rows 64512 | limited f 63 {RUN} large 01001
3 | refused 60 Write | large.rows 65536 | limited f 64 {RUN} large 01001
3 | refused 60 Write | large.rows 66560 | limited f 65 {RUN} large 01001
3 | refused 60 Write | large.rows 1024000 | limited f 1000 {RUN} large 01001
3 | refused 60 Write | large.rows 4505600 | limited f 4400 {RUN} large 01001
3 | {CANT} File too large (os error 27) | large.rows 4619264 | limited f 4511 {RUN} large 01001
0 | | large.rows | limited f 4512 {RUN} large 01001
3 | refused 60 Write | longest.s 1024 | limited f 1 extractd dis --program longest.bpf
3 | refused 60 Write | longest.bpf 1024 | limited f 1 extractd asm --source longest.s
3 | {CANT} File too large (os error 27) | longest.bpf 523264 | limited f 511 extractd asm --source longest.s
0 | | longest.bpf | limited f 512 extractd asm --source longest.s
# A program from a pipe.
1 | refused 11 NotWhole | | extractd run --program <(cat half_word.bpf) --data small 01001
1 | refused 33 place 0 LastNotExit | | extractd run --program <(cat no_exit.bpf) --data small 01001
0 | | small.rows | extractd run --program <(cat all.bpf) --data small 01001
# Unusable standard output and standard error of a server.
3 | {FULL} | | {SERVE} > /dev/full
3 | | | {SERVE} > /dev/full 2> /dev/full
3 | {BROKEN} | | exec 9> >(exec true); wait $!; {SERVE} >&9 9>&-
# A county's files are closed before those of the next county are opened.
0 | | twice.hits | limited n 7 extractd geocode --data small --number 1785 --name persimmon 01001 01001
"""
# The type of a county's file, how many bytes of it a FIFO delivers, and the status, the rows and the text of `run`. A CR without LF is a byte of its line.
FIFOS = """
1|0|0|0|
1|1|1|0|refused 1 rt1 line 1 WrongLength
1|227|1|0|refused 1 rt1 line 1 WrongLength
1|228|0|1|
1|229|1|0|refused 1 rt1 line 1 WrongLength
1|230|0|1|
1|231|1|1|refused 1 rt1 line 2 WrongLength
1|65536|1|284|refused 1 rt1 line 285 WrongLength
1|91770|0|399|
1|91998|0|400|
1|91999|1|399|refused 1 rt1 line 400 WrongLength
1|92000|0|400|
4|0|0|400|
4|59|1|0|refused 1 rt4 line 1 WrongLength
4|100|1|0|refused 1 rt4 line 2 WrongLength
4|8338|0|400|
5|58|0|400|
5|100|1|0|refused 1 rt5 line 2 WrongLength
6|78|0|400|
6|100|1|0|refused 1 rt6 line 2 WrongLength
"""
READERS = ("extractd trace --program all.bpf --line 1 --limit 1", "extractd geocode --number 1785 --name persimmon")
# What a command does with three descriptors, four and so on: its output, or the file that it can't open. The loader needs the fourth before `main`.
DESCRIPTORS = f"""
unstarted accepted | extractd verify --program all.bpf
unstarted all.words | extractd asm --source all.text
unstarted all.text | extractd dis --program all.bpf
unstarted RT1 RT4 RT5 RT6 small.rows | {RUN} small 01001
unstarted RT1 RT4 RT5 RT6 traced | extractd trace --program all.bpf --data small --line 400 --limit 2 01001
unstarted RT4 RT5 RT6 small.hits | extractd geocode --data small --number 1785 --name persimmon 01001
unstarted RT4 RT5 RT6 | {SERVE}
"""


@pytest.mark.parametrize("text", (FULL, BROKEN, "error: no connection can be taken: REASON"))
def test_shown(text: str) -> None:
    assert f"`{text}`" in (TOP / "docs/refusals.md").read_text()


@pytest.mark.parametrize("way", WAYS)
@pytest.mark.parametrize("case", cases(COMMANDS), ids=str)
def test_output(case: Case, way: str) -> None:
    command, text = WAYS[way]
    case._replace(command=command.format(case.command), text=case.text or text).check()
    assert Path("all.bpf").read_bytes() == content("all.words")


@pytest.mark.parametrize("case", cases(CASES), ids=str)
def test_case(case: Case) -> None:
    case.check()


def test_refused_listing() -> None:
    refused = observe("extractd explain --program bad.bpf").text
    assert refused
    Case(3, refused + FULL, "", "extractd explain --program bad.bpf > /dev/full").check()


@pytest.mark.parametrize("size", (0, 1, 230, 231, 65536, 65537, 1000000, 4000000))
def test_reader(size: int) -> None:
    """A reader takes the beginning of the rows and exits."""
    command = f"{RUN} large 01001 | head -c {size}; exit ${{PIPESTATUS[0]}}"
    Case(3, "refused 60 Write", f"large.rows {size}", command).check()


@pytest.mark.parametrize("kind, size, status, rows, text", table(FIFOS, 5))
def test_fifo(kind: str, size: str, status: str, rows: str, text: str, folder: Path) -> None:
    """What `run` refuses must also be refused by `trace` and `geocode`, without output."""
    shutil.copytree("small", folder, dirs_exist_ok=True)
    fifo = folder / f"TGR01001.RT{kind}"
    fifo.unlink()
    os.mkfifo(fifo)
    writer = f"head -c {size} small/{fifo.name} > {fifo} &"
    Case(int(status), text, f"small.rows {int(rows) * ROW}", f"{writer} {RUN} {folder} 01001").check()
    for reader in READERS if int(status) else ():
        Case(int(status), text, "", f"{writer} {reader} --data {folder} 01001").check()


def while_held(file: Path, change: Callable[[], object]) -> Ended:
    """Returns how `run` ends over a file of type 1 that changes while the first rows wait in a full pipe.

    Less than 200 KB of the file are read before: 64 KiB each are in the pipe, in the output's buffer and in the input's.
    """
    command = [*RUN.split(), str(file.parent), "01001"]
    pipe = subprocess.PIPE
    with subprocess.Popen(command, stdin=subprocess.DEVNULL, stdout=pipe, stderr=pipe, bufsize=0) as process:
        assert process.stdout is not None
        try:
            first = process.stdout.read(1)
            change()
            rest, said = process.communicate(timeout=SECONDS)
        finally:
            process.kill()
    return Ended(process.returncode, said.decode(), first + rest)


@pytest.fixture
def held(folder: Path) -> Path:
    """Returns a copy of the large county's file of type 1."""
    return Path(shutil.copy(f"large/{TYPE_1}", folder))


@pytest.mark.parametrize("size, status, text", ((1000000, 1, "refused 1 rt1 line 4348 WrongLength"), (999810, 0, "")))
def test_shrinking_file(held: Path, size: int, status: int, text: str) -> None:
    ended = while_held(held, lambda: os.truncate(held, size))
    ended.check(status, text, content("large.rows")[: 4347 * ROW], f"run while its file shrinks to {size} bytes")


def test_growing_file(held: Path) -> None:
    def grow() -> None:
        with held.open("ab") as file:
            file.write(content(f"large/{TYPE_1}")[1000000:])

    os.truncate(held, 1000000)
    while_held(held, grow).check(0, "", content("large.rows"), "run while its file grows")


def test_file_shorter_than_read(held: Path) -> None:
    """The line where reading ends varies, but each row comes from a complete line before it."""
    ended = while_held(held, lambda: os.truncate(held, 1000))
    rows = len(ended.output) // ROW
    assert rows > 0
    text = f"refused 1 rt1 line {rows + 1} WrongLength"
    ended.check(1, text, content("large.rows")[: rows * ROW], "run while its file shrinks to what is already read")


def described() -> Iterator[tuple[int, str, str]]:
    """Yields a number of descriptors, the result, and the command."""
    for results, command in table(DESCRIPTORS, 2):
        yield from ((number, result, command) for number, result in enumerate(results.split(), 3))


@pytest.mark.parametrize("number, result, command", described())
def test_descriptors(number: int, result: str, command: str) -> None:
    case = Case(0, "", result, f"limited n {number} {command}")
    if result == "unstarted":
        ended = observe(case.command)
        assert (ended.status, ended.output) == (127, b""), ended
    elif result.startswith("RT"):
        text = f"error: small/TGR01001.{result}: Too many open files (os error 24)"
        case._replace(status=3, text=text, output="").check()
    else:
        case.check()
