"""Counts the instructions that each command takes, by valgrind. For one binary the counts are the same in each run, whatever else the machine does.

- Ten times the lines, words or addresses may take at most twelve times the instructions, less those for next to nothing.
- Each further one may take at most the instructions of its row. These limits are some 30 % above what the program took when they were written, so a
  new compiler may need new ones.
- A short way of the program, for input as it usually is, must take a part of the instructions of the long way, or fewer.

`tests/run PROGRAM tests/test_costs.py -rP` shows each row's counts.
"""

import re
import subprocess
from collections.abc import Iterable
from functools import cache
from pathlib import Path
from typing import NamedTuple

import pytest
from make_county import JOINED_SEED, SEED, Dice, county, joined, record, write

CODE = "01001"
# Sizes of inputs: next to nothing, something, and ten times as much.
SIZES = {"start": 0, "few": 1, "many": 10}
SEGMENTS, ADDRESSES, WORDS = 400, 200, 200
MOST_RATIO = 12

Chain = list[dict[str, str]]


class Growth(NamedTuple):
    """A command whose `{}` are a size, the number of units in `few`, and the most instructions of one more."""

    unit: str
    units: int
    most: int
    command: str


class Shortcut(NamedTuple):
    """A command over one kind of county may take at most this part of its instructions over another."""

    most: float
    command: str
    usual: str
    unusual: str


GROWTHS = (
    # Lines of type 1 alone, which nothing selects: most of it is to read and to check them. The limit is 12 % above, as a copy of a line that takes the
    # long way adds a quarter.
    Growth("line", SEGMENTS, 760, f"run --program nothing.bpf --data bare.{{}} {CODE}"),
    Growth("line", SEGMENTS, 4_000, f"run --program all.bpf --data drawn.{{}} {CODE}"),
    Growth("line", SEGMENTS, 2_900, f"select --where CFCC='A41' --data drawn.{{}} {CODE}"),
    Growth("line", SEGMENTS, 4_000, f"trace --program nothing.bpf --data drawn.{{}} --line {{line}} --limit 9 {CODE}"),
    Growth("line", SEGMENTS, 4_400, f"geocode --number 751 --name main --data drawn.{{}} {CODE}"),
    Growth("line", SEGMENTS, 3_500, f"geocode-batch --addresses roads.few.csv --data roads.{{}} {CODE}"),
    # All segments are on one street, and nearly none of them has the number.
    Growth("line", SEGMENTS, 9_800, f"geocode-batch --addresses main.few.csv --data main.{{}} {CODE}"),
    # Each street has a name of its own.
    Growth("address", ADDRESSES, 107_000, f"geocode-batch --addresses roads.{{}}.csv --data roads.many {CODE}"),
    Growth("address", ADDRESSES, 107_000, f"geocode-batch --addresses unknown.{{}}.csv --data roads.many {CODE}"),
    Growth("word", WORDS, 3_600, "verify --program {}.bpf"),
    Growth("word", WORDS, 70_000, "explain --program {}.bpf"),
    Growth("word", WORDS, 5_200, "asm --source {}.s"),
    Growth("word", WORDS, 1_750, "dis --program {}.bpf"),
    Growth("comparison", WORDS, 9_900, "compile --filter {}.cql"),
)

SHORTCUTS = (
    # A number that blanks lead is at the end of its field.
    Shortcut(0.9, f"run --program nothing.bpf --data {{}} {CODE}", "bare", "left"),
    # Nothing is joined to any segment.
    Shortcut(0.8, f"run --program names.bpf --data {{}} {CODE}", "bare", "joined"),
)


# ---- Inputs


def drawn(parts: int) -> list[Chain]:
    """Draws the chains of so many times 400 segments, or a chain of one segment."""
    if not parts:
        return [county(Dice(SEED))[0][:1]]
    chains: list[Chain] = []
    for part in range(parts):
        for chain in county(Dice(SEED + part)):
            for segment in chain:
                segment["TLID"] = str(int(segment["TLID"]) + 10_000 * part)
            chains.append(chain)
    return chains


def put_on_own_roads(chains: list[Chain]) -> None:
    """Gives each chain a name of its own."""
    for number, chain in enumerate(chains):
        for segment in chain:
            segment["FENAME"] = f"Road {number}"


def put_on_main(chains: list[Chain]) -> None:
    """Puts all segments on one street, each with the next hundred of its numbers."""
    for number, segment in enumerate(segment for chain in chains for segment in chain):
        low, high = str(number * 100 + 1), str(number * 100 + 99)
        segment.update(FENAME="Main", FETYPE="St", FEDIRP="", FEDIRS="", FRADDL=low, TOADDL=high, FRADDR="", TOADDR="")


def write_lines(folder: Path, types: dict[str, list[bytes]]) -> None:
    folder.mkdir()
    for number, lines in types.items():
        (folder / f"TGR{CODE}.RT{number}").write_bytes(b"".join(line + b"\r\n" for line in lines))


def to_the_left(line: bytes) -> bytes:
    """Returns a line whose TLID is at the start of its field."""
    return line[:5] + line[5:15].strip().ljust(10) + line[15:]


def write_county(folder: Path, chains: list[Chain]) -> None:
    """Writes chains, with drawn names and ranges. A file that has no line isn't written."""
    segments = [segment for chain in chains for segment in chain]
    write(folder, [lines for lines in (segments, *joined(Dice(JOINED_SEED), chains)) if lines])


def write_counties(folder: Path, size: str, parts: int) -> None:
    chains = drawn(parts)
    write_county(folder / f"drawn.{size}", chains)
    lines = [record(segment) for chain in chains for segment in chain]
    # A name and its line for a TLID that no segment has.
    name = {"RT": "5", "VERSION": "0006", "FILE": CODE, "FEAT": "5", "FENAME": "Other"}
    other = {"RT": "4", "VERSION": "0006", "TLID": "5", "RTSQ": "1", "FEAT1": "5"}
    write_lines(folder / f"bare.{size}", {"1": lines})
    write_lines(folder / f"left.{size}", {"1": [to_the_left(line) for line in lines]})
    write_lines(folder / f"joined.{size}", {"1": lines, "4": [record(other)], "5": [record(name)]})
    roads, main = drawn(parts), drawn(parts)
    put_on_own_roads(roads)
    put_on_main(main)
    for kind, chains in (("roads", roads), ("main", main)):
        write_lines(folder / f"{kind}.{size}", {"1": [record(segment) for chain in chains for segment in chain]})


def write_addresses(folder: Path, size: str, count: int) -> None:
    def put(kind: str, rows: Iterable[str]) -> None:
        (folder / f"{kind}.{size}.csv").write_text("".join(f"{row}\n" for row in ("number,name", *rows)))

    put("roads", (f"1,Road {number % 100}" for number in range(count)))
    put("unknown", (f"1,Lane {number}" for number in range(count)))
    put("main", (f"{number * 100 + 1},Main" for number in range(count)))


def write_program(folder: Path, name: str, lines: Iterable[str]) -> None:
    (folder / f"{name}.s").write_text("".join(f"{line}\n" for line in lines))
    command = ["extractd", "asm", "--source", f"{name}.s"]
    (folder / f"{name}.bpf").write_bytes(subprocess.run(command, cwd=folder, check=True, stdout=subprocess.PIPE).stdout)


def write_texts(folder: Path, size: str, words: int) -> None:
    """Writes a program of so many words, half of them jumps, and two more; and a filter of so many comparisons."""
    body = ["ldxb r2, [r1+55]", *["jne r2, 65, +1", "mov r0, 1"] * (words // 2)]
    write_program(folder, size, [*body, "mov r0, 1", "exit"])
    (folder / f"{size}.cql").write_text("ZIPL = 36067 AND FALSE OR\n" * words + "TRUE\n")


@pytest.fixture(scope="module")
def inputs(extractd: str, tmp_path_factory: pytest.TempPathFactory) -> Path:
    """Returns a folder with the input of each command."""
    folder = tmp_path_factory.mktemp("inputs")
    for size, parts in SIZES.items():
        write_counties(folder, size, parts)
        write_addresses(folder, size, parts * ADDRESSES)
        write_texts(folder, size, parts * WORDS)
    for name, lines in (("nothing", ["mov r0, 0"]), ("all", ["mov r0, 1"]), ("names", ["call 3", "mov r0, 0"])):
        write_program(folder, name, [*lines, "exit"])
    return folder


# ---- Counts


@cache
def count(folder: Path, command: str) -> int:
    """Returns the instructions that a command takes, without the system's."""
    valgrind = ["valgrind", "--tool=callgrind", "--callgrind-out-file=/dev/null", "--log-file=counts"]
    done = subprocess.run(
        [*valgrind, "extractd", *command.split(" ")], cwd=folder, stdout=subprocess.DEVNULL, stderr=subprocess.PIPE
    )
    counts = re.search(r"Collected : (\d+)", (folder / "counts").read_text())
    assert (
        done.returncode == 0 and counts
    ), f"{command}: status {done.returncode}: {done.stderr.decode(errors='replace')}"
    return int(counts[1])


def counts_of(folder: Path, command: str, sizes: Iterable[str], kind: str = "") -> list[int]:
    """Returns the counts of a command for each of these sizes."""
    lines = {size: max(1, parts * SEGMENTS) for size, parts in SIZES.items()}
    return [count(folder, command.format(kind + size, line=lines[size])) for size in sizes]


@pytest.mark.needs("valgrind")
@pytest.mark.parametrize("row", GROWTHS, ids=[row.command for row in GROWTHS])
def test_growth(row: Growth, inputs: Path) -> None:
    start, few, many = counts_of(inputs, row.command, SIZES)
    assert start < few < many
    ratio, further = (many - start) / (few - start), (many - few) / (9 * row.units)
    print(f"{ratio:5.2f} {further:9.1f} {row.most:9} per {row.unit}: {row.command}")
    assert ratio <= MOST_RATIO, f"ten times the {row.unit}s take {ratio:.1f} times the instructions"
    assert further <= row.most, f"each further {row.unit} takes {further:.0f} instructions"


@pytest.mark.needs("valgrind")
@pytest.mark.parametrize("row", SHORTCUTS, ids=[row.command.format(row.usual) for row in SHORTCUTS])
def test_shortcut(row: Shortcut, inputs: Path) -> None:
    usual_few, usual_many = counts_of(inputs, row.command, ("few", "many"), f"{row.usual}.")
    few, many = counts_of(inputs, row.command, ("few", "many"), f"{row.unusual}.")
    assert usual_few < usual_many and few < many
    part = (usual_many - usual_few) / (many - few)
    print(f"{part:5.2f} {row.most:19} of {row.unusual}: {row.command.format(row.usual)}")
    assert part <= row.most, f"takes {part:.2f} of the instructions for {row.unusual}"
