"""The counties, programs, sources and expected outputs of the tests of exhausted resources: 60 MB, as the files of a gibibyte are sparse."""

import os
import shutil
import subprocess
from collections.abc import Mapping
from pathlib import Path

from harness.program import TOP
from make_county import JOINED_SEED, SEED, Dice, county, joined, write

COUNTIES = ("small", "one", "large", "late")
TYPE_1 = "TGR01001.RT1"
HIT = b"107000151\tL\t-86475706\t32577369\n"
LISTING = b"""\
0: mov r0, 1                            ; r1 = record + 0, r10 = frame + 512
1: exit                                 ; r0 = 1
accepted
"""
ONE = b"mov r0, 1\n"
FILES = {
    "accepted": b"accepted\n",
    "traced": b"exit 1 score 0\n",
    "small.hits": HIT,
    "twice.hits": 2 * HIT,
    "batch.csv": b"number,name\n" + 2000 * b"1785,persimmon\n",
    # Selects every line with a score of 0.
    "all.words": bytes.fromhex("b700000001000000 9500000000000000"),
    "all.text": ONE + b"exit\n",
    "all.listing": LISTING,
    "nothing": b"",
    "half_word.bpf": bytes.fromhex("b7000000"),
    "no_exit.bpf": bytes.fromhex("b700000001000000"),
    # Also selects every segment. It calls `names`, so types 4, 5 and 6 are loaded.
    "asking.s": b"call 3\n" + ONE + b"exit\n",
    "bad.s": ONE + b"ldxb r0, [r0+0]\nexit\n",
    # 2,000 comparisons.
    "long_filter.cql": 1999 * b"ZIPL = 36067 AND FALSE OR\n" + b"TRUE\n",
    # 32,768 bytes. Several jobs with this program fit into a mebibyte.
    "long.s": 4095 * ONE + b"exit\n",
    # 524,288 bytes, the greatest length.
    "longest.s": 65535 * ONE + b"exit\n",
}
# What the program makes of these, without limits.
OUTPUTS = """
asking.bpf      asm --source asking.s
bad.bpf         asm --source bad.s
long_filter.bpf compile --filter long_filter.cql
long.bpf        asm --source long.s
longest.bpf     asm --source longest.s
house.bpf       asm --source house_number.s
house.rows      run --program house.bpf --data large 01001
large.hits      geocode --data large --number 1785 --name persimmon 01001
batch.places    geocode-batch --addresses batch.csv --data small 01001
"""


def make(folder: Path) -> None:
    """Makes all of them in a folder."""
    shutil.copytree(TOP / "examples/programs", folder, dirs_exist_ok=True)
    shutil.copytree(TOP / "examples", folder / "small", ignore=lambda _, names: {n for n in names if n[:3] != "TGR"})
    shutil.copytree(TOP / "examples/one", folder / "one")
    shutil.copy(TOP / "examples/addresses.csv", folder)
    make_large_county(folder / "large")
    write_all(folder, FILES)
    write_all(folder, derived_counties(folder / "small"))
    write_all(folder, {f"{name}.rows": rows_of((folder / name / TYPE_1).read_bytes()) for name in COUNTIES})
    make_outputs(folder)
    make_long_programs(folder)


def write_all(folder: Path, files: Mapping[str, bytes]) -> None:
    for name, data in files.items():
        (folder / name).parent.mkdir(exist_ok=True)
        (folder / name).write_bytes(data)


def make_outputs(folder: Path) -> None:
    for line in OUTPUTS.strip().splitlines():
        name, *arguments = line.split()
        with (folder / name).open("wb") as output:
            subprocess.run(["extractd", *arguments], cwd=folder, stdout=output, check=True)


def derived_counties(small: Path) -> dict[str, bytes]:
    """Returns files of counties with parts of the small one."""
    lines = (small / TYPE_1).read_bytes()
    last = lines.splitlines()[-1][5:15].decode()
    names = (f"40006{last}{sequence:3}{5 * '       5'}\r\n" for sequence in range(1, 1000))
    return {
        # The last segment has 4,995 alternate names. Its row takes memory for each.
        "late/TGR01001.RT1": lines,
        "late/TGR01001.RT4": "".join(names).encode(),
        "late/TGR01001.RT5": (small / "TGR01001.RT5").read_bytes(),
        # Lines 100 and 1 are too short.
        "cut/TGR01001.RT1": b"".join(lines.splitlines(keepends=True)[:99]) + b"x\n",
        "cut/TGR01003.RT1": lines,
        "cut/TGR01005.RT1": b"x\n",
    }


def rows_of(lines: bytes) -> bytes:
    """Returns the rows of a program that selects every line with a score of 0."""
    return b"".join(b"0\t" + line + b"\n" for line in lines.splitlines())


def make_large_county(folder: Path) -> None:
    """Makes a county of 20,000 segments by drawing the example county 50 times, each time after the first with other numbers."""
    chains = []
    for part in range(50):
        for chain in county(Dice(SEED + part)):
            chains.append([segment | {"TLID": str(int(segment["TLID"]) + 10000 * part)} for segment in chain])
    segments = [segment for chain in chains for segment in chain]
    write(folder, (segments, *joined(Dice(JOINED_SEED), chains)))


def make_long_programs(folder: Path) -> None:
    """Makes programs of a byte and of a word more than the greatest length, of 16 MiB, and of a gibibyte and a byte more."""
    longest = (folder / "longest.bpf").read_bytes()
    long = {"byte_more.bpf": longest + b"\0", "word_more.bpf": longest + longest[-8:], "many.bpf": 32 * longest}
    write_all(folder, long | {"gibibyte.bpf": b"", "uneven.bpf": b""})
    os.truncate(folder / "gibibyte.bpf", 2**30)
    os.truncate(folder / "uneven.bpf", 2**30 + 1)
