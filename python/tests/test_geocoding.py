"""The command `tigerline geocode` and the function: columns, input, and output that appears only if complete."""

import csv
import io
import os
import random
import re
import select
import shutil
import signal
import subprocess
import sys
import time
from collections.abc import Iterator, Sequence
from pathlib import Path
from typing import IO

import pytest
import tigerline
from counties import CODE, EXAMPLES, TOP, copy_county, program_of, records, write_empty, zip_folder
from test_interrupts import environment, processes_with
from test_main import run_command as run
from tigerline.geocoding import geocoder

pytestmark = pytest.mark.usefixtures("extractd", "scratch")

EXACT = "1,751 Main Blvd S,Town,AL,36003"
ROW = ["1", "751 Main Blvd S, Town, AL, 36003", "Match", "Exact", "751 MAIN BLVD S, , AL, 36003"]
ROW += ["-86.852619,32.484638", "107001116", "L"]


@pytest.fixture
def out(tmp_path: Path) -> Iterator[Path]:
    """Makes a folder for output, in which no temporary file may be left."""
    folder = tmp_path / "out"
    folder.mkdir()
    yield folder
    assert not [path.name for path in folder.iterdir() if path.name.startswith(".")]


def geocode(
    source: object,
    *options: object,
    before: Sequence[str] = (),
    stdin: IO[bytes] | None = None,
    stdout: int = subprocess.PIPE,
) -> subprocess.CompletedProcess[str]:
    words = ("geocode", "--data", EXAMPLES, f"--counties={CODE}", source, *options)
    return run(*words, before=before, stdin=stdin, stdout=stdout)


def rows_of(text: str) -> list[list[str]]:
    return list(csv.reader(io.StringIO(text)))


class TestColumns:
    """The columns of the Census Bureau's batch geocoder: all quoted, eight of them, or three without a match."""

    LINES = (
        f"{EXACT}\n2,751 Main Blvd,Town,AL,36003\n3,751 Main,,,\n4,164-20 Main St,Town,AL,36067\n5,9999 Lantern St,,,\n"
        "6,1 Nowhere St,,,\n7,751 MAIN STREET,Town,AL,36067-1234\n"
    )

    def test_columns(self, tmp_path: Path) -> None:
        (tmp_path / "in.csv").write_text(self.LINES)
        done = geocode(tmp_path / "in.csv")
        assert (done.returncode, done.stderr) == (0, "")
        assert done.stdout.splitlines()[0] == ",".join(f'"{cell}"' for cell in ROW)
        assert done.stdout.splitlines()[2] == '"3","751 Main, , , ","Tie"'
        assert [row[2:4] for row in rows_of(done.stdout)] == [
            ["Match", "Exact"],
            ["Match", "Non_Exact"],
            ["Tie"],
            ["No_Match"],
            ["No_Match"],
            ["No_Match"],
            ["Match", "Exact"],
        ]

    def test_reasons(self, tmp_path: Path) -> None:
        (tmp_path / "in.csv").write_text(self.LINES)
        found = rows_of(geocode(tmp_path / "in.csv", "--reasons").stdout)
        assert {len(row) for row in found} == {10}
        assert [row[8] for row in found] == [
            "", "direction", "tie", "no_such_number_on_street", "no_such_number_on_street", "no_such_street", "",
        ]  # fmt: skip

    def test_head(self, tmp_path: Path) -> None:
        (tmp_path / "in.csv").write_text(f"Zip, STREET ,note,id\n36003,751 Main Blvd S,x,1\n")
        done = geocode(tmp_path / "in.csv", "--header", "--reasons")
        names = "id address match exact matched_address coordinates tlid side reason hint longitude latitude"
        assert rows_of(done.stdout)[0] == names.split()
        place = ["-86.852619", "32.484638"]
        assert rows_of(done.stdout)[1][2:] == [*ROW[2:], "", "", *place]
        (tmp_path / "in.csv").write_text("id,street,city,state,zip\n" + EXACT)
        assert geocode(tmp_path / "in.csv").stderr.endswith(
            "line 1 was taken for an address; is it a head line (--header)?\n"
        )


# Input, options, and the lines of output or the status and the end of the message.
INPUTS = [
    ("byte order mark", b"\xef\xbb\xbf" + EXACT.encode(), [], 1),
    ("CR LF", f"{EXACT}\r\n{EXACT}\r\n".encode(), [], 2),
    ("CR", f"{EXACT}\r{EXACT}\r".encode(), [], 2),
    ("no line", b"", [], 0),
    ("empty lines", f"\n\n{EXACT}\n \n,,,,\n\n{EXACT}\n\n".encode(), [], 2),
    ("empty cells at the end", f"{EXACT},,\n".encode(), [], 1),
    ("quoted line end", b'"1","751 Main\nBlvd S","To\r\nwn","AL","36003"\n', [], 1),
    ("quotation marks", b'"a ""b"", c",751 Main Blvd S,Town,AL,36003\n', [], 1),
    ("NUL", b"\0,751 Main Blvd S,T\0,AL,36003\n", [], 1),
    ("cp1252", "1,751 Main Blvd S,Caf\xe9,AL,36003".encode("cp1252"), ["--encoding", "cp1252"], 1),
    ("UTF-16", EXACT.encode("utf-16"), ["--encoding", "utf-16"], 1),
    ("lone surrogate", b"+2AA-,751 Main Blvd S,,,36003", ["--encoding", "utf-7"], 1),
    ("other encoding", f"{EXACT}\n{EXACT}\n".encode() + b"1,5 Caf\xe9 St,,,\n", [],
     (3, "line 3 isn't in utf-8: give the encoding, such as --encoding cp1252")),
    ("UTF-16 without saying so", EXACT.encode("utf-16"), [], 1),
    ("Unicode Text of Excel", EXACT.replace(",", "\t").encode("utf-16"), [], 1),
    ("unknown encoding", EXACT.encode(), ["--encoding", "klingon"],
     (2, "there is no encoding klingon, but utf-8, cp1252, latin-1, utf-16 ...")),
    ("encoding of bytes", EXACT.encode(), ["--encoding", "hex"],
     (2, "there is no encoding hex, but utf-8, cp1252, latin-1, utf-16 ...")),
    ("missing column", f"{EXACT}\n\n2,751 Main Blvd S,Town,AL\n".encode(), [],
     (3, "line 3 has 4 columns, not 5: id, street, city, state and zip")),
    ("one column", b"751 Main Blvd S\n", [], 
     (3, "line 1 has 1 column, not 5: id, street, city, state and zip; is it a whole address (--one-line), or the delimiter "
         "another one (--delimiter)?")),
    ("comma in a street", b"1,751 Main Blvd S, Apt 4,Town,AL,36003\n", [],
     (3, "line 1 has 6 columns, not 5: id, street, city, state and zip; a cell with the delimiter in it needs quotation "
         "marks")),
    ("open quotation mark", f'{EXACT}\n2,"751 Main Blvd S,Town,AL,36003\n{EXACT}\n'.encode(), [],
     (3, "line 2 isn't CSV: unexpected end of data")),
    ("text after a quotation", f'{EXACT}\n2,"751" Main,Town,AL,36003\n'.encode(), [],
     (3, "line 2 isn't CSV: ',' expected after '\"'")),
    ("long cell", b"1," + b"x" * 200_000 + b",,,\n", [], (3, "line 1 isn't CSV: field larger than field limit (131072)")),
    ("short line under a head", b"id,street,zip\n1,751 Main Blvd S\n", ["--header"],
     (3, "line 2 has 2 columns, not 3 as the head line")),
    ("head without a street", b"id,zip\n1,36003\n", ["--header"], 
     (3, "line 1, the head line, has no column street, but id, zip: name it by --columns street=NAME")),
]  # fmt: skip


@pytest.mark.parametrize(("text", "options", "expected"), [row[1:] for row in INPUTS], ids=[row[0] for row in INPUTS])
@pytest.mark.parametrize("kind", ["file", "pipe"])
def test_input(
    out: Path, tmp_path: Path, kind: str, text: bytes, options: list[str], expected: int | tuple[int, str]
) -> None:
    source = tmp_path / "in.csv"
    source.write_bytes(text)
    with open(source, "rb") as file:
        cat = subprocess.Popen(["cat"], stdin=file, stdout=subprocess.PIPE)
    with cat:
        given = (source, None) if kind == "file" else ("-", cat.stdout)
        done = geocode(given[0], out / "out.csv", *options, stdin=given[1])
    name = source if kind == "file" else "standard input"
    if isinstance(expected, int):
        assert (done.returncode, done.stderr) == (0, "")
        found = rows_of((out / "out.csv").read_text(encoding="utf-8"))
        assert len(found) == expected and all(row[2:4] == ROW[2:4] and row[5:] == ROW[5:] for row in found)
    else:
        about = "" if expected[0] == 2 else f"{name}: "
        assert (done.returncode, done.stderr) == (expected[0], f"error: {about}{expected[1]}\n")
        assert not list(out.iterdir())


class TestOutput:
    """Errors are one line, and leave no file."""

    @pytest.fixture
    def source(self, tmp_path: Path) -> Path:
        (tmp_path / "in.csv").write_text(f"{EXACT}\n" * 3000)
        return tmp_path / "in.csv"

    def refused(
        self, out: Path, status: int, text: str, source: object, *options: object, before: Sequence[str] = ()
    ) -> None:
        done = geocode(source, *options, before=before)
        assert done.returncode == status and text in done.stderr and done.stderr.count("\n") == 1
        assert not list(out.iterdir())

    def test_message_and_overwriting(self, out: Path, source: Path) -> None:
        done = geocode(source, out / "a.csv")
        assert done.stdout == (
            f"{out}/a.csv: 3,000 addresses: 3,000 matched, 3,000 of them exactly; 0 tied, 0 not matched\n"
        )
        written = (out / "a.csv").read_bytes()
        (out / "a.csv").write_text("kept")
        assert geocode(source, out / "a.csv").stderr == f"error: {out}/a.csv: File exists: --overwrite replaces it\n"
        assert (out / "a.csv").read_text() == "kept"
        assert geocode(source, out / "a.csv", "--overwrite").returncode == 0
        assert (out / "a.csv").read_bytes() == written
        shutil.copy(source, out / "b.csv")
        assert geocode(out / "b.csv", out / "b.csv", "--overwrite").returncode == 0
        assert (out / "b.csv").read_bytes() == written

    def test_files(self, out: Path, source: Path, tmp_path: Path) -> None:
        self.refused(out, 3, "no.csv: No such file", tmp_path / "no.csv", out / "a.csv")
        self.refused(out, 3, f"{tmp_path}: Is a directory", tmp_path, out / "a.csv")
        self.refused(out, 3, f"{out}: Is a directory", source, out)
        self.refused(out, 3, "no/a.csv: No such file", source, out / "no/a.csv")
        self.refused(out, 2, "'1' is no county", source, out / "a.csv", "--counties", "1")
        self.refused(out, 3, "has no TGR09001", source, out / "a.csv", "--counties", "09001")
        self.refused(out, 3, "there is no program nowhere", source, out / "a.csv", "--extractd", "nowhere")
        full = ["sh", "-c", 'ulimit -f 64; exec "$@"', "sh"]
        self.refused(out, 3, f"{out}/a.csv: File too large", source, out / "a.csv", before=full)

    def test_order_of_arguments(self, out: Path, source: Path) -> None:
        done = run("geocode", source, "--reasons", "--counties", CODE, "--data", EXAMPLES, out / "a.csv")
        assert done.returncode == 0 and len((out / "a.csv").read_text().splitlines()) == 3000

    def test_faulty_county(self, out: Path, source: Path, tmp_path: Path) -> None:
        (copy_county(tmp_path / "data") / "TGR01001.RT5").write_text("5\n")
        done = run("geocode", source, out / "a.csv", "--data", tmp_path / "data")
        assert (done.returncode, done.stderr) == (1, "refused 1 rt5 line 1 WrongLength\ncounty 01001\n")
        assert not list(out.iterdir())

    def test_other_program(self, out: Path, source: Path, tmp_path: Path) -> None:
        for script, status, text in (
            ('printf "id,status\\n"', 3, "wrote other columns than expected"),
            ("exit 4", 4, "out of memory"),
            ("kill -9 $$", 3, "was ended by signal 9"),
        ):
            program = program_of(tmp_path / "program", script)
            self.refused(out, status, text, source, out / "a.csv", "--extractd", program)

    def test_closed_output(self, source: Path) -> None:
        reader, writer = os.pipe()
        os.close(reader)
        done = geocode(source, stdout=writer)
        os.close(writer)
        assert (done.returncode, done.stderr) == (3, "error: the output can't be written: Broken pipe\n")
        done = geocode(source, "--bad")
        assert done.returncode == 2 and "usage: tigerline geocode" in done.stderr


class TestFunction:
    def test_matches(self) -> None:
        match, other = tigerline.geocode([EXACT.split(","), tigerline.Address("2", "Main St")], EXAMPLES, CODE)
        assert match.address == tigerline.Address("1", "751 Main Blvd S", "Town", "AL", "36003")
        assert (match.status, match.is_exact, match.matched, match.county) == ("Match", True, ROW[4], CODE)
        assert (match.longitude, match.latitude, match.tlid, match.side) == (-86.852619, 32.484638, 107001116, "L")
        assert (other.status, other.reasons, other.is_exact) == ("No_Match", ("no_house_number",), False)
        assert other.longitude is None and other.tlid is None and other.matched is None

    @pytest.mark.parametrize("address", ["751 Main St", ("1",), ("1", "2", "3", "4", "5", "6")])
    def test_no_address(self, address: tuple[str, ...]) -> None:
        with pytest.raises(ValueError, match="an address has id, street, city, state and zip, and "):
            next(tigerline.geocode([address], EXAMPLES, CODE))

    def test_parts(self, monkeypatch: pytest.MonkeyPatch, tmp_path: Path) -> None:
        """Addresses are processed in parts, and a warning about missing files comes once."""
        addresses = [(str(number), f"{number} Main St", "", "", "") for number in range(700, 750)]
        expected = list(tigerline.geocode(addresses, EXAMPLES, CODE))
        assert sum(match.status == "Match" for match in expected) > 5
        monkeypatch.setattr(geocoder, "ADDRESSES_AT_ONCE", 7)
        with pytest.warns(UserWarning, match="names or address ranges may be missing") as warned:
            found = list(tigerline.geocode(iter(addresses), copy_county(tmp_path, "1")))
        assert len(warned) == 1 and len(found) == 50
        assert list(tigerline.geocode(iter(addresses), EXAMPLES, CODE)) == expected
        assert list(tigerline.geocode([], EXAMPLES, CODE)) == []

    def test_counties(self, tmp_path: Path) -> None:
        """A segment in two counties is one place, and the first county is named. Zip files are unpacked."""
        copy_county(tmp_path / "two")
        zip_folder(copy_county(tmp_path / "other", code="01003"), tmp_path / "two/tgr01003.zip")
        both = list(tigerline.geocode([EXACT.split(",")], tmp_path / "two", ["01003", CODE]))
        assert [(match.status, match.tlid, match.county) for match in both] == [("Match", 107001116, "01003")]

    @pytest.mark.parametrize(
        ("code", "result"),
        [
            ("36003", ["Match"]),
            ("36003-1234", ["Match"]),
            ("36003 1234", ["Match"]),
            ("36009", ["No_Match", "other_zip"]),
            ("", ["Match", "no_zip"]),
            ("AL", ["Match", "no_zip"]),
        ],
    )
    def test_zip_codes(self, code: str, result: list[str]) -> None:
        (match,) = tigerline.geocode([("1", "751 Main Blvd S", "", "", code)], EXAMPLES, CODE)
        assert [match.status, *match.reasons] == result

    def test_lost_zeros(self, tmp_path: Path) -> None:
        (found,) = (line for line in records(EXAMPLES / "TGR01001.RT1") if line[5:15] == b" 107000006")
        line = bytearray(found)
        line[106:111] = line[111:116] = b"07001"
        (tmp_path / "TGR01001.RT1").write_bytes(line)
        write_empty(tmp_path)
        (match,) = tigerline.geocode([("1", "5901 Yarrow Blvd", "", "", "7001")], tmp_path)
        assert match.is_exact and match.matched == "5901 YARROW BLVD, , AL, 07001"
        line[190:200] = b" " * 10
        (tmp_path / "TGR01001.RT1").write_bytes(line)
        (match,) = tigerline.geocode([("1", "5901 Yarrow Blvd", "", "", "7001")], tmp_path)
        assert [match.status, *match.reasons] == ["No_Match", "no_coordinates"]


class TestInterrupts:
    """Ctrl-C and other signals leave no process, no folder and no partial file."""

    def start(
        self, *arguments: object, stdin: int | None = None, stdout: int = subprocess.DEVNULL
    ) -> subprocess.Popen[bytes]:
        command = [sys.executable, "-m", "tigerline", "geocode", *map(str, arguments), "--data", str(EXAMPLES)]
        return subprocess.Popen(
            [*command, "--counties", CODE],
            env=environment(),
            stdin=stdin,
            stdout=stdout,
            stderr=subprocess.DEVNULL,
            start_new_session=True,
        )

    def test_at_any_moment(self, scratch: Path, out: Path, tmp_path: Path) -> None:
        (tmp_path / "in.csv").write_text("".join(f"1,{number} Main St,,,\n" for number in range(150)))
        started = time.monotonic()
        assert self.start(tmp_path / "in.csv", out / "a.csv").wait(timeout=120) == 0
        duration = 1.1 * (time.monotonic() - started)
        whole = (out / "a.csv").read_bytes()
        (out / "a.csv").unlink()
        randoms = random.Random(1)
        for number in [signal.SIGINT, signal.SIGTERM, signal.SIGHUP] * 3:
            process = self.start(tmp_path / "in.csv", out / "a.csv")
            while not list(out.iterdir()) and process.poll() is None:
                time.sleep(0.002)
            time.sleep(randoms.random() * duration)
            os.killpg(process.pid, number)
            assert process.wait(timeout=30) in (-number, 0)
            assert not list(scratch.iterdir()) and not processes_with(str(scratch)) and not processes_with(str(out))
            assert [path.read_bytes() for path in out.iterdir()] in ([], [whole])
            (out / "a.csv").unlink(missing_ok=True)

    @pytest.mark.parametrize("kind", ["standard input", "named pipe"])
    def test_waiting_for_input(self, scratch: Path, out: Path, tmp_path: Path, kind: str) -> None:
        os.mkfifo(tmp_path / "pipe")
        source = "-" if kind == "standard input" else tmp_path / "pipe"
        process = self.start(source, out / "a.csv", stdin=subprocess.PIPE)
        assert process.stdin is not None
        while not list(scratch.iterdir()):
            time.sleep(0.01)
        time.sleep(0.2)
        os.killpg(process.pid, signal.SIGINT)
        assert process.wait(timeout=10) == -signal.SIGINT
        process.stdin.close()
        assert not list(out.iterdir()) and not list(scratch.iterdir())

    def test_output_that_nobody_reads(self, scratch: Path, tmp_path: Path) -> None:
        (tmp_path / "in.csv").write_text(f"{EXACT}\n" * 3000)
        process = self.start(tmp_path / "in.csv", stdout=subprocess.PIPE)
        assert process.stdout is not None
        select.select([process.stdout], [], [])
        time.sleep(0.2)
        os.killpg(process.pid, signal.SIGINT)
        assert process.wait(timeout=10) == -signal.SIGINT
        process.stdout.close()
        assert not list(scratch.iterdir())

    def test_named_pipe(self, out: Path, tmp_path: Path) -> None:
        os.mkfifo(tmp_path / "pipe")
        process = self.start(tmp_path / "pipe", out / "a.csv")
        with open(tmp_path / "pipe", "w") as pipe:
            pipe.write(EXACT + "\n")
        assert process.wait(timeout=30) == 0 and rows_of((out / "a.csv").read_text()) == [ROW]


def test_page(tmp_path: Path, monkeypatch: pytest.MonkeyPatch) -> None:
    """The examples of `tigerline geocode` in docs/addresses.md."""
    page = (TOP / "docs/addresses.md").read_text()
    shutil.copytree(EXAMPLES, tmp_path / "clone/examples")
    command = tmp_path / "bin/tigerline"
    command.parent.mkdir()
    command.write_text(f'#!/bin/sh\nPYTHONPATH="{TOP}/python" exec "{sys.executable}" -m tigerline "$@"\n')
    command.chmod(0o755)
    monkeypatch.setenv("PATH", f"{command.parent}{os.pathsep}{os.environ['PATH']}")
    monkeypatch.chdir(tmp_path / "clone")
    blocks = re.findall(r"^```console tigerline\b.*\n((?:.*\n)*?)```$", page, re.MULTILINE)
    blocks = [block for block in blocks if "tigerline reverse" not in block]  # needs shapely: test_docs.py
    for block in blocks:
        script = "".join(
            f"cat <<'END'\n$ {line}\nEND\n{line}\n" for line in re.findall(r"^\$ (.*)$", block, re.MULTILINE)
        )
        done = subprocess.run(["bash", "-c", script], stdout=subprocess.PIPE, stderr=subprocess.STDOUT, text=True)
        assert done.stdout == block
    assert len(blocks) == 4


# Segments 1, 2, ...: the names (direction, name, type, direction), the house numbers of the left side, and its ZIP Code.
SEGMENTS = """
E Jefferson St -               | 1-99    | 36067
- Oak - -                      | 101-199 | 36067
- Oak_Hill Rd -                | 101-199 | 36067
N Elm St -                     | 1-99    | 36067
- Elm St -                     | 1-99    | 36067
- Pine St -                    | 1-99    | 36001
- Pine St -                    | 1-99    |
- Main Ave -; N Main St -      | 1-99    | 36067
- Lake Ave -; - Lake - -       | 1-99    | 36067
- Holly - -                    | 1-99    | 36067
S Holly - -                    | 1-99    | 36067
- State_Hwy_7 - -              | 1-99    | 36067
- State_Road_7 - -             | 101-199 | 36067
- State_Hwy_7 - -              | 101-199 | 36067
- State_Road_9 - -             | 1-99    | 36067
- State_Hwy_9 - -              | 1-99    | 36067
- County_Rd_8 - -; - County_Road_8 - - | 1-99 | 36067
- Magnolia Ct -                | 1-99    | 36067
- Hickory Ave -                | 1-99    | 36067
- Hickory Rd -                 | 1-99    | 36067
- Magnolio Ct -                | 1-99    | 36001
E Cedar Rd -                   | 1-99    | 36067
W Cedar Rd -                   | 1-99    | 36067
- 12th St -                    | 1-99    | 36067
- Elk Rd -                     | 1-99    | 36067
N Poplar St E                  | 1-99    | 36067
S Poplar St E                  | 1-99    | 36067
""".strip().splitlines()

# An address and its ZIP Code, the segment that matches or none, and the reasons.
CHOICES = """
5 E Jefferson St       | 36067 | 1  |
5 Jefferson St E       | 36067 | 1  | direction
5 Jefferson St W       | 36067 | 1  | direction
5 W Jefferson St       | 36067 | 1  | direction
5 Jefferson            | 36067 | 1  | direction type
105 Oak Hill           | 36067 | 3  | type
105 Oak                | 36067 | 2  |
105 Oak Ln             | 36067 | 2  | type
5 Elm St               | 36067 | 5  |
5 N Elm                | 36067 | 4  | type
5 S Elm St             | 36067 | 5  | direction
5 Elm                  | 36067 |    | tie
105 Elm St             | 36067 |    | no_such_number_on_street
5 Pine St              | 36001 | 6  |
5 Pine St              | 36009 |    | other_zip
5 Pine St              |       |    | tie
5 Main Ave             | 36067 | 8  |
5 N Main St            | 36067 | 8  |
5 Main Blvd            | 36067 |    | other_type
5 Lake                 | 36067 | 9  | type
5 Lake St              | 36067 |    | no_such_street
5 Holly St             | 36067 |    | tie
5 S Holly St           | 36067 | 11 | type
5 N Holly St           | 36067 | 10 | direction type
5 SR 7                 | 36067 | 12 | route
105 SR 7               | 36067 | 13 |
5 N SR 9               | 36067 | 15 | direction
5 Magnolia Ct          | 36067 | 18 |
5 Magnola Ct           | 36067 | 18 | spelling
5 Magnnolia Ct         | 36067 | 18 | spelling
5 Magmolia Ct          | 36067 | 18 | spelling
5 Mangolia             | 36067 | 18 | type spelling
5 Mangoli Ct           | 36067 |    | no_such_street
5 Magnolio Ct          | 36001 | 21 |
5 Magnolia Ct          | 36001 | 21 | spelling
105 Magnolia Ct        | 36067 |    | no_such_number_on_street
5 Magnola Ave          | 36067 |    | no_such_street
5 Magnolia Ave         | 36067 | 18 | type
5 Hickory Ct           | 36067 |    | other_type
5 N Cedar Rd           | 36067 |    | other_direction
5 Cedar Rd N           | 36067 |    | other_direction
5 N Poplar St E        | 36067 | 26 |
5 N Poplar St W        | 36067 |    | other_direction
5 11th St              | 36067 |    | no_such_street
5 Twelfth St           | 36067 | 24 |
5 Ekl Rd               | 36067 |    | no_such_street
5B Magnolia Ct         | 36067 | 18 | number_suffix
5 Magnolia Ct (rear)   | 36067 | 18 | extra_words
5 Hwy 7                | 36067 | 12 | route
""".strip().splitlines()


def write_segments(folder: Path) -> None:
    files: dict[str, list[str]] = {"1": [], "4": [], "5": [], "6": []}
    for tlid, (names, numbers, zip_code) in enumerate((row.split("|") for row in SEGMENTS), start=1):
        own, *others = (
            f"{predir:2}{name.replace('_', ' '):30}{kind:4}{sufdir:2}"
            for predir, name, kind, sufdir in (
                part.replace("-", "").split(" ") for part in map(str.strip, names.split(";"))
            )
        )
        first, last = numbers.split("-")
        addresses = f"{first.strip():>11}{last.strip():>11}{'':22}0000{zip_code.strip():5}"
        place = f"{-86_000_000 - tlid:+010}{32_000_000:+09}" * 2
        files["1"].append(f"10006{tlid:10}  {own}A41{addresses}".ljust(190) + place)
        for other in others:
            files["5"].append(f"5000601001{tlid:8}{other}")
            files["4"].append(f"40006{tlid:10}  1{tlid:8}{'':32}")
    for record_type, lines in files.items():
        (folder / f"TGR{CODE}.RT{record_type}").write_text("".join(line + "\n" for line in lines))


@pytest.mark.parametrize("step", [1, -1])
def test_choices(tmp_path: Path, step: int) -> None:
    """The order of the addresses doesn't matter."""
    write_segments(tmp_path)
    rows = [[cell.strip() for cell in row.split("|")] for row in CHOICES[::step]]
    matches = tigerline.geocode([(row[0], row[0], "", "", row[1]) for row in rows], tmp_path, CODE)
    found = [[match.address.id, match.address.zip, str(match.tlid or ""), " ".join(match.reasons)] for match in matches]
    assert found == rows


def test_order_of_readings(tmp_path: Path) -> None:
    """Two readings match one segment. An earlier address with the second reading changes nothing."""
    write_segments(tmp_path)
    expected = {"5 CR 8": "5 COUNTY ROAD 8, , AL, 36067", "5 County Rd 8": "5 COUNTY RD 8, , AL, 36067"}
    for streets in (list(expected), list(expected)[::-1]):
        matches = tigerline.geocode([("", street, "", "", "36067") for street in streets], tmp_path)
        assert {match.address.street: match.matched for match in matches} == expected
