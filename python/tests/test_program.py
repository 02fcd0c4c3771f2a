"""Finding the built program, and its exit statuses as exceptions."""

import os
import pickle
import re
import subprocess
import sys
from pathlib import Path
from typing import Any

import pytest
import tigerline
from counties import CODE, EXAMPLES, SEGMENTS, TOP, copy_county, program_of, records
from tigerline import RefusedError
from tigerline.layout import NAMES
from tigerline.program import VERSION

HEADER = ",".join(("score", *NAMES)) + "\\n"
ROW = "0" + "," * len(NAMES) + "\\n"
TABLE = HEADER + ROW


def outcome(program: str | None, **options: Any) -> list[tigerline.Row]:
    return list(tigerline.rows("TRUE", EXAMPLES, CODE, extractd=program, **options))


@pytest.mark.usefixtures("scratch")
class TestStatuses:
    """A status other than 0 raises an exception, and the rows before it are dropped."""

    @pytest.mark.parametrize(
        ("script", "error", "text"),
        [
            (f"printf '{TABLE}'; echo 'refused memory' >&2; exit 4", MemoryError, "refused memory"),
            ("echo 'error: CODE is five digits' >&2; exit 2", ValueError, "CODE is five digits"),
            (f"printf '{TABLE}'; echo 'refused 60 Write' >&2; exit 3", OSError, "refused 60 Write"),
            ("echo 'error: f: not found' >&2; exit 3", OSError, "f: not found"),
            ("exit 1", OSError, "ended with status 1"),
            ("exit 77", OSError, "ended with status 77"),
            (f"printf '{TABLE}'; kill -9 $$", OSError, "was ended by signal 9"),
            ("echo something", OSError, "wrote something that isn't a table"),
            (f"printf '{TABLE}0'", OSError, "wrote something that isn't a table"),
        ],
    )
    def test_errors(self, tmp_path: Path, script: str, error: type[Exception], text: str) -> None:
        program = program_of(tmp_path / "program", script)
        with pytest.raises(error, match=text):
            outcome(program)

    @pytest.mark.parametrize(
        ("line", "number", "name", "place", "county"),
        [
            ("refused 10 Empty", 10, "Empty", "", None),
            ("refused 40 place 0 ReadsNothing(0)", 40, "ReadsNothing(0)", "place 0", None),
            (
                "refused 91 line 1 column 5 UnknownColumn\nno column has this name",
                91,
                "UnknownColumn",
                "line 1 column 5",
                None,
            ),
            ("refused 1 rt4 line 140 WrongLength\ncounty 01001", 1, "WrongLength", "rt4 line 140", "01001"),
            ("refused 7 rt6 line 1001 TooManyRanges", 7, "TooManyRanges", "rt6 line 1001", "01001"),
        ],
    )
    def test_refusals(self, tmp_path: Path, line: str, number: int, name: str, place: str, county: str | None) -> None:
        with pytest.raises(RefusedError) as caught:
            outcome(program_of(tmp_path / "program", f"printf '{TABLE}'; echo '{line}' >&2; exit 1"))
        refused = pickle.loads(pickle.dumps(caught.value))
        assert (refused.number, refused.name, refused.place, refused.county) == (number, name, place, county)
        assert refused.text == str(refused) and refused.text.startswith(line)
        assert county is None or refused.text.endswith("\ncounty 01001")

    def test_files_have_their_own_names(self, tmp_path: Path) -> None:
        program = program_of(tmp_path / "program", 'echo "error: $4/TGR01001.RT1: permission denied" >&2; exit 3')
        copy_county(tmp_path / "data", name=str.lower)
        with pytest.raises(OSError) as caught:
            list(tigerline.rows("TRUE", tmp_path / "data", extractd=program))
        assert str(caught.value) == f"{tmp_path}/data/tgr01001.rt1: permission denied"

    def test_much_on_standard_error(self, tmp_path: Path) -> None:
        noisy = program_of(tmp_path / "noisy", f"yes | head -c 300000 >&2; printf '{TABLE}'")
        assert len(outcome(noisy)) == 1


@pytest.mark.usefixtures("scratch")
class TestFinding:
    """The argument takes precedence over the variable, and the variable over PATH."""

    def test_order(self, tmp_path: Path, monkeypatch: pytest.MonkeyPatch) -> None:
        rows = {
            name: program_of(tmp_path / name, f"printf '{HEADER}{ROW * count}'")
            for count, name in enumerate(("extractd", "a", "b"))
        }
        monkeypatch.setenv("PATH", str(tmp_path), prepend=os.pathsep)
        monkeypatch.delenv("EXTRACTD", raising=False)
        assert len(outcome(None)) == 0
        monkeypatch.setenv("EXTRACTD", rows["a"])
        assert len(outcome(None)) == 1
        assert len(outcome(rows["b"])) == 2

    def test_missing(self, tmp_path: Path, monkeypatch: pytest.MonkeyPatch) -> None:
        with pytest.raises(FileNotFoundError, match="there is no program .*nowhere"):
            outcome(str(tmp_path / "nowhere"))
        monkeypatch.setenv("PATH", str(tmp_path))
        monkeypatch.delenv("EXTRACTD", raising=False)
        with pytest.raises(FileNotFoundError, match="there is no program extractd"):
            outcome(None)

    @pytest.mark.parametrize("version", ["extractd 0.9.9", "", f"extractd {VERSION}\nmore", "cat (GNU coreutils) 9.1"])
    def test_other_versions(self, tmp_path: Path, version: str) -> None:
        with pytest.raises(OSError, match=re.escape(f"isn't extractd {VERSION}")):
            outcome(program_of(tmp_path / "program", "exit 0", version))

    def test_not_a_program(self, tmp_path: Path) -> None:
        path = tmp_path / "words"
        path.write_bytes(b"\0" * 100)
        path.chmod(0o755)
        with pytest.raises(OSError, match="can't be run"):
            outcome(str(path))


@pytest.mark.usefixtures("scratch")
class TestBuilt:
    """The built program: its version, its refusals, and arguments of any form."""

    def test_standard_library_alone(self, extractd: str) -> None:
        """`rows` needs neither pandas nor numpy, nor any installed package (-S)."""
        code = (
            f"import sys; sys.path.insert(0, {str(TOP / 'python')!r}); import tigerline; "
            f"print(len(list(tigerline.rows('TRUE', {str(EXAMPLES)!r}, '01001')))); "
            "print([name for name in sys.modules if name in ('numpy', 'pandas', 'geopandas', 'shapely')])"
        )
        command = [sys.executable, "-S", "-W", "error", "-c", code]
        done = subprocess.run(command, stdout=subprocess.PIPE, text=True, check=True)
        assert done.stdout == f"{SEGMENTS}\n[]\n"

    def test_filter_is_refused(self, extractd: str) -> None:
        with pytest.raises(RefusedError) as caught:
            tigerline.rows("ZIPL = 36067 AND\n  ZIP = 1", EXAMPLES, CODE).__next__()
        assert (caught.value.number, caught.value.place, caught.value.name) == (91, "line 2 column 3", "UnknownColumn")
        assert "the nearest is ZIPL" in caught.value.text and caught.value.county is None

    @pytest.mark.parametrize("where", ["", "-1", "--help", "'", "TRUE\0", "FENAME = '\udcff'"])
    def test_odd_filters(self, extractd: str, where: str) -> None:
        with pytest.raises((RefusedError, ValueError)):
            list(tigerline.rows(where, EXAMPLES, CODE))

    def test_long_filter(self, extractd: str) -> None:
        where = "TRUE" + " " * 140_000
        assert len(list(tigerline.rows(where, EXAMPLES, CODE))) == SEGMENTS
        with pytest.raises(RefusedError, match="refused 90 line 1 column 140005 Syntax"):
            list(tigerline.rows(where + "(", EXAMPLES, CODE))

    def test_program(self, extractd: str, tmp_path: Path) -> None:
        path = EXAMPLES / "programs/not_water.bpf"
        words = path.read_bytes()
        expected = [int(line[5:15]) for line in records(EXAMPLES / "TGR01001.RT1") if line[55:56] != b"H"]
        programs: list[bytes | Path | str] = [words, path, os.path.relpath(path)]
        for program in programs:
            assert [row.TLID for row in tigerline.rows(program=program, data=EXAMPLES, counties=CODE)] == expected
        with pytest.raises(RefusedError, match="refused 40 place 0 ReadsNothing"):
            list(tigerline.rows(program=words[16:], data=EXAMPLES, counties=CODE))
        with pytest.raises(OSError, match="nowhere.bpf: not found"):
            list(tigerline.rows(program=tmp_path / "nowhere.bpf", data=EXAMPLES, counties=CODE))

    def test_faulty_county(self, extractd: str, tmp_path: Path) -> None:
        copy_county(tmp_path)
        copy_county(tmp_path, code="01003")
        with open(tmp_path / "TGR01003.RT1", "ab") as file:
            file.write(b"x\n")
        iterator = tigerline.rows("TRUE", tmp_path)
        assert {next(iterator).county for _ in range(SEGMENTS)} == {"01001"}
        with pytest.raises(RefusedError, match="refused 1 rt1 line 401 WrongLength\ncounty 01003"):
            next(iterator)

    def test_arguments(self) -> None:
        wrong: list[dict[str, Any]] = [{}, {"where": "TRUE", "program": b""}, {"program": b"", "score": "TLID"}]
        for options in wrong:
            with pytest.raises(ValueError):
                tigerline.rows(data=EXAMPLES, **options)

    def test_score_is_no_column(self, extractd: str) -> None:
        with pytest.raises(ValueError, match="--score is a column with numbers"):
            outcome(None, score="FENAME")
