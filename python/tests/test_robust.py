"""Files that aren't regular, names that control a terminal, and what is missing."""

import os
import re
import signal
import stat
import subprocess
import sys
import time
from pathlib import Path

import pytest
from counties import CODE, EXAMPLES, TOP, copy_county, program_of
from tigerline.commands import main
from tigerline.interrupts import Interrupts
from tigerline.output import pending_file
from tigerline.program import VERSION, find_program
from tigerline.terminal import visible

pytestmark = pytest.mark.usefixtures("scratch")

COMMAND = [sys.executable, "-m", "tigerline"]
ENVIRONMENT = {**os.environ, "PYTHONPATH": str(TOP / "python")}
ESCAPE = "\x1b[31mred\n\u202e.csv"


def run(*words: object, **variables: str) -> subprocess.CompletedProcess[str]:
    environment = {**ENVIRONMENT, **variables}
    return subprocess.run([*COMMAND, *map(str, words)], env=environment, capture_output=True, text=True, timeout=60)


class TestOutputs:
    """What isn't a regular file is never replaced."""

    @pytest.mark.parametrize("overwrite", [True, False])
    def test_pipe(self, tmp_path: Path, overwrite: bool) -> None:
        os.mkfifo(tmp_path / "a.csv")
        with pytest.raises(OSError, match="a.csv is a device or a pipe"), pending_file(tmp_path / "a.csv", overwrite):
            pass
        assert stat.S_ISFIFO(os.stat(tmp_path / "a.csv").st_mode)

    def test_pipe_that_appears_meanwhile(self, tmp_path: Path) -> None:
        with pytest.raises(OSError, match="is a device or a pipe"), pending_file(tmp_path / "a.csv", True) as file:
            file.path.write_text("new")
            os.mkfifo(tmp_path / "a.csv")
            file.publish(Interrupts())
        assert stat.S_ISFIFO(os.stat(tmp_path / "a.csv").st_mode)

    def test_device(self, tmp_path: Path, extractd: str) -> None:
        """Root may replace /dev/null."""
        (tmp_path / "addresses.csv").write_text("1,1 Main St,,,\n")
        done = run("geocode", tmp_path / "addresses.csv", "/dev/null", "--data", EXAMPLES, "--overwrite")
        assert done.returncode == 3 and "/dev/null is a device" in done.stderr
        assert stat.S_ISCHR(os.stat("/dev/null").st_mode)


class TestData:
    """A pipe among the data is an error, and isn't opened."""

    @pytest.mark.parametrize("name", ["TGR01001.ZIP", "TGR01001.RT2", "TGR01001.RT1"])
    def test_pipe(self, tmp_path: Path, name: str) -> None:
        if name != "TGR01001.ZIP":
            copy_county(tmp_path / "data")
            (tmp_path / "data" / name).unlink(missing_ok=True)
        (tmp_path / "data").mkdir(exist_ok=True)
        os.mkfifo(tmp_path / "data" / name)
        program = program_of(tmp_path / "program", "cat /dev/zero > /dev/null")
        options = ("--where", "TRUE", "--geometry", "shape", "--extractd", program)
        done = run("select", tmp_path / "data", tmp_path / "a.csv", *options)
        assert (done.returncode, done.stdout) == (3, "")
        assert done.stderr.splitlines()[-1] == f"error: {tmp_path}/data/{name} isn't a regular file"

    def test_pipe_as_data(self, tmp_path: Path) -> None:
        os.mkfifo(tmp_path / "pipe")
        program = program_of(tmp_path / "program", "exit 0")
        done = run("select", tmp_path / "pipe", tmp_path / "a.csv", "--where", "TRUE", "--extractd", program)
        assert done.returncode == 3 and "is neither a folder nor a zip file" in done.stderr

    @pytest.mark.parametrize("option", ["--program", "--mask"])
    def test_interrupt_before_a_pipe(self, tmp_path: Path, option: str) -> None:
        """Other files may be pipes, such as those of a shell. Ctrl-C ends the wait for one."""
        os.mkfifo(tmp_path / "pipe")
        words = ["select", EXAMPLES, tmp_path / "a.csv", option, tmp_path / "pipe", "--counties", CODE]
        program = program_of(tmp_path / "program", "cat /dev/zero > /dev/null")
        process = subprocess.Popen([*COMMAND, *map(str, words), "--extractd", program], env=ENVIRONMENT)
        time.sleep(1)
        process.send_signal(signal.SIGINT)
        assert process.wait(timeout=20) == -signal.SIGINT


class TestNames:
    """Names of files don't control a terminal."""

    def test_visible(self) -> None:
        assert visible("a\x1b[31m\x9b\udcff\u202e\té\n") == r"a\x1b[31m\x9b\udcff\u202e\té\n"
        assert visible("a\nb\r", keep_lines=True) == "a\nb\\r"

    @pytest.mark.parametrize(
        "words",
        [
            ("select", ESCAPE, "a.csv", "--where", "TRUE"),
            ("select", EXAMPLES, f"no/{ESCAPE}", "--where", "TRUE"),
            ("select", EXAMPLES, "a.csv", "--where", "TRUE", "--counties", ESCAPE),
            ("select", EXAMPLES, "a.csv", "--where", "TRUE", "--extractd", ESCAPE),
            ("geocode", ESCAPE, "--data", EXAMPLES),
            ("geocode", ESCAPE, "--data", EXAMPLES, ESCAPE, ESCAPE),
            ("map", ESCAPE),
            ("serve", "--data", ESCAPE, "--port", "0"),
            (ESCAPE,),
        ],
    )
    def test_errors(self, tmp_path: Path, words: tuple[object, ...]) -> None:
        program = program_of(tmp_path / "program", "exit 0")
        done = run(*words, EXTRACTD=program)
        assert done.returncode in (2, 3) and "\\x1b[31mred" in done.stderr
        assert not {"\x1b", "\u202e"} & {*done.stderr, *done.stdout} and "\n\\u202e" not in done.stderr

    def test_messages_and_warnings(self, tmp_path: Path) -> None:
        data = copy_county(tmp_path / ESCAPE, types="1")
        header = "score,TLID,WKT\\n"
        program = program_of(tmp_path / "program", f"printf '{header}'")
        out = tmp_path / ESCAPE
        done = run("select", data, out / "a.csv", "--where", "TRUE", "--columns", "TLID", "--extractd", program)
        shown = f"{tmp_path}/\\x1b[31mred\\n\\u202e.csv"
        assert done.stdout == f"{shown}/a.csv: 0 segments\n"
        warnings = done.stderr.splitlines()
        assert len(warnings) == 2 and warnings[1].startswith(f"warning: {shown} has no TGR01001.RT4")


DRAW = "from tigerline.commands import main; main(['select', '.', '/nowhere/a.csv', '--where', 'TRUE'"


class TestMissing:
    """Each message says what to do."""

    @pytest.mark.parametrize(
        ("module", "code", "text"),
        [
            ("numpy", "tigerline.select('TRUE')", "there is no module numpy: apt install python3-numpy, or"),
            (
                "pandas",
                "tigerline.read_county('.', '01001')",
                "there is no module pandas: apt install python3-pandas, or",
            ),
            (
                "shapely",
                "list(tigerline.reverse([(1, 2)], '.'))",
                "there is no module shapely: apt install python3-shapely",
            ),
            (
                "matplotlib",
                f"{DRAW}, '--map', 'a.svg'])",
                "there is no module matplotlib: apt install python3-matplotlib",
            ),
            ("jinja2", f"{DRAW}, '--map', 'a.html'])", "there is no module jinja2: apt install python3-jinja2"),
        ],
    )
    def test_modules(self, tmp_path: Path, module: str, code: str, text: str) -> None:
        program = program_of(tmp_path / "program", "exit 0")
        script = f"import sys; sys.modules[{module!r}] = None\nimport tigerline; {code}"
        done = subprocess.run(
            [sys.executable, "-c", script],
            cwd=EXAMPLES,
            env={**ENVIRONMENT, "EXTRACTD": program},
            capture_output=True,
            text=True,
        )
        assert re.match(f"(ModuleNotFoundError|error): {text}", done.stderr.splitlines()[-1])

    def test_program(self, tmp_path: Path, monkeypatch: pytest.MonkeyPatch, capsys: pytest.CaptureFixture[str]) -> None:
        monkeypatch.setenv("PATH", str(tmp_path))
        monkeypatch.delenv("EXTRACTD", raising=False)
        assert main(["select", str(EXAMPLES), str(tmp_path / "a.csv"), "--where", "TRUE"]) == 3
        assert capsys.readouterr().err.startswith(
            "error: there is no program extractd: install extractd, or name it by"
        )

    def test_old_command(self, capsys: pytest.CaptureFixture[str]) -> None:
        with pytest.raises(SystemExit) as ended:
            main(["data", "out.csv", "--where", "TRUE"])
        assert ended.value.code == 2
        assert (
            "there is no command 'data'; to write segments, write tigerline select DATA OUT" in capsys.readouterr().err
        )


def test_version_is_asked_once(tmp_path: Path) -> None:
    """Unless the program changes."""
    path = tmp_path / "program"
    for count in (1, 2):
        path.write_text(f'#!/bin/sh\necho x >> "{tmp_path}/asked"; echo "extractd {VERSION}" >&2 # {"x" * count}\n')
        path.chmod(0o755)
        for _ in range(3):
            with Interrupts() as interrupts:
                assert find_program(path, interrupts) == str(path)
        assert (tmp_path / "asked").read_text().count("x") == count
