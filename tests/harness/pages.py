"""Pages of the documents: each block and each row of a table that shows a command, a request or a program is a test.

- A block ```console shows a terminal. Each command in it, `$ ` and continuation lines after `> `, runs in a copy of the clone without its tests, and must
  print what is below it. Words after `console` name commands that the block needs: if one isn't here, the block is left out. `rt` is simulated: `rt try -- ..`
  and `rt run -- ..` run the program that is tested, and `.ci/run` does nothing. One with the word `tigerline-serve` is next to a service over examples, which
  is at port 8080 there and at a free one here.
- Blocks ```pycon are one session of Python, also next to a service.
- A block ```bash is commands that succeed and print nothing. Words after `bash` name commands as above.
- A block ```asm that a block ```hex follows is a program and its words: `asm` makes these of it, and of what `dis` writes of them.
- In a block ```verdicts each row is a program and its verdict, as in tests/verdicts.
- In a block ```answers each line is the beginning of a program, then `;` and the value of r0 at its end, on the segment of examples/one.
- A block ```http FOLDER shows a terminal next to a server just started over the county in FOLDER. The server is at port 8080 there and at a free one here.
  Words after the folder name further commands. Heads that curl shows are compared without their CRs.
- A row of a table with a status, its phrase and a text is a reply. A row with a request in its first cell, in which `\\n` ends a line, and a status in its
  second is sent as written, and the complete reply must be that of the status, byte for byte. The requests and replies that docs/http.md shows must be rows
  of crates/wire_tests/src/examples.rt, in its order.
- A row of a table with bytes in its first cell and a refusal in its second is a program that `verify` and `run` refuse that way. One with a place, an
  instruction and its bytes is a program of one instruction, tested as above.

A page's tests run in one process and in their order, as a command may read what one above it wrote.
"""

import re
import shlex
import shutil
import subprocess
import tempfile
from collections.abc import Callable, Iterator
from functools import partial
from pathlib import Path
from typing import NamedTuple

import pytest

from harness import replies, verdicts
from harness.needs import missing
from harness.program import TOP
from harness.server import Server
from harness.tables import RowItem

SECONDS = 300
# What a page's commands may use of a clone.
CLONED = ("README.md", "deploy", "docs", "examples", "python", "quickstart.sh", "tools")
# Blocks without a test.
SHOWN = ("asm", "none", "rust", "sh", "text")
PORT = "127.0.0.1:8080"
# Ends a program with its r0 as the score.
SCORED = "\nmov r1, r0\ncall 8\nmov r0, 1\nexit\n"

REFUSAL = re.compile(r"\| ((?:`[0-9a-f ]+`(?:, )?)+) \| `(refused [^`]*)` \|")
INSTRUCTION = re.compile(r"\| [0-9]+ \| `([^`]+)` \| `([0-9a-f ]+)` \|")


class Block(NamedTuple):
    """A block of a page, the line that begins it, and the words after its kind."""

    line: int
    kind: str
    words: list[str]
    text: str

    def numbered(self) -> list[tuple[int, str]]:
        return list(enumerate(self.text.splitlines(), self.line + 1))


def parts_of(text: str) -> Iterator[Block]:
    """Yields the blocks of a page, and the lines between them as blocks of the kind `line`."""
    begun: Block | None = None
    for number, line in enumerate(text.splitlines(), 1):
        if begun and line == "```":
            yield begun
            begun = None
        elif begun:
            begun = begun._replace(text=f"{begun.text}{line}\n")
        elif line.startswith("```"):
            kind, *words = line.removeprefix("```").split() or ["none"]
            begun = Block(number, kind, words, "")
        else:
            yield Block(number, "line", [], line)
    if begun:
        yield begun._replace(kind="unfinished")


def has_test(part: Block) -> bool:
    """Returns whether a block has something to run. One that has lost it isn't a test any more, so the count is another one."""
    begins = {"bash": "", "console": "$ ", "hex": "", "http": "$ ", "pycon": ">>> "}.get(part.kind)
    return begins is None or any(line.startswith(begins) for line in part.text.splitlines() if line)


class PageFile(pytest.File):
    """A page, and the folder in which its commands run."""

    installed: Path | None = None

    def collect(self) -> Iterator[pytest.Item]:
        self.examples = replies.Examples()
        assembly = session = ""
        for part in parts_of(self.path.read_text()):
            if part.kind == "asm":
                assembly = part.text
            if part.kind == "pycon":
                session += part.text
            if has_test(part):
                yield from self.tests_of(part, session if part.kind == "pycon" else assembly)
        if self.examples.shown and not self.installed:
            yield self.item(0, self.examples.fault, "the examples of crates/wire_tests")

    def item(
        self, line: int, check: Callable[[], str | None], name: str = "", needs: tuple[str, ...] = ()
    ) -> pytest.Item:
        item = RowItem.from_parent(self, name=name or f"line {line}", line=line, check=check)
        item.add_marker(pytest.mark.xdist_group(str(self.path)))
        item.add_marker(pytest.mark.needs(*needs))
        return item

    def tests_of(self, part: Block, before: str) -> Iterator[pytest.Item]:
        """Yields the tests of a block. Before it are the text of a program, or the session up to its end."""
        line, kind, words, text = part
        needs = tuple(word.replace("tigerline-serve", "tigerline") for word in words)
        needs += ("ogr2ogr", "python3-geopandas") if "tigerline" in needs else ()
        match kind:
            case "line":
                yield from self.tests_of_row(line, text)
            case "pycon" if "tigerline-serve" in words:
                check = partial(self.beside_service, before, self.session_fault)
                yield self.item(line, check, needs=("python3-owslib",))
            case "pycon":
                yield self.item(line, partial(self.session_fault, before), needs=("python3-geopandas",))
            case "bash":
                yield self.item(line, partial(self.quiet_fault, text), needs=needs)
            case "console" if "tigerline-serve" in words:
                yield self.item(line, partial(self.beside_service, text, self.console_fault), needs=needs)
            case "console":
                yield self.item(line, partial(self.console_fault, text), needs=needs)
            case "http":
                self.examples.add_block(text)
                yield self.item(line, partial(self.http_fault, words[0], text), needs=("curl", *needs[1:]))
            case "hex":
                yield self.item(line, partial(self.conversion_fault, before, text))
            case "verdicts":
                for number, program, verdict in verdicts.programs_of(part.numbered()):
                    yield self.item(number, partial(self.verdict_fault, program, verdict))
            case "answers":
                for number, row in part.numbered():
                    yield self.item(number, partial(self.answer_fault, row))
            case kind if kind not in SHOWN:
                yield self.item(line, lambda: f"is a block of an unknown kind, or it doesn't end: {kind}")

    def tests_of_row(self, line: int, text: str) -> Iterator[pytest.Item]:
        if match := REFUSAL.fullmatch(text):
            data = bytes.fromhex(re.sub("[`,]", "", match[1]))
            yield self.item(line, partial(self.refusal_fault, data, match[2]))
        elif match := INSTRUCTION.fullmatch(text):
            yield self.item(line, partial(self.conversion_fault, f"{match[1]}\n", match[2]))
        elif request := self.examples.add_row(text):
            yield self.item(line, partial(self.request_fault, request))

    def setup(self) -> None:
        self.folder = Path(tempfile.mkdtemp(prefix="page."))
        self.clone = self.folder / "clone"
        if self.installed:
            shutil.copytree(self.installed, self.clone)
        else:
            copy_clone(self.clone)
        (self.folder / "home").mkdir()
        # A terminal shows no progress of curl either.
        (self.folder / "home/.curlrc").write_text("silent\n")
        self.server: Server | None = None

    def teardown(self) -> None:
        self.stop_server()
        shutil.rmtree(self.folder, ignore_errors=True)

    def plain_server(self) -> Server:
        """Returns a server over examples/one, which answers the rows of a table."""
        self.server = self.server or Server(TOP / "examples/one")
        return self.server

    def stop_server(self) -> None:
        if self.server:
            self.server.close()
        self.server = None

    def run(self, script: str, option: str = "-c") -> tuple[int, str]:
        """Runs a script, and returns its status and all that it writes."""
        command = ["env", "LC_ALL=C", f"HOME={self.folder}/home", "bash", option, script]
        done = subprocess.run(
            command,
            cwd=self.clone,
            stdin=subprocess.DEVNULL,
            stdout=subprocess.PIPE,
            stderr=subprocess.STDOUT,
            timeout=SECONDS,
        )
        return done.returncode, done.stdout.decode(errors="replace")

    def console_fault(self, text: str) -> str | None:
        _, wrote = self.run(script_of(text))
        wrote = wrote.replace("\r", "")
        return None if wrote == text else f"shows\n{text}\nand it is\n{wrote}"

    def quiet_fault(self, text: str) -> str | None:
        status, wrote = self.run(text, "-ec")
        return (
            None
            if (status, wrote) == (0, "")
            else f"should print nothing\n{text}\nand has status {status} and prints\n{wrote}"
        )

    def session_fault(self, text: str) -> str | None:
        (self.clone / "session.txt").write_text(text)
        status, wrote = self.run("python3 -m doctest -o NORMALIZE_WHITESPACE session.txt")
        return wrote if status else None

    def beside_service(self, text: str, fault: Callable[[str], str | None]) -> str | None:
        """Looks for a fault of a text next to a service over the examples."""
        command = ["tigerline", "serve", "--data", "examples", "--port", "0"]
        with subprocess.Popen(
            command,
            cwd=self.clone,
            stdin=subprocess.DEVNULL,
            stdout=subprocess.PIPE,
            stderr=subprocess.DEVNULL,
            text=True,
        ) as service:
            assert service.stdout is not None
            listening = re.search(r"127\.0\.0\.1:\d+", service.stdout.readline())
            try:
                return fault(text.replace(PORT, listening[0])) if listening else "the service doesn't start"
            finally:
                service.terminate()

    def http_fault(self, folder: str, text: str) -> str | None:
        self.stop_server()
        with Server(self.clone / folder) as server:
            return self.console_fault(text.replace(PORT, f"127.0.0.1:{server.port}"))

    def words_of(self, text: str) -> bytes:
        """Returns the words that `asm` makes of a text, or what it says."""
        (self.clone / "try.s").write_text(text)
        made = subprocess.run(["extractd", "asm", "--source", "try.s"], cwd=self.clone, capture_output=True)
        return made.stdout + made.stderr

    def conversion_fault(self, text: str, words: str) -> str | None:
        wanted, made = bytes.fromhex(words), self.words_of(text)
        (self.clone / "try.bpf").write_bytes(made)
        shown = subprocess.run(
            ["extractd", "dis", "--program", "try.bpf"], cwd=self.clone, capture_output=True, text=True
        )
        again = self.words_of(shown.stdout)
        return (
            None
            if made == again == wanted
            else f"shows the words\n{words}\nand asm writes {made!r}, and of what dis writes {again!r}"
        )

    def verdict_fault(self, program: str, verdict: str) -> str | None:
        return verdicts.difference(program, verdict, self.clone)

    def request_fault(self, request: replies.Request) -> str | None:
        return request.fault(self.plain_server())

    def answer_fault(self, row: str) -> str | None:
        program, _, value = row.rpartition(";")
        (self.clone / "try.bpf").write_bytes(self.words_of(program.replace("|", "\n") + SCORED))
        command = ["extractd", "run", "--program", "try.bpf", "--data", str(TOP / "examples/one"), "01001"]
        ran = subprocess.run(command, cwd=self.clone, capture_output=True, text=True)
        score = (ran.stdout + ran.stderr).partition("\t")[0]
        return None if score == value.strip() else f"shows\n{row}\nand it is\n{score}"

    def refusal_fault(self, program: bytes, line: str) -> str | None:
        (self.clone / "try.bpf").write_bytes(program)
        for command in (("verify",), ("run", "--data", str(TOP / "examples"), "01001")):
            ran = subprocess.run(
                ["extractd", *command, "--program", "try.bpf"], cwd=self.clone, capture_output=True, text=True
            )
            if (ran.returncode, ran.stdout, ran.stderr) != (1, "", f"{line}\n"):
                return f"shows {line}, and {command[0]} says {ran.stdout}{ran.stderr}, with status {ran.returncode}"
        return None


def script_of(text: str) -> str:
    """Returns a script that shows and runs each command of a terminal's text."""
    commands: list[tuple[str, str]] = []
    for line in text.splitlines():
        if line.startswith("$ "):
            commands.append((f"{line}\n", f"{line[2:]}\n"))
        elif line.startswith("> ") and commands:
            shown, command = commands[-1]
            commands[-1] = (f"{shown}{line}\n", f"{command}{line[2:]}\n")
    return "last=0\n" + "".join(
        f"printf %s {shlex.quote(shown)}\n(exit $last)\n{command}last=$?\n" for shown, command in commands
    )


def copy_clone(clone: Path) -> None:
    """Makes a folder that looks like a clone after a build."""
    (clone / ".ci").mkdir(parents=True)
    (clone / ".ci/run").write_text("#!/bin/sh\n")
    (clone / ".ci/run").chmod(0o755)
    for name in CLONED:
        if (TOP / name).is_dir():
            shutil.copytree(
                TOP / name,
                clone / name,
                symlinks=True,
                ignore=shutil.ignore_patterns("__pycache__", ".hypothesis", ".mypy_cache"),
            )
        else:
            shutil.copy(TOP / name, clone / name)
    (clone / "crates/extractd/out").mkdir(parents=True)
    built = shutil.which("extractd")
    if built and not list(missing(("extractd",))):
        shutil.copy(built, clone / "crates/extractd/out/extractd")
