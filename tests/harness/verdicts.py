"""Programs and the verdicts on them, by `verify` and by the server."""

import subprocess
import tempfile
import urllib.error
import urllib.request
from collections.abc import Iterator
from pathlib import Path

import pytest

from harness.program import TOP
from harness.server import Server
from harness.tables import RowItem


def programs_of(lines: list[tuple[int, str]]) -> Iterator[tuple[int, str, str]]:
    """Yields each program with its line and verdict. `|` is between its lines and `;` before the verdict. A row that ends with `|` goes on in the next line."""
    row, first = "", 0
    for number, line in lines:
        if not line or line.startswith("#"):
            continue
        first = first if row else number
        row += line
        if not row.endswith("|"):
            program, _, verdict = row.rpartition(";")
            yield first, program.replace("|", "\n"), verdict.strip()
            row = ""
    if row:
        yield first, row, "the table ends within a row"


def difference(program: str, verdict: str, folder: Path, server: Server | None = None) -> str | None:
    """Returns what `verify` or the server says about a program, if that isn't the verdict."""
    (folder / "try.s").write_text(f"{program}\n")
    made = subprocess.run(["extractd", "asm", "--source", "try.s"], cwd=folder, capture_output=True)
    if made.returncode:
        return f"{program} should be {verdict}, and asm says {made.stderr.decode()}"
    (folder / "try.bpf").write_bytes(made.stdout)
    found = subprocess.run(["extractd", "verify", "--program", "try.bpf"], cwd=folder, capture_output=True, text=True)
    said = (found.stdout + found.stderr).removesuffix("\n")
    if (found.returncode, said) != (0 if verdict == "accepted" else 1, verdict):
        return f"{program} should be {verdict}, and verify says {said}, with status {found.returncode}"
    replied = _replied(server, made.stdout) if server else verdict
    return None if replied == verdict else f"{program} should be {verdict}, and the server says {replied}"


def _replied(server: Server, program: bytes) -> str:
    try:
        with urllib.request.urlopen(f"{server.url}/verify", data=program, timeout=60) as reply:
            return str(reply.read().decode().removesuffix("\n"))
    except urllib.error.HTTPError as error:
        return error.read().decode().removesuffix("\n")


class VerdictTable(pytest.File):
    """A table of tests/verdicts. A server over examples/one answers beside `verify`."""

    server: Server | None = None

    def collect(self) -> Iterator[pytest.Item]:
        lines = list(enumerate(self.path.read_text().splitlines(), 1))
        for number, program, verdict in programs_of(lines):
            yield VerdictItem.from_parent(self, name=f"line {number}", line=number, program=program, verdict=verdict)

    def setup(self) -> None:
        self.server = Server(TOP / "examples/one")

    def teardown(self) -> None:
        if self.server:
            self.server.close()


class VerdictItem(RowItem):
    def __init__(self, *, program: str, verdict: str, **more: object) -> None:
        super().__init__(check=self._difference, **more)  # type: ignore[arg-type]
        self.program, self.verdict = program, verdict
        self.add_marker(pytest.mark.xdist_group(str(self.path)))

    def _difference(self) -> str | None:
        assert isinstance(self.parent, VerdictTable)
        with tempfile.TemporaryDirectory() as folder:
            return difference(self.program, self.verdict, Path(folder), self.parent.server)
