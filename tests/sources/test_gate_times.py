"""tools/gate_times.py knows the processes of `rt ci` by their commands, and keeps a table of what they took."""

import os
import subprocess
import sys
from pathlib import Path

import gate_times
import pytest
from gate_times import Meter

# Commands of processes and the folders that they are in, and what they are for.
PURPOSES = [
    ("/kit/bin/rattle --crate-name jobs src/lib.rt", "/top/crates/jobs", ("jobs", "proof")),
    ("/kit/bin/rattle --test --crate-name jobs_tests src/lib.rt", "/top/crates/jobs_tests", ("jobs_tests", "tests")),
    ("/kit/bin/rattle --crate-name jobs src/lib.rt", "/tmp/copy/jobs", ("jobs", "mutants")),
    ("/top/out/bin/tl_tests_tests --seconds 9", "/top/crates/tl_tests", ("tl_tests", "runs")),
    ("/kit/bin/rattle --version", "/top", None),
    ("sh -c true", "/top", None),
]
TABLE = {"jobs": {"proof": 20.0, "mutants": 100.0}, "wire": {"proof": 61.0, "tests": 2.0, "runs": 3.0, "mutants": 4.0}}
SHOWN = """\
| Crate | Proof | Proof of tests | Runs | Mutants | Sum |
|---|--:|--:|--:|--:|--:|
| jobs | 20 |  |  | 100 | 120 |
| wire | 61 | 2 | 3 | 4 | 70 |
| minutes in all | 1.4 | 0.0 | 0.1 | 1.7 | 3.2 |
"""


@pytest.mark.parametrize(("command", "folder", "purpose"), PURPOSES)
def test_purpose(command: str, folder: str, purpose: tuple[str, str] | None) -> None:
    assert gate_times.purpose_of(command.split(), folder) == purpose


def test_table(tmp_path: Path) -> None:
    assert "\n".join(gate_times.lines_of(TABLE)) + "\n" == SHOWN
    (tmp_path / "table.md").write_text(SHOWN)
    assert gate_times.read_table(tmp_path / "table.md") == TABLE


def test_processes() -> None:
    """A child and its own child are found, each with the seconds that it has taken itself."""
    inner = "import sys; print(sum(range(3_000_000)), flush=True); sys.stdin.read()"
    outer = f"import subprocess, sys; subprocess.run([sys.executable, '-c', {inner!r}])"
    with subprocess.Popen([sys.executable, "-c", outer], stdin=subprocess.PIPE, stdout=subprocess.PIPE) as child:
        assert child.stdin and child.stdout and child.stdout.readline()
        found = {process.number: process for process in gate_times.descendants(os.getpid())}
        meter = Meter()
        meter.look(os.getpid())
        child.stdin.close()
    assert child.pid in found and found[child.pid].seconds >= 0
    assert set(found) <= {number for number, _ in meter.seconds}
    assert meter.table() == {}


def test_other_processes() -> None:
    assert gate_times.look_at(0) is None
    assert list(gate_times.children(0)) == []
