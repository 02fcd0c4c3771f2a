"""Files of shell tests. Each function `test_..` in such a file is a test, run by shell.sh in a new folder and a process of its own."""

import re
import subprocess
import tempfile
from collections.abc import Iterator
from functools import partial
from pathlib import Path

import pytest

from harness.processes import output_of
from harness.program import TOP
from harness.tables import RowItem

RUNNER = TOP / "tests/harness/shell.sh"
SECONDS = 600
# What shell.sh prints at the end of a test that passes. Without it, nothing was run.
_COUNTS = re.compile(r"^[1-9][0-9]* passed, 0 failed$", re.MULTILINE)
_TEST = re.compile(r"^(test_\w+) *\(\) *\{(?: # needs (.*))?", re.MULTILINE)


class ShellFile(pytest.File):
    def collect(self) -> Iterator[pytest.Item]:
        text = self.path.read_text()
        for match in _TEST.finditer(text):
            line = text.count("\n", 0, match.start()) + 1
            item = RowItem.from_parent(self, name=match[1], line=line, check=partial(self.fault, match[1]))
            item.add_marker(pytest.mark.needs(*(match[2] or "").split()))
            yield item

    def fault(self, test: str) -> str | None:
        """Runs a test, and returns what it prints unless it passes."""
        with tempfile.TemporaryDirectory(prefix="shell.") as folder:
            Path(folder).chmod(0o755)
            process = subprocess.Popen(
                ["bash", str(RUNNER), str(self.path), test],
                cwd=folder,
                stdin=subprocess.DEVNULL,
                stdout=subprocess.PIPE,
                stderr=subprocess.STDOUT,
                text=True,
                errors="replace",
                start_new_session=True,
            )
            try:
                said, _ = output_of(process, SECONDS)
            except subprocess.TimeoutExpired:
                return f"{test} goes on after {SECONDS} seconds"
        is_passed = process.returncode == 0 and _COUNTS.search(said)
        return None if is_passed else said or f"{RUNNER.name} says nothing"
