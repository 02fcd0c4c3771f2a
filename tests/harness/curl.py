"""Requests by curl."""

import subprocess
from pathlib import Path
from typing import NamedTuple

# A reply that takes longer isn't waited for. Those of a busy machine are late.
SECONDS = 120


class Reply(NamedTuple):
    """A reply's status and body. The status is 000 if there was no reply."""

    status: str
    body: bytes


def command_of(*arguments: str) -> list[str]:
    """Returns a command that ignores the user's settings, and writes the body to standard output and the status to standard error."""
    return ["curl", "-q", "-k", "-s", "-m", str(SECONDS), "-w", "%{stderr}%{http_code}", *arguments]


def ask(*arguments: str, folder: Path | None = None) -> Reply:
    """Sends a request with files of a folder."""
    done = subprocess.run(command_of(*arguments), cwd=folder, stdin=subprocess.DEVNULL, capture_output=True)
    return Reply(done.stderr.decode(), done.stdout)
