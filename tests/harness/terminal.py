"""A terminal as one of a command's outputs."""

import os
import subprocess
import tempfile
import termios
from collections.abc import Iterator
from typing import NamedTuple

from harness.cases import PATHS


class OnTerminal(NamedTuple):
    """How a command line ended, what the terminal received, and what went to the other output."""

    status: int
    received: bytes
    other: bytes


def run(descriptor: int, command: str) -> OnTerminal:
    """Runs a command line of a shell with a terminal as standard output, which is 1, or standard error, 2."""
    terminal, device = os.openpty()
    # Line feeds stay as they are.
    mode = termios.tcgetattr(device)
    mode[1] &= ~termios.OPOST
    termios.tcsetattr(device, termios.TCSANOW, mode)
    with tempfile.TemporaryFile() as other:
        output, error = (device, other.fileno()) if descriptor == 1 else (other.fileno(), device)
        process = subprocess.Popen(
            ["bash", "-c", command],
            env={**os.environ, **PATHS, "LC_ALL": "C"},
            stdin=subprocess.DEVNULL,
            stdout=output,
            stderr=error,
        )
        os.close(device)
        received = b"".join(_pieces(terminal))
        os.close(terminal)
        status = process.wait()
        other.seek(0)
        return OnTerminal(status, received, other.read())


def _pieces(terminal: int) -> Iterator[bytes]:
    """Yields the pieces that the terminal receives, until no process has it open."""
    while True:
        try:
            piece = os.read(terminal, 65536)
        except OSError:
            return
        if not piece:
            return
        yield piece
