"""Processes in sessions of their own."""

import os
import signal
import subprocess
from typing import AnyStr


def output_of(process: subprocess.Popen[AnyStr], seconds: float) -> tuple[AnyStr, AnyStr]:
    """Returns what a process writes to its pipes. If it takes longer, or the test is interrupted, all of its session is killed, and the error is raised."""
    try:
        return process.communicate(timeout=seconds)
    except BaseException:
        os.killpg(process.pid, signal.SIGKILL)
        process.communicate()
        raise
