"""Delays signals such as Ctrl-C while files and processes are open, so that none of them is left over."""

import os
import signal
import subprocess
import threading
from collections.abc import Iterator
from contextlib import contextmanager, suppress
from types import FrameType
from typing import Any, Self

STOPPING = (signal.SIGINT, signal.SIGTERM, signal.SIGHUP)


class Interrupts:
    """Holds signals back until the end of a `with` block, which then ends as if the signal had just arrived.

    Otherwise Ctrl-C would raise KeyboardInterrupt between any two steps, for example after a folder is made and before
    its removal is ensured. Outside of the main thread, where Python handles no signals, this does nothing.
    """

    def __init__(self, *signals: signal.Signals) -> None:
        self._signals = signals or (signal.SIGINT,)
        self._previous: dict[signal.Signals, Any] = {}
        self._arrived: int | None = None
        self._processes: dict[subprocess.Popen[bytes], int] = {}

    def __enter__(self) -> Self:
        if threading.current_thread() is threading.main_thread():
            for number in self._signals:
                previous = signal.getsignal(number)
                if previous not in (signal.SIG_IGN, None):
                    self._previous[number] = previous
                    signal.signal(number, self._note)
        return self

    def __exit__(self, *_: object) -> None:
        for number, previous in self._previous.items():
            signal.signal(number, previous)
        if self._arrived is not None:
            signal.raise_signal(self._arrived)

    def _note(self, number: int, frame: FrameType | None) -> None:
        self._arrived = number
        for process, stop in tuple(self._processes.items()):
            kill_group(process, stop)

    def check(self) -> None:
        """Raises KeyboardInterrupt if a signal has arrived."""
        if self._arrived is not None:
            raise KeyboardInterrupt

    @contextmanager
    def watching(self, process: subprocess.Popen[bytes], stop: int = signal.SIGKILL) -> Iterator[None]:
        """Kills a process and its group when a signal arrives, or if the block ends before the process, by the signal `stop`.

        Several threads may watch processes of their own.
        """
        self._processes[process] = stop
        try:
            if self._arrived is not None:
                kill_group(process, stop)
            yield
        finally:
            del self._processes[process]
            if process.returncode is None:
                kill_group(process, stop)


def kill_group(process: subprocess.Popen[bytes], stop: int = signal.SIGKILL) -> None:
    """Kills a process that leads a group, and the processes that it has started."""
    with suppress(ProcessLookupError):
        os.killpg(process.pid, stop)
