"""Imports a county in a process of its own, whose input and output are pickled."""

import pickle
import signal
import sys
from dataclasses import dataclass
from pathlib import Path

from ..interrupts import STOPPING, Interrupts
from ..program import run_process
from .county import ImportTask, Report

FAULTS = (OSError, ValueError, MemoryError)
# Finds this package where it is now.
PROGRAM = f"import sys; sys.path.insert(0, {str(Path(__file__).parents[2])!r}); from {__name__} import main; main()"


@dataclass(frozen=True)
class ProcessTask:
    """A task that runs in a process of its own, as Python does its work in one thread."""

    task: ImportTask

    @property
    def code(self) -> str:
        """The county's code."""
        return self.task.code

    def run(self, interrupts: Interrupts) -> Report:
        """Runs the task, and returns its report or raises its exception."""
        command = [sys.executable, "-c", PROGRAM]
        status, output, said = run_process(command, interrupts, pickle.dumps(self.task), stop=signal.SIGTERM)
        if status != 0:
            raise OSError(f"county {self.code}: its process ended with status {status}: {said[-200:]}")
        result: Report | Exception = pickle.loads(output)
        if isinstance(result, Exception):
            raise result
        return result


def main() -> None:
    """Runs the task on standard input."""
    with Interrupts(*STOPPING) as interrupts:
        task: ImportTask = pickle.load(sys.stdin.buffer)
        try:
            result: Report | Exception = task.run(interrupts)
        except FAULTS as error:
            result = error
    sys.stdout.buffer.write(pickle.dumps(result))
