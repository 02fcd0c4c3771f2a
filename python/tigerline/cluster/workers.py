"""Runs tasks on this machine, several at once.

`extractd` does nearly all of the work, in processes of its own. So threads wait for it.
"""

from collections.abc import Generator, Sequence
from concurrent.futures import ThreadPoolExecutor
from typing import Any

from ..interrupts import Interrupts
from .batch import AnyTask, completed


def run_here(
    workers: int, tasks: Sequence[AnyTask], interrupts: Interrupts
) -> Generator[tuple[AnyTask, Any], None, None]:
    """Yields the tasks with their results as they finish. Raises the exception of the first that fails."""
    with ThreadPoolExecutor(workers) as pool:
        try:
            for task, future in completed(lambda task: pool.submit(task.run, interrupts), tasks, interrupts.check):
                yield task, future.result()
        finally:
            pool.shutdown(wait=False, cancel_futures=True)
