"""Runs tasks on the workers of a dask.distributed scheduler.

The scheduler runs a task again if its worker dies. This module connects, waits for results, and reports failures.
"""

import logging
import time
import warnings
from collections.abc import Callable, Generator, Iterator, Sequence
from contextlib import closing, contextmanager, suppress
from typing import Any

from ..extract import CountyTexts, Output, Request, reported
from ..interrupts import Interrupts
from ..optional import required
from ..progress import with_progress
from .batch import LOOK_SECONDS, AnyTask, CountyTask, completed, county_tasks, run_task

CONNECT_SECONDS = 3
WORKER_SECONDS = 3
CLOSE_SECONDS = 2


def run_there(
    address: str, tasks: Sequence[AnyTask], interrupts: Interrupts
) -> Generator[tuple[AnyTask, Any], None, None]:
    """Yields the tasks with their results as they finish. Raises the exception of the first that fails."""
    with connected(address, interrupts.check) as client:
        yield from results(client, tasks, interrupts.check)


@contextmanager
def connected(address: str, check: Callable[[], None]) -> Iterator[Any]:
    """Connects to a scheduler. Raises OSError if none answers within some seconds, and warns if it has no worker."""
    distributed: Any = required("distributed")
    logging.disable(logging.CRITICAL)  # Failures are raised.
    try:
        distributed.comm.get_address_host_port(distributed.comm.normalize_address(address), strict=True)
        client = distributed.Client(address, timeout=CONNECT_SECONDS, set_as_default=False)
    except (OSError, ValueError) as error:
        raise OSError(f"no scheduler answers at {address}: {error}") from None
    try:
        deadline = time.monotonic() + WORKER_SECONDS
        while not (has_workers := client.scheduler_info()["workers"]) and time.monotonic() < deadline:
            check()
            time.sleep(LOOK_SECONDS)
        if not has_workers:
            warnings.warn(f"the scheduler at {address} has no workers yet: waiting for one", stacklevel=2)
        yield client
    finally:
        with suppress(Exception):
            client.close(CLOSE_SECONDS)


def results(
    client: Any, tasks: Sequence[AnyTask], check: Callable[[], None]
) -> Generator[tuple[AnyTask, Any], None, None]:
    """Yields the tasks with their results as they finish, and cancels the others if one fails."""

    def check_all() -> None:
        check()
        if client.status != "running":
            raise OSError("the scheduler has gone away")

    futures = {}

    def submit(task: AnyTask) -> Any:
        futures[task.code] = client.submit(run_task, task, pure=False)
        return futures[task.code]

    try:
        for task, future in completed(submit, tasks, check_all):
            with _failures(task.code):
                result = future.result()
            del futures[task.code]
            yield task, result
    finally:
        with suppress(Exception):
            client.cancel(list(futures.values()), force=True)


@contextmanager
def _failures(code: str) -> Iterator[None]:
    """Makes failures of workers and of the scheduler those of a county."""
    distributed: Any = required("distributed")
    try:
        yield
    except distributed.KilledWorker as error:
        # The scheduler also blames the counties that were waiting at these workers.
        raise OSError(f"county {code}: each worker that had it died, the last at {error.last_worker.address}") from None
    except (distributed.CancelledError, distributed.comm.CommClosedError):
        raise OSError(f"the scheduler has gone away, or has canceled county {code}") from None
    except ModuleNotFoundError as error:
        raise OSError(f"a worker has no module {error.name}: all workers need the package tigerline") from None


def tasks_of(client: Any, request: Request, outputs: Sequence[Output]) -> list[CountyTask]:
    """Returns one task per county for the workers of a client."""
    if not isinstance(client, required("distributed").Client) or client.asynchronous:
        raise ValueError("client= is a dask.distributed.Client that isn't asynchronous")
    with Interrupts() as interrupts:
        return county_tasks(request, outputs, interrupts)


def extract(client: Any, request: Request, outputs: Sequence[Output], progress: bool) -> list[CountyTexts]:
    """Returns the texts of each county in order. The workers of a client write them."""
    tasks = tasks_of(client, request, outputs)
    with closing(results(client, tasks, lambda: None)) as ran:
        found = {task.code: texts for task, texts in with_progress(ran, len(tasks), "county", progress)}
    return [reported(found[task.code]) for task in tasks]
