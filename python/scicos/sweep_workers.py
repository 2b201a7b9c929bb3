"""Who does the runs of a sweep: the processors of this machine (`scicos.sweep_local`), or a cluster of
dask.distributed; a worker that dies has its runs done again."""
from __future__ import annotations

import contextlib
import itertools
import time
from collections import Counter
from collections.abc import Iterable, Iterator, Sequence
from concurrent.futures import CancelledError, Executor, Future, wait
from typing import Any, Protocol

from scicos.errors import MissingError, needed
from scicos.sweep_local import Died
from scicos.sweep_runs import FAILED, Result, Task, work

TRIES = 3  # how often a run may lose its worker
PATIENCE = 15.0  # seconds in which a cluster without workers may get one


class Machine(Protocol):
    """What does runs."""

    def most(self) -> int:
        """How many runs are handed over at once."""

    def submit(self, task: Task) -> None:
        """Hands over a run."""

    def done(self) -> Sequence[tuple[Task, Result | BaseException]]:
        """The runs that are done, each with its result or what went wrong with its worker; waits a second for
        one."""

    def look(self, failed: BaseException | None) -> None:
        """Mends what can be mended, or raises the sentence for what can't."""

    def close(self, now: bool) -> None:
        """Ends the workers; with `now` also what they are doing."""


def load_distributed() -> Any:
    """dask.distributed, or a sentence where it isn't installed."""
    try:
        import distributed
    except ImportError:
        raise needed("distributed", "a sweep on a cluster") from None
    return distributed


class Cluster:
    """A cluster of dask.distributed, by the address of its scheduler or by a client of it."""

    def __init__(self, cluster: Any) -> None:
        distributed = load_distributed()
        self.own = isinstance(cluster, str)
        try:
            self.client = distributed.Client(cluster, timeout=5) if self.own else cluster
        except (OSError, ValueError, TypeError) as error:
            raise MissingError(f"the cluster at {cluster} doesn't answer ({error}): look at its address, as "
                               "tcp://host:8786, "
                               "and at its scheduler") from None
        self.executor: Executor = self.client.get_executor(pure=False)
        self.waiting: dict[Future[Result], Task] = {}

    def threads(self) -> int:
        """How many runs the cluster can do at once."""
        workers = self.client.scheduler_info()["workers"] if self.client.status == "running" else {}
        return sum(worker["nthreads"] for worker in workers.values())

    def most(self) -> int:
        """Some more than can be done at once, so that no worker waits."""
        return max(4, 3 * self.threads())

    def submit(self, task: Task) -> None:
        """Hands over a run."""
        self.waiting[self.executor.submit(work, task)] = task

    def done(self) -> Sequence[tuple[Task, Result | BaseException]]:
        """The runs that are done, or lost with their worker, when there are some; none behind a second."""
        done, _ = wait(self.waiting, timeout=1.0, return_when="FIRST_COMPLETED")
        return [(self.waiting.pop(future), error_of(future) or future.result()) for future in done]

    def look(self, failed: BaseException | None) -> None:
        """A sentence where the cluster has had no worker for some time, where it is gone, or lacks the
        package."""
        if isinstance(failed, ImportError):
            raise MissingError(f"the workers of the cluster can't load this package ({failed}): say its "
                               "folder in PYTHONPATH where "
                               "they are begun")
        until = time.monotonic() + PATIENCE
        while not self.threads():
            if time.monotonic() > until:
                state = "has no worker" if self.client.status == "running" else "answers no more"
                raise MissingError(f"the cluster {state}: begin its "
                                   "workers again; a journal keeps the runs that are done, and begun again, "
                                   "the sweep goes on from there")
            time.sleep(0.2)

    def close(self, now: bool) -> None:
        """Takes back what isn't done; a client that was given stays."""
        with contextlib.suppress(OSError):
            self.executor.shutdown(wait=False)
        if self.own:
            self.client.close(timeout=5)


def lost(task: Task, failed: BaseException) -> Result:
    """The result of a run that has lost its worker too often."""
    died = isinstance(failed, Died)
    reason = "its worker died each time" if died else f"{type(failed).__name__}: {failed}"
    return Result(task.number, FAILED, why=f"the run was begun {TRIES} times: {reason}", status=70)


def error_of(future: Future[Result]) -> BaseException | None:
    """What went wrong with a run's worker, if anything."""
    return CancelledError("its worker was taken away") if future.cancelled() else future.exception()


def completed(machine: Machine, tasks: Iterable[Task]) -> Iterator[Result]:
    """The results of tasks as they come. Runs that were lost with a worker are done again, one after the
    other, as one of them may have ended it."""
    source, again, tries, waiting = iter(tasks), list[Task](), Counter[int](), 0
    while True:
        while again and not waiting or not again and waiting < machine.most():
            for task in [again.pop(0)] if again else itertools.islice(source, 1):
                machine.submit(task)
                waiting += 1
                break
            else:
                break
        if not waiting:
            return
        failed: BaseException | None = None
        found = machine.done()
        for task, result in found:
            waiting -= 1
            if isinstance(result, Result):
                yield result
                continue
            failed = result
            tries[task.number] += 1
            if tries[task.number] < TRIES:
                again.append(task)
            else:
                yield lost(task, result)
        if failed or not found:
            machine.look(failed)
