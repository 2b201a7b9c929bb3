"""The processors of this machine as those who do the runs of a sweep. The workers are forked by a process that is
begun for the sweep (`scicos.sweep_process`), and not by this one, whose threads may hold locks."""
from __future__ import annotations

import os
import signal
import socket
import subprocess
import sys
import tempfile
from collections.abc import Sequence
from contextlib import suppress
from multiprocessing.connection import Connection, Pipe, wait

from scicos.errors import MissingError
from scicos.sweep_runs import Result, Task

CODE = "import sys; sys.path[:] = {path!r}; from scicos.sweep_process import begin; begin({number})"
GRACE = 20.0  # seconds in which the workers take away their files, when the sweep has closed their sockets


class Died(Exception):
    """A worker has died with a run."""


class Worker:
    """The sweep's end of the socket of a worker, and the run that it does."""

    def __init__(self, here: Connection) -> None:
        self.here = here
        self.begun = False
        self.task: Task | None = None

    def give(self, task: Task) -> None:
        """Hands over a run; where the worker has died, that is seen when its result is taken."""
        self.task = task
        with suppress(OSError):
            self.here.send(task)

    def take(self) -> Result | Died | None:
        """The result of the run; None where the worker tells only that it has begun."""
        try:
            told: Result | None = self.here.recv()
        except (EOFError, OSError):
            self.here.close()
            if not self.begun:
                raise MissingError("the workers of the sweep can't be begun: is there memory for them, and may there be "
                                   "more processes?") from None
            return Died()
        self.begun = True
        return told


class Local:
    """The processors of this machine, a worker for each; they are in a process group of their own, as Ctrl-C is for
    the sweep, which then closes their sockets."""

    def __init__(self, count: int | None = None) -> None:
        self.count = count or len(os.sched_getaffinity(0))
        self.workers: list[Worker] = []
        self.sweep, there = socket.socketpair()
        words = [sys.executable, "-P", *(["-B"] if sys.dont_write_bytecode else []), "-c",
                 CODE.format(path=sys.path, number=there.fileno())]
        with there:
            try:
                self.process = subprocess.Popen(words, pass_fds=[there.fileno()], stdin=subprocess.DEVNULL,
                                                stdout=subprocess.DEVNULL, process_group=0,
                                                env={**os.environ, "TMPDIR": tempfile.gettempdir()})
            except OSError as error:
                self.sweep.close()
                raise MissingError(f"the workers of the sweep can't be begun: {error.strerror}") from None

    def most(self) -> int:
        """A run for each worker, so that one that dies loses no other."""
        return self.count

    def submit(self, task: Task) -> None:
        """Hands over a run, to a worker that has none."""
        worker = next((worker for worker in self.workers if worker.task is None), None) or self.another()
        worker.give(task)

    def another(self) -> Worker:
        """Another worker."""
        here, there = Pipe()
        with there, suppress(OSError):  # where nobody takes the socket any more, it closes
            socket.send_fds(self.sweep, [b"x"], [there.fileno()])
        self.workers.append(Worker(here))
        return self.workers[-1]

    def done(self) -> Sequence[tuple[Task, Result | BaseException]]:
        """The runs that are done, or lost with their worker, when there are some; none behind a second."""
        ready = wait([worker.here for worker in self.workers if worker.task], timeout=1.0)
        found: list[tuple[Task, Result | BaseException]] = []
        for worker in [worker for worker in self.workers if worker.here in ready]:
            told = worker.take()
            if told and worker.task:
                found.append((worker.task, told))
                worker.task = None
            if isinstance(told, Died):
                self.workers.remove(worker)
        return found

    def look(self, failed: BaseException | None) -> None:
        """Nothing has to be mended: in place of a worker that has died another begins with the next run."""

    def close(self, now: bool) -> None:
        """Ends the workers, and what they are doing; those that don't end in time are killed."""
        for worker in self.workers:
            worker.here.close()
        self.workers = []
        self.sweep.close()
        try:
            self.process.wait(GRACE)
        except subprocess.TimeoutExpired:
            with suppress(ProcessLookupError):
                os.killpg(self.process.pid, signal.SIGKILL)
            self.process.wait()
