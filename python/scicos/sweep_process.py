"""The workers of a sweep on this machine: a Python that is begun for the sweep, has one thread, and forks a worker
for each socket that comes to it. A worker takes runs through its socket, and ends where that closes."""
from __future__ import annotations

import contextlib
import os
import queue
import signal
import socket
import sys
import threading
from multiprocessing.connection import Connection

from scicos.sweep_runs import FAILED, Result, Task, stop, work


def begin(number: int) -> None:
    """Begins workers for the sweep at the other end of the socket of this number, and ends when all of them have
    ended."""
    signal.signal(signal.SIGCHLD, signal.SIG_DFL)
    signal.pthread_sigmask(signal.SIG_SETMASK, set())  # what the sweep blocks is nothing to the programs
    with socket.socket(fileno=number) as sweep, contextlib.suppress(ConnectionError):
        while (got := socket.recv_fds(sweep, 1, 1))[0]:
            _fork(sweep, got[1][0])
            _reap(os.WNOHANG)
    _reap(0)


def _reap(how: int) -> None:
    """Takes the workers that have ended; where that is asked for, waits for all."""
    with contextlib.suppress(ChildProcessError):
        while os.waitpid(-1, how)[0]:
            pass


def _fork(sweep: socket.socket, number: int) -> None:
    """Begins a worker; where this machine has no more processes, its socket closes, which the sweep sees."""
    with contextlib.suppress(OSError):
        if os.fork() == 0:
            status = 1
            try:
                sweep.close()
                serve(number)
                status = 0
            finally:
                os._exit(status)
    os.close(number)


def serve(number: int) -> None:
    """Does the runs that come through the socket of this number, one after the other."""
    signal.signal(signal.SIGTERM, lambda *_: sys.exit(143))
    there, tasks = Connection(number), queue.SimpleQueue[Task | None]()
    threading.Thread(target=_take, args=(there, tasks), daemon=True).start()
    _tell(there, None)  # that it has begun
    while (task := tasks.get()) is not None:
        try:
            result = work(task)
        except Exception as error:  # a fault of this package fails this run alone
            result = Result(task.number, FAILED, why=f"{type(error).__name__}: {error}", status=70)
        _tell(there, result)


def _take(there: Connection, tasks: queue.SimpleQueue[Task | None]) -> None:
    """Takes runs until the socket is closed, by the sweep or by its end; the run that is under way ends then
    too."""
    with contextlib.suppress(EOFError, OSError):
        while True:
            tasks.put(there.recv())
    stop()
    tasks.put(None)


def _tell(there: Connection, what: Result | None) -> None:
    """Tells the sweep something, if it is there yet."""
    with contextlib.suppress(OSError):
        there.send(what)
