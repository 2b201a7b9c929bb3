"""Waiting in tests, always to a deadline: for something to become true, for a process to end, and for processes to be gone."""
from __future__ import annotations

import contextlib
import os
import signal
import subprocess
import time
from collections.abc import Callable, Iterator, Sequence
from pathlib import Path
from typing import Any

import pytest

LONGEST = 60.0  # seconds, on a machine that is busy


def until(true: Callable[[], object], process: subprocess.Popen[str] | None = None, seconds: float = LONGEST) -> None:
    """Waits until something is true, as long as a process runs."""
    end = time.monotonic() + seconds
    while not true():
        assert process is None or process.poll() is None, f"the process ended with status {process.returncode}"
        assert time.monotonic() < end, f"it didn't come in {seconds:g} seconds"
        time.sleep(0.02)


@contextlib.contextmanager
def running(words: Sequence[str], **more: Any) -> Iterator[subprocess.Popen[str]]:
    """A process in a session of its own, which is killed at the end of the block with all of its process group."""
    process = subprocess.Popen(words, text=True, start_new_session=True, **more)
    try:
        yield process
    finally:
        with contextlib.suppress(ProcessLookupError):
            os.killpg(process.pid, signal.SIGKILL)
        process.wait(LONGEST)
        for stream in (process.stdin, process.stdout, process.stderr):
            if stream:
                stream.close()


def processes(wanted: Callable[[Path, list[str]], bool]) -> list[int]:
    """The processes that are wanted, by their folder in /proc and what stands in `stat` behind the name; one that has ended is none."""
    found = []
    for folder in Path("/proc").glob("[0-9]*"):
        with contextlib.suppress(OSError):
            words = (folder / "stat").read_text(errors="replace").rpartition(")")[2].split()
            if words[0] not in "ZX" and wanted(folder, words):
                found.append(int(folder.name))
    return found


def of_session(session: int) -> list[int]:
    """The processes of a session."""
    return processes(lambda folder, words: int(words[3]) == session)


def of_command(path: str) -> list[int]:
    """The processes that have a path in their command line."""
    return processes(lambda folder, words: os.fsencode(path) in (folder / "cmdline").read_bytes().split(b"\0"))


def none_left(session: int) -> None:
    """Waits until no process of a session is left."""
    end = time.monotonic() + LONGEST
    while of_session(session):
        if time.monotonic() > end:
            pytest.fail("workers are left")
        time.sleep(0.1)
