"""The workers of a sweep on this machine: what they don't depend on, and that they can't keep a sweep from ending."""
from __future__ import annotations

import os
import signal
import subprocess
import sys
import time
from pathlib import Path

import pytest
from sweeping import due, written
from test_cli import TOP
from test_sweep_journal import GAINS, begun, counting
from waiting import of_command, until

from scicos import sweep_local
from scicos.errors import MissingError
from scicos.program import Program
from scicos.sweep import Sweep

ALONE = """
import sys, threading
from scicos.sweep import sweep
threading.Thread(target=threading.Event().wait, daemon=True).start()
sys.modules["_multiprocessing"].SemLock = None  # as on a machine without semaphores
found = sweep("design.py", inputs=["in01.json", "in02.json"], parameters={"gain": [1, 2, 3]}, until=60, rows=["last speed"], workers=2)
print(*[row.values[0] for row in found.rows])
"""


def is_right(found: Sweep, count: int) -> bool:
    """Whether a sweep has the rows that are due."""
    return [(row.end, list(row.values)) for row in found.rows] == [(end, values) for _, _, end, values, _ in due(GAINS, count)]


def test_signals_that_are_blocked(tmp_path: Path, program: Program) -> None:
    written(tmp_path, 5)
    once = counting(tmp_path, program, f'case "$3" in *in03*) [ -e "{tmp_path}/once" ] || {{ : > "{tmp_path}/once"; kill -9 $PPID; }};; esac')
    before = signal.pthread_sigmask(signal.SIG_BLOCK, {signal.SIGINT, signal.SIGTERM, signal.SIGCHLD, signal.SIGUSR1})
    try:
        found = begun(tmp_path, once, workers=2)
    finally:
        signal.pthread_sigmask(signal.SIG_SETMASK, before)
    assert is_right(found, 5) and (tmp_path / "once").exists()


def test_a_script_with_threads_and_no_semaphores(tmp_path: Path, program: Program) -> None:
    written(tmp_path, 2)
    (tmp_path / "all.py").write_text(ALONE)
    ran = subprocess.run([sys.executable, "all.py"], cwd=tmp_path, capture_output=True, text=True, timeout=100,
                         env={**os.environ, "SCICOS": program.path, "PYTHONPATH": str(TOP / "python")})
    assert (ran.returncode, ran.stderr) == (0, "") and ran.stdout.split() == [str(values[0]) for _, _, _, values, _ in due(GAINS, 2)]


@pytest.mark.parametrize("python, told", [("/bin/false", "can't be begun: is there memory"), ("/none/python", "can't be begun: No such file")])
def test_workers_that_cannot_begin(python: str, told: str, tmp_path: Path, program: Program, monkeypatch: pytest.MonkeyPatch) -> None:
    written(tmp_path, 1)
    monkeypatch.setattr(sys, "executable", python)
    with pytest.raises(MissingError, match=told):
        begun(tmp_path, program)


def test_a_worker_that_does_not_end(tmp_path: Path, program: Program, monkeypatch: pytest.MonkeyPatch) -> None:
    """One that is stopped is killed when the sweep ends by Ctrl-C, and so is its program."""
    monkeypatch.setattr(sweep_local, "GRACE", 0.5)
    written(tmp_path, 3)
    stopped = counting(tmp_path, program, 'case "$3" in *in01*) kill -STOP $PPID; sleep 600;; esac')

    def interrupt(done: int, total: int) -> None:
        raise KeyboardInterrupt
    begin = time.monotonic()
    with pytest.raises(KeyboardInterrupt):
        begun(tmp_path, stopped, workers=2, progress=interrupt)
    assert time.monotonic() - begin < 100
    until(lambda: of_command(stopped.path) == [])
