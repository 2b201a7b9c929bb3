"""The limits of the tests themselves: one that takes too long fails, says so, and the next one runs."""
from __future__ import annotations

import os
import shutil
import subprocess
import sys
from pathlib import Path

from conftest import TOP
from waiting import of_command, of_session, running, until

SLOW = """
import threading, time
import pytest

@pytest.mark.longest(0.5)
def test_lock():
    lock = threading.Lock()
    lock.acquire()
    lock.acquire()

@pytest.mark.longest(0.5)
def test_caught():
    try:
        time.sleep(60)
    except Exception:
        pass

@pytest.fixture()
def slow():
    yield
    time.sleep(60)

@pytest.mark.longest(0.5)
def test_teardown(slow):
    pass

def test_behind():
    pass
"""


def test_a_test_that_takes_too_long_fails(tmp_path: Path) -> None:
    folder = tmp_path / "python" / "tests"
    folder.mkdir(parents=True)
    shutil.copy(Path(__file__).with_name("conftest.py"), folder)
    (folder / "test_slow.py").write_text(SLOW)
    ran = subprocess.run([sys.executable, "-m", "pytest", "-v", "-p", "no:cacheprovider", "."], cwd=folder, capture_output=True, text=True, timeout=100,
                         env={**os.environ, "PYTHONPATH": str(TOP / "python")})
    assert ran.returncode == 1 and "2 failed, 2 passed" in ran.stdout and "1 error" in ran.stdout, ran.stdout
    for test, phase in (("lock", "call"), ("caught", "call"), ("teardown", "teardown")):
        assert f"test_slow.py::test_{test} takes too long: its {phase} was ended behind 0.5 seconds" in ran.stdout
    assert 'test_slow.py", line 9 in test_lock' in ran.stdout


def test_processes_are_found(tmp_path: Path) -> None:
    path = tmp_path / "sleep"
    path.write_text("#!/bin/sh\nsleep 600 & wait\n")
    path.chmod(0o755)
    with running([str(path)]) as process:
        until(lambda: len(of_session(process.pid)) == 2, process)
        until(lambda: of_command(str(path)) == [process.pid], process)  # a child that has just been forked has its parent's words
    until(lambda: of_session(process.pid) == [])
