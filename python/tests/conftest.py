"""What the tests share: the program, where one is found, the examples of the repository, and the longest time that a test may take."""
from __future__ import annotations

import contextlib
import faulthandler
import signal
import sys
from collections.abc import Iterator
from pathlib import Path

import pytest

TOP = Path(__file__).resolve().parents[2]
sys.path.insert(0, str(TOP / "python"))

LONGEST = 120.0  # seconds for each of setup, call and teardown of a test, where its mark `longest` says no other
AGAIN = 30.0  # seconds behind which a test that goes on is ended again

# A shell lets what it starts in the background ignore Ctrl-C, and what that starts too; the tests send it. Others begin what they start with signals blocked.
if signal.getsignal(signal.SIGINT) is signal.SIG_IGN:
    signal.signal(signal.SIGINT, signal.default_int_handler)
for number in (signal.SIGCHLD, signal.SIGTERM):
    if signal.getsignal(number) is signal.SIG_IGN:
        signal.signal(number, signal.SIG_DFL)
signal.pthread_sigmask(signal.SIG_SETMASK, set())

from scicos.errors import MissingError  # noqa: E402
from scicos.program import Program, find  # noqa: E402


@contextlib.contextmanager
def limited(item: pytest.Item, phase: str) -> Iterator[None]:
    """Ends a part of a test that takes too long: it fails with a sentence, and with the stacks of all threads on standard error."""
    mark = item.get_closest_marker("longest")
    seconds = float(mark.args[0]) if mark else LONGEST
    told = False

    def late(number: int, frame: object) -> None:
        nonlocal told
        if not told and sys.__stderr__:
            faulthandler.dump_traceback(sys.__stderr__)
        told = True
        pytest.fail(f"{item.nodeid} takes too long: its {phase} was ended behind {seconds:g} seconds")
    before = signal.signal(signal.SIGALRM, late)
    signal.setitimer(signal.ITIMER_REAL, seconds, AGAIN)
    try:
        yield
    finally:
        signal.setitimer(signal.ITIMER_REAL, 0)
        signal.signal(signal.SIGALRM, before)


@pytest.hookimpl(hookwrapper=True)
def pytest_runtest_setup(item: pytest.Item) -> Iterator[None]:
    """The limit of a setup."""
    with limited(item, "setup"):
        yield


@pytest.hookimpl(hookwrapper=True)
def pytest_runtest_call(item: pytest.Item) -> Iterator[None]:
    """The limit of a call."""
    with limited(item, "call"):
        yield


@pytest.hookimpl(hookwrapper=True)
def pytest_runtest_teardown(item: pytest.Item) -> Iterator[None]:
    """The limit of a teardown."""
    with limited(item, "teardown"):
        yield


@pytest.fixture(scope="session")
def program() -> Program:
    """The program; a test that wants it is skipped where there is none."""
    try:
        return find()
    except MissingError as error:
        pytest.skip(str(error))


@pytest.fixture(scope="session")
def examples() -> Path:
    """The folder of the examples."""
    return TOP / "examples"
