"""The tests of the package in Python, by pytest where it is installed, on the program that is given; and its types, by mypy."""
import os
import re
import shutil
import signal
import subprocess
import sys
import tempfile

from lacking import lacks, untried
from ranges import beside

TOP = os.path.join(os.path.dirname(os.path.abspath(__file__)), '..')
LONGEST = 1500  # seconds for all tests of the package; each test has a limit of its own (python/tests/conftest.py)


def python_with(module):
    """A Python that has this module: Debian's, for which its packages are, or the one that runs this; None where neither has it."""
    for python in ('/usr/bin/python3', sys.executable):
        if os.path.exists(python) and subprocess.run([python, '-c', 'import %s' % module], capture_output=True, timeout=60).returncode == 0:
            return python
    return None


def ended(words, log, seconds, **more):
    """The status of a command whose output goes to a file, or None where it takes longer; it is then ended with all that it began, and pytest writes the stacks
    of its threads before."""
    with open(log, 'wb') as file:
        run = subprocess.Popen(words, stdin=subprocess.DEVNULL, stdout=file, stderr=file, start_new_session=True, **more)
    try:
        return run.wait(seconds)
    except subprocess.TimeoutExpired:
        run.send_signal(signal.SIGABRT)
        try:
            run.wait(20)
        except subprocess.TimeoutExpired:
            pass
        return None
    finally:
        try:
            os.killpg(run.pid, signal.SIGKILL)
        except ProcessLookupError:
            pass
        run.wait()


def too_long(text, seconds):
    """What is told of tests that took too long: which one was under way, the stacks, and the last lines."""
    lines = [line for line in text.split('\n') if not re.match(r'  File "[^"]*/(_pytest|pluggy)/', line)]
    begun = [line for line in lines if re.match(r'tests/\S+\.py::', line)]
    at = begun[-1] if begun else 'none yet'
    return 'the tests of the package were ended behind %d seconds; under way was %s\n%s' % (seconds, at, '\n'.join(lines)[-6000:])


def package(program):
    """All tests of the package pass; what is skipped, for want of a package of Debian's or of a machine that can do it, is told."""
    python = python_with('pytest')
    if python is None:
        untried('the tests of the package in Python', 'python3-pytest')
        return ''
    with tempfile.TemporaryDirectory() as work:
        words = [python, '-m', 'pytest', '-v', '-rs', '--durations=10', '-p', 'no:cacheprovider', '--basetemp', os.path.join(work, 'tests'), 'tests']
        log = os.path.join(work, 'log')
        status = ended(words, log, LONGEST, cwd=os.path.join(TOP, 'python'),
                       env=dict(os.environ, SCICOS=os.path.abspath(program), SCICOS_RANGES=beside(program),
                                PYTHONDONTWRITEBYTECODE='1'))
        with open(log, encoding='utf-8', errors='replace') as file:
            text = file.read()
    if status is None:
        return too_long(text, LONGEST)
    skipped = {}
    for count, reason in re.findall(r'^SKIPPED \[(\d+)\] \S+ (.*)$', text, re.M):
        skipped[reason] = skipped.get(reason, 0) + int(count)
    for reason, count in skipped.items():
        untried('%d tests of the package' % count, reason)
    passed = re.search(r'(\d+) passed', text)
    if status == 0 and passed and int(passed.group(1)) > 50:
        return ''
    failed = re.findall(r'^(tests/\S+\.py::.*(?:FAILED|ERROR).*)$', text, re.M)
    return 'pytest ended with status %d\n%s\n%s' % (status, '\n'.join(failed[:40]), text[-6000:])


def package_types(program):
    """The package keeps mypy's strict rules, where mypy is installed."""
    if lacks("the package's types", 'mypy'):
        return ''
    with tempfile.TemporaryDirectory() as work:
        run = subprocess.run([shutil.which('mypy'), '--strict', '--cache-dir', work, 'scicos'], cwd=os.path.join(TOP, 'python'), capture_output=True,
                             text=True, timeout=600)
    return '' if run.returncode == 0 else run.stdout[-3000:]
