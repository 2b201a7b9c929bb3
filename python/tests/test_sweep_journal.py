"""The journal of a sweep: ended and begun again, damaged, of another sweep, on a full disk; and workers that die."""
from __future__ import annotations

import fcntl
import os
import resource
import signal
import subprocess
from pathlib import Path
from typing import Any

import pytest
from sweeping import DESIGN, ROWS, due, written
from test_cli import TOP
from waiting import none_left, running, until

from scicos.errors import DataError, WriteError
from scicos.journal import Journal
from scicos.program import Program
from scicos.sweep import Sweep, sweep

GAINS = [1, 2, 3]


def counting(folder: Path, program: Program, before: str = "") -> Program:
    """A program that does what the program does, and first writes down each simulation; `before` stands before that, in the shell."""
    path = folder / "counting"
    path.write_text(f'#!/bin/sh\nif [ "$1" = simulate ]; then\n{before}\necho "$2 $3" >> "{folder}/calls"\nfi\nexec "{program.path}" "$@"\n')
    path.chmod(0o755)
    return Program(str(path))


def calls(folder: Path) -> int:
    """How many simulations there were since this was last asked."""
    path = folder / "calls"
    count = len(path.read_text().splitlines()) if path.exists() else 0
    path.unlink(missing_ok=True)
    return count


def words_of(folder: Path, *more: str) -> list[str]:
    """The command line of a sweep of 3 gains and all input files of a folder."""
    return [str(TOP / "scicos-kit"), "sweep", "design.py", "--set", "gain=1,2,3", "--inputs", *sorted(path.name for path in folder.glob("in*.json")),
            "--until", "60", *[word for row in ROWS for word in ("--row", row)], *more]


def is_right(table: str, count: int) -> bool:
    """Whether a table of CSV has the rows that are due."""
    lines = table.splitlines()
    rows = [f"{at},{gain},in{number:02}.json,{end},{','.join('' if value is None else str(value) for value in values)},"
            for at, (gain, number, end, values, _) in enumerate(due(GAINS, count), 1)]
    return len(lines) == len(rows) + 1 and all(line.startswith(row) for line, row in zip(lines[1:], rows))


@pytest.mark.parametrize("to_group", [False, True])
def test_ended_by_ctrl_c_and_begun_again(to_group: bool, tmp_path: Path, program: Program) -> None:
    written(tmp_path, 10)
    slow, journal = counting(tmp_path, program, "sleep 0.1"), tmp_path / "table.csv.journal"
    words, temporary = words_of(tmp_path, "-o", "table.csv", "--workers", "2"), tmp_path / "temporary"
    temporary.mkdir()
    with running(words, cwd=tmp_path, env={**os.environ, "SCICOS": slow.path, "TMPDIR": str(temporary)}, stderr=subprocess.PIPE) as process:
        until(lambda: journal.exists() and journal.read_bytes().count(b"\n") >= 8, process)
        (os.killpg if to_group else os.kill)(process.pid, signal.SIGINT)
        said = process.communicate(timeout=60)[1]
    kept = journal.read_bytes()
    assert process.returncode == 130 and kept.endswith(b"\n") and 8 <= kept.count(b"\n") < 32
    assert said == f"scicos-kit sweep: ended by Ctrl-C: {kept.count(10) - 2} of 30 runs are done, and kept in table.csv.journal: " \
                   "begun again, the sweep goes on from there\n"
    assert not (tmp_path / "table.csv").exists() and list(temporary.iterdir()) == []
    none_left(process.pid)
    calls(tmp_path)
    journal.write_bytes(kept + b"30,3,in10.json,un")  # a line that isn't whole, as where the machine went down
    again = subprocess.run(words, cwd=tmp_path, env={**os.environ, "SCICOS": slow.path}, capture_output=True, text=True, timeout=120)
    assert (again.returncode, again.stdout) == (0, "") and again.stderr.startswith(f"30 runs, {kept.count(10) - 2} of them from the journal: ")
    assert calls(tmp_path) == 32 - kept.count(b"\n") and is_right((tmp_path / "table.csv").read_text(), 10) and not journal.exists()


def ended(folder: Path, program: Program, after: int = 4, **changes: Any) -> None:
    """A sweep with the table `table.csv` in the folder, which is interrupted behind some rows."""
    def interrupt(done: int, total: int) -> None:
        if done >= after:
            raise KeyboardInterrupt
    with pytest.raises(KeyboardInterrupt):
        begun(folder, program, progress=interrupt, **changes)


def begun(folder: Path, program: Program, **changes: Any) -> Sweep:
    """A sweep with the table `table.csv` in the folder."""
    given = {"inputs": sorted(folder.glob("in*.json")), "parameters": {"gain": GAINS}, "until": 60, "rows": ROWS, **changes}
    return sweep(folder / "design.py", program=program, path=folder / "table.csv", **given)


@pytest.mark.parametrize("changes, told", [
    ({"parameters": {"gain": [1, 2, 4]}}, "the design and parameters have changed"), ({"until": 59}, "the bounds have changed"),
    ({"events": 5}, "the bounds have changed"), ({"rows": ROWS[:2]}, "the rows have changed"), ({"inputs": None}, "the inputs have changed")])
def test_changes_are_told(changes: dict[str, Any], told: str, tmp_path: Path, program: Program) -> None:
    written(tmp_path, 3)
    ended(tmp_path, program)
    kept = (tmp_path / "table.csv.journal").read_bytes()
    with pytest.raises(DataError, match=f"table.csv.journal is the journal of another sweep: since it was begun, {told}"):
        begun(tmp_path, program, **changes)
    assert (tmp_path / "table.csv.journal").read_bytes() == kept
    found = begun(tmp_path, program, **changes, anew=True)
    assert found.again == 0 and not (tmp_path / "table.csv.journal").exists()


def test_changed_files_are_told(tmp_path: Path, program: Program) -> None:
    design, paths = written(tmp_path, 3)
    ended(tmp_path, program)
    paths[1].write_text("[[1, 2, 3]]")
    with pytest.raises(DataError, match="the inputs have changed"):
        begun(tmp_path, program)
    written(tmp_path, 3)
    design.write_text(DESIGN.replace("clock(10)", "clock(20)"))
    with pytest.raises(DataError, match="the design has changed"):
        begun(tmp_path, program)
    design.write_text("# a comment that changes no diagram's block, but its lines\n" + DESIGN)
    with pytest.raises(DataError, match="the design has changed"):
        begun(tmp_path, program)
    written(tmp_path, 3)
    assert begun(tmp_path, counting(tmp_path, program)).again == 4 and calls(tmp_path) == 5


@pytest.mark.parametrize("text, told", [
    (b"date,event\n0,start\n", "is no journal of a sweep"), (b"my notes", "is no journal of a sweep"), (b"# a sweep of scicos: x=1\n", "another sweep")])
def test_a_file_that_is_no_journal(text: bytes, told: str, tmp_path: Path, program: Program) -> None:
    written(tmp_path, 1)
    (tmp_path / "table.csv.journal").write_bytes(text)
    with pytest.raises(DataError, match=told):
        begun(tmp_path, program)
    assert (tmp_path / "table.csv.journal").read_bytes() == text


def test_a_damaged_journal(tmp_path: Path, program: Program) -> None:
    written(tmp_path, 3)
    ended(tmp_path, program)
    path = tmp_path / "table.csv.journal"
    kept = path.read_bytes()
    for line in (b"99,1,in,until,1,2,3,4,5,\n", b"0,1,in,until,1,2,3,4,5,\n", b"1,2\n", b"x,1,in,until,1,2,3,4,5,\n", b"1,1,in,until,1,b,3,4,5,\n", b"\xff\n",
                 b"1,1,in,over,1,2,3,4,5,\n"):
        path.write_bytes(kept + line)
        with pytest.raises(DataError, match="table.csv.journal: line 7 is no row of this sweep; begin it anew"):
            begun(tmp_path, program)
    for cut in range(0, len(kept), 61):
        path.write_bytes(kept[:cut])
        found = begun(tmp_path, program)
        assert found.again == max(kept[:cut].count(b"\n") - 2, 0) and [list(row.values) for row in found.rows] == [row[3] for row in due(GAINS, 3)]


def test_one_sweep_at_a_time(tmp_path: Path, program: Program) -> None:
    written(tmp_path, 1)
    ended(tmp_path, program, after=1)
    with open(tmp_path / "table.csv.journal", "rb") as other:
        fcntl.flock(other, fcntl.LOCK_EX)
        with pytest.raises(WriteError, match="written by a sweep that is under way"):
            begun(tmp_path, program)
    assert begun(tmp_path, program).again == 1


def test_a_full_disk(tmp_path: Path, program: Program) -> None:
    written(tmp_path, 10)

    def small() -> None:
        resource.setrlimit(resource.RLIMIT_FSIZE, (4096, 4096))
    words = words_of(tmp_path, "-o", "table.csv")
    full = subprocess.run([*words, "--set", "limit=1..20"], cwd=tmp_path, env={**os.environ, "SCICOS": program.path}, capture_output=True, text=True,
                          timeout=120, preexec_fn=small)
    kept = (tmp_path / "table.csv.journal").read_bytes()
    assert full.returncode == 4 and "table.csv.journal can't be written: " in full.stderr and "Traceback" not in full.stderr
    assert kept.endswith(b"\n") and 3000 < len(kept) <= 4096 and not (tmp_path / "table.csv").exists()
    device = subprocess.run([*words[:-1], "/dev/full"], cwd=tmp_path, env={**os.environ, "SCICOS": program.path}, capture_output=True, text=True, timeout=120)
    assert device.returncode == 4 and "/dev/full can't be written: No space left" in device.stderr and not os.path.exists("/dev/full.journal")


def test_a_disk_that_was_full_for_a_line(tmp_path: Path, monkeypatch: pytest.MonkeyPatch) -> None:
    journal = Journal(str(tmp_path / "j"), {"design": "x"}, ["run", "why"], lambda cells: True)
    journal.add([1, "two\nlines"])
    monkeypatch.setattr(os, "write", lambda file, line, write=os.write: write(file, line[:3]))
    with pytest.raises(WriteError, match="No space left"):
        journal.add([2, "three"])
    monkeypatch.undo()
    journal.add([3, ""])
    journal.close(False)
    assert (tmp_path / "j").read_text() == "# a sweep of scicos: design=x\nrun,why\n1,two lines\n3,\n"


def test_a_worker_that_dies(tmp_path: Path, program: Program) -> None:
    written(tmp_path, 5)
    once = counting(tmp_path, program, f'case "$3" in *in03*) [ -e "{tmp_path}/once" ] || {{ : > "{tmp_path}/once"; kill -9 $PPID; }};; esac')
    found = begun(tmp_path, once, workers=2)
    assert [(row.end, list(row.values)) for row in found.rows] == [(end, values) for _, _, end, values, _ in due(GAINS, 5)]
    assert (tmp_path / "once").exists() and not (tmp_path / "table.csv.journal").exists()
    deadly = counting(tmp_path, program, 'case "$3" in *in03*) kill -9 $PPID;; esac')
    found = begun(tmp_path, deadly, workers=2)
    assert [row.run for row in found.rows if row.end == "failed"] == [3, 8, 13] and "worker died" in found.rows[2].why
    assert [list(row.values) for row in found.rows if row.end != "failed"] == [row[3] for row in due(GAINS, 5) if row[1] != 3]
    calls(tmp_path)
    found = begun(tmp_path, counting(tmp_path, program), workers=2)
    assert calls(tmp_path) == 3 and found.again == 12 and "failed" not in found.counts()


def test_a_program_that_is_killed(tmp_path: Path, program: Program) -> None:
    written(tmp_path, 2)
    words = words_of(tmp_path, "-o", "table.csv")
    killed = counting(tmp_path, program, 'case "$3" in *in02*) kill -9 $$;; esac')
    ran = subprocess.run(words, cwd=tmp_path, env={**os.environ, "SCICOS": killed.path}, capture_output=True, text=True, timeout=120)
    assert ran.returncode == 70 and "3 failed" in ran.stderr and "ended by signal 9" in (tmp_path / "table.csv").read_text()
    assert (tmp_path / "table.csv.journal").exists()
    ran = subprocess.run(words, cwd=tmp_path, env={**os.environ, "SCICOS": program.path}, capture_output=True, text=True, timeout=120)
    assert ran.returncode == 0 and is_right((tmp_path / "table.csv").read_text(), 2)


def test_the_sweep_is_killed_and_its_workers_go(tmp_path: Path, program: Program) -> None:
    written(tmp_path, 10)
    slow = counting(tmp_path, program, "sleep 0.1")
    words = words_of(tmp_path, "-o", "table.csv", "--workers", "3")
    with running(words, cwd=tmp_path, env={**os.environ, "SCICOS": slow.path}, stderr=subprocess.DEVNULL) as process:
        until((tmp_path / "calls").exists, process)
        process.kill()
        process.wait(60)
        none_left(process.pid)
