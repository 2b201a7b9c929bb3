"""Many runs: a table with a row for each choice of a design's parameters and each input file.

Example:
    from scicos.sweep import first, greatest, last, signal, sweep

    found = sweep(make, inputs=["calm.json", "storm.json"], parameters={"gain": [1, 2, 3]}, until=1000,
                  rows=[last("motor.speed"), greatest("motor.error"), first(signal("alarm") == 1)])
    found.to_csv("speeds.csv")
"""
from __future__ import annotations

import contextlib
import os
import sys
import tempfile
import time
from collections.abc import Callable, Iterable, Iterator, Mapping, Sequence
from typing import Any

from scicos import files
from scicos.journal import ENDING, Journal
from scicos.measures import Measure, count, first, greatest, last, least, measured, signal
from scicos.program import MOST_EVENTS, Program, find
from scicos.runs import checked
from scicos.sweep_designs import Parameters, Source
from scicos.sweep_local import Local
from scicos.sweep_plan import Plan, design_list, from_journal, head_of, rows_of
from scicos.sweep_runs import FAILED, given_inputs
from scicos.sweep_table import Row, Sweep
from scicos.sweep_workers import Cluster, Machine

Progress = Callable[[int, int], None]
__all__ = ["Ended", "Row", "Sweep", "count", "first", "greatest", "last", "least", "signal", "sweep"]


class Ended(KeyboardInterrupt):
    """A sweep was ended by Ctrl-C; its text says how many runs are done, and where they are kept."""


@contextlib.contextmanager
def bar(wanted: bool | Progress, total: int) -> Iterator[Progress | None]:
    """What tells how many runs are done: a bar of rich on standard error, where that is a terminal."""
    if wanted is not True or not sys.stderr.isatty():
        yield wanted if callable(wanted) else None
        return
    try:
        from rich.console import Console
        from rich.progress import BarColumn, MofNCompleteColumn, Progress, TextColumn, TimeRemainingColumn
    except ImportError:
        yield None
        return
    columns = TextColumn("{task.description}"), BarColumn(), MofNCompleteColumn(), TimeRemainingColumn()
    with Progress(*columns, console=Console(stderr=True), transient=True) as shown:
        task = shown.add_task("runs", total=total)
        yield lambda done, of: shown.update(task, completed=done, total=of)


@contextlib.contextmanager
def journal_of(path: str | os.PathLike[str] | None, head: Mapping[str, str], columns: Sequence[str],
               is_row: Callable[[Sequence[str]], bool], anew: bool) -> Iterator[Journal | None]:
    """The journal beside the table, where that is a file; once the block has ended well and the table is
    there, it goes."""
    if path is None or os.path.exists(path) and not os.path.isfile(path):
        yield None
        return
    journal, whole = Journal(os.fspath(path) + ENDING, head, columns, is_row, anew), False
    try:
        yield journal
        whole = not journal.lacking
    finally:
        journal.close(whole)


@contextlib.contextmanager
def machine_of(cluster: Any, workers: int | None) -> Iterator[Machine]:
    """Who does the runs; what ends the block early ends them too."""
    machine: Machine
    if cluster is None:
        machine = Local(workers)
    else:
        machine = Cluster(cluster)
    try:
        yield machine
    except BaseException:
        machine.close(True)
        raise
    machine.close(False)


def folder_of(keep: str | os.PathLike[str] | None) -> str | None:
    """The folder for traces, which is made where it isn't there."""
    if keep is None:
        return None
    with files.told(os.fspath(keep)):
        os.makedirs(keep, exist_ok=True)
    return os.path.abspath(keep)


def filled(found: Sweep, rows: Iterable[Row], journal: Journal | None, progress: Progress | None,
           total: int) -> None:
    """Takes rows into the table and the journal as they come; a run that failed isn't kept in the journal."""
    for row in rows:
        found.rows.append(row)
        if journal and row.end == FAILED:
            journal.lacking = True
        elif journal:
            journal.add(found.cells(row))
        if progress:
            progress(len(found.rows), total)


def sweep(design: Source, *, inputs: Any = None, parameters: Parameters = None, until: int,
          events: int = MOST_EVENTS,
          rows: Iterable[str | Measure] = (), path: str | os.PathLike[str] | None = None, anew: bool = False,
          keep: str | os.PathLike[str] | None = None, cluster: Any = None, workers: int | None = None,
          program: str | os.PathLike[str] | Program | None = None,
          progress: bool | Progress = False) -> Sweep:
    """Runs a design with each choice of its parameters and each of the inputs, and gives a table with a row
    for each run.

    `design` is a function that takes the parameters by name and gives a `Diagram`, the path of a file of
    Python with such a function (`design.py`, or `design.py:make`), a diagram's file, or a `Diagram`.
    `parameters` has a list of values for each name, of which all combinations are taken, or is a list of
    choices. `inputs` is a list of what `simulate` takes: paths of JSON or CSV, or values. `rows` is what is
    asked of each run: `last(name)`, `least(name)`, `greatest(name)`, `first(condition)` (a date in ticks) and
    `count(name)`, or these as texts, as `"first alarm == 1"`.

    The runs go on all processors (or `workers`), or on the cluster of dask.distributed that `cluster` names,
    by the address of its scheduler or by a client. With `path` the table is written there as CSV; while it
    grows it is in the journal beside it, `PATH.journal`, from which a sweep that was ended goes on; `anew`
    drops that. `keep` is a folder for the traces, which are dropped else. `progress=True` shows a bar on a
    terminal.
    """
    begun, (until, events), called = time.monotonic(), checked(until, events), find(program)
    measures, given = [measured(row) for row in rows], given_inputs(inputs)
    with tempfile.TemporaryDirectory(prefix="scicos-") as folder:
        designs, text = design_list(design, parameters, measures, called, folder)
        here = cluster is None
        plan = Plan(designs, given, until, events, called, folder_of(keep), len(measures), sent=not here)
        found = Sweep(list(dict.fromkeys(name for one in designs for name in one.parameters)), measures)
        place = called.path if here or program is not None else None  # workers elsewhere find their own
        with journal_of(path, head_of(plan, text, measures), found.columns, plan.is_row, anew) as journal:
            try:
                run(plan, found, journal, progress, lambda: machine_of(cluster, workers), place)
            except KeyboardInterrupt:
                raise Ended(ended(found, plan.count(), journal)) from None
            found.rows.sort(key=lambda row: row.run)
            found.wall = time.monotonic() - begun
            if path is not None:
                found.to_csv(path)
    return found


def ended(found: Sweep, total: int, journal: Journal | None) -> str:
    """The sentence for a sweep that was ended by Ctrl-C."""
    kept = f", and kept in {journal.path}: begun again, the sweep goes on from there" if journal else ""
    return f"ended by Ctrl-C: {len(found.rows):,} of {total:,} runs are done{kept}"


def run(plan: Plan, found: Sweep, journal: Journal | None, progress: bool | Progress,
        machines: Callable[[], contextlib.AbstractContextManager[Machine]], program: str | None) -> None:
    """Does the runs that a journal doesn't have yet."""
    if journal:
        found.rows = [from_journal(cells, plan, len(found.measures)) for cells in journal.done.values()]
        found.again = len(found.rows)
    done, total = {row.run for row in found.rows}, plan.count()
    filled(found, plan.refused(done), journal, None, total)
    if len(found.rows) == total:
        return
    with machines() as machine, bar(progress, total) as shown:
        filled(found, rows_of(plan, done, machine, program, found), journal, shown, total)
