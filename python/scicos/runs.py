"""Runs of a design: `simulate` calls the program and gives a `Run`, whose values are taken by name."""
from __future__ import annotations

import bisect
import itertools
import os
from collections.abc import Iterable, Iterator
from dataclasses import dataclass
from typing import IO, TYPE_CHECKING, Any

from scicos import inputs as given
from scicos import tables
from scicos.columns import Column, Columns, of_design
from scicos.dump import first_values
from scicos.errors import DataError, ReadError
from scicos.program import CHUNK, MOST_EVENTS, Design, Program, ProgramError, design_file, find
from scicos.program import checked as checked
from scicos.trace import End, Trace

if TYPE_CHECKING:
    import pandas  # type: ignore[import]


@dataclass(frozen=True)
class Origin:
    """What a run was made of."""

    design: str | os.PathLike[str] | Design
    inputs: given.Inputs
    program: Program


class Run:
    """A run of a design, as `simulate` gives it.

    `end` tells how it ended, `columns` are the signals that were asked for. Of a run whose diagram has a
    block `count`:

        >>> run.end.kind, run.end.stopped  # doctest: +SKIP
        ('until', False)
        >>> list(run.values("count"))  # doctest: +SKIP
        [(0, 0), (5, 1), (10, 2)]
    """

    def __init__(self, catalogue: Columns, trace: Trace) -> None:
        self.catalogue, self.trace = catalogue, trace
        self.until: int | None = None  # the last date that was asked for, where that is known
        self.origin: Origin | None = None
        kind, block = trace.end or ("", None)
        self.end = End(kind, block, None if block is None else catalogue.name_of(block))

    def why(self) -> str:
        """How the run ended; of one that stopped a sentence with the date, the block, its inputs, the exact
        result and the bound that it passed.

            >>> run.why()  # doctest: +SKIP
        """
        if self.origin is None or self.until is None or self.end.block is None:
            return str(self.end)
        from scicos.stops import Stop, explained
        dates, origin = self.trace.dates, self.origin
        stop = Stop(self.end.kind, self.end.block, dates[-1], len(dates))
        with design_file(origin.design) as path, given.input_file(origin.inputs, self.catalogue,
                                                                  path) as file:
            return explained(stop, origin.design, file, self.until, origin.program)

    def __repr__(self) -> str:
        return f"<Run of {len(self.trace.dates) - 1} events and {len(self.columns)} signals: {self.end}>"

    @property
    def columns(self) -> list[Column]:
        """The signals that were asked for, in their order."""
        return self.trace.columns

    def column(self, name: str) -> Column:
        """The signal of a name; it has to be one that was asked for."""
        found = self.catalogue.named(name)
        if len(found) > 1:
            raise DataError(f"{name!r} are {len(found)} signals: name one, as {found[0].name!r}")
        if found[0] not in self.trace.values:
            raise DataError(f"the signal {name!r} wasn't asked for in this run: name it in `signals`")
        return found[0]

    def events(self) -> Iterator[tuple[int, str]]:
        """Each event by its date in ticks and its name, as `clock`, or `stepper.2` where it comes from
        another activation output than the first."""
        trace = self.trace
        for date, block, port in zip(trace.dates[1:], trace.blocks[1:], trace.ports[1:]):
            yield date, self.catalogue.name_of(block, port)

    def event_names(self) -> list[str]:
        """The names of the activation outputs whose events there were, each once."""
        keys = set(zip(self.trace.blocks, self.trace.ports)) - {(0, 0)}
        return [self.catalogue.name_of(*key) for key in sorted(keys)]

    def values(self, name: str) -> Iterator[tuple[int, int]]:
        """Each value that the trace shows of a signal, with the date of its reaction in ticks."""
        column = self.column(name)
        dates, rows = self.trace.dates, self.trace.rows[column.block]
        values = itertools.islice(self.trace.values[column], rows.pad, None)
        return ((dates[row], value) for row, value in zip(rows.all(), values))

    def at(self, name: str, tick: int) -> int:
        """What a signal holds at a tick: after the last reaction up to it; before its block has acted, what
        it holds at first."""
        column = self.column(name)
        rows = self.trace.rows[column.block]
        row = bisect.bisect_right(self.trace.dates, tick) - 1
        place = bisect.bisect_right(rows.all(), row) - 1
        return self.trace.values[column][place + rows.pad] if place >= 0 else self.trace.first[column.code]

    def table(self, by: str = "event", ticks: Iterable[int] | None = None) -> pandas.DataFrame:
        """A pandas table with a column for each signal.

        `by="event"`: a row for start and for each event, by its date, with the event's name; a value that
        isn't shown there is missing (`<NA>`). `by="tick"`: a row for each date, with what each signal holds
        after the last reaction of it; nothing is missing. With `ticks` these dates.

            >>> run.table(by="tick", ticks=range(0, 101, 10))  # doctest: +SKIP
        """
        return tables.table(self, by, ticks)

    def to_csv(self, path: str | os.PathLike[str] | IO[bytes], by: str = "event") -> None:
        """Writes the table as CSV; a value that is missing is an empty cell. It needs no packages.

            >>> run.to_csv("run.csv", by="tick")  # doctest: +SKIP
        """
        tables.to_csv(self, path, by)

    def to_npz(self, path: str | os.PathLike[str] | IO[bytes], by: str = "event") -> None:
        """Writes the table as arrays of NumPy: `date`, and an array by each signal's name; by event also
        `block` and `port` of the events, and `NAME@` with a truth for each row: whether the signal is shown
        there.

            >>> run.to_npz("run.npz")  # doctest: +SKIP
        """
        tables.to_npz(self, path, by)

    def expect(self, name: str, values: Any, **options: Any) -> None:
        """Compares a signal with expected values, and raises an AssertionError that tells the first difference.

        `scicos.expect.expect` tells more.

            >>> run.expect("count", {0: 0, 7: 1}, tolerance=1)  # doctest: +SKIP
        """
        from scicos.expect import expect
        expect(self, name, values, **options)

    def always(self, condition: Any, **options: Any) -> None:
        """Raises an AssertionError where a condition doesn't hold in each row.

        `scicos.properties.always` tells more.

            >>> run.always(signal("count") < 10)  # doctest: +SKIP
        """
        from scicos.properties import always
        always(self, condition, **options)

    def never(self, condition: Any, **options: Any) -> None:
        """Raises an AssertionError where a condition holds in a row; `scicos.properties.never` tells more.

            >>> run.never(signal("count") < 0)  # doctest: +SKIP
        """
        from scicos.properties import never
        never(self, condition, **options)

    def within(self, ticks: int, **options: Any) -> None:
        """Raises an AssertionError where `then` doesn't follow `after` within these ticks.

        `scicos.properties.within` tells more.

            >>> run.within(20, after=signal("button").rises(), then=signal("state") == 1)  # doctest: +SKIP
        """
        from scicos.properties import within
        within(self, ticks, **options)

    def plot(self, *signals: str, **options: Any) -> Any:
        """Draws signals over the ticks by matplotlib; `scicos.plot.plot` tells the options."""
        from scicos.plot import plot
        return plot(self, *signals, **options)


def taken(trace: Trace, pieces: Iterable[bytes], progress: tables.Progress | None) -> None:
    """Reads a trace to its end, and tells how many events there are and their date."""
    for piece in pieces:
        trace.take(piece)
        if progress and trace.dates:
            progress(len(trace.dates) - 1, trace.dates[-1])


def simulate(design: str | os.PathLike[str] | Design, inputs: given.Inputs = None, *, until: int,
             events: int = MOST_EVENTS, signals: Iterable[str] | None = None,
             program: str | os.PathLike[str] | Program | None = None,
             progress: bool | tables.Progress = False) -> Run:
    """Runs a design, up to the date `until` (in ticks) and at most `events` events, and keeps `signals` (all
    of them where they aren't named).

    A design is the path of its JSON file, or a `Diagram`. `inputs` are values of its sensors: a dict by
    sensor's name or column's number, a list of columns, an array or a table of pandas with a row for each
    value, or the path of a CSV or JSON file. `progress=True` shows a bar on a terminal.

        >>> run = simulate("examples/counter.json", until=20)
        >>> str(run.end), run.at("DOLLAR_m 4", 12)
        ('end until', 2)
    """
    until, events = checked(until, events)
    called, inputs = find(program), given.lasting(inputs)
    with design_file(design) as path:
        catalogue = of_design(design, called, path)
        trace = Trace(catalogue.chosen(signals), first_values(called, path))
        with given.input_file(inputs, catalogue, path) as file:
            with called.stream("simulate", path, file, until, events) as stream:
                with tables.bar(progress, until, events) as shown:
                    taken(trace, stream.pieces(), shown)
                stream.check()
    if trace.end is None:
        raise ProgramError("the program's trace has no last line", 70)
    run = Run(catalogue, trace)
    run.until, run.origin = until, Origin(design, inputs, called)
    return run


def read_trace(design: str | os.PathLike[str] | Design, path: str | os.PathLike[str],
               signals: Iterable[str] | None = None,
               program: str | os.PathLike[str] | Program | None = None) -> Run:
    """A run from a file of its trace, as the compiled C of the design writes it, of any length.

        >>> run = read_trace("examples/push-button/diagram.json", "examples/push-button/trace.txt")
        >>> list(run.values("presses"))
        [(25, 1), (65, 2)]
    """
    called = find(program)
    with design_file(design) as file:
        catalogue = of_design(design, called, file)
        trace = Trace(catalogue.chosen(signals), first_values(called, file))
    try:
        with open(path, "rb") as lines:
            while piece := lines.readlines(CHUNK):
                taken(trace, [b"".join(piece)], None)
    except OSError as error:
        raise ReadError(f"{os.fspath(path)} can't be read: {error.strerror}") from None
    except (ValueError, OverflowError, DataError) as error:
        raise DataError(f"{os.fspath(path)}: {error}; `scicos judge` tells the first wrong line") from None
    if trace.end is None:
        raise DataError(f"{os.fspath(path)} ends before the line that tells how the run ended")
    if trace.torn():
        raise DataError(f"{os.fspath(path)} lacks lines of {trace.torn()}; `scicos judge` tells the first wrong line")
    return Run(catalogue, trace)
