"""The reactions of a run, one row for each, with what every signal holds there: what expected values and
properties look at.

A signal that isn't shown in a reaction holds its last value; before its block has ever acted, what it holds
at first.
"""
from __future__ import annotations

import bisect
from array import array
from collections.abc import Iterable, Iterator, Sequence
from typing import TYPE_CHECKING

from scicos.errors import WordsError
from scicos.program import LAST_DATE

if TYPE_CHECKING:
    from scicos.columns import Column
    from scicos.runs import Run

Window = tuple[int, int] | None
AROUND = 3  # rows that are shown before and behind one that fails


class Row:
    """One row: `row["motor.speed"]` is what a signal holds there, `row.date` its tick, `row.event` the name
    of its event.

    `row.before` is the row before it (None at start), and `row.shown("motor.speed")` tells whether the trace
    shows the signal in this reaction.
    """

    def __init__(self, table: Reactions, at: int) -> None:
        self.table, self.at = table, at

    def __getitem__(self, name: str) -> int:
        return self.table.held(name)[self.table.numbers[self.at]]

    @property
    def date(self) -> int:
        """The date in ticks."""
        return self.table.dates[self.table.numbers[self.at]]

    @property
    def event(self) -> str:
        """The name of the event, `start` of the reaction before the first."""
        return self.table.event(self.table.numbers[self.at])

    @property
    def before(self) -> Row | None:
        """The row before this one, also where it lies outside of the window; None at start."""
        return Row(self.table, self.at - 1) if self.at else None

    def shown(self, name: str) -> bool:
        """Whether the trace shows the signal in this reaction."""
        return self.table.is_shown(name, self.table.numbers[self.at])

    def __repr__(self) -> str:
        return f"<{self.table.when(self.at)}>"


class Reactions:
    """The rows of a run: by event each reaction, by tick the last one of each date. A reaction in which the
    run stopped is none of them.

    `inside` are the rows whose dates lie in the window (both its ends are in it). `read` are the signals that
    were asked for.
    """

    def __init__(self, run: Run, by: str = "event", window: Window = None) -> None:
        if by not in ("event", "tick"):
            raise WordsError(f"rows are by 'event' or by 'tick', and not by {by!r}")
        self.run, self.by, self.window = run, by, checked(window)
        self.dates: array[int] = run.trace.dates
        self.total = len(self.dates) - run.end.stopped
        self.numbers: Sequence[int] = range(self.total)
        if by == "tick":
            last = self.total - 1
            self.numbers = array("I", (row for row in range(self.total)
                                       if row == last or self.dates[row + 1] != self.dates[row]))
        self.read: dict[str, None] = {}
        self._held: dict[Column, array[int]] = {}
        self._shown: dict[int, set[int]] = {}
        low, high = self.window or (0, LAST_DATE)
        self.inside = range(self.at_date(low - 1) + 1, self.at_date(high) + 1)

    def at_date(self, date: int) -> int:
        """The last row whose date is at most this one; -1 where there is none."""
        return bisect.bisect_right(self.numbers, date, key=self.dates.__getitem__) - 1

    def rows(self) -> Iterator[Row]:
        """The rows of the window."""
        return (Row(self, at) for at in self.inside)

    def held(self, name: str) -> array[int]:
        """What a signal holds after each reaction of the run."""
        self.read.setdefault(name)
        column = self.run.column(name)
        if column not in self._held:
            values, first = self.run.trace.values[column], self.run.trace.first[column.code]
            places = self.run.trace.rows[column.block].places(self.total, True)
            self._held[column] = array("q", [values[place] if place >= 0 else first for place in places])
        return self._held[column]

    def is_shown(self, name: str, number: int) -> bool:
        """Whether the trace shows a signal in a reaction."""
        self.read.setdefault(name)
        block = self.run.column(name).block
        if block not in self._shown:
            self._shown[block] = set(self.run.trace.rows[block].all())
        return number in self._shown[block]

    def event(self, number: int) -> str:
        """The name of a reaction's event."""
        trace = self.run.trace
        return self.run.catalogue.name_of(trace.blocks[number], trace.ports[number]) if number else "start"

    def known_until(self, wholly: bool = False) -> int:
        """The last tick at which this run tells what its signals hold; with `wholly` one of which no reaction
        is missing."""
        if self.run.end.kind in ("halt", "empty"):
            return LAST_DATE
        if self.run.end.kind == "until" and self.run.until is not None:
            return self.run.until
        return self.dates[self.total - 1] - wholly if self.total else -1

    def when(self, at: int) -> str:
        """A row in words, as `tick 30 (event 4, clock)`."""
        number = self.numbers[at]
        return f"tick {self.dates[number]} ({f'event {number}, {self.event(number)}' if number else 'start'})"

    def around(self, at: int, names: Iterable[str],
               further: Iterable[tuple[str, dict[int, str]]] = ()) -> str:
        """The rows around one, as lines with aligned columns; it is marked. `further` are columns in front,
        with texts by row."""
        further, names = list(further), list(names)
        lines = [["", "tick", "event", *(name for name, _ in further), *names]]
        for row in range(max(at - AROUND, 0), min(at + AROUND + 1, len(self.numbers))):
            number = self.numbers[row]
            lines.append([">" if row == at else "", str(self.dates[number]), self.event(number),
                          *(texts.get(row, "") for _, texts in further),
                          *(str(self.held(name)[number]) for name in names)])
        return aligned(lines, {2})


def aligned(lines: list[list[str]], words: set[int]) -> str:
    """Lines of cells as text: each column as wide as its widest cell, numbers to the right, and the columns
    of `words` to the left."""
    widths = [max(map(len, column)) for column in zip(*lines)]
    shown = []
    for line in lines:
        cells = [cell.ljust(width) if at in words else cell.rjust(width)
                 for at, (cell, width) in enumerate(zip(line, widths))]
        shown.append("  ".join(cells).rstrip())
    return "\n".join(shown)


def is_whole(value: object) -> bool:
    """Whether a value is a whole number of Python."""
    return isinstance(value, int) and not isinstance(value, bool)


def checked(window: Window) -> Window:
    """The window, or a sentence where it is none."""
    if window is None:
        return None
    if not isinstance(window, tuple) or len(window) != 2 or not all(map(is_whole, window)):
        raise WordsError(f"a window is a pair of ticks, as (100, 200), and not {window!r}")
    if not 0 <= window[0] <= window[1]:
        raise WordsError("a window begins at tick 0 or later and doesn't end before it begins, and this one"
                         f" is {window[0]} to {window[1]}")
    return window
