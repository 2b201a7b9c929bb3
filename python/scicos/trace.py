"""Reading a trace while it is written: what is kept of it are the reactions, and the values of the columns
that are asked for, in arrays of their types.

A value takes as many bytes as its type has (1, 2 or 4), a reaction 11. The rows at which a block was shown
take nothing where these are one after the other, as with one clock, and else 4 bytes for each, whatever the
number of its outputs. """
from __future__ import annotations

from array import array
from collections.abc import Callable, Iterable, Iterator, Mapping, Sequence
from dataclasses import dataclass
from typing import Any

from scicos.columns import CODES, Column
from scicos.errors import DataError

STOPS = ("overflow", "zero", "input", "conflict")


@dataclass(frozen=True)
class End:
    """How a run ended: `kind` is `until`, `events`, `empty` or `halt`, and of a run that stopped `overflow`,
    `zero`, `input` or `conflict`.

    `block` is the number of the block where a run stopped, `name` its name, both None else.
    """

    kind: str
    block: int | None = None
    name: str | None = None

    @property
    def stopped(self) -> bool:
        """Whether a block had no valid result."""
        return self.kind in STOPS

    def __str__(self) -> str:
        return f"stop {self.kind} at {self.name} (block {self.block})" if self.stopped else f"end {self.kind}"


class Rows:
    """The rows (reactions, counted from 0 for start) at which a block was shown, rising: `first` to `first +
    count - 1`, or else `numbers`.

    `pad` is 1 where the values of the block begin with what it holds at start, before the first that was
    shown, at row 1: so a block that acts at each event has a value for each row, and its array is a whole
    column of a table. """

    def __init__(self) -> None:
        self.first, self.count, self.pad = 0, 0, 0
        self.numbers: array[int] | None = None

    def all(self) -> Sequence[int]:
        """The rows."""
        return range(self.first, self.first + self.count) if self.numbers is None else self.numbers

    def is_whole(self, count: int) -> bool:
        """Whether there is a value for each of the rows 0 to count - 1."""
        return self.numbers is None and self.first == self.pad and self.count + self.pad == count

    def places(self, count: int, hold: bool) -> Iterator[int]:
        """For each of the rows 0 to count - 1 where its value stands in the arrays, or -1; with hold that of
        the last row before, too."""
        numbers, at = self.all(), 0
        for row in range(count):
            shown = at < len(numbers) and numbers[at] == row
            at += shown
            yield at - 1 + self.pad if shown or hold and at else -1


def passed(value: int) -> None:
    """Takes a value that isn't kept."""


def scattered(now: list[int], numbers: array[int], also: Callable[[int], None]) -> Callable[[int], None]:
    """What takes a block's first element where its rows aren't one after the other."""
    def shown(value: int) -> None:
        numbers.append(now[0])
        also(value)
    return shown


class Trace:
    """What is kept of a trace: `dates`, and `blocks` and `ports` of the events (0 of start), `rows` by block,
    `values` by column, and `end`. `first` is what each output holds after start, by its code."""

    def __init__(self, columns: Iterable[Column], first: Mapping[str, int]) -> None:
        self.columns, self.first = list(columns), first
        self.dates: array[int] = array("q")
        self.blocks: array[int] = array("H")
        self.ports: array[int] = array("B")
        self.rows: dict[int, Rows] = {}
        self.values: dict[Column, array[int]] = {column: array(CODES[column.type]) for column in self.columns}
        self.end: tuple[str, int | None] | None = None
        self.now = [-1]  # the row that is read
        self.sinks: dict[bytes, Callable[[int], None]] = {}
        for column, values in self.values.items():
            self.sinks[b"val %d %d %d" % (column.block, column.port, column.element)] = values.append
        for block in dict.fromkeys(column.block for column in self.columns):
            self.watch(block)

    def __getstate__(self) -> dict[str, Any]:
        return {**self.__dict__, "sinks": {}}  # which are for reading alone

    def watch(self, block: int) -> None:
        """Has the rows of a block counted, by its first element, which stands first whenever the block is
        shown."""
        key, rows, now = b"val %d 1 1" % block, Rows(), self.now
        also = self.sinks.get(key, passed)
        self.rows[block] = rows
        due = -2

        def shown(value: int) -> None:
            nonlocal due
            if now[0] == due:
                due += 1
                rows.count += 1
                also(value)
            elif due < 0:
                if now[0] < 0:
                    raise DataError("values stand before the line `start`")
                rows.first, rows.count, due = now[0], 1, now[0] + 1
                if rows.first == 1:
                    self.pad(block)
                also(value)
            else:
                rows.numbers = array("I", rows.all())
                self.sinks[key] = scattered(now, rows.numbers, also)
                self.sinks[key](value)
        self.sinks[key] = shown

    def pad(self, block: int) -> None:
        """Has the values of a block begin with what it holds at start."""
        self.rows[block].pad = 1
        for column, values in self.values.items():
            if column.block == block:
                values.append(self.first[column.code])

    def torn(self) -> str:
        """The name of a signal that isn't shown in each reaction in which its block is; nothing of a whole trace."""
        for column, values in self.values.items():
            rows = self.rows[column.block]
            if len(values) != len(rows.all()) + rows.pad:
                return column.name
        return ""

    def take(self, piece: bytes) -> None:
        """Takes whole lines of the trace."""
        find = self.sinks.get
        for line in piece.splitlines():
            key, _, value = line.rpartition(b" ")
            sink = find(key)
            if sink is not None:
                sink(int(value))
            elif not line.startswith(b"val "):
                self.take_other(line)

    def take_other(self, line: bytes) -> None:
        """Takes a line that is no value."""
        words = line.split()
        if self.end is not None or not words:
            raise DataError(f"no line of a trace comes here: {line.decode(errors='replace')!r}")
        if words[0] == b"event" and len(words) == 4 and self.dates:
            self.dates.append(int(words[1]))
            self.blocks.append(int(words[2]))
            self.ports.append(int(words[3]))
            self.now[0] += 1
        elif words == [b"start"] and not self.dates:
            for part in (self.dates, self.blocks, self.ports):
                part.append(0)
            self.now[0] = 0
        elif words[0] == b"end" and len(words) == 2:
            self.end = words[1].decode(), None
        elif words[0] == b"stop" and len(words) > 2:
            self.end = words[1].decode(), int(words[2])
        else:
            raise DataError(f"{line.decode(errors='replace')!r} is no line of a trace")
