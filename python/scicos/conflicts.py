"""Ports whose types or sizes have to be one: which they are, who declares them, and the way between two that
disagree.

A link makes the two ports at its ends equal, and so do equal negative numbers within a block, which stand for
one unknown. What the kind's row says is not used to find types and sizes, and so not here.
"""
from __future__ import annotations

from collections import deque
from dataclasses import dataclass
from typing import Iterator

from .flat import REGULAR, Block
from .flat_wiring import End, Wiring

TYPE, ROWS, COLUMNS = 0, 1, 2
OUTPUT, INPUT = 0, 1
_FIELDS = {(TYPE, INPUT): "intyp", (TYPE, OUTPUT): "outtyp", (ROWS, INPUT): "in", (ROWS, OUTPUT): "out",
           (COLUMNS, INPUT): "in2", (COLUMNS, OUTPUT): "out2"}


@dataclass(frozen=True, order=True)
class Measure:
    """What a port declares: its type (TYPE), its rows or its columns."""

    block: int
    side: int
    port: int
    what: int


class Equals:
    """The measures of a diagram and which of them have to be equal.

    Example: `Equals(wiring).way(Measure(1, OUTPUT, 1, TYPE), 3, 4)` is the way from a port of int32 to one of
    int16.
    """

    def __init__(self, wiring: Wiring) -> None:
        self.wiring, self.flat = wiring, wiring.flat
        self.declared: dict[Measure, int] = {}
        self.steps: dict[Measure, list[Measure]] = {}
        for block in self.flat.blocks:
            self._within(block)
        for (kind, start), ends in wiring.feeds.items():
            for end in ends if kind == REGULAR else []:
                for what in (TYPE, ROWS, COLUMNS):
                    self._join(Measure(start.block, OUTPUT, start.port, what),
                               Measure(end.block, INPUT, end.port, what))

    def _join(self, one: Measure, other: Measure) -> None:
        self.steps.setdefault(one, []).append(other)
        self.steps.setdefault(other, []).append(one)

    def _within(self, block: Block) -> None:
        """The measures that a block declares, and those of its unknowns that are one."""
        unknowns: dict[tuple[bool, int], Measure] = {}
        for measure, value in _declarations(block):
            if value > 0:
                self.declared[measure] = value
            elif value < 0:
                same = unknowns.setdefault((measure.what == TYPE, value), measure)
                if same != measure:
                    self._join(same, measure)

    def one_of(self, *measures: Measure) -> dict[Measure, Measure | None]:
        """All measures that have to be equal to some, each with the one before it on a shortest way, nearest
        first.
        """
        before: dict[Measure, Measure | None] = {measure: None for measure in measures}
        waiting = deque(measures)
        while waiting:
            here = waiting.popleft()
            for there in self.steps.get(here, []):
                if there not in before:
                    before[there] = here
                    waiting.append(there)
        return before

    def way(self, measure: Measure, least: int, greatest: int) -> list[Measure]:
        """A shortest way from a measure that is declared as one value to one that is declared as the other,
        among those equal to a measure.
        """
        starts = [found for found in self.one_of(measure) if self.declared.get(found) == least]
        before = self.one_of(*starts)
        end = next((found for found in before if self.declared.get(found) == greatest), None)
        return _path(before, end)


def _path(before: dict[Measure, Measure | None], end: Measure | None) -> list[Measure]:
    path = []
    while end is not None:
        path.append(end)
        end = before[end]
    return path[::-1]


def _declarations(block: Block) -> Iterator[tuple[Measure, int]]:
    """What the lists of a block's model declare of its regular ports; columns that aren't written are 1."""
    for side in (INPUT, OUTPUT):
        lists = {what: block.item.numbers(_FIELDS[what, side]) for what in (TYPE, ROWS, COLUMNS)}
        for port in range(1, len(lists[ROWS]) + 1):
            for what, values in lists.items():
                value = (values[port - 1] if port <= len(values) else 1 if what == COLUMNS and not values
                         else 0)
                yield Measure(block.number, side, port, what), value


def field_of(measure: Measure) -> str:
    """The field of a block's model that declares a measure, as `intyp`."""
    return _FIELDS[measure.what, measure.side]


def end_of(measure: Measure) -> End:
    """The port of a measure."""
    return End(measure.block, measure.port)
