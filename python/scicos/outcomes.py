"""What the trace of a run with probes shows: how often blocks acted, what came of them, and the values of
signals."""
from __future__ import annotations

import itertools
from collections import Counter
from collections.abc import Callable, Iterator, Sequence
from typing import TYPE_CHECKING

from scicos.columns import Column, Columns
from scicos.coverage import Block, Outcome, Values, total
from scicos.flat import ACTIVATION, REGULAR, Flat, place_text
from scicos.flat import Block as Part
from scicos.flat_wiring import INPUT, OUTPUT, Wiring
from scicos.probes import BRANCHING, Probe, Probed

if TYPE_CHECKING:
    from scicos.runs import Run

DELAYS = ("EVTDLY_c", "EVTVARDLY")
# by the first parameter of SWITCH2_m
COMPARED: dict[int, Callable[[int, int], bool]] = {0: int.__ge__, 1: int.__gt__, 2: int.__ne__}
COMPARISONS = {0: ">=", 1: ">", 2: "!="}
Found = Iterator[tuple[str, str, str, "int | None"]]  # the name, the group, what came, and how often


class Seen:
    """What runs with probes show of a design, by the numbers of its own blocks."""

    def __init__(self, run: Run, copy: Probed) -> None:
        self.run, self.trace, self.numbers = run, run.trace, copy.numbers
        self.columns: dict[tuple[int, int, int], Column] = {}
        for column in run.columns:
            if column.block in copy.numbers:
                self.columns[copy.numbers[column.block], column.port, column.element] = column
        self.fired = Counter(copy.numbers[block] for block in self.trace.blocks[1:])
        self.rows: dict[Probe, Sequence[int] | None] = {}

    def acts(self, number: int) -> Sequence[int]:
        """The rows at which a block with outputs acted."""
        return self.trace.rows[self.columns[number, 1, 1].block].all()

    def values(self, key: tuple[int, int, int]) -> Sequence[int]:
        """The values that are shown of an output's element, one for each act."""
        column = self.columns[key]
        return self.trace.values[column][self.trace.rows[column.block].pad:]

    def held(self, key: tuple[int, int, int], at: Sequence[int]) -> Iterator[int]:
        """What an output's element holds after each of these reactions, in rising order."""
        column = self.columns[key]
        first, rows = self.trace.first[column.code], self.trace.rows[column.block].all()
        values = self.values(key)
        place = 0
        for row in at:
            while place < len(rows) and rows[place] <= row:
                place += 1
            yield values[place - 1] if place else first

    def count(self, probe: Probe) -> int | None:
        """How often a probe was activated; None where it found no room."""
        rows = self.rows.get(probe)
        return None if rows is None else len(rows)


def acted(seen: Seen, part: Part) -> int | None:
    """How often a block acted; of a condition that is how often its branches were taken, of what else has no
    outputs what its probe shows."""
    if part.kind in BRANCHING:
        count: int | None = 0
        for port in range(1, part.item.ports(ACTIVATION, OUTPUT) + 1):
            count = total(count, seen.count(Probe(part.number, OUTPUT, port)))
        return count
    if part.item.ports(REGULAR, OUTPUT):
        return len(seen.acts(part.number))
    return seen.count(Probe(part.number, INPUT, 1))


def blocks_of(seen: Seen, read: Flat) -> Iterator[Block]:
    """Each block and how often it acted."""
    for part in read.blocks:
        fired = seen.fired[part.number] if part.kind in DELAYS else None
        yield Block(part.number, place_text(part.place), part.kind, read.name(part.number),
                    read.where(part.place), acted(seen, part), fired)


def signals_of(seen: Seen, catalogue: Columns) -> Iterator[Values]:
    """Each signal with its least and greatest value."""
    for column in catalogue.all:
        values = seen.values((column.block, column.port, column.element))
        yield Values(column.name, column.type, len(values), min(values, default=None),
                     max(values, default=None))


def outcomes_of(seen: Seen, read: Flat) -> Iterator[Outcome]:
    """What may come of each block."""
    wiring = Wiring(read)
    for part in read.blocks:
        for name, group, what, count in of_block(seen, read, wiring, part):
            yield Outcome(part.number, part.kind, name, group, what, count)


def of_block(seen: Seen, read: Flat, wiring: Wiring, part: Part) -> Found:
    """What may come of a block, with the counts."""
    numbers, name = part.item.numbers("ipar"), read.name(part.number)
    if part.kind in BRANCHING:
        for port in range(1, part.item.ports(ACTIVATION, OUTPUT) + 1):
            yield name, "branch", f"branch {port}", seen.count(Probe(part.number, OUTPUT, port))
    elif part.kind == "SELECT_m":
        yield from ((name, "choice", *pair) for pair in chosen(seen, part))
    elif part.kind == "ANDLOG_f":
        answers = seen.values((part.number, 1, 1))
        yield name, "choice", "both", answers.count(1)
        yield name, "choice", "one alone", answers.count(-1)
    elif part.kind == "RELATIONALOP" or part.kind == "LOGICAL_OP" and numbers[1:2] == [0]:
        for label, values in elements(seen, read, part):
            yield label, "relation", "true", sum(map(bool, values))
            yield label, "relation", "false", len(values) - sum(map(bool, values))
    elif part.kind == "SATURATION":
        for label, values in elements(seen, read, part):
            yield label, "bound", f"low {numbers[0]}", values.count(numbers[0])
            yield label, "bound", f"high {numbers[1]}", values.count(numbers[1])
    elif part.kind == "SWITCH2_m":
        yield from ((name, "choice", *pair) for pair in switched(seen, wiring, part, numbers))
    elif part.kind == "LOGIC":
        yield from ((name, "row", *pair) for pair in rows_met(seen, wiring, part))


def elements(seen: Seen, read: Flat, part: Part) -> Iterator[tuple[str, Sequence[int]]]:
    """The elements of a block's one output: the name and the values that are shown."""
    keys = [key for key in seen.columns if key[0] == part.number]
    for key in keys:
        yield read.signal(part.number, 1, key[2] if len(keys) > 1 else None), seen.values(key)


def chosen(seen: Seen, part: Part) -> Iterator[tuple[str, int | None]]:
    """Of a `SELECT_m` how often each input was chosen: that of the least activation input that was
    activated."""
    before: set[int] = set()
    known = True
    for port in range(1, part.item.ports(ACTIVATION, INPUT) + 1):
        rows = seen.rows.get(Probe(part.number, INPUT, port))
        known = known and rows is not None
        here = set(rows or ()) - before
        before |= here
        yield f"input {port}", len(here) if known else None


def input_at(seen: Seen, wiring: Wiring, part: Part, port: int) -> Iterator[int]:
    """The values of a scalar input of a block with direct feedthrough, one for each of its acts: what feeds
    it was computed before it."""
    source = wiring.source(part.number, port)
    assert source is not None
    return seen.held((source.block, source.port, 1), seen.acts(part.number))


def switched(seen: Seen, wiring: Wiring, part: Part, numbers: list[int]) -> Iterator[tuple[str, int | None]]:
    """Of a `SWITCH2_m` how often its first and its third input went on, by its second."""
    compared, sign = COMPARED[numbers[0]], COMPARISONS[numbers[0]]
    taken = [compared(value, numbers[1]) for value in input_at(seen, wiring, part, 2)]
    yield f"input 1 (input 2 {sign} {numbers[1]})", sum(taken)
    yield "input 3 (else)", len(taken) - sum(taken)


def rows_met(seen: Seen, wiring: Wiring, part: Part) -> Iterator[tuple[str, int | None]]:
    """Of a `LOGIC` how often each row of its table was looked up; a row is told by the truths of the inputs,
    the first in front."""
    count = part.item.ports(REGULAR, INPUT)
    inputs = [input_at(seen, wiring, part, port) for port in range(1, count + 1)]
    met = Counter(tuple(int(bool(value)) for value in values) for values in zip(*inputs))
    for truths in itertools.product((0, 1), repeat=count):
        yield "row " + "".join(map(str, truths)), met[truths]


def ended(seen: Seen, catalogue: Columns) -> str:
    """How the run ended, by the names of the design's own blocks."""
    end = seen.run.end
    if end.stopped and end.block:
        return f"stop {end.kind} at {catalogue.name_of(seen.numbers[end.block])}"
    return f"end {end.kind}"
