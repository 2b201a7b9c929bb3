"""What can never happen: of each signal the least and the greatest value of all runs, and which blocks may
stop one, as the program `ranges` tells it of a design and its inputs (docs/RANGES.md).
"""
from __future__ import annotations

import os
import shutil
from collections.abc import Iterable, Iterator
from dataclasses import dataclass, field

from scicos import inputs as given
from scicos.columns import Column, Columns, of_design
from scicos.errors import DataError, MissingError
from scicos.integers import BY_NAME, TYPES, IntType
from scicos.program import Design, Program, design_file, error_of, find

VARIABLE = "SCICOS_RANGES"
Key = tuple[int, int, int]  # block, port and element, from 1


@dataclass(frozen=True)
class Interval:
    """The whole numbers from the least to the greatest.

    >>> 9 in Interval(0, 9), str(Interval(0, 9)), str(Interval(7, 7))
    (True, '0 to 9', '7')
    """

    least: int
    greatest: int

    def __contains__(self, value: int) -> bool:
        return self.least <= value <= self.greatest

    def __str__(self) -> str:
        return str(self.least) if self.least == self.greatest else f"{self.least} to {self.greatest}"


@dataclass
class Told:
    """What the program prints, by the numbers of blocks, ports and elements."""

    shown: dict[Key, Interval] = field(default_factory=dict)
    held: dict[Key, Interval] = field(default_factory=dict)
    states: dict[int, Interval] = field(default_factory=dict)
    stops: list[tuple[int, str]] = field(default_factory=list)
    idle: list[int] = field(default_factory=list)
    safe: bool = False


def told_of(text: str) -> Told:
    """The program's lines as data.

    >>> told_of("range 2 1 1 0 9\\nstate 2 0 9\\nstop overflow 3\\nopen\\n").stops
    [(3, 'overflow')]
    """
    told = Told()
    for line in text.splitlines():
        word, *rest = line.split()
        if word in ("range", "held"):
            block, port, element, least, greatest = map(int, rest)
            (told.shown if word == "range" else told.held)[block, port, element] = Interval(least, greatest)
        elif word == "state":
            block, least, greatest = map(int, rest)
            told.states[block] = Interval(least, greatest)
        elif word == "stop":
            told.stops.append((int(rest[1]), rest[0]))
        elif word == "idle":
            told.idle.append(int(rest[0]))
        elif word in ("safe", "open") and not rest:
            told.safe = word == "safe"
        else:
            raise ValueError(f"{line!r} is no line of ranges")
    return told


@dataclass(frozen=True)
class Range:
    """What one element of an output may be: what a trace may show of it, None where it never shows anything,
    and what may be held there, which is that and the value before its block has acted."""

    column: Column
    shown: Interval | None
    held: Interval


class Ranges:
    """The ranges of a design, by the names of its blocks.

    `rows` has each element of each output, `states` by block's name what it remembers, `stops` each block
    that may stop a run with the word of its stop, `idle` the blocks that never act, and `safe` whether no run
    stops by an overflow or a divisor of 0.

        >>> found = ranges("examples/first.json")  # doctest: +SKIP
        >>> str(found.of("Modulo_Count 2").shown)  # doctest: +SKIP
        '0 to 9'
    """

    def __init__(self, catalogue: Columns, told: Told) -> None:
        self.catalogue, self.safe = catalogue, told.safe
        self.rows = [self._row(column, told) for column in catalogue.all]
        self.states = {catalogue.name_of(block): interval for block, interval in told.states.items()}
        self.stopping = told.stops
        self.stops = [(catalogue.name_of(block), word) for block, word in told.stops]
        self.idle = [catalogue.name_of(block) for block in told.idle]

    def _row(self, column: Column, told: Told) -> Range:
        key = column.block, column.port, column.element
        shown = told.shown.get(key)
        held = told.held.get(key, shown)
        if held is None:
            raise ValueError(f"nothing is told of {column.name}")
        return Range(column, shown, held)

    def chosen(self, wanted: Iterable[str] | None = None) -> list[Range]:
        """The ranges of several names, each once; all where nothing is wanted."""
        rows = {row.column: row for row in self.rows}
        return [rows[column] for column in self.catalogue.chosen(wanted)]

    def of(self, name: str) -> Range:
        """The range of one signal; `DataError` where the name has several, or there is none."""
        found = self.chosen([name])
        if len(found) > 1:
            raise DataError(f"{name!r} are {len(found)} signals: name one, as {found[0].column.name!r}")
        return found[0]

    def narrower(self, wanted: Iterable[str] | None = None) -> Iterator[tuple[str, IntType, IntType]]:
        """The outputs of which a type of fewer bits has each value that may be held: the name, the type, and
        the narrowest that has them. Constants aren't told. It speaks of values alone: the ports of a sum have
        one type, and where bits are turned the width is part of the result.

            >>> [(name, str(kind)) for name, _, kind in found.narrower()]  # doctest: +SKIP
            [('Modulo_Count 2', 'int8')]
        """
        outputs: dict[tuple[int, int], list[Range]] = {}
        for row in self.chosen(wanted):
            outputs.setdefault((row.column.block, row.column.port), []).append(row)
        for (number, _), rows in outputs.items():
            block = self.catalogue.flat.block(number) if self.catalogue.flat else None
            kind = BY_NAME[rows[0].column.type]
            found = narrowest(kind, [row.held for row in rows])
            if found and not (block and block.kind == "CONST_m"):
                yield rows[0].column.name.partition("[")[0], kind, found

    def text(self, wanted: Iterable[str] | None = None, types: bool = False) -> str:
        """The ranges as `scicos-kit ranges` prints them; with `types` the narrower types that would do."""
        cells = [["signal", "type", "least", "greatest", "held"]]
        for row in self.chosen(wanted):
            ends = [str(row.shown.least), str(row.shown.greatest)] if row.shown else ["-", "-"]
            cells.append([row.column.name, row.column.type, *ends, str(row.held) if row.held != row.shown else ""])
        lines = [*aligned(cells), *(f"state of {name}: {interval}" for name, interval in self.states.items())]
        if types:
            lines += [f"type of {name}: {found} would do in place of {kind}"
                      for name, kind, found in self.narrower(wanted)]
        lines += [f"may stop: {name}, {REASONS[word]}" for name, word in self.stops]
        lines += [f"never acts: {name}" for name in self.idle]
        return "\n".join([*lines, "safe" if self.safe else "open", ""])


REASONS = {"overflow": "as its exact result may be outside of its type", "zero": "as it may divide by 0",
           "input": "as its column may end"}


def aligned(cells: list[list[str]]) -> list[str]:
    """Cells as lines, the names to the left and the numbers to the right."""
    widths = [max(map(len, column)) for column in zip(*cells)]
    return ["  ".join([name.ljust(widths[0]), kind.ljust(widths[1]), least.rjust(widths[2]),
                       greatest.rjust(widths[3]), held]).rstrip() for name, kind, least, greatest, held in cells]


def narrowest(kind: IntType, held: list[Interval]) -> IntType | None:
    """The type of the fewest bits that has all of these numbers, of two the one with the sign of this type;
    None where it has no fewer bits.

    >>> from scicos.integers import int16
    >>> narrowest(int16, [Interval(0, 1), Interval(-3, 90)])
    int8
    """
    fit = [other for other in TYPES if other.bits < kind.bits
           and all(other.holds(interval.least) and other.holds(interval.greatest) for interval in held)]
    fit.sort(key=lambda other: (other.bits, other.signed != kind.signed))
    return fit[0] if fit else None


def find_ranges(program: str | os.PathLike[str] | Program | None = None) -> Program:
    """The program `ranges`: that of the environment variable SCICOS_RANGES, the one beside the program
    `scicos` that is meant, or the one on PATH."""
    named = os.environ.get(VARIABLE)
    if named:
        found = shutil.which(named)
        if not found:
            raise MissingError(f"the program of the variable {VARIABLE}, {named}, isn't there, or can't be run")
        return Program(os.path.abspath(found))
    beside = os.path.join(os.path.dirname(find(program).path), "ranges")
    found = beside if os.access(beside, os.X_OK) else shutil.which("ranges")
    if found:
        return Program(found)
    raise MissingError(f"there is no program `ranges` beside `scicos` or on PATH: put it there, or name it in "
                       f"the variable {VARIABLE}")


def any_values(catalogue: Columns) -> list[list[int]]:
    """Columns without values: each sensor may take any number of its type."""
    return [[] for _ in range(max((sensor.column for sensor in given.sensors_of(catalogue)), default=0))]


def ranges(design: str | os.PathLike[str] | Design, inputs: given.Inputs = None,
           program: str | os.PathLike[str] | Program | None = None) -> Ranges:
    """The ranges of a design, for all input files whose columns keep between the least and the greatest value
    that `inputs` has there; without inputs sensors may take any number of their types. Runs may be as long as
    they like.

    `Refused` and other errors are those of `simulate`; `program` is `scicos`, beside which `ranges` lies.

        >>> ranges("examples/counter.json").safe  # doctest: +SKIP
        True
    """
    called, asked = find(program), find_ranges(program)
    with design_file(design) as path:
        catalogue = of_design(design, called, path)
        values = any_values(catalogue) if inputs is None else given.lasting(inputs)
        with given.input_file(values, catalogue, path) as file:
            answer = asked.ask(path, file)
            if answer.status:
                words = ("ranges", path, file)
                raise error_of(words, answer.status, answer.err, " ".join(words))
    return Ranges(catalogue, told_of(answer.out.decode()))
