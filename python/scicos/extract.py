"""A superblock cut out of a diagram as a controller of its own, with sensors in place of its inputs."""
from __future__ import annotations

import os
from collections.abc import Iterator
from dataclasses import dataclass

from . import files
from .assembly import Assembly
from .column_map import ColumnMap, Entry, path_of
from .cut import START, Cut, Measured, superblock
from .errors import DataError
from .flat import Design, Flat, Place, read
from .flat_wiring import Wiring
from .messages import sentence
from .program import Program, Refused, design_file, find
from .reports import Source, schedules, shapes
from .runs import Run

Rows = dict[Source, dict[int, frozenset[Source]]]


@dataclass(frozen=True)
class _Recorded:
    """Which signal of the whole diagram a column holds, and at the events of which sources."""

    column: int
    start: tuple[int, int, int]
    events: tuple[Source, ...]


@dataclass(frozen=True)
class Extracted:
    """A controller that was cut out: a design like any other.

    `columns` is the map of its columns, `numbers` has by the number of a block in the whole diagram the one
    that it has here, and `notes` tell what a host can't do as the whole diagram did.
    """

    text: str
    columns: ColumnMap
    numbers: dict[int, int]
    notes: tuple[str, ...]
    _recorded: tuple[_Recorded, ...]

    def to_json(self) -> str:
        """The text of the diagram's file."""
        return self.text

    def write(self, path: str | os.PathLike[str]) -> None:
        """Writes the diagram's file, and beside it the map of its columns: of c.json c.columns.json.

        A device or a pipe takes the diagram alone.
        """
        if is_file(path):
            self._write_map(path)
        with files.written(path) as file:
            file.write(self.text.encode())

    def _write_map(self, path: str | os.PathLike[str]) -> None:
        with files.written(path_of(path)) as file:
            file.write(self.columns.to_json(self.text).encode())

    def inputs(self, run: Run) -> dict[int, list[int]]:
        """From a run of the whole diagram the values of each column: what the input held where one is taken.

        The run has to have the signals that feed the inputs. Sensors inside of the controller keep the run's
        own columns.

            >>> run = simulate("loop.json", until=100)  # doctest: +SKIP
            >>> simulate(controller, controller.inputs(run), until=100)  # doctest: +SKIP
        """
        return {one.column: list(_held(run, one)) for one in self._recorded}


def is_file(path: str | os.PathLike[str]) -> bool:
    """Whether what is written there is a file, and no device or pipe."""
    return os.path.isfile(path) or not os.path.exists(path)


def extract(design: Design, name: str, program: str | os.PathLike[str] | Program | None = None) -> Extracted:
    """Cuts a superblock out of a diagram, by its dotted name, or by its place as `7/3`.

    Each element of its regular inputs becomes a sensor, which takes a value at each event at which a block
    inside may read the input. The clocks that activate it are taken along. What can't be cut so that the
    controller acts as it did is refused.

        >>> controller = extract("loop.json", "controller")  # doctest: +SKIP
        >>> controller.write("controller.json")  # doctest: +SKIP
    """
    called = find(program)
    with design_file(design) as path:
        found, rows = shapes(called, path), schedules(called, path)
        flat = read(design)
    cut = Cut(flat, Wiring(flat), superblock(flat, name), found, rows)
    made = Assembly(cut)
    text = made.text()
    numbers = _look_at(cut, made, text, called)
    columns = ColumnMap(cut.name, tuple(_entry(cut, *column) for column in made.columns))
    return Extracted(text, columns, numbers, tuple(_notes(cut)), tuple(map(_recorded, made.columns)))


def _entry(cut: Cut, column: int, sensor: str, measured: Measured, element: int) -> Entry:
    """The row of a column in the map."""
    start = measured.start
    signal = cut.flat.signal(start.block, start.port, element if measured.shape.elements > 1 else None)
    return Entry(column, sensor, measured.number, measured.name, element, measured.shape.type, signal,
                 tuple(cut.event(source) for source in measured.events))


def _recorded(made: tuple[int, str, Measured, int]) -> _Recorded:
    column, _, measured, element = made
    return _Recorded(column, (measured.start.block, measured.start.port, element), tuple(measured.events))


def _notes(cut: Cut) -> Iterator[str]:
    for measured in cut.measured:
        inner = cut.answered(measured)
        if inner is not None:
            yield (f"input `{measured.name}` of `{cut.name}` depends at once on {cut.told(inner)}, whose value a host"
                   " is told behind the same reaction: put a delay in the plant, or the host's values come one event"
                   " later")


def _look_at(cut: Cut, made: Assembly, text: str, program: Program) -> dict[int, int]:
    """Lets the program judge the controller, and compares who acts at which event in both diagrams.

    It gives the numbers of the blocks by those of the whole diagram.
    """
    flat = Flat(text, "the controller")
    with design_file(_Text(text)) as path:
        try:
            rows = schedules(program, path)
        except Refused as refused:
            told = sentence(refused.refusal, refused.words, flat)
            raise DataError(f"what is cut out is refused: {told}") from None
    numbers = _numbers(cut, made, flat)
    _same_order(cut, numbers)
    _same_activations(cut, numbers, rows)
    return numbers


def _numbers(cut: Cut, made: Assembly, flat: Flat) -> dict[int, int]:
    """By the number of a block in the whole diagram the one that it has in the controller."""
    places: dict[int, Place] = {number: (at,) for number, at in made.at.items()}
    for number in cut.inside:
        places[number] = (made.controller, *cut.flat.blocks[number - 1].place[len(cut.item.place):])
    found = {number: flat.block_at(place) for number, place in places.items()}
    return {number: block.number for number, block in sorted(found.items()) if block}


def _same_order(cut: Cut, numbers: dict[int, int]) -> None:
    """Refuses blocks that are numbered in another order, by which events of one date fire otherwise."""
    last = None
    for number, here in numbers.items():
        if last and here < numbers[last]:
            raise DataError(f"{cut.told(last)} and {cut.told(number)} would have numbers in another order in"
                            " the controller, and their events of one date another order then")
        last = number


def _same_activations(cut: Cut, numbers: dict[int, int], rows: Rows) -> None:
    """Refuses a controller in which a block would act at other events than in the whole diagram."""
    back = {here: number for number, here in numbers.items()}
    whole = [source for source in cut.schedules if source[0] in numbers or source == START]
    for source in whole:
        here = (numbers.get(source[0], 0), source[1])
        due = {number: guards for number, guards in cut.schedules[source].items() if number in numbers}
        given = {back[number]: frozenset((back.get(block, 0), port) for block, port in guards)
                 for number, guards in rows.get(here, {}).items() if number in back}
        for number in sorted(due.keys() | given.keys()):
            if due.get(number) != given.get(number):
                event = f"the event of {cut.told(source[0])}" if source[0] else "start"
                raise DataError(f"{cut.told(number)} would act otherwise at {event} in the controller than"
                                " in the whole diagram")
    for source, active in cut.schedules.items():
        if source not in whole:
            for number in active.keys() & set(cut.inside):
                raise DataError(f"{cut.told(number)} acts at the event of {cut.told(source[0])} too, which"
                                " isn't taken along")


@dataclass(frozen=True)
class _Text:
    """A text as a design."""

    text: str

    def to_json(self) -> str:
        """The text."""
        return self.text


def _held(run: Run, one: _Recorded) -> Iterator[int]:
    """What a signal holds at each event of some sources, in a run of the whole diagram."""
    block, port, element = one.start
    found = [column for column in run.columns if (column.block, column.port, column.element) == one.start]
    if not found:
        raise DataError(f"the run doesn't have the signal of block {block}, output {port}, element {element},"
                        f" which feeds column {one.column}: ask for all signals in it")
    column = found[0]
    trace, wanted = run.trace, set(one.events)
    values = trace.values[column]
    places = trace.rows[block].places(len(trace.dates), True)
    for event, place in zip(zip(trace.blocks, trace.ports), places):
        if event in wanted:
            yield values[place] if place >= 0 else trace.first[column.code]
