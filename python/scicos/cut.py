"""Cutting a superblock out: what its inputs stand for, what is taken along, and what can't be cut."""
from __future__ import annotations

import difflib
from collections.abc import Iterable, Iterator
from dataclasses import dataclass, field

from .errors import DataError
from .flat import ACTIVATION, REGULAR, Block, Flat, Item, Place, place_of, place_text
from .flat_wiring import INPUT, OUTPUT, End, Port, Wiring, first_parameter
from .kinds import KINDS
from .reports import Shape, Source

MOST_COLUMNS = 255
START: Source = (0, 0)


@dataclass
class Measured:
    """A regular input of the superblock that something reads.

    It has a number and a name, the output outside that feeds it with its shape, the blocks inside that read
    it, and the sources of the events at which one of them acts.
    """

    number: int
    name: str
    start: End
    shape: Shape
    readers: list[Block]
    events: list[Source] = field(default_factory=list)


class Cut:
    """A superblock and what belongs to it, by the numbers of the whole diagram.

    `taken` are the blocks outside that are taken along, `measured` the inputs that become sensors, `returned`
    those that the superblock itself feeds round the outside, `activated` has by activation input what
    activates it, and `tags` by tag the same of the tags of events that are taken inside and given outside.
    """

    def __init__(self, flat: Flat, wiring: Wiring, item: Item, shapes: dict[int, list[Shape]],
                 schedules: dict[Source, dict[int, frozenset[Source]]]) -> None:
        self.flat, self.wiring, self.item, self.shapes, self.schedules = flat, wiring, item, shapes, schedules
        self.name = flat.name_of(item.place)
        self.inside = [block.number for block in flat.blocks if self.holds(block.place)]
        self.taken: set[int] = set()
        self.measured: list[Measured] = []
        self.returned: dict[int, End] = {}
        self.activated: dict[int, list[End]] = {}
        self.tags: dict[int, list[End]] = {}
        self._look_at_tags()
        self._look_at_inputs()
        self._look_at_activations()
        self._look_at_columns()
        self._look_at_readers()

    def holds(self, place: Place) -> bool:
        """Whether an object stands in the superblock."""
        depth = len(self.item.place)
        return len(place) > depth and place[:depth] == self.item.place

    def is_inside(self, end: End) -> bool:
        """Whether the block of an end stands in the superblock."""
        block = self.flat.block(end.block)
        return block is not None and self.holds(block.place)

    def told(self, number: int) -> str:
        """A block by its name and where it was made."""
        block = self.flat.blocks[number - 1]
        return f"`{self.flat.name(number)}` ({self.flat.where(block.place)})"

    def event(self, source: Source) -> str:
        """The name of a source of events."""
        block = self.flat.block(source[0])
        several = block is not None and block.item.ports(ACTIVATION, 0) > 1
        return self.flat.name(source[0]) + (f".{source[1]}" if several else "")

    def _within(self, port: Port) -> list[Block]:
        """The blocks inside to which a port of the superblock leads without leaving it, by number."""
        waiting, seen = [port], {port}
        while waiting:
            for further in self.wiring.after.get(waiting.pop(), []):
                if further not in seen and self.holds(further.place):
                    seen.add(further)
                    waiting.append(further)
        found = {self.flat.block_at(reached.place) for reached in seen if reached.side == INPUT}
        return sorted((block for block in found if block), key=lambda block: block.number)

    def _starts(self, port: Port) -> list[End]:
        """The outputs of blocks that lead to a port."""
        found = set()
        for before in self.wiring.leading(port):
            block = self.flat.block_at(before.place)
            if block and before.side == OUTPUT:
                found.add(End(block.number, before.number))
        return sorted(found)

    def _port_name(self, number: int, start: End) -> str:
        """The name of a regular input: of its port block inside, or of what feeds it."""
        assert self.item.inner is not None
        for item in self.item.inner.items:
            if item.kind == "IN_f" and first_parameter(item) == number and item.name:
                return item.name
        own = self.flat.blocks[start.block - 1].item.name
        return own or f"input {number}"

    def _look_at_inputs(self) -> None:
        for number in range(1, self.item.ports(REGULAR, 1) + 1):
            port = Port(self.item.place, REGULAR, INPUT, number)
            readers, starts = self._within(port), self._starts(port)
            if not readers or not starts:
                continue
            start = starts[0]
            if self.is_inside(start):
                self.returned[number] = start
                continue
            name = self._port_name(number, start)
            self._refuse_inherited(name, start, readers)
            shape = self.shapes[start.block][start.port - 1]
            if shape.columns > 1:
                raise DataError(f"input `{name}` of `{self.name}` is a matrix of {shape.rows} rows and"
                                f" {shape.columns} columns, and sensors give scalars, of which a MUX makes one"
                                " column: lead it in by columns")
            self.measured.append(Measured(number, name, start, shape, readers))

    def _refuse_inherited(self, name: str, start: End, readers: Iterable[Block]) -> None:
        """Refuses a block that would act when the outside does."""
        for block in readers:
            if not block.item.ports(ACTIVATION, 1):
                raise DataError(f"{self.told(block.number)} has no activation input, so it is activated through"
                                f" input `{name}` of `{self.name}` by {self.told(start.block)}, which is outside:"
                                " give it an activation input, and lead a clock to it")

    def _look_at_tags(self) -> None:
        for giver, takers in self.wiring.takers_of.items():
            for taker in takers:
                if self.holds(taker) and not self.holds(giver):
                    self._take_tag(giver, taker)

    def _take_tag(self, giver: Place, taker: Place) -> None:
        """Takes the clocks behind a tag along; refuses a tag of signals."""
        item = self.flat.item(taker)
        assert item is not None
        tag = first_parameter(item) or 0
        if item.kind == "FROM":
            names = [f"`{self.flat.name_of(place)}` ({self.flat.where(place)})" for place in (taker, giver)]
            raise DataError(f"{names[0]} takes the tag {tag}, which is given outside of `{self.name}` by"
                            f" {names[1]}: lead the signal in by an input, which becomes a sensor")
        self.tags[tag] = self._starts(Port(giver, ACTIVATION, INPUT, 1))

    def _look_at_activations(self) -> None:
        for number in range(1, self.item.ports(ACTIVATION, 1) + 1):
            port = Port(self.item.place, ACTIVATION, INPUT, number)
            if self._within(port):
                self.activated[number] = self._starts(port)
        for starts in [*self.activated.values(), *self.tags.values()]:
            for start in starts:
                self._take(start)

    def _take(self, start: End) -> None:
        """Takes along what an event is made of, unless it stands inside."""
        waiting = [start]
        while waiting:
            end = waiting.pop()
            if self.is_inside(end) or end.block in self.taken:
                continue
            self.taken.add(end.block)
            block = self.flat.blocks[end.block - 1]
            self._refuse_measured(start, block)
            waiting.extend(self._behind(block))

    def _behind(self, block: Block) -> Iterator[End]:
        """The outputs that activate a block or feed it."""
        for port in range(1, block.item.ports(ACTIVATION, 1) + 1):
            yield from self.wiring.activators(block.number, port)
        for port in range(1, block.item.ports(REGULAR, 1) + 1):
            yield from self.wiring.sources(block.number, port)

    def _refuse_measured(self, start: End, block: Block) -> None:
        """Refuses an event that depends on a sensor outside, or on the outside's answer to the superblock."""
        event = f"the event of {self.told(start.block)}, which activates `{self.name}`,"
        cure = f"decide inside of `{self.name}`, by a signal that is led in by an input"
        if block.kind == "SENSOR":
            sensor = self.told(block.number)
            raise DataError(f"{event} depends on the sensor {sensor}, which is outside: {cure}")
        if not block.item.ports(ACTIVATION, 0):
            for port in range(1, block.item.ports(REGULAR, 1) + 1):
                for source in self.wiring.sources(block.number, port):
                    if self.is_inside(source):
                        raise DataError(f"{event} depends on {self.told(block.number)}, which is outside and"
                                        f" reads {self.told(source.block)}: {cure}")

    def _look_at_columns(self) -> None:
        own = sum(self.flat.blocks[number - 1].kind == "SENSOR" for number in self.inside)
        elements = sum(measured.shape.elements for measured in self.measured)
        if elements + own > MOST_COLUMNS:
            beside = f" beside {own} sensors inside" if own else ""
            raise DataError(f"the inputs of `{self.name}` have {elements} elements{beside}, and an input file"
                            f" has at most {MOST_COLUMNS} columns: lead less in")

    def _look_at_readers(self) -> None:
        """Finds the events at which the inputs are read; refuses what reads one at start."""
        for measured in self.measured:
            numbers = {block.number for block in measured.readers}
            measured.events = [source for source, rows in self.schedules.items() if numbers & rows.keys()]
            if START in measured.events:
                first = min(numbers & self.schedules[START].keys())
                raise DataError(f"{self.told(first)} reads input `{measured.name}` of `{self.name}` at start,"
                                " by a condition that a constant decides, and a sensor takes its values at"
                                " events: activate it by a clock")

    def answered(self, measured: Measured) -> int | None:
        """The number of a block inside on whose value an input depends in the same reaction, if any."""
        inside = set(self.inside)
        for source in measured.events:
            rows, waiting, seen = self.schedules[source], [measured.start.block], set[int]()
            while waiting:
                number = waiting.pop()
                if number in inside:
                    return number
                if number not in seen:
                    seen.add(number)
                    waiting.extend(needed for needed in self._needed(number, rows) if needed in rows)
        return None

    def _needed(self, number: int, rows: dict[int, frozenset[Source]]) -> Iterator[int]:
        """The blocks on whose values, or branches, a block outside depends at once where it acts."""
        if number in rows:
            yield from (block for block, _ in rows[number])
            block = self.flat.blocks[number - 1]
            feedthrough = KINDS[block.kind].feedthrough
            for port in range(1, block.item.ports(REGULAR, 1) + 1):
                if feedthrough == "all" or feedthrough == "second" and port == 2:
                    yield from (end.block for end in self.wiring.sources(number, port))


def superblock(flat: Flat, name: str) -> Item:
    """The superblock of a dotted name, or of a place as `7/3`; else a DataError with near names."""
    supers = [item for item in flat.items() if item.inner]
    found = [item for item in supers if flat.name_of(item.place) == name]
    found = found or [item for item in supers if item.place == place_of(name)]
    if len(found) == 1:
        return found[0]
    if found:
        places = " or ".join(place_text(item.place) for item in found)
        raise DataError(f"{flat.file} has {len(found)} superblocks `{name}`: name one by its place, {places}")
    if flat.find(name):
        raise DataError(f"`{name}` of {flat.file} is a block, and no superblock: what is cut out has an"
                        " inside")
    names = [flat.name_of(item.place) for item in supers]
    near = [known for known in names if known.rpartition(".")[2] == name]
    near += difflib.get_close_matches(name, names, 3, 0.5)
    told = " or ".join(f"`{known}`" for known in dict.fromkeys(near))
    listed = ", ".join(f"`{known}`" for known in names[:12])
    hint = f"did you mean {told}?" if told else f"it has {listed}" if names else "it has none at all"
    raise DataError(f"{flat.file} has no superblock `{name}`: {hint}")
