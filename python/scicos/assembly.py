"""The diagram of a superblock that was cut out: its text, with sensors in place of its inputs."""
from __future__ import annotations

import copy
import json
from collections.abc import Iterator
from typing import Any

from .cut import Cut, Measured
from .flat import ACTIVATION, REGULAR, TAG_OBJECTS, Block, is_superblock
from .flat_wiring import End
from .integers import BY_NAME
from .reports import Shape, Source

MOST_OF_MUX = 64

Fields = dict[str, Any]


class Assembly:
    """The objects of the new diagram, and where in it the blocks of the whole one stand.

    What is taken along stands before the superblock or behind it as in the whole diagram, so that of events
    of one date the same comes first.
    """

    def __init__(self, cut: Cut) -> None:
        self.cut = cut
        self.objects: list[Fields] = []
        self.links: list[Fields] = []
        self.at: dict[int, int] = {}
        """By the number of a block that was taken along the object here."""
        self.columns: list[tuple[int, str, Measured, int]] = []
        """By column its number, its sensor, the input and the element."""
        self._led: dict[tuple[int, End], tuple[int, int]] = {}
        self._tags = self._free_tags()
        self._names = {self._own_name()}
        taken = sorted(cut.taken)
        self._taken_names = {number: self._unused(cut.flat.name(number)) for number in taken}
        before = [number for number in taken if cut.flat.blocks[number - 1].place < cut.item.place]
        self._add_taken(before)
        self._number_columns()
        self._sensors: dict[int, list[int]] = {}
        self._inputs = {measured.number: self._add_sensors(measured) for measured in cut.measured}
        self.inner: Fields = copy.deepcopy(cut.item.fields)
        self._fill_inside()
        self.controller = self._add({**self.inner, "name": self._own_name()})
        self._add_taken(taken[len(before):])
        self._link()

    def _own_name(self) -> str:
        """The superblock's own name."""
        return self.cut.item.name or self.cut.name

    def text(self) -> str:
        """The text of the diagram's file, an object a line."""
        return '{"objs": [\n' + _listed(self.objects + self.links, 1) + "\n]}\n"

    def _add(self, fields: Fields) -> int:
        """Adds an object, and gives its number. Links come behind all of them."""
        self.objects.append(fields)
        return len(self.objects)

    def _add_taken(self, numbers: list[int]) -> None:
        flat = self.cut.flat
        for number in numbers:
            block = flat.blocks[number - 1]
            fields = copy.deepcopy(block.item.fields)
            if block.item.name:
                fields["name"] = self._taken_names[number]
            self._fill(fields["model"], block)
            self.at[number] = self._add(fields)

    def _unused(self, name: str) -> str:
        """The name, with a number behind it where it is taken."""
        made, count = name, 2
        while made in self._names:
            made, count = f"{name} {count}", count + 1
        self._names.add(made)
        return made

    def _number_columns(self) -> None:
        """Finds a column for each element of the inputs; those that sensors inside have stay theirs."""
        flat = self.cut.flat
        inside = [flat.blocks[number - 1] for number in self.cut.inside]
        own = {block.item.numbers("ipar")[0] for block in inside if block.kind == "SENSOR"}
        free = (column for column in range(1, 256) if column not in own)
        for measured in self.cut.measured:
            count = measured.shape.elements
            name = self._unused(measured.name)
            for element in range(1, count + 1):
                sensor = self._unused(f"{name} {element}") if count > 1 else name
                self.columns.append((next(free), sensor, measured, element))

    def _add_sensors(self, measured: Measured) -> int:
        """The sensors of an input, and the object that gives the whole of it."""
        code = BY_NAME[measured.shape.type].code
        made = []
        for column, name, other, _ in self.columns:
            if other is measured:
                model = {"ipar": [column], "evtin": [1], "out": [1], "outtyp": [code]}
                made.append(self._add({"obj": "Block", "name": name, "gui": "SENSOR", "model": model}))
        self._sensors[measured.number] = list(made)
        sizes = [1] * len(made)
        while len(made) > 1:
            groups = [slice(at, at + MOST_OF_MUX) for at in range(0, len(made), MOST_OF_MUX)]
            made = [self._mux(made[group], sizes[group], code) for group in groups]
            sizes = [sum(sizes[group]) for group in groups]
        return made[0]

    def _mux(self, sources: list[int], sizes: list[int], code: int) -> int:
        if len(sources) == 1:
            return sources[0]
        model = {"in": sizes, "intyp": [code] * len(sizes), "out": [sum(sizes)], "outtyp": [code]}
        made = self._add({"obj": "Block", "gui": "MUX", "model": model})
        for port, source in enumerate(sources, 1):
            self._join((source, 1), (made, port), REGULAR)
        return made

    def _join(self, start: tuple[int, int], end: tuple[int, int], kind: int) -> None:
        self.links.append(_link_of(start, end, kind))

    def _free_tags(self) -> Iterator[int]:
        """Tags that the whole diagram doesn't have."""
        tags = [item for item in self.cut.flat.items() if item.kind in TAG_OBJECTS]
        used = {number for item in tags for number in item.numbers("ipar")[:1]}
        return (tag for tag in range(1, 2147483648) if tag not in used)

    def _fill_inside(self) -> None:
        for number in self.cut.inside:
            block = self.cut.flat.blocks[number - 1]
            self._fill(self._objects_of(block)[block.place[-1] - 1]["model"], block)

    def _objects_of(self, block: Block) -> list[Fields]:
        """The list of objects, in the copy, in which a block inside stands."""
        level: list[Fields] = self.inner["model"]["rpar"]["objs"]
        for at in block.place[len(self.cut.item.place):-1]:
            level = level[at - 1]["model"]["rpar"]["objs"]
        return level

    def _fill(self, model: Fields, block: Block) -> None:
        """Declares types and sizes that the whole diagram inferred."""
        ports = range(1, block.item.ports(REGULAR, 1) + 1)
        sources = [self.cut.wiring.source(block.number, port) for port in ports]
        fed = [self.cut.shapes[source.block][source.port - 1] for source in sources if source]
        for key, found in (("in", fed), ("out", self.cut.shapes[block.number])):
            declared = [entry for part in (key, key + "2", key + "typ") for entry in block.item.numbers(part)]
            if found and min(declared) < 1:
                model[key] = [shape.rows for shape in found]
                model[key + "2"] = [shape.columns for shape in found]
                model[key + "typ"] = [BY_NAME[shape.type].code for shape in found]

    def _start(self, end: End, kind: int) -> tuple[int, int]:
        """Where an output of the whole diagram can be taken at the top: one inside is led out by a tag."""
        if end.block in self.at:
            return (self.at[end.block], end.port)
        key = (kind, end)
        if key not in self._led:
            self._led[key] = self._lead_out(end, kind)
        return self._led[key]

    def _lead_out(self, end: End, kind: int) -> tuple[int, int]:
        block = self.cut.flat.blocks[end.block - 1]
        tag, level = next(self._tags), self._objects_of(block)
        shape = self.cut.shapes[end.block][end.port - 1] if kind == REGULAR else None
        level.append(_tag_object("GOTO", [tag, 3], shape, "in"))
        level.append(_link_of((block.place[-1], end.port), (len(level), 1), kind))
        return (self._add(_tag_object("FROM", [tag], shape, "out")), 1)

    def _link(self) -> None:
        """The links at the top."""
        cut = self.cut
        for number, made in self.at.items():
            item = cut.flat.blocks[number - 1].item
            for port in range(1, item.ports(ACTIVATION, 1) + 1):
                self._feed((made, port), cut.wiring.activators(number, port), ACTIVATION)
            for port in range(1, item.ports(REGULAR, 1) + 1):
                self._feed((made, port), cut.wiring.sources(number, port), REGULAR)
        for port, starts in cut.activated.items():
            self._feed((self.controller, port), starts, ACTIVATION)
        for tag, starts in sorted(cut.tags.items()):
            self._feed((self._add(_tag_object("GOTO", [tag, 3], None, "in")), 1), starts, ACTIVATION)
        for number, start in cut.returned.items():
            self._join(self._start(start, REGULAR), (self.controller, number), REGULAR)
        for measured in cut.measured:
            for sensor in self._sensors[measured.number]:
                self._feed((sensor, 1), [End(*source) for source in measured.events], ACTIVATION)
            self._join((self._inputs[measured.number], 1), (self.controller, measured.number), REGULAR)

    def _feed(self, end: tuple[int, int], starts: list[End], kind: int) -> None:
        for start in starts:
            self._join(self._start(start, kind), end, kind)


def _tag_object(gui: str, ipar: list[int], shape: Shape | None, side: str) -> Fields:
    """An object that gives or takes a tag, of events where there is no shape."""
    if shape is None:
        return {"obj": "Block", "gui": "CLK" + gui, "model": {"ipar": ipar, "evt" + side: [1]}}
    sizes = {side: [shape.rows], side + "2": [shape.columns], side + "typ": [BY_NAME[shape.type].code]}
    return {"obj": "Block", "gui": gui, "model": {"ipar": ipar, **sizes}}


def _link_of(start: tuple[int, int], end: tuple[int, int], kind: int) -> Fields:
    return {"obj": "Link", "from": [*start, 0], "to": [*end, 1], "ct": [1 if kind == REGULAR else 5, kind]}


def _listed(objects: list[Fields], depth: int) -> str:
    return ",\n".join("  " * depth + _line(fields, depth) for fields in objects)


def _line(fields: Fields, depth: int) -> str:
    """An object on a line; of a superblock the objects inside on lines of their own."""
    if not is_superblock(fields) or not isinstance(fields["model"].get("rpar"), dict):
        return json.dumps(fields, ensure_ascii=False)
    inside = fields["model"]["rpar"]["objs"]
    head, model = _without(fields, "model"), _without(fields["model"], "rpar")
    begun = f'{head[:-1]}, "model": {model[:-1]}, "rpar": {{"objs": [\n'
    return begun + _listed(inside, depth + 1) + "\n" + "  " * depth + "]}}}"


def _without(fields: Fields, key: str) -> str:
    return json.dumps({name: value for name, value in fields.items() if name != key}, ensure_ascii=False)
