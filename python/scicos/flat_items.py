"""The objects of a diagram's file: levels, blocks and links, with what can be read of each."""
from __future__ import annotations

from dataclasses import dataclass, field
from typing import Any

Place = tuple[int, ...]

REGULAR, ACTIVATION = 1, -1
JOINTS = frozenset({"SPLIT_f", "CLKSPLIT_f", "CLKSOM_f", "CLKSOMV_f"})
PORT_BLOCKS = frozenset({"IN_f", "OUT_f", "CLKINV_f", "CLKOUTV_f"})
TAG_OBJECTS = frozenset({"GOTO", "FROM", "CLKGOTO", "CLKFROM"})
PASSING = JOINTS | PORT_BLOCKS | TAG_OBJECTS
"""The kinds that only pass signals through; they have no numbers."""


def whole(value: Any) -> bool:
    """Whether a value is a whole number as JSON has it."""
    return isinstance(value, int) and not isinstance(value, bool)


def place_text(place: Place) -> str:
    """A place as the program writes it: ``7/3``.

    >>> place_text((7, 3))
    '7/3'
    """
    return "/".join(map(str, place)) or "-"


def place_of(text: str) -> Place:
    """A place from the program's text; () for ``-`` and for what is no place.

    >>> place_of('7/3')
    (7, 3)
    """
    parts = text.split("/")
    return tuple(int(part) for part in parts) if all(part.isascii() and part.isdigit()
                                                     for part in parts) else ()


@dataclass(eq=False)
class Item:
    """An object of a diagram: a block, a superblock, a link, or what else stands in a list `objs`."""

    place: Place
    fields: dict[str, Any] = field(repr=False)
    line: int
    """The line of the JSON file where the object begins, from 1."""
    inner: Level | None = None
    """Of a superblock, the diagram inside."""

    @property
    def model(self) -> dict[str, Any]:
        model = self.fields.get("model")
        return model if isinstance(model, dict) else {}

    @property
    def is_block(self) -> bool:
        return self.fields.get("obj") == "Block"

    @property
    def is_link(self) -> bool:
        return self.fields.get("obj") == "Link"

    @property
    def kind(self) -> str:
        """The kind of a block; '' of a superblock, and where `gui` is no text."""
        gui = self.fields.get("gui")
        return gui if self.is_block and self.inner is None and isinstance(gui, str) else ""

    @property
    def name(self) -> str | None:
        """The object's own name: its field `name`."""
        name = self.fields.get("name")
        return name if isinstance(name, str) and name else None

    @property
    def python(self) -> str | None:
        """The line of Python that made the object, as ``design.py:12``: its field `line`."""
        line = self.fields.get("line")
        return line if isinstance(line, str) and line else None

    @property
    def grants(self) -> tuple[str, ...]:
        """The warnings that the design grants at this object: its field `grant`."""
        grant = self.fields.get("grant")
        entries = grant if isinstance(grant, list) else [grant]
        return tuple(entry for entry in entries if isinstance(entry, str))

    @property
    def outputs(self) -> tuple[int, ...]:
        """The ports of outputs that leave the design, as the host reads them: its field `output`."""
        output = self.fields.get("output")
        entries = output if isinstance(output, list) else [output]
        return tuple(entry for entry in entries if whole(entry))

    def entries(self, key: str) -> list[Any]:
        """A list of the model; one value alone stands for a list of it, and what isn't there is empty."""
        value = self.model.get(key)
        return value if isinstance(value, list) else [] if value is None else [value]

    def numbers(self, key: str) -> list[int]:
        """A list of numbers of the model, with 0 for what is no whole number."""
        return [entry if whole(entry) else 0 for entry in self.entries(key)]

    def ports(self, kind: int, side: int) -> int:
        """How many ports the model has of a kind (REGULAR, ACTIVATION) on a side (0 outputs, 1 inputs)."""
        return len(self.entries({(1, 1): "in", (1, 0): "out", (-1, 1): "evtin",
                                 (-1, 0): "evtout"}[kind, side]))


@dataclass(eq=False)
class Level:
    """A diagram at its place, () for the outermost, with its objects in the order of the file."""

    place: Place
    items: list[Item]
    outer: Item | None = None

    def item(self, at: object) -> Item | None:
        """The object with a number of this level, from 1."""
        return self.items[at - 1] if isinstance(at, int) and 1 <= at <= len(self.items) else None


@dataclass(frozen=True)
class Link:
    """A link whose ends are objects of its level."""

    item: Item
    kind: int
    start: tuple[Place, int]
    """The place and the port where it begins."""
    end: tuple[Place, int]


@dataclass(frozen=True)
class Block:
    """A block with the number that the program's `map` prints."""

    number: int
    item: Item

    @property
    def place(self) -> Place:
        return self.item.place

    @property
    def kind(self) -> str:
        return self.item.kind


def is_superblock(fields: dict[str, Any]) -> bool:
    """Whether an object is a superblock, by the field `sim` of its model."""
    model = fields.get("model")
    sim = model.get("sim") if isinstance(model, dict) else None
    return fields.get("obj") == "Block" and (sim[:1] if isinstance(sim, list)
                                             else [sim]) in (["super"], ["csuper"])
