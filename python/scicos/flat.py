"""Reading a diagram's file: its levels, its objects with places and lines, its blocks with their numbers, and
the names by which people speak of them.

Odd data is never an error here: what can be read is kept, of refused and of damaged files too. Whether a
diagram is right is said by the program alone.
"""
from __future__ import annotations

import collections
import functools
import os
from collections.abc import Iterator
from typing import Protocol, Union

from .errors import ReadError
from .flat_items import (ACTIVATION, JOINTS, PASSING, PORT_BLOCKS, REGULAR, TAG_OBJECTS, Block, Item, Level,
                         Link, Place, is_superblock, place_of, place_text, whole)
from .json_lines import Damage, JsonText

__all__ = ["ACTIVATION", "JOINTS", "PASSING", "PORT_BLOCKS", "REGULAR", "TAG_OBJECTS", "Block", "Design",
           "Flat", "HasJson", "Item", "Level", "Link", "Place", "is_superblock", "place_of", "place_text",
           "read", "whole"]

_DEEPEST = 64


class HasJson(Protocol):
    """What gives a diagram as JSON, as the builder's ``Diagram``."""

    def to_json(self) -> str: ...


Design = Union[str, "os.PathLike[str]", HasJson]
"""A path to a diagram's file, or an object that gives its JSON."""


class Flat:
    """A diagram as it was read.

    >>> text = '{"objs": [{"obj": "Block", "gui": "HALT_f", "name": "stop", "model": {"evtin": [1]}}]}'
    >>> flat = Flat(text, 'stop.json')
    >>> flat.blocks[0].number, flat.name_of(flat.blocks[0].place), flat.where((1,))
    (1, 'stop', 'stop.json:1')
    """

    def __init__(self, text: str, file: str = "diagram.json") -> None:
        self.file = file
        reader = JsonText(text)
        self.top = _level(reader, reader.start, (), None)
        reader.whole()
        self.damage: Damage | None = reader.damage
        self.is_text = "\ufffd" not in text
        self._items = {item.place: item for item in _all_items(self.top)}
        counted = (item for item in self._items.values() if item.is_block and item.inner is None
                   and item.kind not in PASSING)
        self.blocks = [Block(number, item) for number, item in enumerate(counted, 1)]

    @functools.cached_property
    def _by_place(self) -> dict[Place, Block]:
        return {block.place: block for block in self.blocks}

    @functools.cached_property
    def links(self) -> list[Link]:
        """The links that lead from an object of a level to one of it."""
        return [link for item in self._items.values() if item.is_link for link in [self._link(item)] if link]

    def _link(self, item: Item) -> Link | None:
        kinds = item.fields.get("ct")
        ends = [item.fields.get("from"), item.fields.get("to")]
        kind = kinds[1] if isinstance(kinds, list) and len(kinds) > 1 else None
        if not whole(kind) or kind not in (REGULAR, ACTIVATION):
            return None
        found = []
        for end in ends:
            if not (isinstance(end, list) and len(end) > 1 and whole(end[0]) and whole(end[1])):
                return None
            other = self._items.get(item.place[:-1] + (end[0],))
            if other is None or not other.is_block:
                return None
            found.append((other.place, end[1]))
        return Link(item, kind, found[0], found[1])

    def item(self, place: Place) -> Item | None:
        """The object at a place."""
        return self._items.get(place)

    def items(self) -> Iterator[Item]:
        """All objects in the order of the file, the inside of a superblock behind it."""
        return iter(self._items.values())

    def block(self, number: int) -> Block | None:
        """The block with a number of `map`."""
        return self.blocks[number - 1] if 1 <= number <= len(self.blocks) else None

    def block_at(self, place: Place) -> Block | None:
        """The block at a place; None for superblocks, for what passes signals through, and for links."""
        return self._by_place.get(place)

    @functools.cached_property
    def _names(self) -> dict[Place, str]:
        """The names of the blocks; one that two blocks have gets the number behind it, so that no other block
        has it.
        """
        named = {block.place: self._outer(block.place)
                 + (block.item.name or f"{block.kind or 'block'} {block.number}") for block in self.blocks}
        often = collections.Counter(named.values())
        return {place: name if often[name] == 1 else f"{name} {self._by_place[place].number}"
                for place, name in named.items()}

    def _outer(self, place: Place) -> str:
        """The names of the superblocks round a place, with a dot behind each."""
        outer = [self._items[place[:depth]] for depth in range(1, len(place))]
        return "".join(f"{item.name or self._kind_and_place(item)}." for item in outer)

    def _kind_and_place(self, item: Item) -> str:
        gui = item.fields.get("gui")
        what = gui if item.is_block and isinstance(gui, str) and gui else "link" if item.is_link else "object"
        return f"{what} {place_text(item.place)}"

    def name_of(self, place: Place) -> str:
        """What an object is called: its dotted name, or its kind with its number (of a block) or its place
        where it has none.
        """
        item = self._items.get(place)
        if item is None:
            return f"object {place_text(place)}" if place else "the diagram"
        if place in self._names:
            return self._names[place]
        return self._outer(place) + item.name if item.name else self._kind_and_place(item)

    def name(self, number: int) -> str:
        """What the block with a number is called."""
        block = self.block(number)
        return self.name_of(block.place) if block else "block %d" % number

    def signal(self, number: int, port: int = 1, element: int | None = None) -> str:
        """What an output is called: ``controller.error``; with several outputs ``block.2``; an element
        ``block[3]``.
        """
        block = self.block(number)
        several = block is not None and block.item.ports(REGULAR, 0) > 1
        return self.name(number) + (".%d" % port if several
                                    else "") + ("" if element is None else "[%d]" % element)

    def find(self, name: str) -> Block | None:
        """The first block that is called so."""
        return next((block for block in self.blocks if self.name_of(block.place) == name), None)

    def where(self, place: Place) -> str:
        """The line that made an object: of Python where the builder wrote it, else of the JSON file."""
        item = self._items.get(place)
        if item is None:
            return self.file
        return item.python or "%s:%d" % (self.file, item.line)


def read(design: Design) -> Flat:
    """Reads a diagram from its file, or from an object with `to_json`.

    What stands in the file is never an error; `ReadError` tells that it can't be read.
    """
    if isinstance(design, (str, os.PathLike)):
        try:
            with open(design, "rb") as file:
                text = file.read().decode("utf-8", "replace")
        except OSError as error:
            raise ReadError(f"{os.fspath(design)} can't be read: {error.strerror or error}") from None
        return Flat(text, os.path.basename(os.fspath(design)))
    return Flat(design.to_json())


def _level(reader: JsonText, start: int | None, place: Place, outer: Item | None) -> Level:
    """The diagram that begins at a position."""
    level = Level(place, [], outer)
    for number, at in enumerate(reader.items(reader.member(start, "objs")), 1):
        value = reader.value(at)
        item = Item(place + (number,), value if isinstance(value, dict) else {}, reader.line(at))
        level.items.append(item)
        if is_superblock(item.fields):
            inside = reader.member(reader.member(at, "model"), "rpar") if len(place) < _DEEPEST else None
            item.inner = _level(reader, inside, item.place, item)
    return level


def _all_items(level: Level) -> Iterator[Item]:
    for item in level.items:
        yield item
        if item.inner:
            yield from _all_items(item.inner)
