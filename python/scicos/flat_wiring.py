"""The wiring of a diagram: which output feeds each input, when superblocks, splits, unions and tags are
followed.

It is a graph of ports. A link leads from an output to an input; a superblock, a split, a union and a tag lead
on from an input to outputs. Links of odd data lead where they say, and what leads nowhere is left out.
"""
from __future__ import annotations

from dataclasses import dataclass
from typing import Iterable

from .flat import ACTIVATION, JOINTS, REGULAR, Flat, Item, Place

OUTPUT, INPUT = 0, 1
_ENTRIES = {"IN_f": REGULAR, "CLKINV_f": ACTIVATION}
_EXITS = {"OUT_f": REGULAR, "CLKOUTV_f": ACTIVATION}
_GIVERS = {"GOTO": REGULAR, "CLKGOTO": ACTIVATION}
_TAKERS = {"FROM": REGULAR, "CLKFROM": ACTIVATION}


@dataclass(frozen=True, order=True)
class Port:
    """A port of an object: its place, its kind (REGULAR or ACTIVATION), its side (OUTPUT or INPUT) and its
    number from 1.
    """

    place: Place
    kind: int
    side: int
    number: int


@dataclass(frozen=True, order=True)
class End:
    """A port of a block, by the block's number and the port's number."""

    block: int
    port: int


class Wiring:
    """Who feeds whom.

    >>> wiring = Wiring(flat.read('examples/first.json'))
    >>> wiring.activators(2, 1)
    [End(block=1, port=1)]
    """

    def __init__(self, flat: Flat) -> None:
        self.flat = flat
        self.after: dict[Port, list[Port]] = {}
        self.before: dict[Port, list[Port]] = {}
        for link in flat.links:
            self._join(Port(link.start[0], link.kind, OUTPUT, link.start[1]),
                       Port(link.end[0], link.kind, INPUT, link.end[1]))
        outputs: dict[tuple[Place, int], list[Port]] = {}
        for port in [port for port in self.after if port.side == OUTPUT]:
            outputs.setdefault((port.place, port.kind), []).append(port)
        self.takers_of = taken_tags(flat)
        for port in [port for port in self.before if port.side == INPUT]:
            for place, number in self._beyond(port):
                for out in outputs.get((place, port.kind), []):
                    if number in (None, out.number):
                        self._join(port, out)
        self.feeds, self.fed = self._flat_ends()
        self._starts: dict[int, list[tuple[int, End]]] = {}
        for kind, start in self.feeds:
            self._starts.setdefault(start.block, []).append((kind, start))

    def _join(self, start: Port, end: Port) -> None:
        self.after.setdefault(start, []).append(end)
        self.before.setdefault(end, []).append(start)

    def _beyond(self, port: Port) -> Iterable[tuple[Place, int | None]]:
        """The objects whose outputs go on from an input, each with the output's number, or None for all;
        nothing where a block takes it.
        """
        item = self.flat.item(port.place)
        if item is None:
            return []
        if item.inner:
            return [(inside.place, None) for inside in item.inner.items
                    if _ENTRIES.get(inside.kind) == port.kind and first_parameter(inside) == port.number]
        if item.kind in JOINTS:
            return [(item.place, None)]
        if _EXITS.get(item.kind) == port.kind:
            return [(item.place[:-1], first_parameter(item))]
        if _GIVERS.get(item.kind) == port.kind:
            return [(taker, None) for taker in self.takers_of.get(item.place, [])]
        return []

    def _flat_ends(self) -> tuple[dict[tuple[int, End], list[End]], dict[tuple[int, End], list[End]]]:
        """From each output of a block the inputs of blocks, and back."""
        feeds: dict[tuple[int, End], list[End]] = {}
        fed: dict[tuple[int, End], list[End]] = {}
        for port in sorted(port for port in self.after if port.side == OUTPUT):
            block = self.flat.block_at(port.place)
            if block is None:
                continue
            start = End(block.number, port.number)
            for end in sorted({End(taker.number, found.number) for found in self.reached(port)
                               for taker in [self.flat.block_at(found.place)] if taker}):
                feeds.setdefault((port.kind, start), []).append(end)
                fed.setdefault((port.kind, end), []).append(start)
        return feeds, fed

    def reached(self, port: Port) -> set[Port]:
        """All ports to which a port leads, through whatever passes signals on."""
        return _closure(self.after, port)

    def leading(self, port: Port) -> set[Port]:
        """All ports that lead to a port."""
        return _closure(self.before, port)

    def starts_of(self, number: int) -> list[tuple[int, End]]:
        """The outputs of a block that lead to blocks, each with its kind."""
        return self._starts.get(number, [])

    def source(self, number: int, port: int) -> End | None:
        """The output that feeds a regular input of a block; None where nothing does."""
        found = self.sources(number, port)
        return found[0] if found else None

    def sources(self, number: int, port: int) -> list[End]:
        """The outputs that feed a regular input: in a diagram that isn't refused one at most."""
        return self.fed.get((REGULAR, End(number, port)), [])

    def takers(self, number: int, port: int) -> list[End]:
        """The regular inputs that an output feeds."""
        return self.feeds.get((REGULAR, End(number, port)), [])

    def activators(self, number: int, port: int) -> list[End]:
        """The activation outputs that lead to an activation input of a block."""
        return self.fed.get((ACTIVATION, End(number, port)), [])

    def activated(self, number: int, port: int) -> list[End]:
        """The activation inputs to which an activation output leads."""
        return self.feeds.get((ACTIVATION, End(number, port)), [])


def first_parameter(item: Item) -> int | None:
    """The first parameter of an object, as a port's number or a tag."""
    numbers = item.numbers("ipar")
    return numbers[0] if numbers else None


def taken_tags(flat: Flat) -> dict[Place, list[Place]]:
    """For each object that gives a tag those that take it; also of tags that nothing gives, under the place
    ().
    """
    givers: dict[tuple[int, int | None, Place | None], Place] = {}
    for item in flat.items():
        if item.kind in _GIVERS:
            local = item.numbers("ipar")[1:2] == [1]
            givers.setdefault((_GIVERS[item.kind], first_parameter(item), item.place[:-1] if local else None),
                              item.place)
    taken: dict[Place, list[Place]] = {}
    for item in flat.items():
        if item.kind in _TAKERS:
            kind, tag = _TAKERS[item.kind], first_parameter(item)
            giver = givers.get((kind, tag, item.place[:-1])) or givers.get((kind, tag, None)) or ()
            taken.setdefault(giver, []).append(item.place)
    return taken


def _closure(steps: dict[Port, list[Port]], port: Port) -> set[Port]:
    waiting, seen = [port], set[Port]()
    while waiting:
        for further in steps.get(waiting.pop(), []):
            if further not in seen:
                seen.add(further)
                waiting.append(further)
    return seen
