"""What the checks of `lint` look at: a diagram, its wiring, and what each event activates by the program's
`schedule`.
"""
from __future__ import annotations

import functools
from dataclasses import dataclass

from .flat import ACTIVATION, REGULAR, Block, Flat, Place
from .flat_wiring import End, Wiring
from .kinds import KINDS
from .ranges import Ranges
from .reports import Source

START = (0, 0)
STATES = ("DOLLAR_m", "REGISTER", "GATED_DELAY", "Modulo_Count")
CONDITIONS = ("IFTHEL_f", "ESELECT_f")
DELAYS = ("EVTDLY_c", "EVTVARDLY")

Guards = frozenset[Source]


@dataclass(frozen=True)
class Finding:
    """A warning: its kind, by which it is granted, the place of its object, and what is said of it."""

    kind: str
    place: Place
    text: str


@dataclass(frozen=True)
class Facts:
    """An accepted diagram."""

    flat: Flat
    wiring: Wiring
    schedule: dict[Source, dict[int, Guards]]
    granted: bool = False
    """Whether what the diagram grants is told too."""
    ranges: Ranges | None = None
    """What signals may be, where that was asked for."""

    def grants(self, block: Block) -> set[str]:
        """The warnings that a block grants, none where they are told all the same."""
        return set() if self.granted else set(block.item.grants)

    @functools.cached_property
    def acting(self) -> dict[int, set[Source]]:
        """For each block the sources at which it may act."""
        found: dict[int, set[Source]] = {block.number: set() for block in self.flat.blocks}
        for source, rows in self.schedule.items():
            for number in rows:
                found[number].add(source)
        return found

    @functools.cached_property
    def constants(self) -> set[int]:
        """The blocks whose values never change: constants, and what is computed of these alone."""
        found = {block.number for block in self.flat.blocks if block.kind == "CONST_m"}
        grown = True
        while grown:
            more = {block.number for block in self.flat.blocks if block.number not in found
                    and self._of_constants(block, found)}
            grown = bool(more)
            found |= more
        return found

    def _of_constants(self, block: Block, constants: set[int]) -> bool:
        feeders = self.feeders(block)
        return (bool(feeders) and block.kind not in (*STATES, "SELECT_m") and bool(self.outputs(block))
                and all(end.block in constants for end in feeders))

    def inputs(self, block: Block) -> int:
        """How many regular inputs a block has."""
        return block.item.ports(REGULAR, 1)

    def outputs(self, block: Block) -> int:
        """How many regular outputs a block has."""
        return block.item.ports(REGULAR, 0)

    def activations(self, block: Block) -> int:
        """How many activation inputs a block has."""
        return block.item.ports(ACTIVATION, 1)

    def events(self, block: Block) -> int:
        """How many activation outputs a block has."""
        return block.item.ports(ACTIVATION, 0)

    def feeders(self, block: Block) -> list[End]:
        """What feeds the regular inputs of a block, in their order."""
        found = (self.wiring.source(block.number, port) for port in range(1, self.inputs(block) + 1))
        return [end for end in found if end]

    def activators(self, block: Block) -> list[End]:
        """The activation outputs that lead to any activation input of a block."""
        return [end for port in range(1, self.activations(block) + 1)
                for end in self.wiring.activators(block.number, port)]

    def activated_at(self, number: int, port: int) -> set[Source]:
        """The sources at which an activation input of a block may be activated."""
        found: set[Source] = set()
        for end in self.wiring.activators(number, port):
            programs = self.is_programming(end.block)
            found |= {(end.block, end.port)} if programs else self.acting.get(end.block, set())
        return found

    def kind(self, number: int) -> str:
        """The kind of a block."""
        block = self.flat.block(number)
        return block.kind if block else ""

    def name(self, number: int) -> str:
        """The name of a block."""
        return self.flat.name(number)

    def sources(self, numbers: set[Source]) -> str:
        """Sources in words: `clock and timer`."""
        shown = ["start" if source == START else self.output(source) for source in sorted(numbers)]
        return " and ".join([", ".join(shown[:-1]),
                             shown[-1]]) if len(shown) > 1 else "".join(shown) or "no event"

    def output(self, source: Source) -> str:
        """An activation output in words, with its port where the block has several."""
        block = self.flat.block(source[0])
        several = block is not None and self.events(block) > 1
        return self.name(source[0]) + (f" (output {source[1]})" if several else "")

    def is_programming(self, number: int) -> bool:
        """Whether a block programs events."""
        return number > 0 and self.kind(number) in KINDS and KINDS[self.kind(number)].programs
