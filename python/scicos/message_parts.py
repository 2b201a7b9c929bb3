"""What the sentences of refusals are made of: names with places and lines, ports, types."""
from __future__ import annotations

import functools
from dataclasses import dataclass

from .flat import Flat, Place, place_text
from .flat_wiring import Wiring
from .integers import BY_CODE
from .kinds import KINDS, Kind
from .program import Refusal

SIDES = {1: "input", 2: "output"}
PORTS = {1: "input", 2: "output", 3: "activation input", 4: "activation output"}


def plural(count: int, what: str) -> str:
    """A number and what it counts.

    >>> plural(1, "input"), plural(0, "input")
    ('1 input', '0 inputs')
    """
    return f"{count} {what}" + ("" if count == 1 else "s")


def a(what: str) -> str:
    """A word with its article.

    >>> a("EVTDLY_c"), a("SENSOR")
    ('an EVTDLY_c', 'a SENSOR')
    """
    return f"{'an' if what[:1] in 'AEIO' else 'a'} {what}"


def type_name(code: int) -> str:
    """A type by its code.

    >>> type_name(4), type_name(9)
    ('int16', 'the type 9')
    """
    return BY_CODE[code].name if code in BY_CODE else f"the type {code}"


def between(bounds: tuple[int, int], what: str) -> str:
    """A number of ports within bounds.

    >>> between((2, 64), "input"), between((1, 1), "input")
    ('2 to 64 inputs', '1 input')
    """
    return (plural(bounds[0], what) if bounds[0] == bounds[1]
            else f"{bounds[0]} {'or' if bounds[1] == bounds[0] + 1 else 'to'} {bounds[1]} {what}s")


@dataclass(frozen=True)
class Told:
    """What is known of a refusal: its data, the command line, and the diagram as far as it can be read."""

    refusal: Refusal
    words: tuple[str, ...]
    flat: Flat

    @functools.cached_property
    def wiring(self) -> Wiring:
        return Wiring(self.flat)

    @property
    def place(self) -> Place:
        return self.refusal.place or ()

    @property
    def kind(self) -> Kind | None:
        """The row of the kind of the block at the refusal's place."""
        item = self.flat.item(self.place)
        return KINDS.get(item.kind) if item else None

    def detail(self, at: int) -> int:
        """A number of the refusal's details, from 0; 0 where there are not so many."""
        return self.refusal.details[at] if at < len(self.refusal.details) else 0

    def who(self, place: Place | None) -> str:
        """An object by its name, with its kind, its place and its line."""
        if not place:
            return f"the diagram ({self.flat.file})"
        item = self.flat.item(place)
        if item is None:
            return f"object {place_text(place)} ({self.flat.file})"
        kind = item.kind or ("a superblock" if item.inner else "a link" if item.is_link else "")
        name = self.flat.name_of(place)
        parts = [kind] if kind and item.name else []
        return f"{name} ({', '.join(parts + ['object ' + place_text(place), self.flat.where(place)])})"

    @property
    def it(self) -> str:
        """The object at the refusal's place."""
        return self.who(self.place)

    def block(self, number: int) -> str:
        """A block by its number, as `who`."""
        block = self.flat.block(number)
        return self.who(block.place) if block else f"block {number}"

    def short(self, number: int) -> str:
        """A block by its name alone."""
        return self.flat.name(number)

    def column_of(self, place: Place) -> int:
        """The column of a sensor; 0 where it has none."""
        item = self.flat.item(place)
        numbers = item.numbers("ipar") if item else []
        return numbers[0] if numbers else 0

    def sensors(self) -> dict[int, str]:
        """The names of the sensors by their columns."""
        return {self.column_of(block.place): self.flat.name(block.number) for block in self.flat.blocks
                if block.kind == "SENSOR"}
