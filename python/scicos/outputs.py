"""What is meant to leave a design: signals and events that its host reads."""
from __future__ import annotations

from collections.abc import Iterator
from typing import TYPE_CHECKING, Union

from .levels import current
from .origin import wrong
from .signals import Event, Signal
from .subsystems import carried_in, given_of

if TYPE_CHECKING:
    from .diagram import Diagram


def output(*things: object) -> None:
    """Say that signals and events leave the design, as its host reads them; this draws no block.

    Then `lint` doesn't ask who takes them, and needs what feeds them; `header` says so in its comments.
    Lists, tuples and dicts of signals may stand too. Example: `output(drive, alarm)`.
    """
    diagram = current().diagram
    for thing in things:
        found = [carried for _, carried in carried_in(thing, "")]
        if not found:
            raise wrong(f"output takes signals and events, and {thing!r} is none.")
        for carried in found:
            if isinstance(carried, Signal):
                diagram.owns_signal(carried, "output")
            else:
                diagram.owns_event(carried, "output")
        diagram.outputs.extend(found)
    if not things:
        raise wrong("output takes at least one signal or event.")


def mark_outputs(diagram: Diagram) -> None:
    """Note at the blocks which of their outputs leave the design; of a tag at what it is given of too."""
    waiting = [source for carried in diagram.outputs for source in _sources(carried)]
    seen: set[int] = set()
    for carried in waiting:
        block = carried.block
        if block is None or id(carried) in seen:
            continue
        seen.add(id(carried))
        if carried.port not in block.outputs:
            block.outputs = sorted([*block.outputs, carried.port])
        if block.kind in ("FROM", "CLKFROM"):
            waiting.extend(_sources(given_of(block)))


def _sources(carried: Union[Signal, Event]) -> Iterator[Union[Signal, Event]]:
    if isinstance(carried, Signal):
        yield carried.resolved()
    else:
        yield from carried.sources()
