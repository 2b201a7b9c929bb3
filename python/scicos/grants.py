"""Warnings that a design grants at its objects, so that `lint` doesn't tell them."""
from __future__ import annotations

from typing import Union

from .levels import Block, Level, current
from .origin import wrong
from .signals import Event, Signal, Sink

Granted = Union[Signal, Event, Sink]


def grant(thing: Granted, *warnings: str) -> None:
    """Grant kinds of warning at the block of a signal, an event, or a sink, as `halt()` gives one.

    What `lint` would warn of is meant so. It holds too for the superblocks by which a result comes out into
    the level that is drawn.
    Example: `grant(alarm, "not taken")`.
    """
    from .lint import CHECKS
    level = current()
    if not isinstance(thing, (Signal, Event, Sink)) or thing.block is None:
        raise wrong("grant takes a signal or an event of a block, or what halt() or give() return, and"
                    f" {thing!r} is none.")
    if not warnings:
        raise wrong(f"grant takes kinds of warning: {', '.join(CHECKS)}.")
    for warning in warnings:
        if not isinstance(warning, str) or warning not in CHECKS:
            raise wrong(f"{warning!r} is no kind of warning. They are {', '.join(CHECKS)}.")
    home = thing.block.level
    out = home.path()[level.depth:] if level.contains(home) else []
    objects: list[Union[Block, Level]] = [thing.block, *out]
    for one in objects:
        one.grants.extend(warning for warning in warnings if warning not in one.grants)
