"""The way round an algebraic loop, and other ways between blocks, by the links that a diagram's file has."""
from __future__ import annotations

from collections import deque
from dataclasses import dataclass
from typing import Callable, Iterator

from .flat import ACTIVATION, REGULAR
from .flat_wiring import End, Wiring


@dataclass(frozen=True)
class Step:
    """A flat link from an output of a block to an input of a block."""

    kind: int
    start: End
    end: End


def steps_from(wiring: Wiring, number: int) -> Iterator[Step]:
    """The flat links that begin at a block."""
    for kind, start in wiring.starts_of(number):
        for end in wiring.feeds[kind, start]:
            yield Step(kind, start, end)


def way(wiring: Wiring, start: int, end: int, first: Callable[[Step], bool],
        further: Callable[[Step], bool]) -> list[Step]:
    """A shortest way from one block to another, by links that are let; empty where there is none."""
    waiting: deque[tuple[int, list[Step]]] = deque([(start, [])])
    seen: set[int] = set()
    while waiting:
        number, path = waiting.popleft()
        for step in steps_from(wiring, number):
            if not (further if path else first)(step):
                continue
            if step.end.block == end:
                return path + [step]
            if step.end.block not in seen:
                seen.add(step.end.block)
                waiting.append((step.end.block, path + [step]))
    return []


def dependence(wiring: Wiring, needed: int, block: int) -> list[Step]:
    """How a block needs another: it reads a value of it, or a branch of it activates it, be it by inheriting.

    It is the link of the value, or the links from the branch on; empty where the file has neither.
    """
    def inherits(step: Step) -> bool:
        taker = wiring.flat.block(step.end.block)
        return step.kind == ACTIVATION or (taker is not None and not taker.item.ports(ACTIVATION, 1))

    value = next((step for step in steps_from(wiring, needed) if step.kind == REGULAR
                  and step.end.block == block), None)
    if value:
        return [value]
    return way(wiring, needed, block, lambda step: step.kind == ACTIVATION, inherits)


def round_of(wiring: Wiring, blocks: tuple[int, ...]) -> list[list[Step]]:
    """For each block of a loop, how the next one needs it: the last needs the one before it, and the first
    the last.
    """
    return [dependence(wiring, needed, block) for needed, block in zip(blocks, blocks[1:] + blocks[:1])]
