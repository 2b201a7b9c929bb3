"""Unions of events that are drawn as CLKSOM_f: those that cross a superblock's border, or are used often."""
from __future__ import annotations

from collections.abc import Iterable, Sequence
from dataclasses import dataclass, field
from typing import Union

from .levels import Block, Level
from .signals import Event, EventUnion, LaterEvent

MOST_INPUTS = 64
MOST_LINKED = 2
"""A union that is used more often than this in its level is drawn."""


@dataclass(eq=False)
class Joint:
    """A union of events, drawn as one object of the level in which it was written."""

    level: Level
    name: str
    line: str
    sources: frozenset[int]
    events: Sequence[Event]
    inputs: list[Union[Event, Joint]] = field(default_factory=list)
    uses: int = 0
    crosses: bool = False
    final: str = ""
    port: int = 1

    @property
    def is_drawn(self) -> bool:
        """Whether it is an object of its own; else links lead from each of its events."""
        return self.crosses or self.uses > MOST_LINKED


class Unions:
    """The unions of a diagram, and by which links an activation input is fed."""

    def __init__(self, levels: Iterable[Level]) -> None:
        self.known: dict[tuple[int, frozenset[int]], Joint] = {}
        for level in levels:
            for thing in level.objects:
                for events in thing.activations if isinstance(thing, Block) else ():
                    for event in events:
                        self._use(event, level)
            carried = [one for _, one in level.arguments] + level.results
            for one in carried:
                joint = self._joint(one) if isinstance(one, Event) else None
                if joint is not None:
                    joint.crosses = True
        for joint in self.known.values():
            joint.inputs = self.parts(joint.events, joint)

    def of(self, level: Level) -> list[Joint]:
        """The unions that are drawn in a level."""
        return [joint for joint in self.known.values() if joint.level is level and joint.is_drawn]

    def parts(self, events: Sequence[Event], within: Joint | None = None) -> list[Union[Event, Joint]]:
        """What feeds an activation input: unions that are drawn and single events, none of them twice."""
        found: list[Union[Event, Joint]] = []
        covered: set[int] = set()
        waiting = list(events)
        while waiting:
            event = waiting.pop(0)
            joint = self._joint(event)
            if joint and joint is not within and joint.is_drawn and not covered & joint.sources:
                found.append(joint)
                covered |= joint.sources
            elif _inner(event) is not None:
                waiting[:0] = _inner(event) or []
            else:
                fresh = [one for one in event.sources() if id(one) not in covered]
                found.extend(fresh)
                covered.update(map(id, fresh))
        return found

    def _use(self, event: Event, level: Level) -> None:
        joint = self._joint(event)
        if joint is not None:
            joint.uses += 1
            joint.crosses = joint.crosses or joint.level is not level

    def _joint(self, event: Event) -> Joint | None:
        """The union that an event is; None of a single event, and of one that has no level."""
        events = _inner(event)
        level = event.level if isinstance(event, (EventUnion, LaterEvent)) else None
        if events is None or level is None:
            return None
        sources = frozenset(map(id, event.sources()))
        if not 2 <= len(sources) <= MOST_INPUTS:
            return None
        key = (id(level), sources)
        if key not in self.known:
            name = event.made_name if isinstance(event, (EventUnion, LaterEvent)) else event.name
            self.known[key] = Joint(level, name, event.line, sources, events)
            for part in events:
                if self._joint(part) is not self.known[key]:
                    self._use(part, level)
        return self.known[key]


def _inner(event: Event) -> list[Event] | None:
    """The events of which one is made up; None of a single one."""
    if isinstance(event, EventUnion):
        return event.parts
    return event.fed if isinstance(event, LaterEvent) else None
