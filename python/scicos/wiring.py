"""From blocks that know their sources to objects with numbers, ports of superblocks, and links."""
from __future__ import annotations

from collections.abc import Sequence
from dataclasses import dataclass, field
from typing import Any, Union

from .kinds import MOST_LINKS
from .levels import Block, Level
from .origin import wrong
from .signals import Event, LaterEvent, LaterSignal, Signal
from .unions import Joint, Unions

Carried = Union[Signal, Event, Joint]
End = tuple[object, int]


@dataclass(eq=False)
class Port:
    """A port of a superblock: the object `gui` inside of it, and what it carries."""

    gui: str
    number: int
    name: str
    carried: Carried
    final: str = ""


@dataclass(eq=False)
class Link:
    """A link between two ends of one level."""

    source: End
    target: End
    activation: bool


@dataclass(eq=False)
class Drawn:
    """A level as it stands in the file: its objects in order, and its links."""

    level: Level
    inside: dict[int, Drawn] = field(default_factory=dict)
    ports: dict[str, list[Port]] = field(default_factory=dict)
    links: list[Link] = field(default_factory=list)
    joints: list[Joint] = field(default_factory=list)

    def objects(self) -> list[Union[Port, Block, Level, Joint]]:
        """The ports by which something comes in, the blocks as they were made, unions, and the ports out."""
        return [*self.of("IN_f"), *self.of("CLKINV_f"), *self.level.objects, *self.joints, *self.of("OUT_f"),
                *self.of("CLKOUTV_f")]

    def of(self, gui: str) -> list[Port]:
        """The ports of one sort, by number."""
        return self.ports.get(gui, [])


class Wiring:
    """The links of all levels. A signal that crosses the border of a superblock gets a port at each."""

    def __init__(self, top: Level) -> None:
        self.top = top
        self.levels: dict[int, Drawn] = {}
        self.known: dict[tuple[int, str, int], Port] = {}
        self._enter(top)
        self.unions = Unions(made.level for made in self.levels.values())
        for made in self.levels.values():
            made.joints = self.unions.of(made.level)

    def _enter(self, level: Level) -> Drawn:
        made = Drawn(level)
        self.levels[id(level)] = made
        for thing in level.objects:
            if isinstance(thing, Level):
                made.inside[id(thing)] = self._enter(thing)
        return made

    def drawn(self) -> Drawn:
        """The diagram with all ports, links and names."""
        for made in list(self.levels.values()):
            self._declare(made.level)
        for made in list(self.levels.values()):
            self._link_level(made.level)
        for made in self.levels.values():
            made.links.sort(key=lambda link: not link.activation)
            _name(made)
        if sum(len(made.links) for made in self.levels.values()) > MOST_LINKS:
            raise wrong(f"The diagram would have more than {MOST_LINKS} links. Cut the design into several.")
        return self.levels[id(self.top)]

    def _declare(self, level: Level) -> None:
        """The ports of a superblock's arguments and results, in the order of the function."""
        for name, argument in level.arguments:
            for source in self._sources(argument):
                if not level.contains(_level_of(source)):
                    self._port(level, "IN_f" if isinstance(source, Signal) else "CLKINV_f", source, name)
        for result in level.results:
            for source in self._sources(result):
                if level.contains(_level_of(source)):
                    self._port(level, "OUT_f" if isinstance(source, Signal) else "CLKOUTV_f", source, None)

    def _link_level(self, level: Level) -> None:
        for thing in level.objects:
            if isinstance(thing, Block):
                for port, events in enumerate(thing.activations, 1):
                    for event in self.unions.parts(events):
                        self._link(level, event, (thing, port))
                for port, source in enumerate(thing.inputs, 1):
                    assert source is not None
                    self._link(level, source.resolved(), (thing, port))
        for joint in self.levels[id(level)].joints:
            for port, part in enumerate(joint.inputs, 1):
                self._link(level, part, (joint, port))

    def _sources(self, carried: Union[Signal, Event]) -> Sequence[Carried]:
        """What an argument or a result is made up of."""
        if isinstance(carried, Signal):
            return [carried.resolved()]
        return self.unions.parts([carried])

    def _link(self, level: Level, carried: Carried, target: End) -> None:
        source = self._end(level, carried)
        self.levels[id(level)].links.append(Link(source, target, not isinstance(carried, Signal)))

    def _end(self, level: Level, carried: Carried) -> End:
        """The output within `level` at which a signal or an event can be taken."""
        home = _level_of(carried)
        regular = isinstance(carried, Signal)
        if home is level:
            return (carried if isinstance(carried, Joint) else carried.block, carried.port)
        if level.contains(home):
            child = home.path()[level.depth]
            return (child, self._port(child, "OUT_f" if regular else "CLKOUTV_f", carried, None).number)
        return (self._port(level, "IN_f" if regular else "CLKINV_f", carried, None), 1)

    def _port(self, level: Level, gui: str, carried: Carried, name: str | None) -> Port:
        """The port by which a level lets something in or out; made when it is first wanted."""
        key = (id(level), gui, id(carried))
        if key not in self.known:
            made = self.levels[id(level)]
            ports = made.ports.setdefault(gui, [])
            out = gui in ("OUT_f", "CLKOUTV_f")
            called = carried.name + "_out" if out else name or carried.name
            port = Port(gui, len(ports) + 1, called.replace(".", "_"), carried)
            ports.append(port)
            self.known[key] = port
            if out:
                self._link(level, carried, (port, 1))
            else:
                assert level.parent is not None
                self._link(level.parent, carried, (level, port.number))
        return self.known[key]


def _level_of(carried: Carried) -> Level:
    if isinstance(carried, Joint):
        return carried.level
    assert carried.block is not None and not isinstance(carried, (LaterSignal, LaterEvent))
    return carried.block.level


def _name(made: Drawn) -> None:
    """Give each object of a level a name of its own: those that were given first, then the others."""
    level = made.level
    taken = set(level.names)
    things: list[Any] = [*level.objects, *made.joints]
    for gui in ("IN_f", "CLKINV_f", "OUT_f", "CLKOUTV_f"):
        things.extend(made.of(gui))
    for thing in things:
        given = getattr(thing, "given", None)
        if given is not None:
            thing.final = given
            continue
        base = thing.name
        thing.final = base
        number = 2
        while thing.final in taken:
            thing.final = f"{base}_{number}"
            number += 1
        taken.add(thing.final)
