"""Blocks, and the levels in which they stand: the diagram itself and the insides of its superblocks."""
from __future__ import annotations

from collections.abc import Iterable
from contextvars import ContextVar
from dataclasses import dataclass, field
from typing import TYPE_CHECKING, Union

from .integers import IntType
from .kinds import KINDS, MOST_ELEMENTS_IN_ALL, MOST_LEVELS
from .origin import Origin, wrong
from .signals import Event, Signal, checked_events

if TYPE_CHECKING:
    from .diagram import Diagram

Size = tuple[int, int]
On = Union[Event, Iterable[Event], None]


class Inherit(Event):
    """The value of `on=` for a block that inherits its activation, also within `with on(..)`."""

    def __init__(self) -> None:
        super().__init__(None, 1)

    def sources(self) -> list[Event]:
        return []


INHERIT = Inherit()


@dataclass(eq=False)
class Block:
    """One block of the drawing, or a tag; what feeds and activates it is told by signals and events."""

    kind: str
    level: Level
    origin: Origin
    given: str | None
    inputs: list[Signal | None]
    activations: list[list[Event]] = field(default_factory=list)
    ipar: list[int] = field(default_factory=list)
    dstate: list[int] = field(default_factory=list)
    firing: list[int] = field(default_factory=list)
    signals: list[Signal] = field(default_factory=list)
    events: list[Event] = field(default_factory=list)
    input_types: list[tuple[IntType, Size]] = field(default_factory=list)
    taken: int = 0
    joins: bool = False
    grants: list[str] = field(default_factory=list)
    outputs: list[int] = field(default_factory=list)
    """The ports of what leaves the design."""
    final: str = ""

    @property
    def name(self) -> str:
        """The name as far as it is known; the last one may have a number behind."""
        return self.final or self.given or self.origin.name

    @property
    def line(self) -> str:
        """The line of Python that made the block."""
        return self.origin.line

    def label(self, port: int, event: bool = False) -> str:
        """The name of an output: that of the block, with the port where there are several."""
        count = len(self.events) if event else len(self.signals)
        return f"{self.name}.{port}" if count > 1 else self.name

    def activate(self, events: object) -> None:
        """Let further events activate the block at its one activation input."""
        kind = KINDS.get(self.kind)
        found = checked_events(events, "activated_by")
        if kind is None or kind.activations[1] != 1:
            raise wrong(f"`{self.name}` ({self.line}) is a {self.kind}, which has no single activation"
                        " input.")
        for event in found:
            self.level.diagram.owns_event(event, f"`{self.name}`")
        if not self.activations:
            self.activations = [[]]
        self.activations[0].extend(found)


@dataclass(eq=False)
class Level:
    """The diagram itself, or the inside of a superblock."""

    diagram: Diagram
    parent: Level | None
    origin: Origin | None = None
    given: str | None = None
    objects: list[Block | Level] = field(default_factory=list)
    names: dict[str, str] = field(default_factory=dict)
    arguments: list[tuple[str, Signal | Event]] = field(default_factory=list)
    results: list[Signal | Event] = field(default_factory=list)
    grants: list[str] = field(default_factory=list)
    final: str = ""

    @property
    def name(self) -> str:
        """The superblock's name, as far as it is known."""
        return self.final or self.given or (self.origin.name if self.origin else self.diagram.name)

    @property
    def line(self) -> str:
        """The line of Python that drew the superblock."""
        return self.origin.line if self.origin else ""

    @property
    def depth(self) -> int:
        """1 for the diagram itself."""
        return 1 if self.parent is None else self.parent.depth + 1

    def path(self) -> list[Level]:
        """The levels from the diagram itself to this one."""
        return ([] if self.parent is None else self.parent.path()) + [self]

    def contains(self, other: Level) -> bool:
        """Whether the other level is this one or stands within it."""
        return self in other.path()

    def reserve(self, name: str | None, line: str) -> None:
        """Take a name that was given, once in a level."""
        if name is None:
            return
        if not isinstance(name, str) or not name.strip() or any(ord(letter) < 32 for letter in name):
            raise wrong(f"The name {name!r} is none: take some letters, without line ends.")
        if name in self.names:
            where = f"in `{self.name}`" if self.parent else "at the top of the diagram"
            raise wrong(f"The name \"{name}\" is given twice {where}: at {self.names[name]} and at {line}."
                        " Give another one here.")
        self.names[name] = line


_open: ContextVar[tuple[Level, ...]] = ContextVar("scicos_open", default=())
_default: ContextVar[tuple[Event | None, ...]] = ContextVar("scicos_default", default=())


def enter(level: Level) -> None:
    """Draw into this level from now on."""
    _open.set(_open.get() + (level,))


def leave() -> None:
    """Go on with the level before."""
    _open.set(_open.get()[:-1])


def enter_default(event: Event | None) -> None:
    """Let blocks be activated by this event where they don't say otherwise."""
    _default.set(_default.get() + (event,))


def leave_default() -> None:
    """Go on with the default before."""
    _default.set(_default.get()[:-1])


def default_event() -> Event | None:
    """The event of the `with on(..)` that is open."""
    return (_default.get() or (None,))[-1]


def open_level() -> Level | None:
    """The level that is drawn into, None where there is none."""
    return (_open.get() or (None,))[-1]


def current() -> Level:
    """The level that is drawn into."""
    levels = _open.get()
    if not levels:
        raise wrong("No diagram is open. Draw within `with Diagram(\"name\") as design:`.")
    level = levels[-1]
    if level.diagram.finished:
        raise wrong(f"The diagram `{level.diagram.name}` is finished: its `with` has ended.")
    return level


def check_levels(level: Level) -> None:
    """A DesignError where superblocks are nested too deep."""
    if level.depth > MOST_LEVELS:
        raise wrong(f"A diagram has at most {MOST_LEVELS} levels, and `{level.name}` would be one more. Draw"
                    " its blocks in the level around it.")


def check_elements(blocks: Iterable[Block]) -> None:
    """A DesignError where the outputs have too many elements together."""
    total = sum(signal.elements for block in blocks for signal in block.signals)
    if total > MOST_ELEMENTS_IN_ALL:
        raise wrong(f"All outputs together have {total} elements, and may have {MOST_ELEMENTS_IN_ALL}. Take"
                    " shorter vectors.")
