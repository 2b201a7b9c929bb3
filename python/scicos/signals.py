"""Signals and events: what blocks hand on to each other while a diagram is drawn."""
from __future__ import annotations

from collections.abc import Iterable, Iterator, Sequence
from typing import TYPE_CHECKING, NoReturn, Union

from .integers import IntType
from .operators import Operators
from .origin import here, wrong, wrong_at

if TYPE_CHECKING:
    from .levels import Block, Level

Operand = Union["Signal", int]


class Signal(Operators):
    """What a block's regular output carries: integers of one type, a scalar or a matrix.

    `+ - *` and a sign, `abs()`, the comparisons, the bit by bit `& | ^ ~` and the shifts `<< >>` draw blocks,
    in the mode of the diagram. A whole number beside a signal is a constant of its type.
    Example: `error = wanted - speed`.
    """

    def __init__(self, block: Block | None, port: int, kind: IntType, rows: int = 1,
                 columns: int = 1) -> None:
        self.block = block
        self.port = port
        self.type = kind
        self.rows = rows
        self.columns = columns

    @property
    def size(self) -> tuple[int, int]:
        """Rows and columns."""
        return (self.rows, self.columns)

    @property
    def elements(self) -> int:
        """The number of elements."""
        return self.rows * self.columns

    @property
    def name(self) -> str:
        """The name that the block has so far; in the file a number may follow where two have one name."""
        return self.block.label(self.port) if self.block else "a signal that is told later"

    @property
    def line(self) -> str:
        """The line of Python that made the signal."""
        return self.block.line if self.block else "?"

    def resolved(self) -> Signal:
        """The signal of a block that stands behind this one."""
        return self

    def feed(self, source: Signal) -> None:
        """Feed the delay or register whose output this is, once: `x.feed(x + 1)`."""
        from .making import feed_block
        feed_block(self, source)

    def activated_by(self, *events: Event) -> Signal:
        """Let these events activate the block too, as well as those of its `on=`."""
        if self.block is None:
            raise wrong("A signal that is told later has no block to be activated; activate the block"
                        " itself.")
        self.block.activate(events)
        return self

    def __repr__(self) -> str:
        size = "" if self.size == (1, 1) else f"[{self.rows}x{self.columns}]"
        return f"<{self.name}: {self.type.name}{size}, {self.line}>"

    def __bool__(self) -> bool:
        raise wrong(f"`{self.name}` ({self.line}) has no truth value while the diagram is drawn, as in `if`,"
                    " `and`, `or`, `not`, max(), min() or a < b < c. Take switch() or when() to decide in the"
                    " run, both(), either() or negation() of truths, and greatest() or least() of values.")

    def __iter__(self) -> Iterator[Signal]:
        raise wrong(f"`{self.name}` ({self.line}) is one signal. Take demux() or extractor() to cut it.")

    def __getitem__(self, element: object) -> NoReturn:
        raise wrong(f"`{self.name}` ({self.line}) is one signal. extractor({self.name}, 1) takes its first"
                    " element.")


class LaterSignal(Signal):
    """A signal that is used before the block is made that gives it; see `later`."""

    def __init__(self, kind: IntType, rows: int, columns: int, name: str, line: str, level: Level) -> None:
        super().__init__(None, 1, kind, rows, columns)
        self.source: Signal | None = None
        self.level = level
        self.made_name = name
        self.made_line = line

    @property
    def name(self) -> str:
        return self.made_name

    @property
    def line(self) -> str:
        return self.made_line

    def resolved(self) -> Signal:
        seen: Signal = self
        for _ in range(100000):
            if not isinstance(seen, LaterSignal):
                return seen
            if seen.source is None:
                raise wrong_at(seen.line, f"`{seen.name}` is told later, and never was: call"
                                          f" {seen.name}.feed(..) with the signal that it stands for.")
            seen = seen.source
        raise wrong_at(self.line, f"`{self.name}` is fed by itself, with no block between.")


class Sink:
    """A block without outputs, a HALT_f or a tag that is given; `grant` takes it.

    Example: `grant(halt(on=never), "never acts")`.
    """

    def __init__(self, block: Block) -> None:
        self.block = block

    def __repr__(self) -> str:
        return f"<{self.block.name}, {self.block.line}>"


class Event:
    """What an activation output hands on: blocks act at it. `a | b` is the event that comes with either.

    Example: `tick = clock(10)`, and then `sensor(1, int16, on=tick)`.
    """

    def __init__(self, block: Block | None, port: int) -> None:
        self.block = block
        self.port = port

    @property
    def name(self) -> str:
        """The name that the block has so far."""
        return self.block.label(self.port, event=True) if self.block else "a union of events"

    @property
    def line(self) -> str:
        """The line of Python that made the event."""
        return self.block.line if self.block else "?"

    def sources(self) -> list[Event]:
        """The activation outputs behind this event, each once."""
        return [self]

    def activated_by(self, *events: Event) -> Event:
        """Let these events activate the block too, as a timer that is started by what comes later."""
        if self.block is None:
            raise wrong("A union of events has no block to be activated; activate the blocks themselves.")
        self.block.activate(events)
        return self

    def feed(self, source: Signal) -> None:
        """Feed the variable timer whose event this is, once: `step.feed(gap)`."""
        from .making import feed_open
        if self.block is None:
            raise wrong(f"`{self.name}` is no single block that could be fed.")
        feed_open(self.block, source)

    def __or__(self, other: Event) -> Event:
        return EventUnion([self, *checked_events(other, "An event's `|`")])

    def __bool__(self) -> bool:
        raise wrong(f"The event `{self.name}` ({self.line}) has no truth value while the diagram is drawn.")

    def __repr__(self) -> str:
        return f"<event {self.name}, {self.line}>"


def _no_operator(self: Event, other: object = None) -> NoReturn:
    raise wrong(f"`{self.name}` ({self.line}) is an event, and this operator takes signals. Events are joined"
                " by `|`, and given as on=.")


for _operator in ("add", "radd", "sub", "rsub", "mul", "rmul", "neg", "abs", "lt", "le", "gt", "ge", "and",
                  "invert", "lshift", "rshift"):
    setattr(Event, f"__{_operator}__", _no_operator)


class EventUnion(Event):
    """The event that comes with each of several."""

    def __init__(self, parts: Iterable[Event]) -> None:
        from .levels import open_level
        super().__init__(None, 1)
        self.parts = list(parts)
        self.level = open_level()
        self.made_name = here("union").name

    @property
    def name(self) -> str:
        return " | ".join(part.name for part in self.parts)

    @property
    def line(self) -> str:
        return self.parts[0].line if self.parts else "?"

    def sources(self) -> list[Event]:
        return each_once(self.parts)


class LaterEvent(Event):
    """An event that is used before the block is made that gives it; see `later_event`."""

    def __init__(self, name: str, line: str, level: Level) -> None:
        super().__init__(None, 1)
        self.fed: list[Event] = []
        self.made_name = name
        self.made_line = line
        self.level = level
        self.busy = False

    @property
    def name(self) -> str:
        return self.made_name

    @property
    def line(self) -> str:
        return self.made_line

    def feed(self, source: object, *others: Event) -> None:
        """Tell the events for which this one stands."""
        self.fed.extend(checked_events((source, *others), f"{self.name}.feed"))

    def sources(self) -> list[Event]:
        if not self.fed:
            raise wrong_at(self.line, f"`{self.name}` is told later, and never was: call {self.name}.feed(..)"
                                      " with the event that it stands for.")
        if self.busy:
            raise wrong_at(self.line, f"`{self.name}` is fed by itself, with no block between.")
        self.busy = True
        try:
            return each_once(self.fed)
        finally:
            self.busy = False


def each_once(events: Sequence[Event]) -> list[Event]:
    """The sources of several events, each once, in order."""
    found: dict[int, Event] = {}
    for event in events:
        for source in event.sources():
            found.setdefault(id(source), source)
    return list(found.values())


def checked_events(events: object, what: str) -> list[Event]:
    """The events of an `on=` or of a call, or a DesignError that says what was given instead."""
    if isinstance(events, Event):
        return [events]
    if isinstance(events, Signal):
        raise wrong(f"{what} takes events, and `{events.name}` ({events.line}) is a signal."
                    f" when({events.name}) gives the events of its being above 0 or not.")
    if hasattr(events, "otherwise"):
        raise wrong(f"{what} takes events, and when() gives two of them: take when(..).then or"
                    " when(..).otherwise.")
    if isinstance(events, Iterable) and not isinstance(events, str):
        found: list[Event] = []
        for event in events:
            found.extend(checked_events(event, what))
        return found
    raise wrong(f"{what} takes events, and {events!r} is none. clock(), timer(), when() and select() give"
                " events.")

