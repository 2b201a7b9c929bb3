"""Clocks, timers and conditions: the blocks that give events."""
from __future__ import annotations

from collections.abc import Iterator
from types import TracebackType
from typing import NoReturn

from .integers import IntType, int32, whole
from .levels import On, enter_default, leave_default
from .making import checked_signal, make, scalar
from .origin import wrong
from .signals import Event, EventUnion, Signal, Sink, checked_events

LONGEST = 2147483647


def _first(first: int) -> int:
    return whole(first, "The first date", -1, LONGEST)


def clock(period: int, *, first: int = 0, name: str | None = None) -> Event:
    """EVTDLY_c that activates itself: an event every `period` ticks, from the date `first` on.

    Example: `tick = clock(10)`.
    """
    whole(period, "The period of a clock", 0, LONGEST)
    whole(first, "The first date of a clock", 0, LONGEST)
    block = make("EVTDLY_c", "clock", events=1, ipar=[period], firing=[first], acts=[()], name=name)
    block.activations[0].append(block.events[0])
    return block.events[0]


def timer(delay: int, *, first: int = -1, on: On = None, name: str | None = None) -> Event:
    """EVTDLY_c: an event `delay` ticks after each activation, in the place of one that is pending.

    With a delay of -1 there is none. `first` is the date of an event that is pending before the run, or -1.
    Example: `timeout = timer(50, first=50, on=life)`.
    """
    whole(delay, "The delay of a timer", -1, LONGEST)
    return make("EVTDLY_c", "timer", events=1, ipar=[delay], firing=[_first(first)], on=on,
                name=name).events[0]


def variable_timer(u1: Signal | IntType, *, first: int = -1, on: On = None, name: str | None = None) -> Event:
    """EVTVARDLY: an event u1 ticks after each activation, in the place of one that is pending; below 0 none.

    Given a type in place of u1, it is fed later by `.feed(..)`. Example: `step = variable_timer(gap, on=go)`.
    """
    if isinstance(u1, IntType):
        source, kind = None, u1
    else:
        source = scalar(checked_signal(u1, "variable_timer"), "variable_timer")
        kind = source.type
    return make("EVTVARDLY", "timer", [source], events=1, firing=[_first(first)],
                input_types=[(kind, (1, 1))], on=on, name=name).events[0]


class on:
    """Within `with on(event):` blocks that don't say `on=` are activated by the event, if they can be.

    Constants can't. `on=INHERIT` leaves a block to inherit there.
    Example: `with on(tick): speed = sensor(1, int16)`.
    """

    def __init__(self, *events: Event) -> None:
        found = checked_events(events, "on()")
        if not found:
            raise wrong("on() takes at least one event.")
        self.event = found[0] if len(found) == 1 else EventUnion(found)

    def __enter__(self) -> Event:
        enter_default(self.event)
        return self.event

    def __exit__(self, kind: type[BaseException] | None, value: BaseException | None,
                 trace: TracebackType | None) -> None:
        leave_default()


class Branches:
    """The two events of a condition: `then` where its signal is above 0, else `otherwise`.

    `then, otherwise = when(x)` takes both; within `with when(x):` blocks are activated by the first, which
    `when(x).then` is too.
    """

    def __init__(self, then: Event, otherwise: Event) -> None:
        self.then = then
        self.otherwise = otherwise

    def __iter__(self) -> Iterator[Event]:
        return iter((self.then, self.otherwise))

    def __or__(self, other: object) -> NoReturn:
        raise wrong("when() gives two events. Join one of them: when(..).then | e, or when(..).otherwise |"
                    " e.")

    __ror__ = __or__

    def __getitem__(self, at: object) -> NoReturn:
        raise wrong("when() gives two events: take when(..).then or when(..).otherwise.")

    def __enter__(self) -> Branches:
        enter_default(self.then)
        return self

    def __exit__(self, kind: type[BaseException] | None, value: BaseException | None,
                 trace: TracebackType | None) -> None:
        leave_default()


def when(u1: Signal, *, on: On = None, name: str | None = None) -> Branches:
    """IFTHEL_f: two events at once, the first where u1 is above 0, else the second.

    Example: `pressed, released = when(button)`, or `with when(button): presses = counter(256)`.
    """
    signal = scalar(checked_signal(u1, "when"), "when")
    block = make("IFTHEL_f", "when", [signal], events=2, on=on, name=name)
    return Branches(*block.events)


def select(u1: Signal, n: int, *, on: On = None, name: str | None = None) -> tuple[Event, ...]:
    """ESELECT_f: one of n events, 2 to 64, at once: that with the number u1; the first below, the last above.

    Example: `idle, run, fault = select(mode, 3)`.
    """
    signal = scalar(checked_signal(u1, "select"), "select")
    whole(n, "The number of events of select", 2, 64)
    return tuple(make("ESELECT_f", "select", [signal], events=n, on=on, name=name).events)


def andlog(first: On, second: On, *, name: str | None = None) -> Signal:
    """ANDLOG_f: a scalar int32, 1 where both events come in one reaction, else -1."""
    return make("ANDLOG_f", "andlog", outputs=[(int32, (1, 1))], acts=[first, second], name=name).signals[0]


def halt(*, on: On = None, name: str | None = None) -> Sink:
    """HALT_f: ends the run after the reaction in which it acts. Example: `halt(on=done)`."""
    return Sink(make("HALT_f", "halt", on=on, name=name))
