"""Blocks that remember: delays, held values, registers, counters, and sensors."""
from __future__ import annotations

from collections.abc import Sequence
from dataclasses import replace
from typing import Union

from .arithmetic import AnyMode, Values, by_columns
from .integers import IntType, int32, listed, whole, within
from .levels import INHERIT, On, Size, current, default_event
from .making import checked_signal, checked_type, look_at_size, make, mode_number, scalar
from .origin import here, wrong
from .signals import Signal

Source = Union[Signal, IntType]


def _source(u1: Source, rows: int, columns: int, what: str) -> tuple[Signal | None, IntType, Size]:
    """What feeds a delay, its type and its size; None where it is told later."""
    if isinstance(u1, IntType):
        return None, u1, look_at_size(rows, columns, what)
    signal = checked_signal(u1, what)
    if (rows, columns) != (1, 1):
        raise wrong(f"{what} takes its size from what feeds it: leave rows= and columns= out.")
    return signal, signal.type, signal.size


def _state(initial: Values, kind: IntType, size: Size, what: str) -> list[int]:
    rows, columns, values = by_columns(initial)
    if columns > 1 and (rows, columns) != size:
        raise wrong(f"{what} is {size[0]}x{size[1]}, and its first values are {rows}x{columns}: give a list of"
                    " its rows, or one value for all.")
    if len(values) not in (1, size[0] * size[1]):
        raise wrong(f"{what} has {size[0] * size[1]} elements, and {len(values)} first values: give one for"
                    " all, or one for each.")
    return [within(value, kind, f"A first value of {what}") for value in values]


def delay(u1: Source, *, initial: Values = 0, on: On = None, rows: int = 1, columns: int = 1,
          name: str | None = None) -> Signal:
    """DOLLAR_m: u1 at the activation before; at first `initial`.

    Given a type in place of u1, it is fed later: `x = delay(int16, on=tick)`, and below `x.feed(x + 1)`.
    """
    source, kind, size = _source(u1, rows, columns, "delay")
    return make("DOLLAR_m", "delay", [source], outputs=[(kind, size)], input_types=[(kind, size)],
                dstate=_state(initial, kind, size, "delay"), on=on, name=name).signals[0]


def hold(u1: Signal, *, on: On = None, name: str | None = None) -> Signal:
    """SAMPHOLD_m: u1, held between activations. Example: `held = hold(reference, on=fast)`."""
    signal = checked_signal(u1, "hold")
    return make("SAMPHOLD_m", "held", [signal], outputs=[(signal.type, signal.size)], on=on,
                name=name).signals[0]


def register(u1: Source, values: Sequence[int], *, on: On = None, name: str | None = None) -> Signal:
    """REGISTER: u1 as many activations ago as there are first values.

    Example: `register(sample, [0] * 4, on=tick)`.
    """
    source, kind, size = _source(u1, 1, 1, "register")
    if source is not None:
        scalar(source, "register")
    state = listed(values, "The values of a register")
    if not 1 <= len(state) <= 256:
        raise wrong(f"A register has 1 to 256 values, and here are {len(state)}.")
    return make("REGISTER", "register", [source], outputs=[(kind, size)], input_types=[(kind, size)],
                dstate=[within(value, kind, "A value of register") for value in state], on=on,
                name=name).signals[0]


def counter(base: int, *, first: int = 0, type: IntType = int32, on: On = None,
            name: str | None = None) -> Signal:
    """Modulo_Count: counts its activations modulo the base, from `first` on.

    Example: `counter(256, on=press)`.
    """
    kind = checked_type(type, "counter")
    whole(base, f"The base of a counter of {kind.name}", 1, min(2147483647, kind.greatest + 1))
    whole(first, f"The first value of a counter modulo {base}", 0, base - 1)
    return make("Modulo_Count", "count", outputs=[(kind, (1, 1))], ipar=[base], dstate=[first], on=on,
                name=name).signals[0]


def counted(on: On = None, *, type: IntType = int32, mode: AnyMode = None,
            name: str | None = None) -> Signal:
    """How often an event has come: 0 before the first time, then 1, 2 and so on; a DOLLAR_m and a SUMMATION.

    Behind the type's greatest value it goes on as the mode says. Example: `presses = counted(press)`.
    """
    if on is None and default_event() is None or on is INHERIT:
        raise wrong("counted counts an event: counted(press), or counted() within `with on(press):`.")
    origin, before = here("counted"), here("before", part=True)
    if name is not None:
        before = replace(before, name=f"{name}_before")
    kind = checked_type(type, "counted")
    last = make("DOLLAR_m", "before", [None], outputs=[(kind, (1, 1))], input_types=[(kind, (1, 1))],
                dstate=[0], on=on, origin=before).signals[0]
    one = make("CONST_m", "constant", outputs=[(kind, (1, 1))], ipar=[1],
               origin=replace(here("constant", part=True), name=before.name.replace("before", "constant")))
    total = make("SUMMATION", "counted", [last, one.signals[0]], outputs=[(kind, (1, 1))],
                 ipar=[mode_number(mode), 1, 1], on=on, name=name, origin=origin).signals[0]
    last.feed(total)
    return total


def gated_delay(u1: Source, u2: Signal, *, initial: Values = 0, on: On = None, rows: int = 1,
                columns: int = 1, name: str | None = None) -> Signal:
    """GATED_DELAY: u1 at the activation before where u2, a scalar of any type, is above 0, else 0.

    Given a type in place of u1, it is fed later by `.feed(..)`.
    Example: `gated_delay(int32, running, on=tick)`.
    """
    source, kind, size = _source(u1, rows, columns, "gated_delay")
    gate = scalar(checked_signal(u2, "gated_delay"), "The gate of gated_delay")
    return make("GATED_DELAY", "gated", [source, gate], outputs=[(kind, size)],
                input_types=[(kind, size), (gate.type, gate.size)], on=on, name=name,
                dstate=_state(initial, kind, size, "gated_delay")).signals[0]


def sensor(column: int, type: IntType, *, on: On = None, name: str | None = None) -> Signal:
    """SENSOR: the next value of a column of the input file, 1 to 255.

    Example: `sensor(1, int16, on=tick)`.
    """
    kind = checked_type(type, "sensor")
    whole(column, "The column of a sensor", 1, 255)
    known = current().diagram.columns.get(column)
    if known is not None:
        raise wrong(f"Column {column} has a sensor already, `{known.name}` ({known.line}). Use that signal:"
                    " it may feed several blocks.")
    block = make("SENSOR", "sensor", outputs=[(kind, (1, 1))], ipar=[column], on=on, name=name)
    block.level.diagram.columns[column] = block
    return block.signals[0]
