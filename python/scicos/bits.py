"""Shifts and bits, and vectors that are joined and cut."""
from __future__ import annotations

from collections.abc import Sequence

from .integers import listed, whole
from .levels import On
from .making import checked_signal, look_at_size, make, same
from .origin import wrong
from .signals import Signal


def shift(u1: Signal, n: int, *, on: On = None, name: str | None = None) -> Signal:
    """SHIFT: u1 times 2^n, wrapped, as `u1 << n`; for n below 0 over 2^-n, rounded down, as `u1 >> -n`."""
    return _shift(u1, n, 0, "shifted", on, name)


def rotate(u1: Signal, n: int, *, on: On = None, name: str | None = None) -> Signal:
    """SHIFT with 1: the bits of u1 turned left n places."""
    return _shift(u1, n, 1, "turned", on, name)


def _shift(u1: Signal, n: int, turned: int, word: str, on: On, name: str | None) -> Signal:
    signal = checked_signal(u1, "shift")
    most = signal.type.bits - 1
    whole(n, f"The number of places of a shift of {signal.type.name}", -most, most)
    return make("SHIFT", word, [signal], outputs=[(signal.type, signal.size)], ipar=[int(n), turned], on=on,
                name=name).signals[0]


def shifted(a: Signal, places: object, right: bool = False) -> Signal:
    """The shift of an operator, by a whole number of places from 0 on."""
    if isinstance(places, Signal):
        raise wrong(f"<< and >> take a whole number of places, and `{places.name}` is a signal: a SHIFT has"
                    " its number of places as a parameter.")
    number = whole(places, "The number of places of a shift", 0, a.type.bits - 1)
    return shift(a, -number if right else number)


def bitset(u1: Signal, bit: int, *, on: On = None, name: str | None = None) -> Signal:
    """BITSET: this bit of u1 made 1; bit 0 is the least significant."""
    return _bit("BITSET", u1, [bit], on, name)


def bitclear(u1: Signal, bit: int, *, on: On = None, name: str | None = None) -> Signal:
    """BITCLEAR: this bit of u1 made 0; bit 0 is the least significant."""
    return _bit("BITCLEAR", u1, [bit], on, name)


def extractbits(u1: Signal, first: int, last: int, *, on: On = None, name: str | None = None) -> Signal:
    """EXTRACTBITS: the bits from first to last as a number, wrapped into the type.

    Example: `extractbits(x, 4, 7)`.
    """
    made = _bit("EXTRACTBITS", u1, [first, last], on, name)
    return made


def _bit(kind: str, u1: Signal, numbers: list[int], on: On, name: str | None) -> Signal:
    signal = checked_signal(u1, kind)
    for number in numbers:
        whole(number, f"A bit of {signal.type.name}", 0, signal.type.bits - 1)
    if numbers[0] > numbers[-1]:
        raise wrong(f"The first bit is {numbers[0]}, and the last {numbers[1]}: the first has to be at most"
                    " the last.")
    return make(kind, "bits", [signal], outputs=[(signal.type, signal.size)], ipar=numbers, on=on,
                name=name).signals[0]


def mux(*inputs: Signal, on: On = None, name: str | None = None) -> Signal:
    """MUX: 2 to 64 inputs, each of one column, one below the other. Example: `taps = mux(newest, line)`."""
    signals = [column(checked_signal(one, "mux"), "mux") for one in inputs]
    if not signals:
        raise wrong("mux has 2 to 64 inputs, and here is none.")
    kind, _ = same(signals, "mux", sizes=False)
    size = look_at_size(sum(one.rows for one in signals), 1, "mux")
    return make("MUX", "joined", signals, outputs=[(kind, size)], on=on, name=name).signals[0]


def column(signal: Signal, what: str) -> Signal:
    """The signal, or a DesignError where it has several columns."""
    if signal.columns != 1:
        raise wrong(f"{what} takes signals of one column, and `{signal.name}` ({signal.line}) is"
                    f" {signal.rows}x{signal.columns}.")
    return signal


def demux(u1: Signal, sizes: Sequence[int] | None = None, *, on: On = None,
          name: str | None = None) -> tuple[Signal, ...]:
    """DEMUX: u1, of one column, cut in order into parts of these sizes.

    Without sizes each part has one element. Example: `head, rest = demux(line, [1, 7])`.
    """
    signal = column(checked_signal(u1, "demux"), "demux")
    wanted = [1] * signal.rows if sizes is None else listed(sizes, "The sizes of demux")
    parts = [whole(size, "A size of demux") for size in wanted]
    if sum(parts) != signal.rows or any(part < 1 for part in parts):
        raise wrong(f"demux cuts `{signal.name}` ({signal.line}), of {signal.rows} elements, into parts of"
                    f" {parts}: each has at least one, and together they have all.")
    block = make("DEMUX", "parts", [signal], outputs=[(signal.type, (part, 1)) for part in parts], on=on,
                 name=name)
    return tuple(block.signals)


def extractor(u1: Signal, *elements: int, on: On = None, name: str | None = None) -> Signal:
    """EXTRACTOR: these elements of u1, counted from 1 down the columns, as one column.

    Example: `extractor(x, 3, 1)`.
    """
    signal = checked_signal(u1, "extractor")
    for element in elements:
        whole(element, f"An element of `{signal.name}` ({signal.line})", 1, signal.elements)
    size = look_at_size(len(elements), 1, "extractor")
    return make("EXTRACTOR", "elements", [signal], outputs=[(signal.type, size)],
                ipar=[int(element) for element in elements], on=on, name=name).signals[0]
