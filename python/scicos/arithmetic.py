"""Constants, sums, products and bounds."""
from __future__ import annotations

from collections.abc import Sequence
from typing import Any, SupportsIndex, Union

from .integers import IntType, Mode, listed, whole, within
from .levels import Block, On
from .making import checked_signal, checked_type, look_at_size, make, mode_number, same
from .origin import Origin, here, wrong
from .signals import Event, Operand, Signal

Values = Union[int, Sequence[int], Sequence[Sequence[int]]]
AnyMode = Union[str, Mode, None]


def constant(value: Values, type: IntType, *, name: str | None = None) -> Signal:
    """CONST_m: a value, a column of values, or a matrix as a list of its rows.

    Example: `constant(5, int16)`.
    """
    return _constant(value, checked_type(type, "constant"), name, here("constant"))


def _constant(value: Values, type: IntType, name: str | None, origin: Origin) -> Signal:
    rows, columns, values = by_columns(value)
    size = look_at_size(rows, columns, "The constant")
    for one in values:
        within(one, type, "A constant's value")
    return make("CONST_m", "constant", outputs=[(type, size)], ipar=values, name=name,
                origin=origin).signals[0]


def by_columns(value: Values) -> tuple[int, int, list[int]]:
    """Rows, columns and the elements of a value, down the columns, as the format counts them."""
    found: Any = value.tolist() if hasattr(value, "tolist") else value
    if not _is_list(found):
        return 1, 1, [found]
    if not any(_is_list(row) for row in found):
        return len(found), 1, list(found)
    if not all(_is_list(row) and len(row) == len(found[0]) for row in found):
        raise wrong("The rows of a matrix have to have one length.")
    return len(found), len(found[0]), [row[column] for column in range(len(found[0])) for row in found]


def _is_list(value: object) -> bool:
    return isinstance(value, Sequence) and not isinstance(value, (str, bytes))


def operand(value: object, beside: Signal, what: str) -> Signal:
    """A signal as it is, and a whole number as a constant of the type of the signal beside it."""
    if isinstance(value, (Signal, Event)):
        return checked_signal(value, what)
    if isinstance(value, bool) or not isinstance(value, SupportsIndex):
        raise wrong(f"{what} takes signals and whole numbers, and {value!r} is none. of() of Q(bits) makes a"
                    " whole number of a fraction.")
    number = within(int(value), beside.type, f"The number beside `{beside.name}` ({beside.line})")
    values: Values = number if beside.size == (1, 1) else [[number] * beside.columns] * beside.rows
    return _constant(values, beside.type, None, here("constant", part=True))


def operands(values: Sequence[object], type: IntType | None, what: str) -> list[Signal]:
    """Signals as they are, and whole numbers as constants of their type, or of the one that is said."""
    beside = next((one for one in values if isinstance(one, Signal)), None)
    if beside is None and type is None:
        raise wrong(f"{what} of numbers alone has no type. Say it, as type=uint8.")
    kind = None if type is None else checked_type(type, what)
    if beside is None:
        assert kind is not None
        return [checked_signal(value, what) if isinstance(value, Event)
                else _constant(within(whole(value, f"A number of {what}"), kind, f"A number of {what}"), kind,
                               None, here("constant", part=True)) for value in values]
    if kind is not None and beside.type is not kind:
        raise wrong(f"{what} is said to be {kind.name}, and `{beside.name}` ({beside.line}) is"
                    f" {beside.type.name}. Bring it into {kind.name} by convert().")
    return [operand(value, beside, what) for value in values]


def summation(*inputs: Signal, signs: Sequence[int] | None = None, mode: AnyMode = None, on: On = None,
              name: str | None = None) -> Signal:
    """SUMMATION: the sum of 2 to 64 inputs, each with the sign 1 or -1.

    Example: `summation(a, b, signs=[1, -1])`.
    """
    terms = [checked_signal(one, "summation") for one in inputs]
    chosen = [1] * len(terms) if signs is None else listed(signs, "signs")
    if len(chosen) != len(terms) or any(whole(sign, "A sign") not in (1, -1) for sign in chosen):
        raise wrong(f"summation has {len(terms)} inputs, and signs={chosen!r}: one 1 or -1 for each.")
    return _sum(list(zip(terms, chosen)), mode, on, name, here("sum")).signals[0]


def _sum(terms: list[tuple[Signal, int]], mode: AnyMode, on: On, name: str | None, origin: Origin) -> Block:
    if len(terms) < 2:
        raise wrong(f"A SUMMATION has 2 to 64 inputs, and here are {len(terms)}.")
    shape = same([term for term, _ in terms], f"The sum `{name or origin.name}`")
    ipar = [mode_number(mode)] + [sign for _, sign in terms]
    return make("SUMMATION", "sum", [term for term, _ in terms], outputs=[shape], ipar=ipar, on=on, name=name,
                origin=origin)


def plus(a: Operand, b: Operand, sign: int) -> Signal:
    """The sum or difference of an operator. A sum that is written in one expression is one block."""
    origin = here("sum")
    beside = a if isinstance(a, Signal) else b
    assert isinstance(beside, Signal)
    what = "+" if sign == 1 else "-"
    pairs = [(operand(a, beside, what), 1), (operand(b, beside, what), sign)]
    terms: list[tuple[Signal, int]] = []
    for signal, factor in pairs:
        inner = _inner_terms(signal, origin)
        terms.extend((one, own * factor) for one, own in inner)
    if len(terms) > 64:
        terms = pairs
    else:
        for signal, _ in pairs:
            if signal.block is not None and _joins(signal, origin):
                _take_back(signal.block)
    made = _sum(terms, None, None, None, origin)
    made.joins = True
    return made.signals[0]


def _joins(signal: Signal, origin: Origin) -> bool:
    """Whether the signal is a sum, or a change of sign, that only the expression around it can use."""
    block = signal.block
    return block is not None and block.joins and block.taken == 0 and origin.encloses(block.origin)


def _inner_terms(signal: Signal, origin: Origin) -> list[tuple[Signal, int]]:
    block = signal.block
    if block is None or not _joins(signal, origin):
        return [(signal, 1)]
    signs = block.ipar[1:]
    return [(source, sign) for source, sign in zip(block.inputs, signs) if source is not None]


def _take_back(block: Block) -> None:
    """Take a block out again, whose terms go into the sum around it."""
    block.level.objects.remove(block)
    block.level.diagram.blocks -= 1
    for source in block.inputs:
        if source is not None and source.block is not None:
            source.block.taken -= 1


def minus(a: Signal) -> Signal:
    """The change of sign of an operator: a gain of -1, or within a sum a sign of that sum."""
    made = gain(a, -1)
    assert made.block is not None
    made.block.joins = True
    return made


def gain(u1: Signal, factor: int, *, mode: AnyMode = None, on: On = None, name: str | None = None) -> Signal:
    """GAINBLK: a factor times u1, as `3 * u1`. Example: `gain(error, 3, mode="saturate")`."""
    signal = checked_signal(u1, "gain")
    if isinstance(factor, Signal):
        raise wrong(f"The factor of a gain is a number of the design, and `{factor.name}` ({factor.line}) is"
                    f" a signal. Take product({signal.name}, {factor.name}).")
    if isinstance(factor, float):
        raise wrong(f"The factor of a gain is a whole number, and {factor!r} is none. scaled({signal.name},"
                    f" {factor!r}, bits=..) multiplies by a fraction.")
    number = within(factor, signal.type, f"The factor of `{signal.name}` ({signal.line})")
    return make("GAINBLK", "gain", [signal], outputs=[(signal.type, signal.size)],
                ipar=[mode_number(mode), number], on=on, name=name).signals[0]


def times(a: Signal, b: Operand) -> Signal:
    """The product of an operator: a gain where one side is a number."""
    if isinstance(b, (Signal, Event)):
        return product(a, checked_signal(b, "*"))
    if isinstance(b, bool) or not hasattr(b, "__index__"):
        raise wrong(f"* takes signals and whole numbers, and {b!r} is none. scaled(signal, {b!r}, bits=..)"
                    " multiplies by a fraction.")
    return gain(a, b)


def product(u1: Signal, u2: Signal, *, mode: AnyMode = None, on: On = None,
            name: str | None = None) -> Signal:
    """PRODUCT: u1 times u2, as `u1 * u2`."""
    return _product(u1, u2, 1, "product", mode, on, name)


def quotient(u1: Signal, u2: Operand, *, mode: AnyMode = None, on: On = None,
             name: str | None = None) -> Signal:
    """PRODUCT with -1: u1 over u2, rounded toward zero; the run stops where u2 is 0.

    Example: `quotient(a, b)`.
    """
    return _product(u1, operand(u2, checked_signal(u1, "quotient"), "quotient"), -1, "quotient", mode, on,
                    name)


def _product(u1: Signal, u2: Signal, sign: int, word: str, mode: AnyMode, on: On, name: str | None) -> Signal:
    pair = [checked_signal(u1, word), checked_signal(u2, word)]
    shape = same(pair, f"The {word}")
    return make("PRODUCT", word, pair, outputs=[shape], ipar=[mode_number(mode), sign], on=on,
                name=name).signals[0]


def abs_value(u1: Signal, *, mode: AnyMode = None, on: On = None, name: str | None = None) -> Signal:
    """ABS_VALUE: the magnitude of u1, as `abs(u1)`."""
    signal = checked_signal(u1, "abs_value")
    return make("ABS_VALUE", "magnitude", [signal], outputs=[(signal.type, signal.size)],
                ipar=[mode_number(mode)], on=on, name=name).signals[0]


def signum(u1: Signal, *, on: On = None, name: str | None = None) -> Signal:
    """SIGNUM: -1, 0 or 1."""
    signal = checked_signal(u1, "signum")
    return make("SIGNUM", "sign", [signal], outputs=[(signal.type, signal.size)], on=on, name=name).signals[0]


def least(*inputs: Operand, type: IntType | None = None, on: On = None, name: str | None = None) -> Signal:
    """MAXMIN with 1: the least of 2 to 64 inputs. Example: `least(done, left)`."""
    return _maxmin(inputs, 1, "least", type, on, name)


def greatest(*inputs: Operand, type: IntType | None = None, on: On = None,
             name: str | None = None) -> Signal:
    """MAXMIN with 2: the greatest of 2 to 64 inputs. Example: `greatest(x, 0)`."""
    return _maxmin(inputs, 2, "greatest", type, on, name)


def _maxmin(inputs: Sequence[Operand], which: int, word: str, type: IntType | None, on: On,
            name: str | None) -> Signal:
    signals = operands(inputs, type, word)
    shape = same(signals, word)
    return make("MAXMIN", word, signals, outputs=[shape], ipar=[which], on=on, name=name).signals[0]


def _bounds(signal: Signal, low: int, high: int) -> list[int]:
    for bound in (low, high):
        if isinstance(bound, Signal):
            raise wrong(f"The bounds are numbers of the design, and `{bound.name}` ({bound.line}) is a"
                        " signal. Take least() and greatest() of signals.")
    ends = [within(low, signal.type, "low"), within(high, signal.type, "high")]
    if ends[0] > ends[1]:
        raise wrong(f"low is {low}, and high {high}: low has to be at most high.")
    return ends


def saturation(u1: Signal, low: int, high: int, *, on: On = None, name: str | None = None) -> Signal:
    """SATURATION: u1 brought into low..high. Example: `drive = saturation(wanted, 0, 1000)`."""
    signal = checked_signal(u1, "saturation")
    return make("SATURATION", "saturation", [signal], outputs=[(signal.type, signal.size)],
                ipar=_bounds(signal, low, high), on=on, name=name).signals[0]


def deadband(u1: Signal, low: int, high: int, *, mode: AnyMode = None, on: On = None,
             name: str | None = None) -> Signal:
    """DEADBAND: what u1 has above high or below low, else 0."""
    signal = checked_signal(u1, "deadband")
    return make("DEADBAND", "deadband", [signal], outputs=[(signal.type, signal.size)],
                ipar=[mode_number(mode)] + _bounds(signal, low, high), on=on, name=name).signals[0]


def convert(u1: Signal, type: IntType, *, mode: AnyMode = None, on: On = None,
            name: str | None = None) -> Signal:
    """CONVERT: u1 brought into another type. Example: `convert(reading, int32)`."""
    signal = checked_signal(u1, "convert")
    return make("CONVERT", "converted", [signal], outputs=[(checked_type(type, "convert"), signal.size)],
                ipar=[mode_number(mode)], on=on, name=name).signals[0]
