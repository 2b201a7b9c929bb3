"""Fixed point: fractions as whole numbers, and products by fractions that can't overflow for a range."""
from __future__ import annotations

from dataclasses import dataclass
from fractions import Fraction
from typing import Union

from .arithmetic import AnyMode, convert, gain, summation
from .bits import extractbits, shift
from .integers import IntType, int32, whole
from .levels import On
from .making import checked_signal
from .origin import parts, wrong
from .signals import Signal

Number = Union[int, float, Fraction, str]


@dataclass(frozen=True)
class Q:
    """Fixed point with this many bits behind the point. Example: `Q(15).of(0.3)` is 9830."""

    bits: int

    def __post_init__(self) -> None:
        whole(self.bits, "The bits behind the point", 0, 62)

    def of(self, number: Number, type: IntType | None = None) -> int:
        """The whole number that is nearest to number * 2^bits, of two the even one; within a type, if given.

        A decimal fraction is taken as it is written: 0.3 is 3/10. Example: `Q(8).of(0.5)` is 128.
        """
        value: int = round(_exact(number) * 2 ** self.bits)
        if type is not None and not type.holds(value):
            raise wrong(f"{number} with {self.bits} bits behind the point is {value}, which {type.name}"
                        " doesn't hold. Take fewer bits, or a wider type.")
        return value

    def value(self, whole: int) -> Fraction:
        """The number that a whole number stands for. Example: `Q(8).value(128)` is 1/2."""
        return Fraction(whole, 2 ** self.bits)

    def error(self, number: Number) -> Fraction:
        """How far what `of` gives is from the number: above 0 where it is more."""
        return self.value(self.of(number)) - _exact(number)


def _exact(number: Number) -> Fraction:
    try:
        return Fraction(repr(number)) if isinstance(number, float) else Fraction(number)
    except (ValueError, TypeError, OverflowError, ZeroDivisionError):
        raise wrong(f"{number!r} is no number that can be brought into fixed point.") from None


def scaled(u1: Signal, factor: Number, *, bits: int, least: int | None = None, greatest: int | None = None,
           mode: AnyMode = None, on: On = None, name: str | None = None) -> Signal:
    """u1 times a fraction with `bits` bits behind the point, rounded down: a GAINBLK and a SHIFT.

    u1 is from `least` to `greatest`, or anything of its type. For this range no block overflows: where the
    product needs more bits than the type has, it is worked out in int32, and where that is too small, of the
    upper and the lower bits of u1 apart. The result is always that of one exact product, rounded down once.
    Example: `scaled(error, 0.2, bits=12, least=-3000, greatest=3000)`.
    """
    signal = checked_signal(u1, "scaled")
    whole(bits, "The bits of scaled", 0, 31)
    number = Q(bits).of(factor)
    low = signal.type.least if least is None else whole(least, "least")
    high = signal.type.greatest if greatest is None else whole(greatest, "greatest")
    if low > high or not signal.type.holds(low) or not signal.type.holds(high):
        raise wrong(f"The range of `{signal.name}` is told as {low} to {high}: least is at most greatest, and"
                    f" both are within {signal.type.name}.")
    ends = (low * number >> bits, high * number >> bits)
    if not all(signal.type.holds(end) for end in ends):
        raise wrong(f"`{signal.name}` ({signal.line}) times {factor} is from {min(ends)} to {max(ends)},"
                    f" which {signal.type.name} doesn't hold. convert() it into a wider type first, or tell"
                    " its range.")
    return _Scaling(number, bits, low, high, mode, on, name).draw(signal)


@dataclass(frozen=True)
class _Scaling:
    """A product that is shifted; `draw` chooses the blocks by exact arithmetic."""

    number: int
    bits: int
    low: int
    high: int
    mode: AnyMode
    on: On
    name: str | None

    def draw(self, signal: Signal) -> Signal:
        if self._fits(signal.type, self.low, self.high, self.number):
            return self._plain(signal, self.name)
        narrow = signal.type
        if narrow is not int32 and not (int32.holds(self.low) and int32.holds(self.high)):
            raise wrong(f"The product of `{signal.name}` ({signal.line}) needs int32, which doesn't hold its"
                        f" range, {self.low} to {self.high}. Tell a smaller range, or take fewer bits.")
        if narrow is int32:
            return self._parts(signal, self.name)
        with parts():
            wide = convert(signal, int32, mode=self.mode, on=self.on)
            if self._fits(int32, self.low, self.high, self.number):
                made = self._plain(wide, None)
            else:
                made = self._parts(wide, None)
        return convert(made, narrow, mode=self.mode, on=self.on, name=self.name)

    def _fits(self, kind: IntType, low: int, high: int, number: int) -> bool:
        return kind.holds(number) and kind.holds(low * number) and kind.holds(high * number)

    def _plain(self, signal: Signal, name: str | None) -> Signal:
        if self.bits == 0:
            return gain(signal, self.number, mode=self.mode, on=self.on, name=name)
        with parts():
            long = gain(signal, self.number, mode=self.mode, on=self.on)
        return shift(long, -self.bits, on=self.on, name=name)

    def _parts(self, signal: Signal, name: str | None) -> Signal:
        """The product of the upper bits and that of the lower ones, each shifted, and their sum."""
        for cut in range(1, self.bits + 1):
            low, high, rest = self.low >> cut, self.high >> cut, (1 << cut) - 1
            total = (self.low * self.number >> cut, self.high * self.number >> cut)
            if (self._fits(int32, low, high, self.number) and self._fits(int32, 0, rest, self.number)
                    and int32.holds(total[0]) and int32.holds(total[1])):
                return self._cut(signal, cut, name)
        raise wrong(f"`{signal.name}` ({signal.line}), from {self.low} to {self.high}, times {self.number}"
                    f" over 2^{self.bits} needs more than int32, also in two parts. Tell a smaller range, or"
                    " take fewer bits.")

    def _cut(self, signal: Signal, cut: int, name: str | None) -> Signal:
        with parts():
            upper = gain(shift(signal, -cut, on=self.on), self.number, mode=self.mode, on=self.on)
            low_bits = extractbits(signal, 0, cut - 1, on=self.on)
            lower = shift(gain(low_bits, self.number, mode=self.mode, on=self.on), -cut, on=self.on)
            if cut < self.bits:
                both = summation(upper, lower, mode=self.mode, on=self.on)
        if cut < self.bits:
            return shift(both, cut - self.bits, on=self.on, name=name)
        return summation(upper, lower, mode=self.mode, on=self.on, name=name)
