"""The operators of signals: each draws a block, in the mode of the diagram."""
from __future__ import annotations

from typing import TYPE_CHECKING, NoReturn, Union, cast

from .origin import wrong


if TYPE_CHECKING:
    from .signals import Signal

Number = Union["Signal", int]


class Operators:
    """`+ - *` and a sign, `abs()`, comparisons, the bit by bit `& | ^ ~`, and shifts by whole numbers."""

    def _me(self) -> Signal:
        return cast("Signal", self)

    def __add__(self, other: Number) -> Signal:
        from .arithmetic import plus
        return plus(self._me(), other, 1)

    def __radd__(self, other: Number) -> Signal:
        from .arithmetic import plus
        return plus(other, self._me(), 1)

    def __sub__(self, other: Number) -> Signal:
        from .arithmetic import plus
        return plus(self._me(), other, -1)

    def __rsub__(self, other: Number) -> Signal:
        from .arithmetic import plus
        return plus(other, self._me(), -1)

    def __mul__(self, other: Number) -> Signal:
        from .arithmetic import times
        return times(self._me(), other)

    def __neg__(self) -> Signal:
        from .arithmetic import minus
        return minus(self._me())

    def __pos__(self) -> Signal:
        return self._me()

    def __abs__(self) -> Signal:
        from .arithmetic import abs_value
        return abs_value(self._me())

    def __floordiv__(self, other: Number) -> NoReturn:
        raise wrong("`//` rounds down in Python, and a PRODUCT that divides rounds toward zero. Take"
                    " quotient(a, b) for the latter, or a >> n to divide by 2^n and round down.")

    def __truediv__(self, other: Number) -> NoReturn:
        raise wrong("A signal has whole numbers alone. Take quotient(a, b), which rounds toward zero, or a"
                    " >> n to divide by 2^n and round down.")

    def __mod__(self, other: Number) -> NoReturn:
        raise wrong("No block gives a remainder. Take a & (2^n - 1) for that of a division by 2^n, or"
                    " a - quotient(a, b) * b.")

    def __pow__(self, other: Number) -> NoReturn:
        raise wrong("No block gives a power. Take a * a for a square, or a << n for a times 2^n.")

    def _compared(self, operation: str, other: object) -> Signal:
        from .decisions import compared
        return compared(self._me(), operation, other)

    def __lt__(self, other: Number) -> Signal:
        return self._compared("<", other)

    def __le__(self, other: Number) -> Signal:
        return self._compared("<=", other)

    def __gt__(self, other: Number) -> Signal:
        return self._compared(">", other)

    def __ge__(self, other: Number) -> Signal:
        return self._compared(">=", other)

    def __eq__(self, other: object) -> Signal:  # type: ignore[override]
        return self._compared("==", other)

    def __ne__(self, other: object) -> Signal:  # type: ignore[override]
        return self._compared("!=", other)

    __hash__ = object.__hash__

    def _bitwise(self, operation: str, other: Number) -> Signal:
        from .decisions import bitwise
        return bitwise(self._me(), operation, other)

    def __and__(self, other: Number) -> Signal:
        return self._bitwise("AND", other)

    def __or__(self, other: Number) -> Signal:
        return self._bitwise("OR", other)

    def __xor__(self, other: Number) -> Signal:
        return self._bitwise("XOR", other)

    def __invert__(self) -> Signal:
        from .decisions import inverted
        return inverted(self._me())

    def __lshift__(self, places: int) -> Signal:
        from .bits import shifted
        return shifted(self._me(), places)

    def __rshift__(self, places: int) -> Signal:
        from .bits import shifted
        return shifted(self._me(), places, right=True)

    __rmul__ = __mul__
    __rand__ = __and__
    __ror__ = __or__
    __rxor__ = __xor__
    __rfloordiv__ = __floordiv__
    __rtruediv__ = __truediv__
    __rmod__ = __mod__
    __rpow__ = __pow__
