"""The six integer types of signals, and what happens on overflow."""
from __future__ import annotations

from collections.abc import Sequence
from dataclasses import dataclass
from enum import IntEnum
from typing import Any, SupportsIndex

from .origin import wrong



@dataclass(frozen=True)
class IntType:
    """An integer type of signals. Example: `int16.greatest` is 32767 and `int16.code` is 4."""

    name: str
    code: int
    bits: int
    signed: bool

    @property
    def least(self) -> int:
        """The least value of the type."""
        return -(1 << (self.bits - 1)) if self.signed else 0

    @property
    def greatest(self) -> int:
        """The greatest value of the type."""
        return (1 << (self.bits - 1 if self.signed else self.bits)) - 1

    def holds(self, value: int) -> bool:
        """Whether the type has this value. Example: `uint8.holds(256)` is False."""
        return self.least <= value <= self.greatest

    def __str__(self) -> str:
        return self.name

    def __repr__(self) -> str:
        return self.name


int32 = IntType("int32", 3, 32, True)
int16 = IntType("int16", 4, 16, True)
int8 = IntType("int8", 5, 8, True)
uint32 = IntType("uint32", 6, 32, False)
uint16 = IntType("uint16", 7, 16, False)
uint8 = IntType("uint8", 8, 8, False)

TYPES = (int32, int16, int8, uint32, uint16, uint8)
BY_CODE = {kind.code: kind for kind in TYPES}
BY_NAME = {kind.name: kind for kind in TYPES}


class Mode(IntEnum):
    """What a block does on overflow: wrap around, saturate at the end of the type, or stop the run."""

    WRAP = 0
    SATURATE = 1
    STOP = 2


def mode_of(word: str | Mode) -> Mode:
    """The mode of a word. Example: `mode_of("saturate")` is `Mode.SATURATE`."""
    if isinstance(word, Mode):
        return word
    if isinstance(word, str) and word.upper() in Mode.__members__:
        return Mode[word.upper()]
    raise wrong(f"The mode {word!r} is none. Take one of \"wrap\", \"saturate\" and \"stop\".")


def whole(value: object, what: str, least: int | None = None, greatest: int | None = None) -> int:
    """The value as a whole number within bounds, or a DesignError that says which number `what` has to be."""
    if isinstance(value, bool) or not isinstance(value, SupportsIndex):
        raise wrong(f"{what} has to be a whole number, and {value!r} is none.")
    number = value.__index__()
    if least is not None and greatest is not None and not least <= number <= greatest:
        raise wrong(f"{what} is {number}, and has to be from {least} to {greatest}.")
    return number


def within(value: object, kind: IntType, what: str) -> int:
    """The value as a whole number of the type, or a DesignError."""
    number = whole(value, what)
    if not kind.holds(number):
        raise wrong(f"{what} is {number}, which {kind.name} doesn't hold: it is from {kind.least} to"
                    f" {kind.greatest}. Take another value, or a wider type.")
    return number


def listed(values: object, what: str) -> list[Any]:
    """The entries of a list, a tuple, a range or an array, or a DesignError that says what has to be one."""
    found = values.tolist() if hasattr(values, "tolist") else values
    if isinstance(found, Sequence) and not isinstance(found, (str, bytes)):
        return list(found)
    raise wrong(f"{what} has to be a list, and {values!r} is none.")
