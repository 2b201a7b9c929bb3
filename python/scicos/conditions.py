"""Conditions on the rows of a run: comparisons of signals by name, and small Python functions of a row.

    signal("controller.drive").between(0, 1000)
    (signal("alarm") == 1) & event("clock")
    lambda row: row["controller.drive"] <= 1000
"""
from __future__ import annotations

import operator
from collections.abc import Callable
from typing import Union

from scicos.errors import WordsError
from scicos.reactions import Row, is_whole

Condition = Callable[[Row], bool]


class Comparison:
    """A condition that was written with signals; `&`, `|` and `~` make further ones of it."""

    def __init__(self, holds: Condition, text: str) -> None:
        self.holds, self.text = holds, text

    def __call__(self, row: Row) -> bool:
        return self.holds(row)

    def __and__(self, other: Condition) -> Comparison:
        checked(other)
        return Comparison(lambda row: self(row) and other(row), f"({self.text} and {text_of(other)})")

    def __or__(self, other: Condition) -> Comparison:
        checked(other)
        return Comparison(lambda row: self(row) or other(row), f"({self.text} or {text_of(other)})")

    def __invert__(self) -> Comparison:
        return Comparison(lambda row: not self(row), f"not {self.text}")

    def __bool__(self) -> bool:
        raise WordsError(f"{self.text} is a condition on each row of a run, and no truth of its own: join"
                         " conditions by &, | and ~, with brackets "
                         "around each, and write signal(..).between(low, high) for low <= signal(..) <= high")

    def __repr__(self) -> str:
        return self.text


class Term:
    """A number in each row: a signal, or a sum, difference, product or magnitude of signals and numbers.
    Comparing it gives a condition."""

    def __init__(self, value: Callable[[Row], int], text: str) -> None:
        self.value, self.text = value, text

    def __repr__(self) -> str:
        return self.text

    def _with(self, other: Part, word: str, of: Callable[[int, int], int], turned: bool = False) -> Term:
        left, right = (term(other), self) if turned else (self, term(other))
        return Term(lambda row: of(left.value(row), right.value(row)), f"({left.text} {word} {right.text})")

    def _compared(self, other: Part, word: str, of: Callable[[int, int], bool]) -> Comparison:
        right = term(other)
        text = f"{self.text} {word} {right.text}"
        return Comparison(lambda row: of(self.value(row), right.value(row)), text)

    def __add__(self, other: Part) -> Term:
        return self._with(other, "+", operator.add)

    def __radd__(self, other: Part) -> Term:
        return self._with(other, "+", operator.add, True)

    def __sub__(self, other: Part) -> Term:
        return self._with(other, "-", operator.sub)

    def __rsub__(self, other: Part) -> Term:
        return self._with(other, "-", operator.sub, True)

    def __mul__(self, other: Part) -> Term:
        return self._with(other, "*", operator.mul)

    def __rmul__(self, other: Part) -> Term:
        return self._with(other, "*", operator.mul, True)

    def __neg__(self) -> Term:
        return Term(lambda row: -self.value(row), f"-{self.text}")

    def __abs__(self) -> Term:
        return Term(lambda row: abs(self.value(row)), f"abs({self.text})")

    def __eq__(self, other: Part) -> Comparison:  # type: ignore[override]
        return self._compared(other, "==", operator.eq)

    def __ne__(self, other: Part) -> Comparison:  # type: ignore[override]
        return self._compared(other, "!=", operator.ne)

    def __lt__(self, other: Part) -> Comparison:
        return self._compared(other, "<", operator.lt)

    def __le__(self, other: Part) -> Comparison:
        return self._compared(other, "<=", operator.le)

    def __gt__(self, other: Part) -> Comparison:
        return self._compared(other, ">", operator.gt)

    def __ge__(self, other: Part) -> Comparison:
        return self._compared(other, ">=", operator.ge)

    __hash__ = None  # type: ignore[assignment]

    def __bool__(self) -> bool:
        raise WordsError(f"{self.text} is a number in each row of a run, and no truth: compare it, as"
                         f" {self.text} > 0")

    def between(self, low: Part, high: Part) -> Comparison:
        """Whether it lies from low to high, both included."""
        least, most = term(low), term(high)
        text = f"{least.text} <= {self.text} <= {most.text}"
        return Comparison(lambda row: least.value(row) <= self.value(row) <= most.value(row), text)

    def before(self) -> Term:
        """The same one row before; at start, where there is none, it is that of start."""
        return Term(lambda row: self.value(row.before or row), f"{self.text} in the row before")

    def rises(self) -> Comparison:
        """Whether it is above 0, and was not in the row before."""
        text = f"{self.text} rises above 0"
        return Comparison(lambda row: self.value(row) > 0 >= self.value(row.before or row), text)

    def falls(self) -> Comparison:
        """Whether it is no more above 0, and was in the row before."""
        text = f"{self.text} falls to 0"
        return Comparison(lambda row: self.value(row) <= 0 < self.value(row.before or row), text)

    def changes(self) -> Comparison:
        """Whether it is another value than in the row before."""
        text = f"{self.text} changes"
        return Comparison(lambda row: self.value(row) != self.value(row.before or row), text)


Part = Union[Term, int]


def term(part: Part) -> Term:
    """A signal or a number as a term."""
    if isinstance(part, Term):
        return part
    if not is_whole(part):
        raise WordsError(f"signals are compared with whole numbers and with signals, and not with {part!r}")
    number = int(part)
    return Term(lambda row: number, str(number))


def signal(name: str) -> Term:
    """A signal of the run, by its name. Example: `signal("drive") <= 1000` is a condition, and so is
    `abs(signal("error")) < 5`."""
    return Term(lambda row: row[name], f'signal("{name}")')


def shown(name: str) -> Comparison:
    """Whether the trace shows the signal in this reaction: whether its block acts."""
    return Comparison(lambda row: row.shown(name), f'shown("{name}")')


def event(name: str) -> Comparison:
    """Whether this is the reaction of an event, by its name, as `event("clock")`; `start` is the one before
    the first."""
    return Comparison(lambda row: row.event == name, f'event("{name}")')


def text_of(condition: Condition) -> str:
    """A condition in words: as it was written with signals, or a function's name."""
    if isinstance(condition, Comparison):
        return condition.text
    name = getattr(condition, "__name__", "")
    return name if name and name != "<lambda>" else "the condition"


def checked(*conditions: Condition | None) -> None:
    """Refuses what is no condition."""
    for condition in conditions:
        if condition is not None and not callable(condition):
            raise WordsError("a condition is a comparison of signals, as signal(\"alarm\") == 1, or a"
                             f" function of a row, and not {condition!r}")
