"""What a sweep asks of each run, as the last value of a signal or the first date at which it is 1, and its
reading from a trace while the trace is written: nothing else of the trace is kept."""
from __future__ import annotations

import difflib
import operator
import re
from collections.abc import Callable, Iterable, Sequence
from dataclasses import dataclass

from scicos.columns import Columns
from scicos.errors import DataError, WordsError

RELATIONS: dict[str, Callable[[int, int], bool]] = {
    "==": operator.eq, "!=": operator.ne, "<": operator.lt, "<=": operator.le, ">": operator.gt,
    ">=": operator.ge}
KINDS = ("last", "least", "greatest", "first", "count")
FORM = re.compile(r"(\w+)\s+(\S.*?)\s*(?:(==|!=|<=|>=|<|>|=)\s*(\S+))?")


@dataclass(frozen=True)
class Condition:
    """What holds of a signal's value, or doesn't, as `signal("alarm") == 1` gives it."""

    signal: str
    relation: str
    number: int

    def __bool__(self) -> bool:
        raise WordsError(f"`{self.signal} {self.relation} {self.number}` has no truth before a run: ask for "
                         "each condition by itself")


@dataclass(frozen=True, eq=False)
class Named:
    """A signal of the design by its name, for conditions."""

    name: str

    def _is(self, relation: str, number: int) -> Condition:
        try:
            return Condition(self.name, relation, operator.index(number))
        except TypeError:
            told = f"`{self.name}` can be compared with a whole number, and not with {number!r}"
            raise WordsError(told) from None

    def __eq__(self, number: int) -> Condition:  # type: ignore[override]
        return self._is("==", number)

    def __ne__(self, number: int) -> Condition:  # type: ignore[override]
        return self._is("!=", number)

    def __lt__(self, number: int) -> Condition:
        return self._is("<", number)

    def __le__(self, number: int) -> Condition:
        return self._is("<=", number)

    def __gt__(self, number: int) -> Condition:
        return self._is(">", number)

    def __ge__(self, number: int) -> Condition:
        return self._is(">=", number)


@dataclass(frozen=True)
class Measure:
    """One number that is asked of a run: what of which signal, and for `first` and `count` a condition.

        >>> str(first(signal("alarm") == 1))
        'first alarm == 1'
    """

    kind: str
    signal: str
    relation: str = ""
    number: int = 0

    def __str__(self) -> str:
        return f"{self.kind} {self.signal}" + (f" {self.relation} {self.number}" if self.relation else "")


@dataclass(frozen=True)
class Wanted:
    """A measure of a design: the begin of its signal's lines in a trace, as `val 3 1 1`."""

    kind: str
    key: bytes
    relation: str
    number: int


def signal(name: str) -> Named:
    """A signal of the design by its name, to be compared: `signal("alarm") == 1`."""
    return Named(name)


def last(name: str) -> Measure:
    """The last value that the trace shows of a signal."""
    return Measure("last", name)


def least(name: str) -> Measure:
    """The least value that the trace shows of a signal."""
    return Measure("least", name)


def greatest(name: str) -> Measure:
    """The greatest value that the trace shows of a signal."""
    return Measure("greatest", name)


def first(condition: Condition) -> Measure:
    """The first date, in ticks, at which a condition holds of a value that is shown: `first(signal("alarm")
    == 1)`."""
    if not isinstance(condition, Condition):
        raise WordsError('`first` takes a condition, as first(signal("alarm") == 1)')
    return Measure("first", condition.signal, condition.relation, condition.number)


def count(what: str | Condition) -> Measure:
    """How often a signal is shown, or how often it is shown with a value of which a condition holds."""
    if isinstance(what, Condition):
        return Measure("count", what.signal, what.relation, what.number)
    return Measure("count", what)


def measured(text: str | Measure) -> Measure:
    """A measure from its text.

        >>> measured("first alarm == 1")
        Measure(kind='first', signal='alarm', relation='==', number=1)
    """
    if isinstance(text, Measure):
        return text
    found = FORM.fullmatch(text.strip()) if isinstance(text, str) else None
    if not found:
        raise WordsError("what is asked of a run is written as `last NAME` or `first NAME == 1`, and not as "
                         f"{text!r}")
    kind, name, relation, number = found[1], found[2], found[3] or "", found[4] or "0"
    relation = "==" if relation == "=" else relation
    if kind not in KINDS:
        near = difflib.get_close_matches(kind, KINDS, 1)
        hint = f"did you mean {near[0]}?" if near else f"one of {', '.join(KINDS)}"
        raise WordsError(f"{text!r} begins with {kind!r}: {hint}")
    if kind == "first" and not relation or relation and kind not in ("first", "count"):
        lacks = "needs a condition, as in `first alarm == 1`"
        told = lacks if kind == "first" else "takes the name of a signal alone"
        raise WordsError(f"{text!r}: {kind} {told}")
    if not re.fullmatch(r"[+-]?\d{1,30}", number):
        raise WordsError(f"{text!r} compares with {number!r}, which is no whole number")
    return Measure(kind, name, relation, int(number))


def wanted_of(measures: Iterable[Measure], columns: Columns) -> tuple[Wanted, ...]:
    """The measures for a design; `DataError` with near names where it lacks a signal."""
    found = []
    for measure in measures:
        named = columns.named(measure.signal)
        if len(named) > 1:
            raise DataError(f"{measure.signal!r} are {len(named)} signals: name one, as {named[0].name!r}")
        column = named[0]
        key = b"val %d %d %d" % (column.block, column.port, column.element)
        found.append(Wanted(measure.kind, key, measure.relation, measure.number))
    return tuple(found)


def always(value: int, number: int) -> bool:
    """What holds of each value where there is no condition."""
    return True


class Watch:
    """Reads a trace piece by piece: `values` are what is asked for, None where the trace shows nothing; `end`
    is how the run ended, with the block where it stopped, `date` that of the last event, and `reaction` its
    number from 1, which is start."""

    def __init__(self, wanted: Sequence[Wanted]) -> None:
        self.values: list[int | None] = [0 if want.kind == "count" else None for want in wanted]
        self.date, self.reaction = 0, 0
        self.end: tuple[str, int | None] | None = None
        self.sinks: dict[bytes, list[Callable[[int], None]]] = {}
        for at, want in enumerate(wanted):
            self.sinks.setdefault(want.key, []).append(self.sink(at, want))

    def sink(self, at: int, want: Wanted) -> Callable[[int], None]:
        """What takes each value of a signal for a measure."""
        values, number, holds = self.values, want.number, RELATIONS.get(want.relation, always)
        better = {"last": operator.ne, "least": operator.lt, "greatest": operator.gt}.get(want.kind)

        def take(value: int) -> None:
            old = values[at]
            if better:
                if old is None or better(value, old):
                    values[at] = value
            elif holds(value, number):
                if want.kind == "count":
                    values[at] = (old or 0) + 1
                elif old is None:
                    values[at] = self.date
        return take

    def take(self, piece: bytes) -> None:
        """Takes whole lines of the trace."""
        find = self.sinks.get
        for line in piece.splitlines():
            key, _, value = line.rpartition(b" ")
            sinks = find(key)
            if sinks is not None:
                for sink in sinks:
                    sink(int(value))
            elif not line.startswith(b"val "):
                self.take_other(line)

    def take_other(self, line: bytes) -> None:
        """Takes a line that is no value."""
        words = line.split()
        if words == [b"start"] and not self.reaction:
            self.reaction = 1
        elif self.end is None and self.reaction and words[:1] == [b"event"] and len(words) == 4:
            self.date = int(words[1])
            self.reaction += 1
        elif self.end is None and words[:1] == [b"end"] and len(words) == 2:
            self.end = words[1].decode(), None
        elif self.end is None and words[:1] == [b"stop"] and len(words) > 2:
            self.end = words[1].decode(), int(words[2])
        else:
            raise DataError(f"no line of a trace comes here: {line.decode(errors='replace')!r}")
