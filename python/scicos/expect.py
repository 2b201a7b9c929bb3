"""Expected values of a run: `expect` compares a signal with a column of them, and tells the first that
differs in a sentence."""
from __future__ import annotations

import contextlib
import math
import os
from collections.abc import Iterable, Mapping, Sequence
from dataclasses import dataclass
from typing import TYPE_CHECKING, Any, Union

from scicos.errors import DataError, WordsError
from scicos.inputs import Values, from_csv
from scicos.reactions import Reactions, Window, is_whole
from scicos.tables import label

if TYPE_CHECKING:
    from scicos.runs import Run

Number = Union[int, float]
Expected = Union[Mapping[int, Any], Sequence[Any], str, "os.PathLike[str]", Any]
MOST_TOLD = 5


class Unmet(AssertionError):
    """A run isn't what was expected of it; `tick` is the date where that shows first, None where it has
    none."""

    def __init__(self, text: str, tick: int | None = None) -> None:
        super().__init__(text)
        self.tick = tick


class Vacuous(Unmet):
    """Nothing was looked at, so what was asked for holds in an empty sense only."""


@dataclass(frozen=True)
class Point:
    """An expected value at a tick or at an event; of a list `key` is None and the order tells."""

    key: int | None
    value: Number


def number_of(value: Any, where: str) -> Number:
    """An expected value as a number; a sentence with its place where it is a hole, or no number."""
    is_empty = isinstance(value, str) and not value.strip()
    if is_empty or value is None or value != value or repr(value) == "<NA>":
        raise DataError(f"{where} is empty: an expected column has a number in each row, so leave the row"
                        " out, or give a window")
    number: Number = math.nan
    with contextlib.suppress(TypeError, ValueError, OverflowError):
        if isinstance(value, str):
            number = of_text(value.strip())
        else:
            number = int(value) if int(value) == value else float(value)
    if isinstance(value, bool) or not math.isfinite(number):
        raise DataError(f"{where} is {str(value)[:40]!r}, which is no number")
    return number


def of_text(text: str) -> Number:
    """A number in decimal digits, with a point or an exponent or without."""
    if "_" in text or not text.isascii():
        raise ValueError
    return int(text) if text.lstrip("+-").isdigit() else float(text)


def points(name: str, values: Expected, by: str, column: str | None, dates: str = "date") -> list[Point]:
    """The expected values, from whatever gives them; `dates` is how the column of the dates is called."""
    if isinstance(values, (str, os.PathLike)):
        return of_csv(os.fspath(values), column or name, by, dates)
    if isinstance(values, Mapping):
        return by_key(name, values, by)
    index: Any = getattr(values, "index", None)
    is_by_date = getattr(index, "name", None) == dates  # a column of a table by tick
    if by == "tick" and is_by_date and hasattr(values, "tolist"):
        return keyed(name, zip(index.tolist(), values.tolist()), by, f"the expected values of {name!r}")
    if hasattr(values, "tolist"):
        values = values.tolist()
    if isinstance(values, (bytes, set, frozenset)) or not isinstance(values, Iterable):
        raise DataError(f"expected values are a dict by {by}, a list, an array, or the path of a CSV file,"
                        f" and not {str(values)[:40]!r}")
    where = f"the expected values of {name!r}: value {{}}"
    return [Point(None, number_of(value, where.format(at))) for at, value in enumerate(values, 1)]


def by_key(name: str, values: Mapping[int, Any], by: str) -> list[Point]:
    """The expected values of a dict."""
    for key in values:
        if not is_whole(key) or key < 0:
            raise DataError(f"the expected values of {name!r}: {key!r} is no {by}: these are whole numbers"
                            " from 0 on")
    return keyed(name, sorted(values.items()), by, f"the expected values of {name!r}")


def keyed(name: str, pairs: Iterable[tuple[int, Any]], by: str, origin: str) -> list[Point]:
    """Expected values by tick or by event, in rising order."""
    return [Point(key, number_of(value, f"{origin}: the value at {by} {key}")) for key, value in pairs]


def of_csv(path: str, column: str, by: str, dates: str) -> list[Point]:
    """The expected values of a CSV file: by its column of dates where they are by tick and there is one, else
    in order."""
    found = {str(values.key): values for values in from_csv(path)}
    if column not in found:
        raise DataError(f"{path} has no column {column!r}: its columns are {', '.join(map(repr, found))}")
    numbers = [number_of(value, place(path, found[column], row, column))
               for row, value in enumerate(found[column].values, 1)]
    if by == "event" or dates not in found or column == dates:
        return [Point(None, number) for number in numbers]
    keys: list[int] = []
    for row, value in enumerate(found[dates].values, 1):
        where = place(path, found[dates], row, dates)
        key = number_of(value, where)
        if not isinstance(key, int) or key < 0:
            raise DataError(f"{where} is {str(value)!r}, which is no tick: these are whole numbers from 0 on")
        if keys and key <= keys[-1]:
            raise DataError(f"{where} is {key}, and the line before has {keys[-1]}: by tick the dates rise;"
                            " by='event' takes the rows in order")
        keys.append(key)
    return [Point(key, number) for key, number in zip(keys, numbers)]


def place(path: str, values: Values, row: int, column: str) -> str:
    """Where a cell of a CSV file stands."""
    return f"{path}: {values.place.format(row=row, line=row + 1)} of {column!r}"


def bounds(tolerance: Number | tuple[Number, Number]) -> tuple[Number, Number]:
    """How far below and above a value may lie."""
    pair = tolerance if isinstance(tolerance, tuple) else (tolerance, tolerance)
    good = all(isinstance(part, (int, float)) and not isinstance(part, bool) and math.isfinite(part)
               and part >= 0 for part in pair)
    if len(pair) != 2 or not good:
        raise WordsError("a tolerance is a number from 0 on, or a pair of them (below, above), and not"
                         f" {tolerance!r}")
    below, above = (int(part) if part == int(part) else part for part in pair)
    return below, above


def placed(table: Reactions, given: list[Point], name: str) -> list[tuple[int, Point]]:
    """The expected values with the rows where they are due; `Unmet` where the run has no such row."""
    if given and given[0].key is None:
        return in_order(table, given, name)
    low, high = table.window or (0, None)
    found = []
    for point in given:
        assert point.key is not None
        if table.by == "event" and point.key >= table.total:
            raise Unmet(f"{name!r} is expected to be {point.value} at event {point.key}, and the run has"
                        f" {table.total - 1} events ({table.run.end})")
        tick = table.dates[point.key] if table.by == "event" else point.key
        if not low <= tick or high is not None and tick > high:
            continue
        if table.by == "tick" and point.key > table.known_until():
            raise Unmet(f"{name!r} is expected to be {point.value} at tick {point.key}, and the run tells"
                        " nothing of it: it is known up to "
                        f"tick {table.known_until()} ({table.run.end})", point.key)
        found.append((point.key if table.by == "event" else table.at_date(point.key), point))
    return found


def in_order(table: Reactions, given: list[Point], name: str) -> list[tuple[int, Point]]:
    """A list of expected values, one for each row of the window."""
    if len(given) != len(table.inside):
        each = "reaction, start among them" if table.by == "event" else "date at which something reacts"
        where = f" from tick {table.window[0]} to {table.window[1]}" if table.window else ""
        raise Unmet(f"{name!r} has {len(given)} expected values, and the run has {len(table.inside)}"
                    f" rows{where} ({table.run.end}): "
                    f"by {table.by} a list has a value for each {each}; a dict has what it names, "
                    "and a window cuts rows off")
    return list(zip(table.inside, given))


def expect(run: Run, name: str, values: Expected, *, tolerance: Number | tuple[Number, Number] = 0,
           window: Window = None, by: str = "tick",
           column: str | None = None) -> None:
    """Compares what a signal holds with expected values, and raises `Unmet` (an AssertionError) at the first
    that differs.

    `by="tick"`: what it holds after the last reaction up to a tick; a dict by tick, or a list with a value
    for each date at which something reacts.
    `by="event"`: what it holds after each reaction; a dict by the event's number (0 is start), or a list with
    a value for each reaction.
    A path is that of a CSV file, `column` its column (by default the signal's name); by tick its column
    `date` tells the ticks.
    `tolerance` is how far a value may lie off, or a pair (below, above); `window` cuts off what lies before
    and behind these two ticks.

    Example:
        >>> from scicos.runs import simulate
        >>> run = simulate("examples/first.json", until=12)
        >>> expect(run, "Modulo_Count 2", {0: 0, 7: 1, 12: 2})
    """
    below, above = bounds(tolerance)
    table = Reactions(run, by, window)
    held = table.held(name)
    given = points(name, values, by, column, label(run, "date"))
    if not given:
        raise DataError(f"there are no expected values of {name!r}")
    if not table.total:
        raise Unmet(f"{name!r} has {len(given)} expected values, and the run stopped at start ({run.end})")
    due = placed(table, given, name)
    if not due:
        raise Vacuous(f"none of the {len(given)} expected values of {name!r} lies in the window {window}")
    wrong = [(at, point) for at, point in due if not -below <= held[table.numbers[at]] - point.value <= above]
    if wrong:
        raise Unmet(sentence(table, name, wrong, due, (below, above)),
                    table.dates[table.numbers[wrong[0][0]]])


def sentence(table: Reactions, name: str, wrong: list[tuple[int, Point]], due: list[tuple[int, Point]],
             pair: tuple[Number, Number]) -> str:
    """What is told of the first difference, with the rows around it."""
    at, point = wrong[0]
    found = table.held(name)[table.numbers[at]]
    below, above = pair
    margin = f" (tolerance {below})" if below == above else f" (tolerance {below} below, {above} above)"
    margin = margin if below or above else ""
    is_between = table.by == "tick" and point.key not in (None, table.dates[table.numbers[at]])
    asked = f", asked for at tick {point.key}" if is_between else ""
    lines = [f"{name!r} is {found} at {table.when(at)}{asked}, and {point.value} is expected{margin}:",
             table.around(at, [name], [("expected", texts(due))])]
    if len(wrong) > 1:
        lines.append(f"{len(wrong)} of {len(due)} values differ: " + later(table, wrong[1:]))
    return "\n".join(lines)


def texts(due: list[tuple[int, Point]]) -> dict[int, str]:
    """The expected values by row, for the rows that are shown."""
    shown: dict[int, str] = {}
    for at, point in due:
        shown[at] = f"{shown[at]}, {point.value}" if at in shown else str(point.value)
    return shown


def later(table: Reactions, wrong: list[tuple[int, Point]]) -> str:
    """The ticks of the further differences."""
    ticks = [str(point.key if table.by == "tick" and point.key is not None
                 else table.dates[table.numbers[at]]) for at, point in wrong]
    return "also at tick " + ", ".join(ticks[:MOST_TOLD]) + (" .." if len(ticks) > MOST_TOLD else "")

