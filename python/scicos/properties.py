"""Properties over a run: what holds `always`, `never`, or `within` some ticks after something else.

A condition is a comparison of signals by name, or a small Python function of a row:

    run.always(signal("controller.drive").between(0, 1000))
    run.always(lambda row: row["controller.drive"] <= 1000)
    run.within(20, after=signal("button").rises(), then=signal("state") == 1)
"""
from __future__ import annotations

from typing import TYPE_CHECKING

from scicos.conditions import Condition, checked, event, shown, signal, text_of
from scicos.errors import WordsError
from scicos.expect import Unmet, Vacuous
from scicos.reactions import Reactions, Row, Window, is_whole

if TYPE_CHECKING:
    from scicos.runs import Run

MOST_NAMED = 8  # signals in a sentence

__all__ = ["always", "event", "never", "shown", "signal", "within"]


def missing(table: Reactions, allowed: bool, premise: str | None, count: int) -> None:
    """Raises `Vacuous` where nothing was looked at."""
    if count or allowed:
        return
    window = f" from tick {table.window[0]} to {table.window[1]}" if table.window else ""
    if not table.inside:
        raise Vacuous(f"there is nothing to look at: the run has no reaction{window} ({table.run.end})")
    raise Vacuous(f"{premise} never came in the {len(table.inside)} rows{window}, so nothing was looked at"
                  f" ({table.run.end}): give inputs where it "
                  "does, or allow it by vacuous=True")


def always(run: Run, condition: Condition, *, when: Condition | None = None, window: Window = None,
           by: str = "event", vacuous: bool = False,
           name: str | None = None) -> None:
    """Raises `Unmet` (an AssertionError) at the first row where a condition doesn't hold; with `when` only
    rows are looked at where that holds.

    By event each reaction is a row, by tick the last one of each date; between events signals hold their
    values. Where `when` never holds, or no row lies in the window, `Vacuous` is raised, unless `vacuous=True`
    allows it. `name` is how the text calls the requirement.

    Example:
        >>> from scicos.runs import simulate
        >>> always(simulate("examples/first.json", until=12), signal("Modulo_Count 2") <= 2)
    """
    checked(condition, when)
    table = Reactions(run, by, window)
    looked, failed = [], []
    for row in table.rows():
        if when is None or when(row):
            looked.append(row.at)
            if not condition(row):
                failed.append(row.at)
    missing(table, vacuous, None if when is None else text_of(when), len(looked))
    if failed:
        premise = "" if when is None else f", when {text_of(when)}"
        what = name or text_of(condition)
        head = f"{what} has to hold always{premise}, and doesn't at {table.when(failed[0])}"
        raise Unmet(told(table, failed[0], head, f"It doesn't hold in {len(failed)} of {len(looked)} rows."),
                    Row(table, failed[0]).date)


def never(run: Run, condition: Condition, *, window: Window = None, by: str = "event", vacuous: bool = False,
          name: str | None = None) -> None:
    """Raises `Unmet` (an AssertionError) at the first row where a condition holds; the words are those of
    `always`.

    Example:
        >>> from scicos.runs import simulate
        >>> never(simulate("examples/first.json", until=12), signal("Modulo_Count 2") < 0)
    """
    checked(condition)
    table = Reactions(run, by, window)
    failed = [row.at for row in table.rows() if condition(row)]
    missing(table, vacuous, None, len(table.inside))
    if failed:
        head = f"{name or text_of(condition)} may never hold, and does at {table.when(failed[0])}"
        raise Unmet(told(table, failed[0], head, f"It holds in {len(failed)} of {len(table.inside)} rows."),
                    Row(table, failed[0]).date)


def within(run: Run, ticks: int, *, after: Condition, then: Condition, window: Window = None,
           by: str = "event", vacuous: bool = False,
           name: str | None = None) -> None:
    """Raises `Unmet` (an AssertionError) where `then` doesn't hold in any row from one where `after` holds up
    to `ticks` ticks later.

    Where the run ends before these ticks are over, such a row is not decided; where no row is decided, or
    `after` never holds, `Vacuous` is raised, unless `vacuous=True` allows it. The window is that of the rows
    where `after` is looked at. The other words are those of `always`.

    Example:
        >>> from scicos.runs import simulate
        >>> run, count = simulate("examples/first.json", until=12), signal("Modulo_Count 2")
        >>> within(run, 5, after=count == 1, then=count == 2)
    """
    checked(after, then)
    if not is_whole(ticks) or ticks < 0:
        raise WordsError(f"`within` takes a whole number of ticks from 0 on, and not {ticks!r}")
    table = Reactions(run, by, window)
    came = [row.at for row in table.rows() if after(row)]
    missing(table, vacuous, text_of(after), len(came))
    known, failed, decided = table.known_until(True), [], 0
    for at, found in zip(came, followed(table, came, then)):
        date = Row(table, at).date
        met = found is not None and Row(table, found).date <= date + ticks
        decided += met or date + ticks <= known
        if not met and date + ticks <= known:
            failed.append(at)
    if came and not decided and not vacuous:
        raise Vacuous(f"{text_of(after)} came first at {table.when(came[0])}, and the run tells what follows"
                      f" up to tick {known} only ({table.run.end}), "
                      f"so nothing was decided: run it {ticks} ticks longer, or allow it by vacuous=True")
    if failed:
        what = f"{name or text_of(then)} has to hold within {ticks} ticks after {text_of(after)}"
        head = f"{what}, which came at {table.when(failed[0])}, and doesn't"
        tail = f"It is so of {len(failed)} of the {decided} times that were decided."
        raise Unmet(told(table, failed[0], head, tail), Row(table, failed[0]).date)


def followed(table: Reactions, came: list[int], then: Condition) -> list[int | None]:
    """For each of some rows, in rising order, the first row from it on where a condition holds."""
    found: list[int | None] = []
    following = 0
    for at in came:
        following = max(following, at)
        while following < len(table.numbers) and not then(Row(table, following)):
            following += 1
        found.append(following if following < len(table.numbers) else None)
    return found


def told(table: Reactions, at: int, head: str, tail: str) -> str:
    """The text of a failure: the sentence with the signals that were read, the rows around, and how often."""
    here = ", ".join(f"{name!r} is {Row(table, at)[name]}" for name in list(table.read)[:MOST_NAMED])
    return "\n".join([head + (f": {here}" if here else "") + ". The rows around:",
                      table.around(at, list(table.read)), tail])
