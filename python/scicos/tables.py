"""A run as a table: by pandas, as CSV and as arrays of NumPy; and the bar of a run that takes long.

By event there is a row for start and for each event; a signal that isn't shown there has no value. By tick
there is a row for each date at which something reacted, with what each signal holds after the last reaction
of that date; a reaction in which the run stopped is in none. """
from __future__ import annotations

import contextlib
import csv
import io
import itertools
import os
import sys
import time
import zipfile
from bisect import bisect_right
from collections.abc import Callable, Iterable, Iterator
from typing import IO, TYPE_CHECKING, Any

from scicos import files
from scicos.columns import BOUNDS
from scicos.errors import DataError, WordsError, needed

if TYPE_CHECKING:
    import pandas  # type: ignore[import]

    from scicos.columns import Column
    from scicos.runs import Run
    from scicos.trace import Rows

Progress = Callable[[int, int], None]
Path = str | os.PathLike[str] | IO[bytes]


def load_numpy(what: str) -> Any:
    """NumPy, or a sentence where it isn't installed."""
    try:
        import numpy
    except ImportError:
        raise needed("numpy", what) from None
    return numpy


def load_pandas() -> Any:
    """pandas, or a sentence where it isn't installed."""
    try:
        import pandas
    except ImportError:
        raise needed("pandas", "a table of a run") from None
    return pandas


def check_by(by: str) -> None:
    """Refuses a word that is neither `event` nor `tick`."""
    if by not in ("event", "tick"):
        raise WordsError(f"a table is by 'event' or by 'tick', and not by {by!r}")


def label(run: Run, word: str) -> str:
    """How a column is called that is no signal's, as `date` or `event`: with a line before it where a signal is
    called so."""
    taken = {column.name for column in run.columns}
    while word in taken:
        word = "_" + word
    return word


def array_of(run: Run, column: Column) -> Any:
    """The values of a signal as an array of NumPy; it is that of the run, so it can't be written."""
    np = load_numpy("a table")
    values = run.trace.values[column]
    found = np.frombuffer(values, dtype=column.type) if values else np.empty(0, column.type)
    found.flags.writeable = False
    return found


def by_event(run: Run, column: Column) -> tuple[Any, Any]:
    """A signal by event: a value for each row, and for each row whether it is missing. The values aren't
    copied where the run has one for each row."""
    np = load_numpy("a table")
    rows, shown, total = run.trace.rows[column.block], array_of(run, column), len(run.trace.dates)
    missing = np.ones(total, dtype=bool)
    missing[rows_of(rows)] = False
    if rows.is_whole(total):
        return shown, missing
    whole = np.zeros(total, dtype=column.type)
    whole[rows_of(rows)] = shown[rows.pad:]
    return whole, missing


def rows_of(rows: Rows) -> Any:
    """What picks the rows at which a block was shown."""
    np = load_numpy("a table")
    if rows.numbers is None:
        return slice(rows.first, rows.first + rows.count)
    return np.frombuffer(rows.numbers, dtype="uint32")


def held(run: Run, column: Column, at: Any) -> Any:
    """What a signal holds after each of these reactions; before its block has acted, what it holds at
    first."""
    np = load_numpy("a table")
    rows, shown, first = run.trace.rows[column.block], array_of(run, column), run.trace.first[column.code]
    if not len(shown):
        return np.full(len(at), first, dtype=column.type)
    begin = rows.first - rows.pad
    if rows.numbers is not None:
        place = np.searchsorted(np.frombuffer(rows.numbers, dtype="uint32"), at, "right") - 1
    elif is_row_by_row(at) and at[0] >= begin and at[-1] < begin + len(shown):
        return shown[at[0] - begin:at[-1] - begin + 1]
    else:
        place = np.clip(at - rows.first, -1, rows.count - 1)
    return np.where(place < 0, first, shown[np.maximum(place, 0) + rows.pad]).astype(column.type)


def is_row_by_row(at: Any) -> bool:
    """Whether reactions come one after the other, each once, as those of a table by tick of one clock."""
    return len(at) > 0 and at[-1] - at[0] + 1 == len(at) and bool((at[1:] > at[:-1]).all())


def rows_at(run: Run, ticks: Iterable[int] | None) -> tuple[Any, Any]:
    """The dates of a table by tick, and for each of them the row of the last reaction up to it."""
    np = load_numpy("a table")
    dates = np.frombuffer(run.trace.dates, dtype="int64")[:len(run.trace.dates) - run.end.stopped]
    if ticks is None:
        rows = np.flatnonzero(np.append(dates[1:] != dates[:-1], [True] * (len(dates) > 0)))
        return dates[rows], rows
    asked = np.fromiter(ticks, dtype="int64")
    if len(asked) and asked.min() < 0:
        raise DataError("ticks are whole numbers from 0 on")
    if len(asked) and not len(dates):
        raise DataError("the run stopped at start, so nothing is held at any tick")
    return asked, np.searchsorted(dates, asked, "right") - 1


def table(run: Run, by: str, ticks: Iterable[int] | None) -> pandas.DataFrame:
    """The table that `Run.table` gives."""
    check_by(by)
    pd, np = load_pandas(), load_numpy("a table")
    if by == "tick":
        dates, rows = rows_at(run, ticks)
        data = {column.name: held(run, column, rows) for column in run.columns}
        return pd.DataFrame(data, index=pd.Index(dates, name=label(run, "date")),
                            copy=False)
    if ticks is not None:
        raise WordsError("`ticks` are those of a table by tick: ask for it with by='tick'")
    trace = run.trace
    data = {label(run, "event"): events(run),
            **{column.name: pd.arrays.IntegerArray(*by_event(run, column)) for column in run.columns}}
    dated = pd.Index(np.frombuffer(trace.dates, dtype="int64"), name=label(run, "date"))
    return pd.DataFrame(data, index=dated, copy=False)


def events(run: Run) -> Any:
    """The names of the events as a categorical of pandas: one or two bytes for each."""
    np, pd, trace = load_numpy("a table"), load_pandas(), run.trace
    ports = np.frombuffer(trace.ports, dtype="uint8")
    codes = np.frombuffer(trace.blocks, dtype="uint16") * np.int32(256) + ports
    number = np.zeros(int(codes.max(initial=0)) + 1, dtype=bool)
    number[codes] = True
    known = np.flatnonzero(number)
    names = ["start" if code == 0 else run.catalogue.name_of(int(code) // 256, int(code) % 256)
             for code in known]
    order = np.zeros(known[-1] + 1, dtype="int8" if len(known) < 128 else "int32")
    order[known] = np.arange(len(known))
    return pd.Categorical.from_codes(order[codes], names)


def cells(run: Run, by: str) -> Iterator[list[Any]]:
    """The rows of the table in plain Python, with None for what is missing."""
    trace, total = run.trace, len(run.trace.dates)
    places = {block: rows.places(total, by == "tick") for block, rows in trace.rows.items()}
    values = [(column.block, trace.values[column], trace.first[column.code] if by == "tick" else None)
              for column in run.columns]
    dates, last = trace.dates, total - run.end.stopped
    names = {(0, 0): "start"}
    for row in range(total):
        place = {block: next(of) for block, of in places.items()}
        line = [known[place[block]] if place[block] >= 0 else first for block, known, first in values]
        if by == "event":
            key = trace.blocks[row], trace.ports[row]
            names.setdefault(key, "") or names.update({key: run.catalogue.name_of(*key)})
            yield [dates[row], names[key], *line]
        elif row < last and (row + 1 == last or dates[row + 1] != dates[row]):
            yield [dates[row], *line]


def head(run: Run, by: str) -> list[str]:
    """The names of the columns of `cells`."""
    named = [label(run, word) for word in ("date", "event")]
    return [*(named if by == "event" else named[:1]), *(column.name for column in run.columns)]


@contextlib.contextmanager
def opened(path: Path) -> Iterator[IO[bytes]]:
    """A file to write, by its path or as it is."""
    if isinstance(path, (str, os.PathLike)):
        with files.written(path) as file:
            yield file
    else:
        yield path


def to_csv(run: Run, path: Path, by: str) -> None:
    """Writes what `Run.to_csv` tells."""
    check_by(by)
    with opened(path) as file:
        text = io.TextIOWrapper(file, encoding="utf-8", errors="backslashreplace", newline="")
        writer = csv.writer(text, lineterminator="\n")
        writer.writerow(head(run, by))
        writer.writerows(cells(run, by))
        text.flush()
        text.detach()


def widths(run: Run, by: str) -> list[int]:
    """How wide the columns of a text are: as the name, and as the longest value of the type."""
    found = [max(len(label(run, "date")), len(str(run.trace.dates[-1])))]
    if by == "event":
        found.append(max(len(name) for name in (label(run, "event"), "start", *run.event_names())))
    for column in run.columns:
        low, high = BOUNDS[column.type]
        found.append(max(len(column.name), len(str(low)), len(str(high))))
    return found


def to_text(run: Run, path: Path, by: str) -> None:
    """Writes the table as text in columns; a value that is missing is a dot."""
    check_by(by)
    with opened(path) as file:
        wide = widths(run, by)
        for line in itertools.chain([head(run, by)], cells(run, by)):
            told = ("." if cell is None else str(cell) for cell in line)
            text = " ".join(cell.rjust(width) for cell, width in zip(told, wide))
            file.write(f"{text}\n".encode("utf-8", "backslashreplace"))


def arrays(run: Run, by: str) -> Iterator[tuple[str, Any]]:
    """The arrays of a file of NumPy, by their names."""
    np, trace = load_numpy("a file of NumPy"), run.trace
    dates, rows = rows_at(run, None)
    if by == "tick":
        yield label(run, "date"), dates
        for column in run.columns:
            yield column.name, held(run, column, rows)
        return
    yield label(run, "date"), np.frombuffer(trace.dates, dtype="int64")
    yield label(run, "block"), np.frombuffer(trace.blocks, dtype="uint16")
    yield label(run, "port"), np.frombuffer(trace.ports, dtype="uint8")
    for column in run.columns:
        whole, missing = by_event(run, column)
        yield column.name, whole
        yield label(run, column.name + "@"), ~missing


def to_npz(run: Run, path: Path, by: str) -> None:
    """Writes what `Run.to_npz` tells."""
    check_by(by)
    np = load_numpy("a file of NumPy")
    with opened(path) as file, zipfile.ZipFile(file, "w", zipfile.ZIP_DEFLATED) as packed:
        for name, values in arrays(run, by):
            with packed.open(f"{name}.npy", "w", force_zip64=True) as part:
                np.lib.format.write_array(part, np.ascontiguousarray(values))


@contextlib.contextmanager
def bar(wanted: bool | Progress, until: int, events: int) -> Iterator[Progress | None]:
    """What tells how far a run is: a bar of rich on standard error, where that is a terminal, for what takes
    over a second."""
    if wanted is False or wanted is True and not sys.stderr.isatty():
        yield None
        return
    if wanted is not True:
        yield wanted
        return
    try:
        from rich.console import Console
        from rich.progress import Progress
    except ImportError:
        yield None
        return
    begun, shown = time.monotonic(), Progress(console=Console(stderr=True), transient=True)
    task = shown.add_task("simulate", total=1.0)

    def tell(count: int, date: int) -> None:
        if time.monotonic() - begun > 1:
            shown.start()
            shown.update(task, completed=max(count / max(events, 1), date / max(until, 1)),
                         description=f"{count:,} events, date {date:,}")
    try:
        yield tell
    finally:
        shown.stop()
