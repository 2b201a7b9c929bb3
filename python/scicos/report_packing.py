"""The data of a report's waveforms, compact: numbers as differences, in bytes of seven bits each, in base64.

Of each signal only the changes are kept: the reaction, as the difference to that of the change before, and
the value, as the difference to the value before. `report.js` reads them.
"""
from __future__ import annotations

import base64
import itertools
from collections.abc import Iterable, Iterator
from typing import Any

from .columns import Column
from .errors import DataError
from .runs import Run

MOST_CHANGES = 5_000_000
"""How many changes of values a page holds, at most."""


def packed(numbers: Iterable[int]) -> str:
    """Numbers from 0 on as base64: seven bits in a byte, the least first, the eighth bit where more follow.

    >>> packed([1, 300])
    'AawC'
    """
    out = bytearray()
    for number in numbers:
        while number > 127:
            out.append(number & 127 | 128)
            number >>= 7
        out.append(number)
    return base64.b64encode(out).decode("ascii")


def folded(number: int) -> int:
    """A whole number as one from 0 on: 0, -1, 1, -2 are 0, 1, 2, 3.

    >>> [folded(number) for number in (0, -1, 1, -2)]
    [0, 1, 2, 3]
    """
    return 2 * number if number >= 0 else -2 * number - 1


def differences(numbers: Iterable[int]) -> Iterator[int]:
    """Of rising numbers from 0 on the first, and of each further one how much more it is."""
    before = 0
    for number in numbers:
        yield number - before
        before = number


def changes(run: Run, column: Column) -> Iterator[tuple[int, int]]:
    """The reactions, from 0 for start, behind which a signal holds another value than before, with that."""
    trace = run.trace
    rows, held = trace.rows[column.block], trace.first[column.code]
    shown = itertools.islice(trace.values[column], rows.pad, None)
    for row, value in zip(rows.all(), shown):
        if value != held:
            yield row, value
            held = value


class Signals:
    """The signals of a run as data for the page, within the bound on changes."""

    def __init__(self, run: Run) -> None:
        self.run, self.count = run, 0
        self.rows = [self._row(column) for column in run.columns]

    def _row(self, column: Column) -> dict[str, Any]:
        first = self.run.trace.first[column.code]
        row, held, low, high, before = 0, first, first, first, self.count

        def stream() -> Iterator[int]:
            nonlocal row, held, low, high
            for at, value in changes(self.run, column):
                self.count += 1
                if self.count > MOST_CHANGES:
                    raise DataError(f"the values of this run change more than {MOST_CHANGES:,} times, which "
                                    "a page doesn't hold: name the signals to show with --signal, or end the "
                                    "run before")
                yield at - row
                yield folded(value - held)
                row, held = at, value
                low, high = min(low, value), max(high, value)

        data = packed(stream())
        return {"name": column.name, "block": column.block, "type": column.type, "first": first, "low": low,
                "high": high, "changes": self.count - before, "data": data}


def waves(run: Run) -> dict[str, Any]:
    """What the page knows of a run: dates of the reactions, from what each event came, and the signals."""
    trace = run.trace
    keys = sorted(set(zip(trace.blocks, trace.ports)) - {(0, 0)})
    number = {key: at for at, key in enumerate(keys, 1)}
    sources = [{"name": run.catalogue.name_of(*key), "block": key[0]} for key in keys]
    by = (number.get(key, 0) for key in zip(trace.blocks, trace.ports))
    return {"reactions": len(trace.dates), "stopped": run.end.stopped,
            "end": str(run.end), "dates": packed(differences(trace.dates)), "sources": sources,
            "by": packed(by), "signals": Signals(run).rows}
