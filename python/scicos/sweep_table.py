"""The table of a sweep: a row for each run."""
from __future__ import annotations

import contextlib
import csv
import io
import os
from collections import Counter
from collections.abc import Iterator, Mapping
from dataclasses import dataclass, field
from typing import IO, TYPE_CHECKING, Any

from scicos import files
from scicos.measures import Measure
from scicos.tables import load_pandas

if TYPE_CHECKING:
    import pandas  # type: ignore[import]


@dataclass(frozen=True)
class Row:
    """A run of a sweep: its number from 1, its parameters, the name of its inputs, how it ended, and what was
    asked.

    `end` is `until`, `events`, `empty` or `halt`; of a run that stopped `overflow`, `zero`, `input` or
    `conflict`; `refused` where the program or the builder refused something; `failed` where something was
    missing on the machine. `why` says of the last three what it was. `values` are None where the trace shows
    none.
    """

    run: int
    parameters: Mapping[str, Any]
    inputs: str
    end: str
    why: str
    values: tuple[int | None, ...]


@dataclass
class Sweep:
    """The table of a sweep: `rows`, in the order of the parameters and within them of the inputs.

    `names` are those of the parameters, `measures` what was asked, `wall` the seconds from the begin to the
    end, and `processor` the processor time of the runs, in seconds; `again` is how many rows a journal had.
    """

    names: list[str]
    measures: list[Measure]
    rows: list[Row] = field(default_factory=list)
    wall: float = 0.0
    processor: float = 0.0
    again: int = 0

    @property
    def columns(self) -> list[str]:
        """The names of the columns."""
        fixed = {"run", "inputs", "end", "why"}
        names = [("_" if name in fixed else "") + name for name in self.names]
        return ["run", *names, "inputs", "end", *map(str, self.measures), "why"]

    def cells(self, row: Row) -> list[Any]:
        """The cells of a row; a value that is missing is None."""
        return [row.run, *(row.parameters.get(name) for name in self.names), row.inputs, row.end,
                *row.values, row.why]

    def counts(self) -> dict[str, int]:
        """How many runs ended how."""
        return dict(Counter(row.end for row in self.rows))

    def table(self) -> pandas.DataFrame:
        """The table by pandas; a value that is missing is `<NA>`.

            >>> found.table().groupby("gain").max()  # doctest: +SKIP
        """
        pd = load_pandas()
        table = pd.DataFrame([self.cells(row) for row in self.rows], columns=self.columns)
        return table.astype({str(measure): "Int64" for measure in self.measures})

    def to_csv(self, path: str | os.PathLike[str] | IO[bytes]) -> None:
        """Writes the table as CSV; a value that is missing is an empty cell."""
        with opened(path) as file:
            file.write(self.text())

    def text(self) -> bytes:
        """The table as CSV."""
        text = io.StringIO()
        writer = csv.writer(text, lineterminator="\n")
        writer.writerow(self.columns)
        writer.writerows(self.cells(row) for row in self.rows)
        return text.getvalue().encode("utf-8", "backslashreplace")

    def to_text(self, path: str | os.PathLike[str] | IO[bytes]) -> None:
        """Writes the table in columns; a value that is missing is a dot."""
        lines = [self.columns,
                 *(["." if cell in (None, "") else str(cell) for cell in self.cells(row)]
                   for row in self.rows)]
        widths = [max(map(len, column)) for column in zip(*lines)]
        with opened(path) as file:
            for line in lines:
                *front, why = (cell.rjust(width) for cell, width in zip(line, widths))
                file.write((" ".join([*front, why.strip()]) + "\n").encode("utf-8", "backslashreplace"))


@contextlib.contextmanager
def opened(path: str | os.PathLike[str] | IO[bytes]) -> Iterator[IO[bytes]]:
    """The file at a path, whole or not at all, or the file that was given."""
    if isinstance(path, (str, os.PathLike)):
        with files.written(path) as file:
            yield file
    else:
        yield path
