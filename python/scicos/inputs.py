"""Input files: values of the sensors from Python's lists and dicts, from arrays, tables and CSV, checked
against the sensors' types before the run."""
from __future__ import annotations

import contextlib
import csv
import os
import shlex
import tempfile
from collections.abc import Iterable, Iterator, Mapping, Sequence
from dataclasses import dataclass
from typing import IO, Any, Union

from scicos import files
from scicos.columns import BOUNDS, Columns, near
from scicos.errors import DataError, ReadError

LONGEST = 16_777_216  # bytes of an input file that the program takes
Key = int | str
Inputs = Union[None, str, "os.PathLike[str]", Mapping[Key, Iterable[Any]], Sequence[Iterable[Any]], Any]


@dataclass(frozen=True)
class Sensor:
    """A sensor: its column, its name, and the integer type of its values."""

    column: int
    name: str
    type: str


@dataclass(frozen=True)
class Values:
    """Values of a column as they were given, by the name or number it has there, and how the place of one is
    told."""

    key: Key
    values: Iterable[Any]
    place: str = "value {row}"


def sensors_of(catalogue: Columns) -> list[Sensor]:
    """The sensors of a design, by column."""
    types = {column.block: column.type for column in catalogue.all}
    blocks = catalogue.flat.blocks if catalogue.flat else []
    found = [Sensor(block.item.numbers("ipar")[0], catalogue.called[block.number], types[block.number])
             for block in blocks if block.kind == "SENSOR"]
    return sorted(found, key=lambda sensor: sensor.column)


def have(origin: str) -> str:
    """The begin of a sentence on what the data has."""
    return f"{origin} {'have' if origin == 'the inputs' else 'has'}"


def column_of(key: Key, sensors: list[Sensor], origin: str) -> int:
    """The column that a name or a number of the data means."""
    text = str(key).strip()
    is_number = isinstance(key, int) and not isinstance(key, bool) or text.isascii() and text.isdigit()
    if is_number:
        if len(text) > 30 or not 1 <= int(text) <= 255:
            raise DataError(f"{have(origin)} a column {text[:40]}, and columns are numbered from 1 to 255: the "
                            "first line names the columns")
        return int(text)
    found = [sensor for sensor in sensors if sensor.name == text]
    found = found or [sensor for sensor in sensors if sensor.name.rpartition(".")[2] == text]
    if len(found) == 1:
        return found[0].column
    if found:
        raise DataError(f"{have(origin)} a column {text!r}, which may be "
                        f"{' or '.join(repr(sensor.name) for sensor in found)}: give the whole name")
    like = near(text, [s.name for s in sensors])
    passed = "" if like.endswith("?") or origin.startswith("the ") else (
        f"; what is no sensor's, `./scicos-kit inputs --ignore {shlex.quote(text)}` passes over")
    raise DataError(f"{have(origin)} a column {text!r}, and the design has no sensor of that name{like}"
                    f"{passed}")


def whole(value: Any) -> int:
    """A value as a whole number; what it is where it is none, as the end of a sentence."""
    if isinstance(value, str):
        text = value.strip()
        if not text:
            raise DataError("is empty: each row needs a whole number")
        digits = text[1:] if text[0] in "+-" else text
        if digits.isascii() and digits.isdigit() and len(digits) < 30:
            return int(text)
        raise DataError(f"is {text[:40]!r}, which is no whole number")
    if value is None or repr(value) in ("<NA>", "nan", "NaT"):
        raise DataError("is missing: each row needs a whole number")
    try:
        number = int(value)
    except (TypeError, ValueError, OverflowError):
        number = None
    if number is None or number != value:
        raise DataError(f"is {value!r}, which is no whole number: scale it, as fixed point")
    return number


def checked(values: Values, sensor: Sensor | None, origin: str) -> list[int]:
    """The values of a column as numbers within the type of its sensor."""
    low, high = BOUNDS[sensor.type] if sensor else (-(2**63), 2**63 - 1)
    given, found = values.values, []
    for row, value in enumerate(given.tolist() if hasattr(given, "tolist") else given, 1):
        try:
            number = value if type(value) is int else whole(value)
        except DataError as error:
            raise DataError(f"{place_of(values, row, origin)} {error}") from None
        if not low <= number <= high:
            kind = f"{sensor.type} of the sensor {sensor.name!r}" if sensor else "64 bits"
            raise DataError(f"{place_of(values, row, origin)} is {number}, outside of the {kind}, "
                            f"which holds {low} to {high}")
        found.append(number)
    return found


def place_of(values: Values, row: int, origin: str) -> str:
    """Where a value stands, as the begin of a sentence."""
    name = repr(values.key) if isinstance(values.key, str) else f"column {values.key}"
    return f"{origin}: {values.place.format(row=row, line=row + 1)} of {name}"


def from_csv(path: str) -> list[Values]:
    """The columns of a CSV file, whose first line has the names of sensors or the numbers of columns; commas,
    semicolons or tabs separate."""
    try:
        with open(path, encoding="utf-8-sig", newline="") as file:
            head = file.readline()
            file.seek(0)
            mark = max(",;\t", key=head.count)
            lines = [row for row in csv.reader(file, delimiter=mark, strict=True)]
    except OSError as error:
        raise ReadError(f"{path} can't be read: {error.strerror}") from None
    except (UnicodeDecodeError, csv.Error) as error:
        raise DataError(f"{path} is no CSV in UTF-8: {error}") from None
    while lines and not any(cell.strip() for cell in lines[-1]):
        lines.pop()
    if not lines:
        raise DataError(f"{path} is empty: its first line has to name the columns")
    names = [name.strip() for name in lines[0]]
    for line, cells in enumerate(lines[1:], 2):
        if len(cells) < len(names):
            raise DataError(f"{path}: line {line} (row {line - 1}) has no cell for {names[len(cells)]!r}")
        if len(cells) > len(names):
            raise DataError(f"{path}: line {line} (row {line - 1}) has {len(cells)} cells, "
                            f"and the first line names {len(names)}")
    return [Values(name, [row[at] for row in lines[1:]], "line {line} (row {row})")
            for at, name in enumerate(names)]


def is_list(values: Any) -> bool:
    """Whether these are values of a column, one after the other."""
    return isinstance(values, Iterable) and not isinstance(values, (str, bytes))


def listed(inputs: Any) -> tuple[str, list[Values]]:
    """What the data is called, and its columns as they are given there."""
    if inputs is None:
        return "the inputs", []
    if isinstance(inputs, (str, os.PathLike)):
        path = os.fspath(inputs)
        return path, from_csv(path)
    if hasattr(inputs, "columns") and hasattr(inputs, "iloc"):  # a table of pandas
        return "the table", [Values(key, inputs.iloc[:, at].tolist(), "row {row}")
                             for at, key in enumerate(inputs.columns)]
    if isinstance(inputs, Mapping):
        return "the inputs", [Values(key, values) for key, values in inputs.items()]
    if hasattr(inputs, "ndim") and hasattr(inputs, "tolist"):  # an array of NumPy, with a row for each value
        if inputs.ndim not in (1, 2):
            raise DataError("an array of inputs has a column for each sensor, or is one column, and this "
                            f"one has {inputs.ndim} dimensions")
        columns = [inputs] if inputs.ndim == 1 else [inputs[:, at] for at in range(inputs.shape[1])]
        return "the array", [Values(at, column.tolist(), "row {row}") for at, column in enumerate(columns, 1)]
    if isinstance(inputs, Sequence) and all(is_list(column) for column in inputs):
        return "the inputs", [Values(at, column) for at, column in enumerate(inputs, 1)]
    raise DataError("inputs are a dict, a list of columns, an array, a table or a path, and not "
                    f"{str(inputs)[:40]!r}")


def columns_of(inputs: Inputs, catalogue: Columns | Sequence[Sensor],
               ignore: Iterable[str] = ()) -> list[list[int]]:
    """The columns of an input file for a design or for its sensors, checked; those of `ignore` are passed
    over.

        >>> from scicos.columns import of_design
        >>> from scicos.program import find
        >>> columns_of({"button": [0, 1, 1]}, of_design("examples/push-button/diagram.json", find()))
        [[0, 1, 1]]
    """
    sensors = sensors_of(catalogue) if isinstance(catalogue, Columns) else list(catalogue)
    by_column = {sensor.column: sensor for sensor in sensors}
    origin, given = listed(inputs)
    found: dict[int, list[int]] = {}
    for values in given:
        if str(values.key) in set(ignore):
            continue
        column = column_of(values.key, sensors, origin)
        if column in found:
            raise DataError(f"{origin} give{'s' * (origin != 'the inputs')} column {column} twice, the "
                            f"second time as {values.key!r}")
        if not is_list(values.values):
            raise DataError(f"{origin}: what {values.key!r} has is no list of values, but {values.values!r}")
        found[column] = checked(values, by_column.get(column), origin)
    missing = [f"{sensor.name!r} (column {sensor.column})" for sensor in sensors
               if sensor.column not in found]
    if missing:
        raise DataError(f"{have(origin)} no values for the sensor{'s' * (len(missing) > 1)} "
                        f"{', '.join(missing)}")
    return [found.get(column, []) for column in range(1, max(found, default=0) + 1)]


def write(columns: list[list[int]], file: IO[bytes] | str | os.PathLike[str]) -> None:
    """Writes the program's input file, a list of columns, into a file or at a path."""
    if isinstance(file, (str, os.PathLike)):
        with files.written(file) as opened:
            write(columns, opened)
        return
    size = 0
    for at, column in enumerate(columns):
        text = ("[[" if at == 0 else ",\n [") + ",".join(map(str, column)) + "]"
        size += file.write(text.encode())
    size += file.write(b"]\n" if columns else b"[]\n")
    if size > LONGEST:
        raise DataError(f"the input file has {size:,} bytes, and the program takes {LONGEST:,}: run it in "
                        "parts, with `save` and `resume`")


def lasting(inputs: Inputs) -> Inputs:
    """The inputs, with a list in place of what could be read only once."""
    if isinstance(inputs, Mapping):
        return {key: list(values) if isinstance(values, Iterator) else values for key,
                values in inputs.items()}
    if isinstance(inputs, Sequence) and any(isinstance(values, Iterator) for values in inputs):
        return [list(values) if isinstance(values, Iterator) else values for values in inputs]
    return inputs


@contextlib.contextmanager
def input_file(inputs: Inputs, catalogue: Columns | Sequence[Sensor], design: str) -> Iterator[str]:
    """The path of an input file for the program; that of a JSON file is taken as it is, for the program to
    judge."""
    if isinstance(inputs, (str, os.PathLike)) and not os.fspath(inputs).lower().endswith((".csv", ".tsv")):
        yield os.fspath(inputs)
        return
    columns = columns_of(inputs, catalogue)
    with tempfile.TemporaryDirectory(prefix="scicos-") as work:
        name = os.path.basename(inputs) if isinstance(inputs, (str, os.PathLike)) else "the inputs"
        path = os.path.join(work, name)
        with files.told(path), open(path, "wb") as file:
            write(columns, file)
        yield path
