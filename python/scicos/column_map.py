"""The map of columns that `extract` writes beside a controller: which element of which input each is for."""
from __future__ import annotations

import json
import os
from dataclasses import asdict, dataclass
from typing import Any

from .c_names import cksum
from .errors import DataError, ReadError
from .flat import Design


@dataclass(frozen=True)
class Entry:
    """A column.

    It has the sensor that takes its values, the input of the superblock by its number and its name, the element of it,
    the sensor's type, the signal that feeds the input in the whole diagram, and the events at which a value is taken.
    """

    column: int
    sensor: str
    input: int
    port: str
    element: int
    type: str
    signal: str
    events: tuple[str, ...]

    def __str__(self) -> str:
        events = ", ".join(self.events)
        return f"column {self.column} is {self.sensor} ({self.type}): {self.signal}, taken at {events}"


@dataclass(frozen=True)
class ColumnMap:
    """The columns of an extracted controller, in order, with the controller's name."""

    controller: str
    entries: tuple[Entry, ...]

    def told(self, column: int) -> str:
        """What a column stands for, as a comment; empty where the map doesn't have it."""
        for entry in self.entries:
            if entry.column == column:
                return f"input {entry.input} of {self.controller}: {entry.signal}"
        return ""

    def to_json(self, diagram: str) -> str:
        """The text of the map's file, which tells of which diagram it is by the checksum of its text."""
        told = {"controller": self.controller, "cksum": cksum(diagram.encode())}
        head = json.dumps(told, ensure_ascii=False)
        rows = ",\n".join("  " + json.dumps(asdict(entry), ensure_ascii=False) for entry in self.entries)
        return f'{head[:-1]}, "columns": [\n{rows}\n]}}\n'


def path_of(design: str | os.PathLike[str]) -> str:
    """The path of the map beside a diagram's file.

    >>> path_of("controller.json")
    'controller.columns.json'
    """
    path = os.fspath(design)
    return (path[:-len(".json")] if path.endswith(".json") else path) + ".columns.json"


def beside(design: Design, given: str | os.PathLike[str] | None = None) -> ColumnMap | None:
    """The map of a design: of what `extract` gave its own, else from the file that is given, or the one beside it.

    It is None where there is none.
    """
    known = getattr(design, "columns", None)
    if given is None and isinstance(known, ColumnMap):
        return known
    own = path_of(design) if isinstance(design, (str, os.PathLike)) else ""
    if given is None and not os.path.exists(own):
        return None
    path = own if given is None else os.fspath(given)
    try:
        with open(path, "rb") as file:
            data = json.load(file)
        if isinstance(design, (str, os.PathLike)):
            with open(design, "rb") as file:
                content = file.read()
        else:
            content = design.to_json().encode()
    except OSError as error:
        raise ReadError(f"{error.filename} can't be read: {error.strerror}") from None
    except (ValueError, RecursionError):
        raise DataError(f"{path} is no map of columns: {_AGAIN}") from None
    return _checked(data, content, path)


def _entry(data: dict[str, Any]) -> Entry:
    data["events"] = tuple(data["events"])
    return Entry(**data)


_AGAIN = "let `scicos-kit extract` write it again, or move it away"


def _checked(data: Any, content: bytes, path: str) -> ColumnMap:
    try:
        entries = tuple(_entry(dict(entry)) for entry in data["columns"])
        made, checksum = ColumnMap(str(data["controller"]), entries), data["cksum"]
    except (TypeError, KeyError, ValueError):
        raise DataError(f"{path} is no map of columns: {_AGAIN}") from None
    if checksum != cksum(content):
        raise DataError(f"{path} is of another diagram than the one beside it: {_AGAIN}")
    return made
