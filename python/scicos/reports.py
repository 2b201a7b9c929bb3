"""What `map` and `schedule` print, as data."""
from __future__ import annotations

from dataclasses import dataclass

from .program import Program

Source = tuple[int, int]
"""A source of activation: the block and the activation output, (0, 0) for start."""


@dataclass(frozen=True)
class Shape:
    """An output's integer type, and its rows and columns."""

    type: str
    rows: int
    columns: int

    @property
    def elements(self) -> int:
        """How many elements it has."""
        return self.rows * self.columns

    def __str__(self) -> str:
        return f"{self.type}[{self.rows}x{self.columns}]"


def shape_of(text: str) -> Shape:
    """A shape from the program's text.

    >>> shape_of("int16[3x1]")
    Shape(type='int16', rows=3, columns=1)
    """
    kind, _, size = text.rstrip("]").partition("[")
    rows, _, columns = size.partition("x")
    return Shape(kind, int(rows), int(columns))


def shapes(program: Program, path: str) -> dict[int, list[Shape]]:
    """For each block of an accepted diagram the shapes of its outputs, by `map`.

        >>> shapes(find(), "examples/first.json")  # doctest: +SKIP
        {1: [], 2: [Shape(type='int32', rows=1, columns=1)]}
    """
    rows = [line.split() for line in program.text("map", path).splitlines()]
    return {int(row[0]): [shape_of(text) for text in row[3:]] for row in rows}


def schedules(program: Program, path: str) -> dict[Source, dict[int, frozenset[Source]]]:
    """For each source of an accepted diagram the blocks under it with their guards, by `schedule`.

        >>> schedules(find(), "examples/first.json")  # doctest: +SKIP
        {(0, 0): {}, (1, 1): {1: frozenset(), 2: frozenset()}}
    """
    return schedule_of(program.text("schedule", path))


def schedule_of(text: str) -> dict[Source, dict[int, frozenset[Source]]]:
    """The same from the program's text; a block that always acts has no guards.

    >>> schedule_of("source 1.1\\n1 always\\n4 3.1 always\\n5 3.1\\n")
    {(1, 1): {1: frozenset(), 4: frozenset(), 5: frozenset({(3, 1)})}}
    """
    found: dict[Source, dict[int, frozenset[Source]]] = {}
    rows: dict[int, frozenset[Source]] = {}
    for line in text.splitlines():
        first, *rest = line.split()
        if first == "source":
            rows = found.setdefault(_source(rest[0]), {})
        else:
            rows[int(first)] = frozenset() if "always" in rest else frozenset(map(_source, rest))
    return found


def _source(word: str) -> Source:
    if word == "start":
        return (0, 0)
    block, _, port = word.partition(".")
    return (int(block), int(port))
