"""The columns of a run: each element of each output, by name and by type, as the program's `map` tells
them."""
from __future__ import annotations

import difflib
import os
import re
from collections.abc import Iterable, Mapping
from dataclasses import dataclass

from scicos.errors import DataError, ReadError
from scicos.flat import Flat, read
from scicos.program import Design, Program

BOUNDS = {f"{sign}int{bits}": (0 if sign else -(1 << bits - 1), (1 << bits - (not sign)) - 1)
          for sign in ("", "u") for bits in (8, 16, 32)}
# of the standard module `array`
CODES = {"int8": "b", "uint8": "B", "int16": "h", "uint16": "H", "int32": "i", "uint32": "I"}


@dataclass(frozen=True)
class Column:
    """One element of an output: block, port and element as a trace tells them, the integer type, and the
    name.

    The name is the block's dotted name, with `.PORT` behind it where the block has several outputs, and
    `[ELEMENT]` where the output has several. """

    block: int
    port: int
    element: int
    type: str
    name: str

    @property
    def code(self) -> str:
        """The name in the program's own dumps, as `b4_1_1`."""
        return f"b{self.block}_{self.port}_{self.element}"


class Columns:
    """All columns of a design, by the names of its blocks.

    `called` has these by number, `outputs` by number a type and how many elements there are for each output,
    and `flat` is the design's file where there is one.
    """

    def __init__(self, called: Mapping[int, str], outputs: Mapping[int, list[tuple[str, int]]],
                 flat: Flat | None = None) -> None:
        self.called, self.flat = called, flat
        self.all: list[Column] = []
        self.taken: set[str] = set()
        self.parts: dict[str, list[Column]] = {}
        for number, ports in outputs.items():
            self.add(number, ports)

    def add(self, number: int, ports: list[tuple[str, int]]) -> None:
        """Adds the columns of a block."""
        dotted = self.called[number]
        for port, (kind, count) in enumerate(ports, 1):
            base = dotted + (f".{port}" if len(ports) > 1 else "")
            for element in range(1, count + 1):
                name = base + (f"[{element}]" if count > 1 else "")
                if name in self.taken:  # as that of a block whose own name has a dot or a bracket
                    name += f" b{number}_{port}_{element}"
                self.taken.add(name)
                column = Column(number, port, element, kind, name)
                self.all.append(column)
                for key in {column.name, base, dotted, column.code, *self.outer(dotted)}:
                    self.parts.setdefault(key, []).append(column)

    def outer(self, dotted: str) -> Iterable[str]:
        """The names of the superblocks round a block."""
        return (dotted[:at] for at, letter in enumerate(dotted) if letter == ".")

    def named(self, name: str) -> list[Column]:
        """The columns of a name: one, those of an output, of a block or of a superblock; `DataError` with
        near names where there is none.

        Example:
            >>> columns.named("motor.error")  # doctest: +SKIP
        """
        exact = [column for column in self.parts.get(name, []) if name in (column.name, column.code)]
        found = exact or self.parts.get(name)
        if not found:
            raise DataError(f"the design has no signal {name!r}{near(name, self.parts)}")
        return found

    def chosen(self, wanted: Iterable[str] | None) -> list[Column]:
        """The columns of several names, each once, in this order; all where nothing is wanted."""
        if wanted is None:
            return self.all
        if isinstance(wanted, str):
            wanted = [wanted]
        return list(dict.fromkeys(column for name in wanted for column in self.named(name)))

    def name_of(self, block: int, port: int = 1) -> str:
        """How a block is called that fires at a port, as `clock` or `stepper.2`."""
        dotted = self.called.get(block, f"block {block}")
        return dotted if port == 1 else f"{dotted}.{port}"


def flat_of(design: str | os.PathLike[str] | Design) -> Flat:
    """A design's file as it was read, or a sentence where it can't be read."""
    try:
        return read(design)
    except OSError as error:
        raise ReadError(f"{design} can't be read: {error.strerror}") from None


def called_in(flat: Flat) -> dict[int, str]:
    """The dotted names of the blocks by their numbers."""
    return {block.number: flat.name_of(block.place) for block in flat.blocks}


def of_design(design: str | os.PathLike[str] | Design, program: Program, path: str | None = None) -> Columns:
    """The columns of a design that breaks no rule; `path` is its file, where the design is none.

    Example:
        >>> from scicos.program import find
        >>> [column.name for column in of_design("examples/counter.json", find()).all]
        ['CONST_m 2', 'SUMMATION 3', 'DOLLAR_m 4']
    """
    outputs = {}
    for line in program.text("map", path or str(design)).splitlines():
        number, _, _, *ports = line.split()
        parts = [re.split(r"[\[x\]]", port) for port in ports]
        outputs[int(number)] = [(kind, int(rows) * int(cols)) for kind, rows, cols, _ in parts]
    flat = flat_of(design)
    return Columns(called_in(flat), outputs, flat)


def near(name: str, known: Iterable[str]) -> str:
    """The end of a sentence on an unknown name: those that are like it, or where to look."""
    known, code = list(known), r"b\d+_\d+_\d+"
    is_code = re.fullmatch(code, name) is not None
    all_names = [key for key in known if bool(re.fullmatch(code, key)) == is_code]
    ending = [key for key in all_names if key.rpartition(".")[2] == name]
    like = list(dict.fromkeys(ending + difflib.get_close_matches(name, all_names, 3, 0.5)))[:3]
    if like:
        return f": did you mean {' or '.join(map(repr, like))}?"
    if not all_names:
        return ": it has none at all"
    return f": its names are {', '.join(sorted(all_names)[:12])}{' ..' if len(all_names) > 12 else ''}"
