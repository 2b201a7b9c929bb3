"""A header for C with names for what a host is told by numbers: blocks, ports, columns, ticks, and types."""
from __future__ import annotations

import os
from collections.abc import Iterator
from dataclasses import dataclass

from .c_names import Taken, checked_prefix, cksum, comment, legal
from .column_map import ColumnMap, beside
from .flat import Block, Design, Flat, read
from .flat_wiring import End, Wiring
from .program import Program, design_file, find
from .reports import Shape, shapes

PREFIX = "SCI"
_HEAD = """\
/* Names for a host of {file}, made by `scicos-kit header`: blocks, ports, columns, ticks and types.
   A value is told by `sci_val` when its block acts. Before the first time it is unknown to a host. */
#ifndef {prefix}_NAMES_H
#define {prefix}_NAMES_H

#include <stdint.h>

/* Of which diagram these names are: its blocks, its greatest column, and what `cksum` tells of its C. With
   gcc -D{prefix}_PROGRAM="$(cksum < program.c | cut -d' ' -f1)u" names of another diagram are an error. */
#define {prefix}_BLOCKS {blocks}
#define {prefix}_COLUMNS {columns}
#define {prefix}_CHECKSUM {checksum}u
#if defined {prefix}_PROGRAM
#if {prefix}_PROGRAM != {prefix}_CHECKSUM
#error "the names are of another diagram than the program: make them again by scicos-kit header"
#endif
#endif
"""


@dataclass(frozen=True)
class Header:
    """The text of a header, and the blocks with values that have no name of their own, and so none there."""

    text: str
    unnamed: tuple[str, ...]


def header(design: Design, prefix: str = PREFIX, columns: str | os.PathLike[str] | None = None,
           program: str | os.PathLike[str] | Program | None = None) -> Header:
    """The header of a design.

    Each name begins with the prefix, and is made of a block's dotted name alone, so it stays where others come.

    `columns` is the map of columns that `extract` wrote; by default the file beside the design's, if it is
    there.

        >>> print(header("examples/moving-average/diagram.json").text)  # doctest: +SKIP
        ..
        /* 6 average: SHIFT, int32[1x1], diagram.json:12 */
        #define SCI_AVERAGE 6
        typedef int32_t sci_average_t;
        #define SCI_AVERAGE_T_MIN INT32_MIN
        #define SCI_AVERAGE_T_MAX INT32_MAX
        ..
    """
    called = find(program)
    first = checked_prefix(prefix)
    with design_file(design) as path:
        found = shapes(called, path)
        made = _Writer(read(design), first, found, beside(design, columns))
        checksum = cksum(called.text("ccode", path).encode())
    return made.header(checksum)


class _Writer:
    """What the parts of the header share."""

    def __init__(self, flat: Flat, prefix: str, found: dict[int, list[Shape]],
                 columns: ColumnMap | None) -> None:
        self.flat, self.prefix, self.shapes, self.columns = flat, prefix, found, columns
        self.wiring = Wiring(flat)
        self.taken = Taken()
        for name in ("NAMES_H", "BLOCKS", "COLUMNS", "CHECKSUM", "PROGRAM"):
            self.taken.take(f"{prefix}_{name}", f"the header's own {prefix}_{name}")

    def header(self, checksum: int) -> Header:
        """The whole header."""
        told = [block for block in self.flat.blocks if self.shapes[block.number] or _delay(block)]
        named = [block for block in told if self.own_name(block)]
        unnamed = tuple(self.flat.name(block.number) for block in told if not self.own_name(block))
        columns = max((_column(block) for block in self.flat.blocks), default=0)
        head = _HEAD.format(file=comment(self.flat.file), prefix=self.prefix, blocks=len(self.flat.blocks),
                            checksum=checksum, columns=columns)
        parts = ["\n".join(self.part(block)) + "\n" for block in named]
        if unnamed:
            listed = comment(", ".join(unnamed))
            parts.append(f"/* Without a name of their own, and so without one here: {listed} */\n")
        return Header("\n".join([head, *parts, "#endif\n"]), unnamed)

    def own_name(self, block: Block) -> str | None:
        """The dotted name, of the names in the file alone; None where the block or one round it has none."""
        items = [self.flat.item(block.place[:depth]) for depth in range(1, len(block.place) + 1)]
        names = [item.name for item in items if item and item.name]
        return ".".join(names) if len(names) == len(items) else None

    def part(self, block: Block) -> Iterator[str]:
        """The lines of a block."""
        dotted = self.own_name(block) or ""
        name = f"{self.prefix}_{legal(dotted)}"
        where = f"{'/'.join(map(str, block.place))}, {self.flat.where(block.place)}"
        owner = f"`{dotted}` (object {where})"
        ports = ", ".join(map(str, self.shapes[block.number])) or "events"
        told = f"{dotted}: {block.kind}, {ports}, object {where}{_leaving(block)}"
        yield comment(told).join(("/* ", " */"))
        yield self.define(name, str(block.number), owner)
        for port, shape in enumerate(self.shapes[block.number], 1):
            several = len(self.shapes[block.number]) > 1
            if several:
                yield self.define(f"{name}_OUT{port}", str(port), owner)
            yield from self.values(f"{name}_OUT{port}" if several else name, shape, owner)
        if block.kind == "SENSOR":
            yield from self.sensor(name, block, owner)
        elif _delay(block):
            yield from self.ticks(name, block, owner)

    def define(self, name: str, value: str, owner: str, told: str = "") -> str:
        """The line that defines a name."""
        return f"#define {self.taken.take(name, owner)} {value}{told and f' /* {comment(told)} */'}"

    def values(self, name: str, shape: Shape, owner: str) -> Iterator[str]:
        """The type of an output, its bounds, and how many elements it has where there are several."""
        yield f"typedef {shape.type}_t {self.taken.take(name + '_T', owner).lower()};"
        big = shape.type.upper()
        yield self.define(f"{name}_T_MIN", "0" if shape.type.startswith("u") else f"{big}_MIN", owner)
        yield self.define(f"{name}_T_MAX", f"{big}_MAX", owner)
        if shape.elements > 1:
            told = "numbered from 1, down the columns"
            yield self.define(f"{name}_ELEMENTS", str(shape.elements), owner, told)
        if shape.columns > 1:
            yield self.define(f"{name}_ROWS", str(shape.rows), owner)

    def sensor(self, name: str, block: Block, owner: str) -> Iterator[str]:
        """The column of a sensor, and what it stands for where a map of columns tells it."""
        column = _column(block)
        told = self.columns.told(column) if self.columns else ""
        yield self.define(f"{name}_COLUMN", str(column), owner, told)

    def ticks(self, name: str, block: Block, owner: str) -> Iterator[str]:
        """The delay of a delay, the period of a clock, and the date of the first event."""
        own = self.wiring.activators(block.number, 1) == [End(block.number, 1)]
        delays = block.item.numbers("ipar")
        if block.kind == "EVTDLY_c" and delays and delays[0] >= 0:
            told = "from one event to the next" if own else "from an activation to the event"
            yield self.define(f"{name}_TICKS", str(delays[0]), owner, told)
        firing = block.item.numbers("firing")
        if firing and firing[0] >= 0:
            yield self.define(f"{name}_FIRST", str(firing[0]), owner, "the date of the first event")


def _leaving(block: Block) -> str:
    """What is said of a block with outputs that are meant to leave the design."""
    ports = block.item.outputs
    if not ports:
        return ""
    several = len(block.item.entries("out")) + len(block.item.entries("evtout")) > 1
    numbers = " and ".join(map(str, ports))
    return f"; output {numbers} leaves the design" if several else "; leaves the design"


def _delay(block: Block) -> bool:
    return block.kind in ("EVTDLY_c", "EVTVARDLY")


def _column(block: Block) -> int:
    """The column of a sensor, 0 of other blocks."""
    return block.item.numbers("ipar")[0] if block.kind == "SENSOR" else 0
