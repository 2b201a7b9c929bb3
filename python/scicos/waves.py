"""Waveforms of a value change dump that `scicos vcd` wrote, as an SVG.

Each signal that changes has a row. A signal of the values 0 and 1 is a line of two heights. Another one is a
line between its least and its greatest value, which stand beside it, with the values written where there is
room. Signals that keep their first value are listed below. """
from __future__ import annotations

import html
import os
from collections.abc import Iterable, Iterator

from scicos.columns import Columns, called_in, flat_of
from scicos.dump import NAMES, Dump, code_of
from scicos.errors import DataError, WordsError

# of the picture: where the lines begin and end, a row, a line's height, and a digit's width
LEFT, RIGHT, ROW, HEIGHT, DIGIT = 230, 820, 40, 24, 6.2
STYLE = ("text{font:11px "
         "sans-serif;fill:#222}.block{fill:#666}.tick{text-anchor:middle;font-size:9px;fill:#666}"
         ".end{text-anchor:end;font-size:9px;fill:#666}.value{text-anchor:middle;font-size:9px}"
         ".kept{font-size:10px;fill:#666}"
         ".line{fill:none;stroke:#0a5;stroke-width:1.4}.grid{stroke:#ddd;stroke-width:1}")

Steps = list[tuple[int, int]]


def steps_of(dump: Dump, until: int) -> list[Steps]:
    """Of each signal its ticks with the value from there on, up to the last tick of the picture."""
    steps = [[(0, value)] for value in dump.first]
    for tick, changes in dump.ticks:
        for signal, value in changes if tick <= until else ():
            steps[signal - 1].append((tick, value))
    return steps


def columns_of(dump: Dump, diagram: str | os.PathLike[str] | None) -> Columns:
    """The columns of a dump, by the names of the diagram where it is given, and else by the numbers of
    blocks."""
    outputs: dict[int, list[tuple[str, int]]] = {}
    for code, (block, port, element) in dump.signals:
        ports = outputs.setdefault(block, [])
        ports += [(NAMES[code], 0)] * (port - len(ports))
        ports[port - 1] = NAMES[code], element
    if diagram is None:
        return Columns({number: f"b{number}" for number in outputs}, outputs)
    flat = flat_of(diagram)
    called = called_in(flat)
    if set(outputs) - set(called):
        block = min(set(outputs) - set(called))
        raise DataError(f"the dump has a block {block}, and {os.fspath(diagram)} has none: it is of another diagram")
    return Columns(called, outputs, flat)


def chosen(columns: Columns, only: Iterable[str] | None) -> set[str]:
    """The codes of the signals that are drawn."""
    try:
        return {column.code for column in columns.chosen(only)}
    except DataError as error:
        raise WordsError(str(error).replace("the design", "the dump")) from None


def round_step(length: int) -> int:
    """A round number of ticks, of which a picture of that length has some ten."""
    size = 1
    while True:
        for factor in (1, 2, 5):
            if length <= 12 * factor * size:
                return factor * size
        size *= 10


class Picture:
    """A picture that grows downward, row by row."""

    def __init__(self, until: int) -> None:
        self.until, self.y = until, 14
        self.parts: list[str] = []

    def x(self, tick: int) -> float:
        """Where a tick stands."""
        return LEFT + (RIGHT - LEFT) * tick / max(self.until, 1)

    def add(self, text: str) -> None:
        """Adds an element."""
        self.parts.append("  " + text)

    def text(self, x: float, y: float, content: str, kind: str) -> None:
        """Adds a text."""
        self.add(f'<text class="{kind}" x="{x:.1f}" y="{y:.1f}">{html.escape(content, quote=False)}</text>')

    def grid(self, rows: int) -> None:
        """Adds the lines of some ten ticks."""
        for tick in range(0, self.until + 1, round_step(self.until)):
            self.add(f'<path class="grid" d="M{self.x(tick):.1f} '
                     f'{self.y - 6:.1f}V{self.y + rows * ROW:.1f}"/>')
            self.text(self.x(tick), self.y + rows * ROW + 14, str(tick), "tick")

    def row(self, name: str, block: str, steps: Steps) -> None:
        """Adds the row of a signal."""
        low, high = min(value for _, value in steps), max(value for _, value in steps)
        bottom = self.y + HEIGHT
        self.text(4, self.y + 16, name, "name")
        self.text(4 + 7 * max(len(name) + 1, 8), self.y + 16, block, "block")
        heights = {value: bottom - HEIGHT * (value - low) / (high - low) for _, value in steps}
        path = f"M{self.x(0):.1f} {heights[steps[0][1]]:.1f}"
        path += "".join(f"H{self.x(tick):.1f}V{heights[value]:.1f}" for tick, value in steps[1:])
        self.add(f'<path class="line" d="{path}H{self.x(self.until):.1f}"/>')
        if low < 0 or high > 1:
            self.text(LEFT - 4, self.y + 5, str(high), "end")
            self.text(LEFT - 4, bottom + 3, str(low), "end")
            self.values(steps, heights)
        self.y += ROW

    def values(self, steps: Steps, heights: dict[int, float]) -> None:
        """Writes the values where there is room beside the line."""
        for (tick, value), (following, _) in zip(steps, steps[1:] + [(self.until, 0)]):
            room = self.x(following) - self.x(tick)
            if room > DIGIT * len(str(value)) + 2:
                height = heights[value]
                self.text(self.x(tick) + room / 2, height - 2 if height > self.y + HEIGHT / 2 else height + 9,
                          str(value), "value")

    def constants(self, kept: list[tuple[str, int]]) -> None:
        """Lists the signals that keep their first value."""
        self.y += 22
        line = ""
        words = [f"{name} {value}{',' * (at < len(kept))}" for at, (name, value) in enumerate(kept, 1)]
        for word in ["unchanged:", *words]:
            if len(line) + len(word) > 115:
                self.y += 15
                self.text(4, self.y, line, "kept")
                line = ""
            line += word + " "
        self.y += 15
        self.text(4, self.y, line.rstrip(), "kept")

    def written(self) -> str:
        """The picture's text."""
        width, height = RIGHT + 20, round(self.y) + 10
        lines = [f'<svg xmlns="http://www.w3.org/2000/svg" viewBox="0 0 {width} {height}" width="{width}" '
                 f'height="{height}">',
                 f"  <style>{STYLE}</style>", '  <rect width="100%" height="100%" fill="#fff"/>', *self.parts,
                 "</svg>"]
        return "\n".join(lines) + "\n"


def labelled(dump: Dump, columns: Columns, until: int,
             only: Iterable[str] | None) -> Iterator[tuple[str, str, Steps]]:
    """Of each signal that is drawn its name in the dump, the name of its block, and its steps."""
    wanted = chosen(columns, only)
    for (_, place), steps in zip(dump.signals, steps_of(dump, until)):
        code = code_of(place)
        if code in wanted:
            block = columns.flat.block(place[0]) if columns.flat else None
            yield code, block.item.name or "" if block else "", steps


def drawn(dump: Dump, diagram: str | os.PathLike[str] | None = None, until: int | None = None,
          only: Iterable[str] | None = None) -> str:
    """The text of the picture of a dump, up to a tick, by default behind the last change; `only` chooses
    signals, by the name in the dump, as b4_1_1, and with the diagram by name.

        >>> from scicos.dump import read_file
        >>> picture = drawn(read_file("cases/vcd-counter/out"), only=["b4_1_1"])  # doctest: +SKIP
    """
    if until is not None and until < 0:
        raise WordsError(f"the last tick of a picture is 0 or more, and not {until}")
    last = dump.ticks[-1][0] if dump.ticks else 1
    until = until or last + max(1, last // 20)
    rows: list[tuple[str, str, Steps]] = []
    kept: list[tuple[str, str, Steps]] = []
    for row in labelled(dump, columns_of(dump, diagram), until, only):
        (rows if len(row[2]) > 1 else kept).append(row)
    picture = Picture(until)
    picture.grid(len(rows))
    for row in rows:
        picture.row(*row)
    if kept:
        named = [(" ".join(filter(None, (name, block))), steps[0][1]) for name, block, steps in kept]
        picture.constants(named)
    else:
        picture.y += 16
    return picture.written()
