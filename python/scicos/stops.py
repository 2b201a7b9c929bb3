"""Stops of a run as sentences: the date, the block, its inputs, the exact result and the bound that it
passed.

The inputs come from the program: what the run remembers before the reaction that stops is saved, and the run
goes on from there for that reaction in a diagram in which no block can stop. Only the exact result is worked
out here, by the kind's row in docs/FORMAT.md.
"""
from __future__ import annotations

import json
import os
import tempfile
from collections.abc import Callable
from dataclasses import dataclass
from typing import Any

from . import dump
from .flat import REGULAR, Block, Design, Flat, is_superblock, read
from .flat_wiring import Wiring
from .integers import BY_NAME, IntType
from .message_parts import Told, plural
from .program import Program, Refusal, Word, design_file, find
from .reports import Shape, shapes

MODES = ("SUMMATION", "GAINBLK", "PRODUCT", "ABS_VALUE", "DEADBAND", "CONVERT")
NOTHING = Refusal(0, "", None, ())
REASONS = {"overflow": "got a result outside of its type, in the mode 2 (stop)", "zero": "had to divide by 0",
           "input": "needs a further value of its column, which has none"}
Values = dict[tuple[int, int], list[int]]


@dataclass(frozen=True)
class Stop:
    """How a run stopped: the reason (`overflow`, `zero`, `input`), the block's number, the date in ticks, and
    the reaction, from 1, which is start.
    """

    reason: str
    block: int
    date: int
    reaction: int


class Watch:
    """Looks at a trace piece by piece, each of whole lines, for the stop with which it ends.

    >>> watch = Watch()
    >>> watch.take(b"start\\nevent 5 1 1\\nstop overflow 3\\n")
    >>> watch.stop
    Stop(reason='overflow', block=3, date=5, reaction=2)
    """

    def __init__(self) -> None:
        self.reaction, self._event, self._last = 0, b"", b""

    def take(self, piece: bytes) -> None:
        """Looks at further lines."""
        lined = b"\n" + piece
        self.reaction += lined.count(b"\nevent ") + lined.count(b"\nstart")
        at = lined.rfind(b"\nevent ")
        self._event = lined[at + 1:].split(b"\n", 1)[0] if at >= 0 else self._event
        self._last = piece.rstrip(b"\n").rsplit(b"\n", 1)[-1]

    @property
    def stop(self) -> Stop | None:
        """The stop in the last line; None where the run ended otherwise."""
        parts = self._last.decode("ascii", "replace").split()
        if parts[:1] != ["stop"] or len(parts) < 3:
            return None
        return Stop(parts[1], int(parts[2]), int(self._event.split()[1]) if self._event else 0, self.reaction)


def stop_of(trace: bytes) -> Stop | None:
    """The stop with which a trace ends."""
    watch = Watch()
    watch.take(trace)
    return watch.stop


def explained(stop: Stop, design: Design, inputs: str | os.PathLike[str], until: int,
              program: Program | None = None) -> str:
    """The sentence for a stop of `simulate D I T N`: with its diagram, its input file and its last date."""
    program = find(program)
    with design_file(design) as path:
        flat = read(path)
        told, block = Told(NOTHING, (), flat), flat.block(stop.block)
        if block is None:
            return brief(stop, flat)
        if stop.reason == "input":
            return f"{_head(stop, told)} {_used_up(told, block, inputs)}"
        known = shapes(program, path)
        values = _inputs(program, path, inputs, until, stop, flat, block, known)
        kind = BY_NAME.get(known[stop.block][0].type)
        return f"{_head(stop, told)} {_result(stop, flat, block, values, kind)}"


def brief(stop: Stop, flat: Flat) -> str:
    """The sentence for a stop whose run isn't at hand: the date, the block and the reason."""
    return (f"{_head(stop, Told(NOTHING, (), flat))} "
            f"{REASONS.get(stop.reason, f'had no valid result ({stop.reason})')}")


def _head(stop: Stop, told: Told) -> str:
    at = f"at date {stop.date}{' (at start)' if stop.reaction == 1 else ''}"
    return f"the run stopped {at}: {told.block(stop.block)}"


def _used_up(told: Told, block: Block, inputs: str | os.PathLike[str]) -> str:
    """What is said of a sensor whose column has no further value."""
    column = told.column_of(block.place)
    with open(inputs, "rb") as file:
        columns = json.load(file)
    return (f"took all {plural(len(columns[column - 1]), 'value')} of column {column} of "
            f"{os.path.basename(inputs)} and needs another one; "
            "write more values, or end the run before")


def without_stops(diagram: Any) -> Any:
    """A diagram's JSON, changed so that no block stops: mode 2 becomes 0, and a quotient becomes a sum of its
    inputs.
    """
    for item in diagram["objs"]:
        model = item.get("model") if isinstance(item, dict) else None
        if not isinstance(model, dict):
            continue
        if is_superblock(item):
            without_stops(model["rpar"])
        elif item.get("gui") in MODES:
            parameters = model["ipar"] if isinstance(model["ipar"], list) else [model["ipar"]]
            model["ipar"] = [0 if parameters[0] == 2 else parameters[0], *parameters[1:]]
            if item["gui"] == "PRODUCT" and parameters[1] == -1:
                item["gui"], model["ipar"] = "SUMMATION", [0, 1, 1]
    return diagram


def _inputs(program: Program, path: str, inputs: Word, until: int, stop: Stop, flat: Flat,
            block: Block, known: dict[int, list[Shape]]) -> list[list[int]]:
    """The values at each input of a block in the reaction that stops, by the program itself."""
    with tempfile.TemporaryDirectory(prefix="scicos-") as work:
        names = {name: os.path.join(work, name) for name in ("diagram", "inputs", "image")}
        with open(path, "rb") as file:
            _write(names["diagram"], json.dumps(without_stops(json.load(file))))
        with open(str(inputs), "rb") as file:
            _write(names["inputs"],
                   json.dumps([[*column, column[-1] if column else 0] for column in json.load(file)]))
        if stop.reaction == 1:
            held = _first(program.ask("vcd", names["diagram"], names["inputs"], 0, 0).out)
            lines: list[str] = []
        else:
            image = program.text("save", path, inputs, until, stop.reaction, stop.reaction - 1)
            _write(names["image"], image)
            held = _held(image, known)
            lines = program.text("resume", names["diagram"], names["inputs"], names["image"], until,
                                 stop.reaction - 1).splitlines()
    for line in lines:
        if line.startswith("val "):
            number, port, element, value = map(int, line.split()[1:])
            held[number, port][element - 1] = value
    wiring = Wiring(flat)
    ends = [wiring.source(block.number, port) for port in range(1, block.item.ports(REGULAR, 1) + 1)]
    return [held[end.block, end.port] for end in ends if end]


def _first(content: bytes) -> Values:
    """What the outputs hold after start, from the dump of a run without events."""
    held: Values = {}
    seen = dump.read(content)
    for (_, (number, port, _)), value in zip(seen.signals, seen.first):
        held.setdefault((number, port), []).append(value)
    return held


def _write(name: str, text: str) -> None:
    with open(name, "w", encoding="utf-8") as file:
        file.write(text)


def _held(image: str, known: dict[int, list[Shape]]) -> Values:
    """What the outputs hold by an image, which has the values of a block's outputs one after the other."""
    held: Values = {}
    for line in image.splitlines():
        if line.startswith("held "):
            number, *values = map(int, line.split()[1:])
            for port, shape in enumerate(known[number], 1):
                held[number, port], values = values[:shape.elements], values[shape.elements:]
    return held


def _terms(signs: list[int], values: list[int]) -> str:
    """A sum as it is written: `7 - 5`."""
    text = ""
    for sign, value in zip(signs, values):
        shown = f"({value})" if value < 0 else str(value)
        text += f"{' - ' if sign < 0 else ' + '}{shown}" if text else f"-{shown}" if sign < 0 else shown
    return text


def _over(one: int, other: int) -> int:
    """A quotient rounded toward zero."""
    return abs(one) // abs(other) * (1 if (one < 0) == (other < 0) else -1)


def _excess(parameters: list[int], value: int) -> int:
    low, high = parameters[1], parameters[2]
    return value - high if value > high else value - low if value < low else 0


Exact = Callable[[list[int], list[int]], tuple[str, int]]
EXACT: dict[str, Exact] = {
    "SUMMATION": lambda p, u: (_terms(p[1:], u), sum(sign * value for sign, value in zip(p[1:], u))),
    "GAINBLK": lambda p, u: (f"{p[1]} times {u[0]}", p[1] * u[0]),
    "PRODUCT": lambda p,
    u: (f"{u[0]} times {u[1]}", u[0] * u[1]) if p[1] == 1 else (f"{u[0]} over {u[1]}", _over(u[0], u[1])),
    "ABS_VALUE": lambda p, u: (f"the magnitude of {u[0]}", abs(u[0])),
    "DEADBAND": lambda p, u: (f"what {u[0]} has outside of {p[1]} to {p[2]}", _excess(p, u[0])),
    "CONVERT": lambda p, u: (f"the input {u[0]}", u[0]),
}
"""For each kind that may stop its result, without any bound: how it is told, and its value."""


def _result(stop: Stop, flat: Flat, block: Block, inputs: list[list[int]], kind: IntType | None) -> str:
    """What is said of the first element without a valid result."""
    parameters = block.item.numbers("ipar")
    for element, values in enumerate(zip(*inputs), 1):
        at = f" at element {element}" if len(inputs[0]) > 1 else ""
        if stop.reason == "zero":
            if values[1] == 0:
                return (f"had to divide {values[0]} by 0{at} ({_sources(flat, block, values)}); keep 0 from "
                        f"its "
                        "second input, as by a SWITCH2_m")
            continue
        told, exact = EXACT[block.kind](parameters, list(values))
        if kind is not None and not kind.holds(exact):
            bound = (f"more than {kind.greatest}, the greatest" if exact > kind.greatest
                     else f"less than {kind.least}, the least")
            return (f"got {told} = {exact}{at}, which is {bound} {kind.name} "
                    f"({_sources(flat, block, values)}); "
                    "bound its inputs, take a wider type, or the mode 1 (saturate)")
    return f"had no valid result ({stop.reason})"


def _sources(flat: Flat, block: Block, values: tuple[int, ...]) -> str:
    """The inputs by the names of what feeds them."""
    wiring = Wiring(flat)
    ends = [wiring.source(block.number, port) for port in range(1, len(values) + 1)]
    return ", ".join(f"{flat.signal(end.block, end.port)} is {value}" for end, value in zip(ends, values)
                     if end)
