"""Objects of small diagrams, for the tests of what is told of files."""
from __future__ import annotations

import json
from pathlib import Path
from typing import Any

Fields = dict[str, Any]


def block(gui: str, name: str = "", **model: Any) -> Fields:
    """A block; `grant` goes beside its model."""
    grant = {"grant": model.pop("grant")} if "grant" in model else {}
    ports = {key.rstrip("_"): value for key, value in model.items()}
    return {"obj": "Block", "gui": gui, **({"name": name} if name else {}), **grant, "model": ports}


def wire(start: list[int], end: list[int]) -> Fields:
    """A regular link."""
    return {"obj": "Link", "from": start, "to": end, "ct": [1, 1]}


def event(start: list[int], end: list[int]) -> Fields:
    """An activation link."""
    return {"obj": "Link", "from": start, "to": end, "ct": [5, -1]}


def clock(name: str = "clock", ticks: int = 5, first: int = 0) -> Fields:
    """A clock, which a link has to lead back to itself."""
    return block("EVTDLY_c", name, evtin=1, evtout=1, ipar=ticks, firing=first)


def constant(value: int, name: str, code: int = 3) -> Fields:
    """A CONST_m."""
    return block("CONST_m", name, ipar=value, out=1, outtyp=code)


def sensor(column: int, name: str, code: int = 3, **more: Any) -> Fields:
    """A SENSOR."""
    return block("SENSOR", name, ipar=column, evtin=1, out=1, outtyp=code, **more)


def gain(name: str, factor: int = 2, code: int = 3, mode: int = 0, **more: Any) -> Fields:
    """A GAINBLK, which inherits."""
    return block("GAINBLK", name, ipar=[mode, factor], in_=1, intyp=code, out=1, outtyp=code, **more)


def total(name: str, code: int = 3, mode: int = 0, **more: Any) -> Fields:
    """A SUMMATION of two, which inherits."""
    return block("SUMMATION", name, ipar=[mode, 1, 1], in_=[1, 1], intyp=[code, code], out=1, outtyp=code,
                 **more)


def delay(name: str, first: int = 0, code: int = 3, **more: Any) -> Fields:
    """A DOLLAR_m with an activation input."""
    return block("DOLLAR_m", name, dstate=first, evtin=1, in_=1, intyp=code, out=1, outtyp=code, **more)


def counter(name: str, **more: Any) -> Fields:
    """A Modulo_Count."""
    return block("Modulo_Count", name, ipar=10, dstate=0, evtin=1, out=1, outtyp=3, **more)


def condition(name: str, code: int = 3) -> Fields:
    """An IFTHEL_f, which inherits."""
    return block("IFTHEL_f", name, evtout=[1, 1], in_=1, intyp=code)


def inside(name: str, objects: list[Fields], **model: Any) -> Fields:
    """A superblock."""
    return block("SUPER_f", name, sim="super", rpar={"objs": objects}, **model)


def written(folder: Path, objects: list[Fields], name: str = "d.json") -> Path:
    """The file of a diagram, with a line for each object of its outermost level: object 1 is on line 2."""
    path = folder / name
    path.write_text('{"objs": [\n' + ",\n".join(map(json.dumps, objects)) + "\n]}\n")
    return path
