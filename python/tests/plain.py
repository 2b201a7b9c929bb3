"""Runs in plain Python, by tools/plain_run.py, which know nothing of the program nor of this package: they count what blocks do by its meaning."""
from __future__ import annotations

import importlib.machinery
import importlib.util
import sys
from collections import Counter
from pathlib import Path
from types import ModuleType
from typing import Any

TOOLS = Path(__file__).resolve().parents[2] / "tools"


def script(name: str) -> ModuleType:
    """A script of tools/ as a module."""
    if str(TOOLS) not in sys.path:
        sys.path.append(str(TOOLS))
    loader = importlib.machinery.SourceFileLoader(Path(name).stem, str(TOOLS / name))
    module = importlib.util.module_from_spec(importlib.util.spec_from_loader(loader.name, loader))
    loader.exec_module(module)
    return module


plain_run: Any = script("plain_run.py")
random_diagrams: Any = script("random_diagrams")
kinds = plain_run.kinds


class Counting(plain_run.Run):  # type: ignore[misc]
    """A run that counts which blocks act, and what comes of them. A reaction in which the run stops counts nothing."""

    def __init__(self, diagram: Any, columns: Any) -> None:
        super().__init__(plain_run.Net(diagram), columns)
        self.acts: Counter[int] = Counter()
        self.came: Counter[tuple[int, str]] = Counter()
        self.values: dict[tuple[int, int, int], list[int]] = {}

    def result(self, source: Any) -> Any:
        """The reaction, counted."""
        masks, values = super().result(source)
        for number, mask in masks.items():
            self.acts[number] += 1
            self.count(number, mask, self.inputs(number, values), values[number])
        return masks, values

    def count(self, number: int, mask: int, ins: Any, outs: Any) -> None:
        """Counts what comes of a block."""
        block, what = self.net.blocks[number], ""
        for port, elements in enumerate(outs, 1):
            for element, value in enumerate(elements, 1):
                self.values.setdefault((number, port, element), []).append(value)
                if block.gui in ("RELATIONALOP", "LOGICAL_OP"):
                    self.came[number, f"{'true' if value else 'false'} {element}"] += 1
                elif block.gui == "SATURATION":
                    self.came[number, f"low {element}"] += value == block.ipar[0]
                    self.came[number, f"high {element}"] += value == block.ipar[1]
        if block.gui in kinds.SYNCHRONOUS:
            what = f"branch {kinds.branch(block, ins)}"
        elif block.gui == "SELECT_m":
            what = f"input {[port for port in range(8) if mask >> port & 1][0] + 1}"
        elif block.gui == "ANDLOG_f":
            what = "both" if mask == 3 else "one alone"
        elif block.gui == "SWITCH2_m":
            gate, limit = ins[1][0], block.ipar[1]
            what = "input 1" if (gate >= limit, gate > limit, gate != limit)[block.ipar[0]] else "input 3"
        elif block.gui == "LOGIC":
            what = "row " + "".join("1" if port[0] else "0" for port in ins)
        self.came[number, what] += bool(what)


def counted(diagram: Any, columns: Any, until: int, events: int) -> Counting:
    """A run to its end."""
    run = Counting(diagram, columns)
    for _ in run.reactions(until, events):
        pass
    return run
