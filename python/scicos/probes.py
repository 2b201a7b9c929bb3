"""Copies of a diagram with probes: counters that show in the trace what it doesn't tell by itself.

A trace shows a block by its outputs. So of a delay, a condition and `HALT_f`, which have none, nothing is
shown when they act. A probe is a `Modulo_Count` that is added to the block's own diagram. It is activated by
what activates the block, or by a branch of the block, and so the program tells in which reactions that is.
A probe has no inputs, can't stop a run and feeds nothing: no other block depends on it, and no value changes.
Objects are added at the end of their lists, so places stay; numbers of blocks may rise, but not change their
order.
"""
from __future__ import annotations

import copy
import json
from dataclasses import dataclass
from typing import Any

from scicos.flat import ACTIVATION, Flat, Place
from scicos.flat_wiring import INPUT, OUTPUT

COUNTER = {"evtin": [1], "ipar": [2], "dstate": [0], "out": [1], "outtyp": [8]}
BRANCHING = ("IFTHEL_f", "ESELECT_f")
ACTIVATED = ("EVTDLY_c", "EVTVARDLY", "HALT_f", "SELECT_m")


@dataclass(frozen=True)
class Probe:
    """What a probe is activated by: an activation input (side 1) or output (side 0) of a block, by the
    block's number in the design."""

    block: int
    side: int
    port: int


@dataclass(frozen=True)
class Probed:
    """A copy of a diagram with probes: its text, for each probe its number there, and for each other block
    that number's number in the design."""

    text: str
    probes: dict[Probe, int]
    numbers: dict[int, int]

    def to_json(self) -> str:
        """The copy as JSON."""
        return self.text


def wanted(flat: Flat) -> list[Probe]:
    """The probes by which it is told how often each block acts, which branch is taken, and which input of a
    `SELECT_m`.

    Example:
        >>> from scicos import flat
        >>> wanted(flat.read("examples/branches.json"))
        [Probe(block=1, side=1, port=1), Probe(block=3, side=0, port=1), Probe(block=3, side=0, port=2)]
    """
    found = []
    for block in flat.blocks:
        side = OUTPUT if block.kind in BRANCHING else INPUT
        if block.kind in BRANCHING + ACTIVATED:
            ports = block.item.ports(ACTIVATION, side)
            found += [Probe(block.number, side, port) for port in range(1, ports + 1)]
    return found


def objects_at(diagram: Any, place: Place) -> list[Any]:
    """The list of objects of the diagram at a place, () for the outermost."""
    for number in place:
        diagram = diagram["objs"][number - 1]["model"]["rpar"]
    objects: list[Any] = diagram["objs"]
    return objects


def links_of(objects: list[Any], at: int, probe: Probe, counter: int) -> list[dict[str, Any]]:
    """The links that activate a probe."""
    if probe.side == OUTPUT:
        return [{"obj": "Link", "from": [at, probe.port, 0], "to": [counter, 1, 1], "ct": [5, -1]}]
    feeding = [item for item in objects if item.get("obj") == "Link" and item["ct"][1] == ACTIVATION
               and item["to"][:2] == [at, probe.port]]
    return [{"obj": "Link", "from": link["from"], "to": [counter, 1, 1], "ct": [5, -1]} for link in feeding]


def probed(diagram: Any, flat: Flat, probes: list[Probe]) -> Probed:
    """A copy of a diagram that isn't refused, with these probes."""
    diagram = copy.deepcopy(diagram)
    places: dict[Place, Probe] = {}
    for probe in probes:
        block = flat.blocks[probe.block - 1]
        objects = objects_at(diagram, block.place[:-1])
        links = links_of(objects, block.place[-1], probe, len(objects) + 1)
        objects.append({"obj": "Block", "gui": "Modulo_Count", "model": COUNTER})
        places[block.place[:-1] + (len(objects),)] = probe
        objects.extend(links)
    text = json.dumps(diagram, separators=(",", ":"))
    numbers, found = {}, {}
    for inside in Flat(text).blocks:
        own = flat.block_at(inside.place)
        if inside.place in places:
            found[places[inside.place]] = inside.number
        elif own:
            numbers[inside.number] = own.number
    return Probed(text, found, numbers)
