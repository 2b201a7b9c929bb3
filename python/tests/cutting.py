"""What the tests of `extract` share: a flat diagram with some blocks drawn into a superblock, and traces held against each other."""
from __future__ import annotations

import json
import random
import tempfile
from pathlib import Path
from typing import Any

from scicos.extract import Extracted
from scicos.program import Program

Fields = dict[str, Any]
PORTS = {(1, True): "IN_f", (1, False): "OUT_f", (-1, True): "CLKINV_f", (-1, False): "CLKOUTV_f"}
FIELDS = {"IN_f": "in", "OUT_f": "out", "CLKINV_f": "evtin", "CLKOUTV_f": "evtout"}


def link(start: list[int], end: list[int], kind: int) -> Fields:
    return {"obj": "Link", "from": [*start[:2], 0], "to": [*end[:2], 1], "ct": [1, kind]}


def clocked(diagram: Fields, inside: list[int], draw: random.Random) -> None:
    """Lets each block inside that outside feeds be activated, so that it doesn't inherit across the border."""
    blocks = [fields for fields in diagram["objs"] if fields["obj"] == "Block"]
    links = [fields for fields in diagram["objs"] if fields["obj"] == "Link"]
    events = [(at, port) for at, fields in enumerate(blocks, 1) for port in range(1, len(fields["model"].get("evtout", [])) + 1)]
    for one in [one for one in links if one["ct"][1] == 1 and one["to"][0] in inside and one["from"][0] not in inside]:
        block = blocks[one["to"][0] - 1]
        if events and not block["model"].get("evtin") and "sim" not in block["model"]:
            block["model"]["evtin"] = [1]
            diagram["objs"].append(link(list(draw.choice(events)), [one["to"][0], 1], -1))


def wrapped(diagram: Fields, inside: list[int], name: str = "part") -> Fields:
    """The diagram with some of its blocks, by number, drawn into a superblock; each signal that crosses the border has a port."""
    blocks = [fields for fields in diagram["objs"] if fields["obj"] == "Block"]
    outer = [at for at in range(1, len(blocks) + 1) if at not in inside or at == min(inside)]
    top = {at: outer.index(at) + 1 for at in outer}
    inner = {at: number for number, at in enumerate(sorted(inside), 1)}
    box, level = top[min(inside)], [blocks[at - 1] for at in sorted(inside)]
    ports: dict[tuple[str, int, int], int] = {}
    links: tuple[list[Fields], list[Fields]] = ([], [])

    def port(gui: str, at: int, number: int) -> int:
        """The number of the port through which an output goes, and its object."""
        key = (gui, at, number)
        if key not in ports:
            ports[key] = sum(known[0] == gui for known in ports) + 1
            side = {"IN_f": {"out": [-1], "outtyp": [-1]}, "OUT_f": {"in": [-1], "intyp": [-1]}, "CLKINV_f": {"evtout": [1]},
                    "CLKOUTV_f": {"evtin": [1]}}
            level.append({"obj": "Block", "gui": gui, "name": f"{gui} {ports[key]}", "model": {"ipar": [ports[key]], **side[gui]}})
            kind, own = (1 if gui in ("IN_f", "OUT_f") else -1), len(level)
            if gui in ("IN_f", "CLKINV_f"):
                links[0].append(link([top[at], number], [box, ports[key]], kind))
            else:
                links[1].append(link([inner[at], number], [own, 1], kind))
            objects[key] = own
        return ports[key]

    objects: dict[tuple[str, int, int], int] = {}
    for one in [fields for fields in diagram["objs"] if fields["obj"] == "Link"]:
        (a, p), (b, q), kind = one["from"][:2], one["to"][:2], one["ct"][1]
        if a not in inside and b not in inside:
            links[0].append(link([top[a], p], [top[b], q], kind))
        elif a in inside and b in inside:
            links[1].append(link([inner[a], p], [inner[b], q], kind))
        elif b in inside:
            gui = PORTS[kind, True]
            port(gui, a, p)
            links[1].append(link([objects[gui, a, p], 1], [inner[b], q], kind))
        else:
            gui = PORTS[kind, False]
            links[0].append(link([box, port(gui, a, p)], [top[b], q], kind))
    model: Fields = {"sim": "super", "rpar": {"objs": level + links[1]}}
    for gui, key in FIELDS.items():
        model[key] = [1] * sum(known[0] == gui for known in ports)
    objs = [blocks[at - 1] if at not in inside else {"obj": "Block", "gui": "SUPER_f", "name": name, "model": model} for at in outer]
    return {"objs": objs + links[0]}


Reaction = tuple[int, tuple[int, int], dict[tuple[int, int, int], int]]


def reactions(program: Program, text: str, inputs: list[list[int]], until: int, events: int) -> tuple[list[Reaction], str]:
    """The reactions of a run: date, source, and values by block, port and element; and its last line. One that stops isn't there."""
    with tempfile.TemporaryDirectory() as work:
        design, file = Path(work) / "d.json", Path(work) / "i.json"
        design.write_text(text)
        file.write_text(json.dumps(inputs))
        answer = program.ask("simulate", design, file, until, events)
    assert answer.status in (0, 6), answer.err
    *lines, last = [line.split() for line in answer.out.decode().splitlines()]
    found: list[Reaction] = []
    for words in lines:
        if words[0] == "val":
            found[-1][2][int(words[1]), int(words[2]), int(words[3])] = int(words[4])
        else:
            found.append((int(words[1]), (int(words[2]), int(words[3])), {}) if words[0] == "event" else (0, (0, 0), {}))
    return (found[:-1] if last[0] == "stop" else found), " ".join(last)


def of_controller(found: list[Reaction], numbers: dict[int, int]) -> list[Reaction]:
    """What of a run of the whole diagram is due of the controller, by the numbers there."""
    known = {0: 0, **numbers}
    return [(date, (known[source[0]], source[1]), {(numbers[b], p, e): value for (b, p, e), value in values.items() if b in numbers})
            for date, source, values in found if source[0] in known]


def of_blocks(found: list[Reaction], numbers: dict[int, int]) -> list[Reaction]:
    """The reactions of a controller without the values of its sensors."""
    own = set(numbers.values())
    return [(date, source, {key: value for key, value in values.items() if key[0] in own}) for date, source, values in found]


def columns(made: Extracted, recorded: dict[int, list[int]], own: list[list[int]]) -> list[list[int]]:
    """The columns of a controller's input file: those recorded, and for its own sensors those of the whole diagram's."""
    count = max([len(own), *recorded])
    return [recorded.get(at, own[at - 1] if at <= len(own) else []) for at in range(1, count + 1)]
