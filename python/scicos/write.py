"""The text of a diagram's file: an object a line, as the examples are written."""
from __future__ import annotations

import json
import textwrap
from collections.abc import Sequence
from typing import Any, Union

from .integers import IntType
from .levels import Block, Level, Size
from .signals import Signal
from .unions import Joint
from .wiring import Drawn, Port

WIDTH = 150


def text_of(drawn: Drawn) -> str:
    """The whole text, with a line feed at its end."""
    return "{\"objs\": [\n" + _objects(drawn, 1) + "\n]}\n"


def _objects(drawn: Drawn, depth: int) -> str:
    things = drawn.objects()
    numbers = {id(thing): number for number, thing in enumerate(things, 1)}
    lines = [_object(drawn, thing, depth) for thing in things]
    for link in drawn.links:
        source = [numbers[id(link.source[0])], link.source[1], 0]
        target = [numbers[id(link.target[0])], link.target[1], 1]
        kind = [5, -1] if link.activation else [1, 1]
        lines.append("  " * depth + f'{{"obj": "Link", "from": {source}, "to": {target}, "ct": {kind}}}')
    return ",\n".join(lines)


def _object(drawn: Drawn, thing: Union[Port, Block, Level, Joint], depth: int) -> str:
    indent = "  " * depth
    if isinstance(thing, Joint):
        model = {"evtin": [1] * len(thing.inputs), "evtout": [1]}
        return indent + _line(_head(thing.final, thing.line, "CLKSOM_f"), model, indent)
    if isinstance(thing, Port):
        return indent + _line(_head(thing.final, "", thing.gui), _port_model(thing), indent)
    if isinstance(thing, Block):
        head = _head(thing.final, thing.line, thing.kind, thing.grants, thing.outputs)
        return indent + _line(head, _block_model(thing), indent)
    inside = drawn.inside[id(thing)]
    outside = {"sim": "super", **_super_model(inside)}
    head = indent + _head(thing.final, thing.line, "SUPER_f", thing.grants) + "\n" + indent + '  "model": '
    body = _objects(inside, depth + 1)
    return head + json.dumps(outside)[:-1] + ', "rpar": {"objs": [\n' + body + "\n" + indent + "]}}}"


def _head(name: str, line: str, gui: str, grants: Sequence[str] = (), outputs: Sequence[int] = ()) -> str:
    fields: dict[str, Any] = {"obj": "Block", "name": name}
    if line:
        fields["line"] = line
    if grants:
        fields["grant"] = list(grants)
    if outputs:
        fields["output"] = list(outputs)
    return json.dumps({**fields, "gui": gui}, ensure_ascii=False)[:-1] + ","


def _line(head: str, model: dict[str, Any], indent: str) -> str:
    body = '"model": ' + json.dumps(model) + "}"
    if len(indent) + len(head) + 1 + len(body) <= WIDTH:
        return f"{head} {body}"
    lines = textwrap.wrap(body, WIDTH - len(indent) - 4, break_long_words=False, break_on_hyphens=False)
    return head + "".join(f"\n{indent}  {part}" for part in lines)


def _values(key: str, ports: list[tuple[IntType, Size]]) -> dict[str, list[int]]:
    """The fields of regular ports: rows, columns where any has several, and types."""
    if not ports:
        return {}
    fields = {key: [size[0] for _, size in ports]}
    if any(size[1] != 1 for _, size in ports):
        fields[key + "2"] = [size[1] for _, size in ports]
    fields[key + "typ"] = [type.code for type, _ in ports]
    return fields


def _shape(signals: list[Signal]) -> list[tuple[IntType, Size]]:
    return [(signal.type, signal.size) for signal in signals]


def _block_model(block: Block) -> dict[str, Any]:
    model: dict[str, Any] = {}
    for key, values in (("ipar", block.ipar), ("dstate", block.dstate), ("firing", block.firing)):
        if values:
            model[key] = values
    if block.activations:
        model["evtin"] = [1] * len(block.activations)
    if block.events:
        model["evtout"] = [1] * len(block.events)
    model.update(_values("in", block.input_types))
    model.update(_values("out", _shape(block.signals)))
    return model


def _port_model(port: Port) -> dict[str, Any]:
    model: dict[str, Any] = {"ipar": [port.number]}
    if isinstance(port.carried, Signal):
        model.update(_values("out" if port.gui == "IN_f" else "in", _shape([port.carried])))
    else:
        model["evtout" if port.gui == "CLKINV_f" else "evtin"] = [1]
    return model


def _super_model(inside: Drawn) -> dict[str, Any]:
    model: dict[str, Any] = {}
    for key, gui in (("evtin", "CLKINV_f"), ("evtout", "CLKOUTV_f")):
        if inside.of(gui):
            model[key] = [1] * len(inside.of(gui))
    for key, gui in (("in", "IN_f"), ("out", "OUT_f")):
        carried = [port.carried for port in inside.of(gui)]
        model.update(_values(key, _shape([one for one in carried if isinstance(one, Signal)])))
    return model
