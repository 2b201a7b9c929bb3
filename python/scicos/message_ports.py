"""Sentences for what is wrong between objects: links, feeding, types and sizes, loops (rules 12, 13, 15 to
20, 24, 25).
"""
from __future__ import annotations

from typing import Callable

from .conflicts import COLUMNS, INPUT, OUTPUT, ROWS, TYPE, Equals, Measure
from .flat import ACTIVATION, REGULAR, Item, whole
from .loops import Step, round_of
from .message_parts import SIDES, Told, plural, type_name

DIMENSIONS = {1: ROWS, 2: COLUMNS}
MOST = 40  # blocks of a loop, or steps of a way, that are told
NOUNS = {TYPE: "type", ROWS: "number of rows", COLUMNS: "number of columns"}


def _end(told: Told, item: Item, key: str, kind: int) -> tuple[str, str]:
    """An end of a link: what it is called, and what is wrong with it ('' where nothing is)."""
    end = item.fields.get(key)
    if not isinstance(end, list) or len(end) < 2 or not whole(end[0]) or not whole(end[1]):
        return f"{end!r}", "that is no list [object, port, side]"
    place = told.place[:-1] + (end[0],)
    other = told.flat.item(place)
    side = 0 if key == "from" else 1
    port = ("activation " if kind == ACTIVATION else "") + ("output" if side == 0 else "input")
    if other is None:
        return f"{port} {end[1]} of object {end[0]}", "there is no such object at this level"
    name = f"{port} {end[1]} of {told.flat.name_of(place)}"
    if not other.is_block:
        return name, "that object is no block"
    if len(end) > 2 and end[2] != side:
        return (name, f"the third number of `{key}` says "
                      f"{'an input' if end[2] == 1 else 'an output' if end[2] == 0 else end[2]}")
    count = other.ports(kind, side)
    return name, "" if 1 <= end[1] <= count else f"{told.flat.name_of(place)} has {plural(count, port)}"


def _link_end(told: Told) -> str:
    item = told.flat.item(told.place)
    if item is None:
        return f"{told.it} has an end that is no port; count objects and ports anew"
    where = f"the link {told.flat.name_of(told.place).removeprefix('link ')} ({told.flat.where(told.place)})"
    if told.detail(0) == 0:
        return (f"{where} has the type {told.detail(1)}; the second number of ct has to be 1 (regular) or -1 "
                "(activation)")
    kinds = item.fields.get("ct")
    kind = ACTIVATION if isinstance(kinds, list) and len(kinds) > 1 and kinds[1] == ACTIVATION else REGULAR
    start, end = _end(told, item, "from", kind), _end(told, item, "to", kind)
    bad = start if told.detail(0) == 1 else end
    reason = bad[1] or "that is no such port"
    return (f"{where} from {start[0]} to {end[0]} can't be there: {reason}; count objects and ports anew, "
            f"and mend `{'from' if told.detail(0) == 1 else 'to'}`")


def _input_twice(told: Told) -> str:
    at, port = told.place[:-1] + (told.detail(0),), told.detail(1)
    links = [link for link in told.flat.links if link.kind == REGULAR and link.end == (at, port)]
    origins = [f"output {link.start[1]} of {told.flat.name_of(link.start[0])} "
               f"({told.flat.where(link.item.place)})" for link in links[:2]]
    both = f": from {' and from '.join(origins)}" if len(origins) == 2 else ""
    return (f"{told.who(at)} has two links to its input {port}{both}; add both by a SUMMATION, or choose one "
            "by a SELECT_m or SWITCH2_m")


def _no_source(told: Told) -> str:
    return f"{told.it} has nothing that feeds its input {told.detail(0)}; link it, or feed it from a CONST_m"


def _column_twice(told: Told) -> str:
    first = next((block for block in told.flat.blocks if block.kind == "SENSOR"
                  and told.column_of(block.place) == told.detail(0)), None)
    other = told.who(first.place) if first else "another sensor"
    return (f"{told.it} takes column {told.detail(0)}, which {other} takes already; use one sensor, whose "
            "output may have several links")


def _measure(told: Told, side: int, port: int, what: int) -> Measure:
    block = told.flat.block_at(told.place)
    return Measure(block.number if block else 0, INPUT if side == 1 else OUTPUT, port, what)


def _conflict(told: Told, what: int, least: int, greatest: int, mend: str) -> str:
    """Both ends that declare what disagrees, and the way between them."""
    side, port = told.detail(0), told.detail(1)
    shown = (type_name(least), type_name(greatest)) if what == TYPE else (str(least), str(greatest))
    way = Equals(told.wiring).way(_measure(told, side, port, what), least, greatest)
    if not way:
        return (f"{told.it} has at {SIDES.get(side, 'port')} {port} a {NOUNS[what]} that would have to be "
                f"both {shown[0]} and {shown[1]}; {mend}")
    ends = [_declares(told, measure, text, what)
            for measure, text in ((way[0], shown[0]), (way[-1], shown[1]))]
    between = _way(told, way)
    return f"{ends[0]}, and {ends[1]}; both have to be one, as {between}; {mend}"


def _declares(told: Told, measure: Measure, value: str, what: int) -> str:
    text = (value if what == TYPE
            else f"{value} {'row' if what == ROWS else 'column'}{'' if value == '1' else 's'}")
    return (f"{told.block(measure.block)} declares {text} at "
            f"{'input' if measure.side == INPUT else 'output'} {measure.port}")


def _way(told: Told, way: list[Measure]) -> str:
    """The way from one measure to another, block by block."""
    steps = []
    for one, other in zip(way, way[1:]):
        if one.block == other.block and one.side == other.side == INPUT or one.block == other.block:
            steps.append(f"{told.short(one.block)} has one unknown at both of its ports")
            continue
        start, end = (one, other) if one.side == OUTPUT else (other, one)
        steps.append(f"output {start.port} of {told.short(start.block)} feeds input {end.port} of "
                     f"{told.short(end.block)}")
    if len(steps) > MOST:
        half = MOST // 2
        steps = steps[:half] + [f"so on, by {len(steps) - MOST} more steps"] + steps[-half:]
    return ", ".join(steps[:-1]) + " and " + steps[-1] if len(steps) > 1 else "".join(steps)


def _type_conflict(told: Told) -> str:
    return _conflict(told, TYPE, told.detail(2), told.detail(3),
                     "mend one of them, or put a CONVERT between them")


def _size_conflict(told: Told) -> str:
    what = DIMENSIONS.get(told.detail(2), ROWS)
    return _conflict(told, what, told.detail(3), told.detail(4),
                     "mend one of them, or put a MUX, DEMUX or EXTRACTOR between them")


def _open(told: Told, what: int) -> str:
    side, port = told.detail(0), told.detail(1)
    equals = Equals(told.wiring)
    others = list(dict.fromkeys(told.short(measure.block)
                                for measure in equals.one_of(_measure(told, side, port, what))))[1:6]
    along = (f", and none of what has to be equal to it declares one either ({', '.join(others)})" if others
             else "")
    field = {TYPE: ("intyp", "outtyp"), ROWS: ("in", "out"),
             COLUMNS: ("in2", "out2")}[what][0 if side == 1 else 1]
    return (f"{told.it} leaves the {NOUNS[what]} of {SIDES.get(side, 'port')} {port} open{along}; declare "
            f"it, in its {field} or at one of those")


def _loop(told: Told) -> str:
    """A loop as its path by names."""
    loop = told.refusal.details[2:]
    source = (told.detail(0), told.detail(1))
    when = "at start" if source == (0,
                                    0) else f"at the events of output {source[1]} of {told.short(source[0])}"
    if len(loop) == 1 and all(step.end.block == step.start.block for steps in round_of(told.wiring, loop)
                              for step in steps):
        path = f"{told.block(loop[0])} needs its own value{_ports(told, round_of(told.wiring, loop)[0])}"
    else:
        needs = []
        for needed, block, steps in zip(loop, loop[1:] + loop[:1], round_of(told.wiring, loop)):
            branch = bool(steps) and steps[0].kind == ACTIVATION
            needs.append(f"{told.block(block)} needs the {'branch' if branch else 'value'} of "
                         f"{told.short(needed)}{_through(told, steps)}")
        needs = (needs[:MOST] + [f"so on, through {plural(len(needs) - MOST, 'more block')}"]
                 * (len(needs) > MOST))
        path = ", ".join(needs[:-1]) + (" and " if len(needs) > 1
                                        else "") + needs[-1] if needs else "blocks need each other"
    return (f"an algebraic loop {when}: {path}, so none of them can be computed first; "
            "put a DOLLAR_m or a REGISTER into the loop, activated by none of the loop's branches")


def _ports(told: Told, steps: list[Step]) -> str:
    return f" at input {steps[0].end.port}" if steps else ""


def _through(told: Told, steps: list[Step]) -> str:
    """The blocks between, where a branch comes to a block by inheriting."""
    between = [told.short(step.end.block) for step in steps[:-1]]
    return f" through {', '.join(between)}" if between else ""


def _too_long(told: Told) -> str:
    return (f"{told.flat.file} has schedules of {told.detail(0)} entries and guards together, and 262144 are "
            "the most; "
            "let fewer sources activate many blocks")


RULES: dict[int, Callable[[Told], str]] = {
    12: _link_end, 13: _input_twice, 15: _no_source, 16: _column_twice, 17: _type_conflict,
    18: _size_conflict,
    19: lambda told: _open(told, TYPE), 20: lambda told: _open(told, DIMENSIONS.get(told.detail(2), ROWS)),
    24: _loop, 25: _too_long,
}
