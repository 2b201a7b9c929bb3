"""Pictures of a diagram's levels, for the report: in each a superblock is one box, which leads to its own.

Objects are drawn with their ports: regular inputs at the left, outputs at the right. Signals are solid,
activations dashed, what a refusal blames is of the class `blamed`.
"""
from __future__ import annotations

import functools
import html
from collections.abc import Iterator
from dataclasses import dataclass, field

from .draw import Marks
from .flat import (ACTIVATION, JOINTS, PORT_BLOCKS, REGULAR, TAG_OBJECTS, Flat, Item, Level, Link, Place,
                   place_text)
from .flat_wiring import INPUT, OUTPUT, Port, Wiring
from .report_words import brief

MOST_DRAWN, MOST_LINKS = 250, 350
"""How many objects and links of a level, or of the flat diagram, are drawn at most."""
PORTS_SHOWN = 64
HEAD = ["digraph level {", "  rankdir=LR;", "  nodesep=0.25;", "  ranksep=0.4;", '  bgcolor="transparent";',
        '  node [shape=plain, fontname="sans-serif", fontsize=11];',
        '  edge [fontname="sans-serif", fontsize=9, arrowsize=0.7];']


@dataclass
class Seen:
    """A diagram with what is known of it: the types of the outputs by number, and what is blamed."""

    flat: Flat
    wiring: Wiring
    types: dict[int, list[str]]
    marks: Marks = field(default_factory=Marks)
    place: Place = ()
    """The place that a refusal tells."""

    @functools.cached_property
    def links(self) -> dict[Place, list[Link]]:
        """The links by the places of their levels."""
        found: dict[Place, list[Link]] = {}
        for link in self.flat.links:
            found.setdefault(link.item.place[:-1], []).append(link)
        return found

    @functools.cached_property
    def ways(self) -> list[set[Port]]:
        """For each flat link that is blamed the ports along it."""
        return blamed_ports(self)


def levels(level: Level) -> Iterator[Level]:
    """A level and all that are inside of it, in the order of the file."""
    yield level
    for item in level.items:
        if item.inner:
            yield from levels(item.inner)


def links_of(seen: Seen, level: Level) -> list[Link]:
    """The links of a level."""
    return seen.links.get(level.place, [])


def drawn_objects(level: Level) -> list[Item]:
    """The objects of a level that are drawn."""
    return [item for item in level.items if item.is_block]


def blamed_ports(seen: Seen) -> list[set[Port]]:
    """For each flat link that a refusal blames the ports along it."""
    found = []
    for kind, start, end in sorted(seen.marks.links):
        one, other = seen.flat.block(start.block), seen.flat.block(end.block)
        if one and other:
            first, last = Port(one.place, kind, OUTPUT, start.port), Port(other.place, kind, INPUT, end.port)
            found.append((seen.wiring.reached(first) | {first}) & (seen.wiring.leading(last) | {last}))
    return found


def is_blamed(seen: Seen, item: Item) -> bool:
    """Whether a refusal blames an object, or what is inside of it."""
    inside = any(block.place[:len(item.place)] == item.place for number in seen.marks.blocks
                 for block in [seen.flat.block(number)] if block)
    return inside or seen.place == item.place


def own_name(seen: Seen, item: Item) -> str:
    """What an object is called within its level."""
    return item.name or seen.flat.name_of(item.place).rpartition(".")[2]


def clean(text: object) -> str:
    """A text within a label of Graphviz."""
    letters = "".join(letter if letter.isprintable() else " " for letter in str(text)[:120])
    return html.escape(letters) or " "


def small(text: object) -> str:
    """A small line of a label; nothing of nothing."""
    return f'<br/><font point-size="9">{clean(text)}</font>' if text else ""


def port_labels(item: Item, kind: int, side: int) -> list[str]:
    """How the ports of an object are called: of a superblock by the objects inside, of a sum by signs."""
    count = min(item.ports(kind, side), PORTS_SHOWN)
    labels = [str(port) for port in range(1, count + 1)]
    if item.inner:
        gui = {(REGULAR, INPUT): "IN_f", (REGULAR, OUTPUT): "OUT_f", (ACTIVATION, INPUT): "CLKINV_f",
               (ACTIVATION, OUTPUT): "CLKOUTV_f"}[kind, side]
        for inside in item.inner.items:
            at = (inside.numbers("ipar") or [0])[0]
            if inside.kind == gui and inside.name and 1 <= at <= count:
                labels[at - 1] = inside.name
    elif item.kind == "SUMMATION" and (kind, side) == (REGULAR, INPUT):
        signs = item.numbers("ipar")[1:]
        labels = ["−" if sign < 0 else "+" for sign in (signs + [1] * count)[:count]]
    return labels


def cells(item: Item, side: int) -> list[str]:
    """The cells of the regular ports on a side; of a superblock also those of its activation ports."""
    letter, align = ("i", "left") if side == INPUT else ("o", "right")
    regular, events = port_labels(item, REGULAR, side), port_labels(item, ACTIVATION, side)
    shown = regular if len(regular) > 1 or item.inner else []
    beside = events if item.inner or len(events) > 1 else []
    rows = [(f"{letter}{at}", label) for at, label in enumerate(shown, 1)]
    rows += [(f"a{letter}{at}", f"⚡ {label}") for at, label in enumerate(beside, 1)]
    return [f'<td port="{port}" align="{align}"><font point-size="9">{clean(label)}</font></td>'
            for port, label in rows]


def table(seen: Seen, item: Item) -> str:
    """The label of a block or a superblock: a table of its ports and its words."""
    block = seen.flat.block_at(item.place)
    head = f"{block.number} {item.kind}" if block and not item.name else own_name(seen, item)
    words = f"<b>{clean(head)}</b>"
    if block:
        words += small(f"{block.number} {item.kind}" if item.name else "")
        words += small(brief(item))
        types = list(dict.fromkeys(seen.types.get(block.number, [])))
        words += small(", ".join(types[:3]) + (" .." if len(types) > 3 else ""))
    else:
        words += small("superblock ›")
    words += small(f"at {place_text(item.place)}")
    left, right = cells(item, INPUT), cells(item, OUTPUT)
    height = max(len(left), len(right), 1)
    rows = []
    for at in range(height):
        row = left[at] if at < len(left) else "<td></td>" if left else ""
        row += f'<td rowspan="{height}" cellpadding="5">{words}</td>' if at == 0 else ""
        row += right[at] if at < len(right) else "<td></td>" if right else ""
        rows.append(f"<tr>{row}</tr>" if row else "")
    style = 'border="2" bgcolor="white"' if item.inner else 'border="1" style="rounded" bgcolor="white"'
    return f'<table {style} cellborder="0" cellspacing="0" cellpadding="3">{"".join(rows)}</table>'


def node(seen: Seen, item: Item) -> str:
    """The line of an object."""
    name = f"n{item.place[-1]}"
    look = ["class=blamed"] if is_blamed(seen, item) else []
    if item.kind in JOINTS:
        look += ['shape=point', 'width=0.07'] if "SOM" not in item.kind else \
            ['shape=circle', 'width=0.18', 'fixedsize=true', 'label="+"', 'fontsize=9']
    elif item.kind in PORT_BLOCKS | TAG_OBJECTS:
        number = next(map(str, item.numbers("ipar")), "?")
        what = f"tag {number}" if item.kind in TAG_OBJECTS else f"port {number}"
        words = f"{clean(item.name)}{small(what)}" if item.name else clean(what)
        look += ["shape=cds", 'margin="0.2,0.11"', f'label=<{words}{small(item.kind)}>']
    else:
        look += [f"label=<{table(seen, item)}>"]
    return f"  {name} [{', '.join(look)}];"


def end_of(item: Item, kind: int, side: int, port: int) -> str:
    """Where a link ends at an object: at the cell of the port where it has one."""
    name = f"n{item.place[-1]}"
    if item.kind in JOINTS | PORT_BLOCKS | TAG_OBJECTS:
        return name
    letter = "i" if side == INPUT else "o"
    count = min(item.ports(kind, side), PORTS_SHOWN)
    has_cell = (item.inner or count > 1) and 1 <= port <= count
    side_of = "w" if side == INPUT else "e"
    if kind == REGULAR:
        return f"{name}:{letter}{port}:{side_of}" if has_cell else f"{name}:{side_of}"
    return f"{name}:a{letter}{port}:{side_of}" if has_cell else name


def edge(seen: Seen, link: Link) -> str:
    """The line of a link."""
    start, end = seen.flat.item(link.start[0]), seen.flat.item(link.end[0])
    if start is None or end is None:
        return ""
    ports = {Port(link.start[0], link.kind, OUTPUT, link.start[1]),
             Port(link.end[0], link.kind, INPUT, link.end[1])}
    red = seen.place == link.item.place or any(ports <= way for way in seen.ways)
    classes = [*(["activation"] if link.kind == ACTIVATION else []), *(["blamed"] if red else [])]
    look = [f'class="{" ".join(classes)}"'] if classes else []
    look += ["style=dashed"] if link.kind == ACTIVATION else []
    look += ["dir=none"] if end.kind in JOINTS and "SOM" not in end.kind else []
    return (f"  {end_of(start, link.kind, OUTPUT, link.start[1])} -> "
            f"{end_of(end, link.kind, INPUT, link.end[1])}{' [%s]' % ', '.join(look) if look else ''};")


def graph(seen: Seen, level: Level) -> str:
    """The text of a level's picture for Graphviz."""
    lines = [*HEAD, *(node(seen, item) for item in drawn_objects(level)),
             *(edge(seen, link) for link in links_of(seen, level))]
    return "\n".join(filter(None, [*lines, "}"])) + "\n"
