"""Drawings of diagrams by Graphviz: the flat diagram, what is left when superblocks, splits, unions and tags
are followed.

Each block stands with its number, its kind, its place in the file and its outputs' types, as the program's
`map` tells them, and with its field `name` where it has one. Regular links are solid, activation links
dashed; ports are written where a block has several. A refused diagram is drawn too, as far as its file can be
read: the refusal stands below, and what it blames is red, of a loop its blocks and the links that close it.
"""
from __future__ import annotations

import re
import shutil
import subprocess
import textwrap
from dataclasses import dataclass, field

from .errors import MissingError, ScicosError, WordsError
from .flat import ACTIVATION, REGULAR, Block, Design, Flat, Place, place_of, place_text, read
from .flat_wiring import INPUT, OUTPUT, End, Port, Wiring
from .integers import BY_CODE
from .loops import Step, round_of, steps_from
from .program import Program, Refused, design_file, find

RED = ["color=red", "penwidth=2"]


@dataclass(frozen=True)
class Row:
    """A block as it is drawn: its number, its place, its kind, and the types of its outputs."""

    number: int
    place: str
    kind: str
    types: list[str]


@dataclass
class Marks:
    """What is blamed: blocks, links, and the words below the drawing."""

    blocks: set[int] = field(default_factory=set)
    links: set[tuple[int, End, End]] = field(default_factory=set)
    caption: str = ""


@dataclass(frozen=True)
class Drawing:
    """The text of a graph for Graphviz, and the refusal's sentence where the diagram is refused."""

    text: str
    refusal: str = ""

    def svg(self) -> bytes:
        """The picture. Raises MissingError where Graphviz isn't installed."""
        dot = shutil.which("dot")
        if not dot:
            raise MissingError("a picture needs the command dot of Graphviz, which isn't installed: apt-get "
                               "install graphviz")
        ran = subprocess.run([dot, "-Tsvg"], input=self.text.encode(), capture_output=True)
        if ran.returncode:
            said = ran.stderr.decode(errors="replace").strip() or "it says nothing"
            raise ScicosError(f"dot ended with status {ran.returncode}: {said}")
        return re.sub(rb"<!--.*?-->\n", b"", ran.stdout, flags=re.S)


def drawing(design: Design, program: Program | None = None, source: tuple[int, int] | None = None) -> Drawing:
    """The drawing of a diagram; with `source` the blocks that this output of a block may activate are
    coloured, (0, 0) is start.

    Example:
        >>> drawing("examples/first.json").text.splitlines()[6]
        '  b1 [label="1 EVTDLY_c\\\\nat 1"];'
    """
    program = find(program)
    with design_file(design) as path:
        flat = read(path)
        try:
            rows = [_row(line) for line in program.text("map", path).splitlines()]
            active = _scheduled(program.text("schedule", path).splitlines(), source) if source else {}
        except Refused as refused:
            return _of_refused(flat, refused)
    return Drawing(graph(flat, rows, Wiring(flat), active, Marks()))


def _of_refused(flat: Flat, refused: Refused) -> Drawing:
    from .messages import explained
    sentence = explained(refused, flat)
    wiring = Wiring(flat)
    rows = [Row(block.number, place_text(block.place), block.kind or "?", declared(block))
            for block in flat.blocks]
    marks = blamed(flat, wiring, refused)
    marks.caption = sentence
    return Drawing(graph(flat, rows, wiring, {}, marks), sentence)


def _row(line: str) -> Row:
    number, place, kind, *types = line.split()
    return Row(int(number), place, kind, types)


def declared(block: Block) -> list[str]:
    """The types of a block's outputs as the file declares them, with ? for what the program would have to
    find.
    """
    rows, columns, types = (block.item.numbers(key) for key in ("out", "out2", "outtyp"))
    found = []
    for port, size in enumerate(rows):
        code = types[port] if port < len(types) else 0
        across = columns[port] if port < len(columns) else 1
        name = BY_CODE[code].name if code in BY_CODE else "?"
        found.append(f"{name}[{size if size > 0 else '?'}x{across if across > 0 else '?'}]")
    return found


def blamed(flat: Flat, wiring: Wiring, refused: Refused) -> Marks:
    """What a refusal blames: the blocks and links of a loop, the block at its place, those inside a
    superblock, or those at the ends of a link.
    """
    refusal, marks = refused.refusal, Marks()
    if refusal.number == 24:
        loop = refusal.details[2:]
        marks.blocks = set(loop)
        marks.links = {(step.kind, step.start, step.end) for steps in round_of(wiring, loop)
                       for step in steps}
        marks.blocks |= {step.end.block for steps in round_of(wiring, loop) for step in steps}
        return marks
    place = refusal.place or ()
    item = flat.item(place)
    if item is not None and item.is_link:
        _mark_link(flat, wiring, place, marks)
    elif place:
        marks.blocks = {block.number for block in flat.blocks if block.place[:len(place)] == place}
    return marks


def _mark_link(flat: Flat, wiring: Wiring, place: Place, marks: Marks) -> None:
    """Marks the flat links that go along a link of the file, or the blocks at its ends where no flat link
    does.
    """
    for link in flat.links:
        if link.item.place != place:
            continue
        start, end = Port(link.start[0], link.kind, OUTPUT,
                          link.start[1]), Port(link.end[0], link.kind, INPUT, link.end[1])
        before, after = wiring.leading(start) | {start}, wiring.reached(end) | {end}
        for number in (block.number for block in flat.blocks):
            for step in steps_from(wiring, number):
                if _port(flat, step.kind, step.start,
                         OUTPUT) in before and _port(flat, step.kind, step.end, INPUT) in after:
                    marks.links.add((step.kind, step.start, step.end))
    item = flat.item(place)
    for key in ("from", "to"):
        end_at = item.fields.get(key) if item else None
        if isinstance(end_at, list) and end_at and isinstance(end_at[0], int):
            block = flat.block_at(place[:-1] + (end_at[0],))
            marks.blocks |= {block.number} if block else set()


def _port(flat: Flat, kind: int, end: End, side: int) -> Port | None:
    block = flat.block(end.block)
    return Port(block.place, kind, side, end.port) if block else None


def _scheduled(lines: list[str], source: tuple[int, int]) -> dict[int, list[str]]:
    """The blocks of one source with their conditions, none where a block is always active."""
    head = "source start" if source == (0, 0) else "source %d.%d" % source
    if head not in lines:
        raise WordsError("%d %d is no source of events: `schedule` lists them" % source)
    blocks: dict[int, list[str]] = {}
    within = False
    for line in lines:
        if line.startswith("source "):
            within = line == head
        elif within:
            number, *conditions = line.split()
            blocks[int(number)] = [] if conditions == ["always"] else conditions
    return blocks


def _quoted(text: str) -> str:
    """A text within a label."""
    text = "".join(letter if letter.isprintable() else " " for letter in text)
    return text.replace("\\", "\\\\").replace('"', '\\"')


def _several(steps: list[Step], kind: int, starts: bool) -> set[int]:
    """The blocks that have links of a kind at more than one port."""
    ends = [step.start if starts else step.end for step in steps if step.kind == kind]
    return {end.block for end in ends if end.port > 1}


def graph(flat: Flat, rows: list[Row], wiring: Wiring, active: dict[int, list[str]], marks: Marks) -> str:
    """The graph's text: a line for each block and each link."""
    lines = ["digraph diagram {", "  rankdir=LR;", "  nodesep=0.2;", "  ranksep=0.3;",
             '  node [shape=box, fontname="sans-serif", fontsize=11, margin="0.07,0.04", height=0];',
             '  edge [fontname="sans-serif", fontsize=9, arrowsize=0.7, labeldistance=1.4, labelangle=-35];']
    if marks.caption:
        told = "".join(_quoted(line) + "\\l" for line in textwrap.wrap(marks.caption, 90))
        lines.append(f'  graph [label="{told}", labelloc=b, labeljust=l, fontname="sans-serif", fontsize=11, '
                     'fontcolor=red];')
    lines += [_node(flat, row, active.get(row.number), row.number in marks.blocks) for row in rows]
    steps = ([step for row in rows
              for step in sorted(steps_from(wiring, row.number),
                                 key=lambda step: (-step.kind, step.start.port, step.end))])
    outs, ins = ({kind: _several(steps, kind, starts) for kind in (REGULAR, ACTIVATION)}
                 for starts in (True, False))
    for step in steps:
        look = [f'taillabel="{step.start.port}"'] if step.start.block in outs[step.kind] else []
        look += [f'headlabel="{step.end.port}"'] if step.end.block in ins[step.kind] else []
        look += ["style=dashed"] if step.kind == ACTIVATION else []
        red = (step.kind, step.start, step.end) in marks.links
        look += RED if red else ["color=firebrick"] if step.kind == ACTIVATION else []
        lines.append("  b%d -> b%d%s;" % (step.start.block, step.end.block,
                                          " [%s]" % ", ".join(look) if look else ""))
    return "\n".join(lines + ["}"]) + "\n"


def _node(flat: Flat, row: Row, conditions: list[str] | None, red: bool) -> str:
    """The line of a block."""
    item = flat.item(place_of(row.place))
    name = item.fields.get("name") if item else None
    parts = ["%d %s" % (row.number, _quoted(row.kind)), _quoted(name) if isinstance(name, str) else "",
             "at " + row.place] + row.types
    parts += ["if " + " or ".join(conditions)] if conditions else []
    look = [] if conditions is None else ["style=filled",
                                          "fillcolor=%s" % ("lightyellow" if conditions else "gold")]
    look += RED if red else []
    return '  b%d [label="%s"%s];' % (row.number, "\\n".join(part for part in parts if part),
                                      "".join(", " + part for part in look))
