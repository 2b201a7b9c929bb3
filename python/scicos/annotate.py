"""A twin of the generated C with comments: what each function, each variable and each value is in the drawing.

Each comment is a line of its own. Without these lines the text is what `ccode` prints, byte for byte; what is
proved is said of that text. A compiler takes both for the same program, since it drops comments.
"""
from __future__ import annotations

import os
import re
from collections.abc import Iterable, Iterator

from .c_names import comment
from .flat import Block, Design, Flat, read
from .kinds import KINDS
from .program import Program, design_file, find
from .reports import Shape, Source, schedules, shapes

_FUNCTION = re.compile(r"static void ([fs])([0-9]+)\(void\) \{")
_DECLARED = re.compile(r"static int64_t ([a-z][0-9]+)[;\[]")
_BY_BLOCK = re.compile(r"\b(v[345])\[INT64_C\(([0-9]+)\)\]")
_MAIN = "void sci_main(void) {"
_SHARED = {
    "static void g1(void) {": "before a reaction: no block is active, and none has taken a branch",
    "static void g2(void) {": "behind each reaction: what the active blocks tell and program, and their next states",
    "static void g3(void) {": "the next event: its date, or -1 where none is pending, and its source",
    "static void g4(void) {": "one event: the next one fires, or the end of the run is told",
    _MAIN: "the run: what it begins with, the reaction of start, and one event after another",
}
_HELD = {
    "v3": "v3, by block: which of its activation inputs are activated, bit p - 1 for input p",
    "v4": "v4, by block: 1 where it is active in this reaction",
    "v5": "v5, by block: the branch that it has taken in this reaction, 0 for none",
    "v6": "v6, by source of events: the date of its pending event, -1 for none",
    "v7": "v7, by source as v6: the number of that event in the order of programming",
    "v8": "v8, by group of 16 sources: 1 where it is known which of them comes first",
    "v9": "v9, by group of 16 sources: the one that comes first, from 0 on",
    "n1": "the most events",
    "i1": "how many events have fired",
    "d2": "the date of the next event, -1 where none is pending",
    "u1": "the last date",
    "d1": "the date of the reaction",
    "o1": "how many events were programmed",
    "b1": "the source whose event is the next, from 0 on",
    "k1": "a counter of sources or blocks",
    "e1": "a delay that an input gives, below 0 for none",
    "h1": "1 where a HALT_f was active",
}
_SCRATCH = "scratch of one block, or a counter of elements"
_STATE = re.compile(r" *v2\[(?:INT64_C\(([0-9]+)\)|\(t[0-9]+ \+ INT64_C\(([0-9]+)\)\))\] = ")
_TOLD = re.compile(r" *sci_val\(INT64_C\(([0-9]+)\), INT64_C\(([0-9]+)\), (?:INT64_C\(([0-9]+)\))?")


def annotated(design: Design, program: str | os.PathLike[str] | Program | None = None) -> str:
    """The C of a design with a comment above each function, each variable and what lies at its places, each value that
    is told, and each state that is assigned.

        >>> print(annotated("examples/counter.json"))  # doctest: +SKIP
        ..
        /* v1[1]: SUMMATION 3, output 1, int32[1x1] */
        ..
        /* SUMMATION 3, object 3, counter.json:4 */
        static void f3(void) {
        ..
    """
    called = find(program)
    with design_file(design) as path:
        text = called.text("ccode", path)
        twin = _Twin(read(design), shapes(called, path), list(schedules(called, path)), text)
    return "".join(part for line in text.splitlines(keepends=True) for part in (*twin.above(line), line))


def bare(text: str) -> str:
    """The text without its lines of comments: what `ccode` prints.

    >>> bare("/* the end */\\nint x;\\n")
    'int x;\\n'
    """
    return "".join(line for line in text.splitlines(keepends=True) if not line.lstrip().startswith("/*"))


class _Twin:
    """What the comments of one design speak of."""

    def __init__(self, flat: Flat, found: dict[int, list[Shape]], sources: list[Source], text: str) -> None:
        self.flat, self.shapes, self.sources = flat, found, sources
        self.blocks = {block.number: block for block in flat.blocks}
        self.by_block = sorted({(name, int(place)) for name, place in _BY_BLOCK.findall(text)})
        self.states = [(block, at) for block in flat.blocks for at in range(self.state_length(block))]
        self.within_main = False

    def state_length(self, block: Block) -> int:
        """How many values the state of a block has."""
        kind = KINDS.get(block.kind)
        if kind is None or not kind.state or kind.programs:
            return 0
        return len(block.item.numbers("dstate")) if block.kind == "REGISTER" else self.shapes[block.number][0].elements

    def above(self, line: str) -> Iterator[str]:
        """The comments above a line of C, with its indentation."""
        indent = line[:len(line) - len(line.lstrip())]
        for text in self.texts(line):
            yield f"{indent}/* {comment(text)} */\n"

    def texts(self, line: str) -> Iterator[str]:
        """What is said above a line."""
        function, told, state, declared = (it.match(line) for it in (_FUNCTION, _TOLD, _STATE, _DECLARED))
        self.within_main |= line.startswith(_MAIN)
        if declared:
            yield from self.variable(declared[1])
        elif line.rstrip() in _SHARED:
            yield _SHARED[line.rstrip()]
        elif function and function[1] == "f":
            yield self.block(self.blocks[int(function[2])])
        elif function:
            yield self.source(self.sources[int(function[2])])
        elif told:
            element = f", element {told[3]}" if told[3] else ""
            yield self.output(int(told[1]), int(told[2])) + element
        elif state:
            yield self.state(*self.states[int(state[1] or state[2])], state[1] is None)

    def variable(self, name: str) -> Iterator[str]:
        """What a variable holds; of an array also what lies at its places."""
        if name in ("v1", "v2"):
            yield from _spans(name, self.values() if name == "v1" else self.held())
        else:
            yield _HELD.get(name, _SCRATCH)
            yield from (f"{name}[{place}]: {text}" for place, text in self.places(name))

    def values(self) -> Iterator[tuple[str, int]]:
        """Each output, and how many values it has."""
        for number, outputs in self.shapes.items():
            for port, shape in enumerate(outputs, 1):
                yield self.output(number, port), shape.elements

    def held(self) -> Iterator[tuple[str, int]]:
        """The state of each block that has one, and how many values it has."""
        for block in self.flat.blocks:
            if self.state_length(block):
                yield f"the state of {self.called(block)}", self.state_length(block)

    def places(self, array: str) -> Iterator[tuple[int, str]]:
        """Whose the places of an array are: sources of events, or those blocks that the text names there."""
        if array == "v6":
            yield from enumerate(map(self.activating, self.sources[1:]))
        yield from ((place, self.called(self.blocks[place + 1])) for name, place in self.by_block if name == array)

    def state(self, block: Block, at: int, is_loop: bool) -> str:
        """The next state of a block, or its first one: the value at this place, or in a loop those from it on."""
        value = f", value {at + 1}" if self.state_length(block) > 1 else ""
        values = f", values from {at + 1} on" if is_loop else value
        return f"the {'first' if self.within_main else 'next'} state of {self.called(block)}{values}"

    def output(self, number: int, port: int) -> str:
        """An output, with its type and size."""
        return f"{self.called(self.blocks[number])}, output {port}, {self.shapes[number][port - 1]}"

    def block(self, block: Block) -> str:
        """A block, with its place in the drawing and its line in the file."""
        return f"{self.called(block)}, object {'/'.join(map(str, block.place))}, {self.flat.where(block.place)}"

    def called(self, block: Block) -> str:
        """A block's name where it has one, and its kind with its number."""
        name, kind = self.flat.name_of(block.place), f"{block.kind} {block.number}"
        return kind if name == kind else f"{name} ({kind})"

    def source(self, source: Source) -> str:
        """What begins a reaction."""
        if source == (0, 0):
            return "the reaction of start"
        return f"the reaction to the event of {self.activating(source)}"

    def activating(self, source: Source) -> str:
        """The activation output that a source of events is."""
        number, port = source
        return f"{self.called(self.blocks[number])}, activation output {port}"


def _spans(array: str, parts: Iterable[tuple[str, int]]) -> Iterator[str]:
    """Where in an array each of these parts lies, one behind the other, by its name and how many values it has."""
    first = 0
    for name, length in parts:
        last = first + length - 1
        yield f"{array}[{first}]" + (f" to {array}[{last}]" if last > first else "") + f": {name}"
        first = last + 1
