"""What is common to making each block: looking at what feeds it, its ports, and its activation."""
from __future__ import annotations

import itertools
from collections.abc import Iterable, Sequence
from dataclasses import replace

from .integers import TYPES, IntType, Mode, mode_of, whole
from .kinds import KINDS, MOST_BLOCKS, MOST_ELEMENTS, MOST_TAGS
from .levels import INHERIT, Block, On, Size, current, default_event
from .origin import Origin, here, wrong
from .signals import Event, LaterEvent, LaterSignal, Signal, checked_events


def later(type: IntType, rows: int = 1, columns: int = 1) -> Signal:
    """A signal that is used now and told later: `x = later(int16)`, and below `x.feed(y)`; no block."""
    checked_type(type, "later")
    origin = here("later")
    level = current()
    made = LaterSignal(type, rows, columns, origin.name, origin.line, level)
    level.diagram.waiting.append(made)
    return made


def later_event() -> LaterEvent:
    """An event that is used now and told later: `go = later_event()`, and below `go.feed(e)`; no block."""
    origin = here("later")
    level = current()
    made = LaterEvent(origin.name, origin.line, level)
    level.diagram.waiting.append(made)
    return made


def checked_type(value: object, what: str) -> IntType:
    """The value as an integer type, or a DesignError."""
    if isinstance(value, str) and value in {known.name for known in TYPES}:
        raise wrong(f"{what} needs a type, and {value!r} is a text: write {value}, without quotes.")
    if not isinstance(value, IntType):
        raise wrong(f"{what} needs a type, and {value!r} is none. Take one of int8, int16, int32, uint8,"
                    " uint16 and uint32.")
    return value


def checked_signal(value: object, what: str) -> Signal:
    """The value as a signal of the open diagram, or a DesignError that says what was given instead."""
    if isinstance(value, Event):
        raise wrong(f"{what} takes a signal, and `{value.name}` ({value.line}) is an event.")
    if not isinstance(value, Signal):
        raise wrong(f"{what} takes a signal, and {value!r} is none. constant({value!r}, int32) makes one of a"
                    " number.")
    current().diagram.owns_signal(value, what)
    return value


def mode_number(mode: str | Mode | None) -> int:
    """The number of a mode; without one, that of the diagram."""
    return int(current().diagram.mode if mode is None else mode_of(mode))


def make(kind: str, word: str, inputs: Sequence[Signal | None] = (), *,
         outputs: Sequence[tuple[IntType, Size]] = (), events: int = 0, ipar: Iterable[int] = (),
         dstate: Iterable[int] = (), firing: Iterable[int] = (), on: On = None,
         acts: Sequence[On] | None = None, name: str | None = None, origin: Origin | None = None,
         input_types: Sequence[tuple[IntType, Size]] | None = None) -> Block:
    """Make a block in the level that is open, and look at all that the kind's row says of ports."""
    level = current()
    origin = origin or here(word)
    fed = [(one.type, one.size) for one in inputs if one is not None]
    block = Block(kind, level, origin, name, list(inputs), [], list(ipar), list(dstate), list(firing),
                  input_types=fed if input_types is None else list(input_types))
    block.activations = _activations(block, on, acts)
    level.reserve(name, origin.line)
    _look_at(block, len(outputs), events)
    block.signals = [Signal(block, port, type, *size) for port, (type, size) in enumerate(outputs, 1)]
    block.events = [Event(block, port) for port in range(1, events + 1)]
    for source in inputs:
        if source is not None and source.block is not None:
            source.block.taken += 1
    level.objects.append(block)
    return block


def _activations(block: Block, on: On, acts: Sequence[On] | None) -> list[list[Event]]:
    kind = KINDS.get(block.kind)
    found: list[list[Event]]
    if acts is not None:
        found = [checked_events(() if events is None else events, f"Activation input {port} of {block.kind}")
                 for port, events in enumerate(acts, 1)]
    elif kind is None or kind.activations[1] == 0:
        return []
    else:
        chosen = default_event() if on is None else on
        given = [] if chosen is None else checked_events(chosen, "on=")
        given = [event for event in given if event is not INHERIT]
        found = [given] if given or kind.activated else []
    for event in itertools.chain(*found):
        block.level.diagram.owns_event(event, f"`{block.name}`")
    return found


def _look_at(block: Block, outputs: int, events: int) -> None:
    kind = KINDS.get(block.kind)
    diagram = block.level.diagram
    if kind is None:
        diagram.tags += 1
        if diagram.tags > MOST_TAGS:
            raise wrong(f"A diagram has at most {MOST_TAGS} tags, and `{block.name}` would be one more.")
        return
    counts = (("inputs", kind.inputs, len(block.inputs)), ("outputs", kind.outputs, outputs),
              ("activation inputs", kind.activations, len(block.activations)),
              ("activation outputs", kind.events, events))
    for what, (least, most), count in counts:
        if not least <= count <= most:
            bounds = str(least) if least == most else f"{least} to {most}"
            raise wrong(f"`{block.name}` would have {count} {what}, and a {block.kind} has {bounds}.")
    diagram.blocks += 1
    if diagram.blocks > MOST_BLOCKS:
        raise wrong(f"A diagram has at most {MOST_BLOCKS} blocks, and `{block.name}` would be one more. Cut"
                    " the design into several diagrams.")


def look_at_size(rows: int, columns: int, what: str) -> Size:
    """The size of an output, or a DesignError where it is too large."""
    if whole(rows, "The rows") < 1 or whole(columns, "The columns") < 1 or rows * columns > MOST_ELEMENTS:
        raise wrong(f"{what} would have {rows} rows and {columns} columns, and an output has 1 to"
                    f" {MOST_ELEMENTS} elements. Take shorter vectors.")
    return (rows, columns)


def same(inputs: Sequence[Signal], what: str, sizes: bool = True) -> tuple[IntType, Size]:
    """The one type and size of several signals, or a DesignError that names the two that differ."""
    first = inputs[0]
    for other in inputs[1:]:
        if other.type is not first.type:
            raise wrong(f"{what} has signals of two types: `{first.name}` ({first.line}) is"
                        f" {first.type.name}, `{other.name}` ({other.line}) is {other.type.name}. Bring one"
                        " into the other's type by convert().")
        if sizes and other.size != first.size:
            raise wrong(f"{what} has signals of two sizes: `{first.name}` ({first.line}) is"
                        f" {first.rows}x{first.columns}, `{other.name}` ({other.line}) is"
                        f" {other.rows}x{other.columns}. mux(), demux() and extractor() make them one size.")
    return first.type, first.size


def scalar(signal: Signal, what: str) -> Signal:
    """The signal, or a DesignError where it is a matrix."""
    if signal.elements != 1:
        raise wrong(f"{what} takes a scalar, and `{signal.name}` ({signal.line}) is"
                    f" {signal.rows}x{signal.columns}. extractor() takes one element.")
    return signal


def feed_block(target: Signal, source: Signal) -> None:
    """Feed what `target` stands for: a signal that is told later, or the delay whose output it is."""
    checked_signal(target, "feed")
    checked_signal(source, f"{target.name}.feed")
    if isinstance(target, LaterSignal):
        if target.source is not None:
            raise wrong(f"`{target.name}` ({target.line}) is fed already, by `{target.source.name}`"
                        f" ({target.source.line}).")
        _must_fit(target.name, target.line, source, target.type, target.size)
        target.source = source
        block = source.block
        if block is not None and block.origin.name == f"{target.name}_next":
            block.origin = replace(block.origin, name=target.name)
        if source.block is not None:
            source.block.taken += 1
    else:
        assert target.block is not None
        feed_open(target.block, source)


def feed_open(block: Block, source: Signal) -> None:
    """Feed the first input of a block, which was left open."""
    checked_signal(source, f"{block.name}.feed")
    if not block.inputs or block.inputs[0] is not None:
        fed = block.inputs[0] if block.inputs else None
        by = f", by `{fed.name}` ({fed.line})" if fed is not None else ": it has no input that is open"
        raise wrong(f"`{block.name}` ({block.line}) is fed already{by}.")
    _must_fit(block.name, block.line, source, *block.input_types[0])
    block.inputs[0] = source
    if source.block is not None:
        source.block.taken += 1


def _must_fit(name: str, line: str, source: Signal, type: IntType, size: Size) -> None:
    if source.type is not type:
        raise wrong(f"`{name}` ({line}) is {type.name}, and `{source.name}` ({source.line}), which is to feed"
                    f" it, is {source.type.name}. Bring it into {type.name} by convert().")
    if source.size != size:
        raise wrong(f"`{name}` ({line}) is {size[0]}x{size[1]}, and `{source.name}` ({source.line}), which is"
                    f" to feed it, is {source.rows}x{source.columns}.")
