"""Warnings about values: what nobody takes, what is shown nowhere, and what never changes."""
from __future__ import annotations

from collections.abc import Callable, Iterator

from .flat import REGULAR, Block, Item
from .flat_wiring import INPUT, OUTPUT, End, Port
from .integers import BY_CODE
from .lint_facts import CONDITIONS, START, Facts, Finding
from .reports import Source
from .rings import components

STOPS = {"overflow": "its exact result may be outside of its type", "zero": "its divisor may be 0"}
ALIKE = ("SUMMATION", "MAXMIN", "LOGICAL_OP", "RELATIONALOP", "SELECT_m", "MUX")


def not_taken(facts: Facts) -> Iterator[Finding]:
    """Outputs, tags, and ports of superblocks that nobody takes."""
    for block in facts.flat.blocks:
        outputs = facts.outputs(block)
        for port in range(1, outputs + 1):
            if port not in block.item.outputs and not facts.wiring.takers(block.number, port):
                yield Finding("not taken", block.place,
                              f"has an output{f' {port}' if outputs > 1 else ''} that nobody takes")
    for item in facts.flat.items():
        if item.kind == "GOTO" and not facts.wiring.takers_of.get(item.place):
            yield Finding("not taken", item.place,
                          f"gives the tag {item.numbers('ipar')[0]}, which nothing takes")
        elif (item.kind in ("FROM", "IN_f") and not item.outputs
              and not _is_taken(facts, Port(item.place, REGULAR, OUTPUT, 1))):
            what = ("stands for an input of a superblock that nothing inside reads" if item.kind == "IN_f"
                    else "takes a tag for nobody")
            yield Finding("not taken", item.place, what)
        elif item.inner:
            yield from _of_superblock(facts, item)


def _is_taken(facts: Facts, port: Port) -> bool:
    return any(facts.flat.block_at(other.place) for other in facts.wiring.reached(port))


def _of_superblock(facts: Facts, item: Item) -> Iterator[Finding]:
    """The outputs of a superblock that nobody takes, though what feeds them inside is taken otherwise."""
    for inside in item.inner.items if item.inner else []:
        if inside.kind != "OUT_f":
            continue
        port = (inside.numbers("ipar") or [1])[0]
        fed = [block for other in facts.wiring.leading(Port(inside.place, REGULAR, INPUT, 1))
               for block in [facts.flat.block_at(other.place)] if block]
        if not _is_taken(facts, Port(item.place, REGULAR, OUTPUT,
                                     port)) and any(_is_seen(facts, block) for block in fed):
            which = f" {port}" if item.ports(REGULAR, OUTPUT) > 1 else ""
            yield Finding("not taken", item.place, f"has an output{which} that nobody takes")


def _is_seen(facts: Facts, block: Block) -> bool:
    """Whether a block's values are taken, and it is no output of the design."""
    granted = {"not taken", "shown nowhere"} & facts.grants(block)
    return bool(_readers(facts, block.number)) and not granted and not block.item.outputs


def not_fed(facts: Facts) -> Iterator[Finding]:
    """Inputs of superblocks and of tags that nothing feeds."""
    for item in facts.flat.items():
        if not item.inner and item.kind not in ("GOTO", "OUT_f", "SPLIT_f"):
            continue
        for port in range(1, item.ports(REGULAR, INPUT) + 1):
            if Port(item.place, REGULAR, INPUT, port) not in facts.wiring.before:
                yield Finding("not fed", item.place, f"has nothing that feeds its input {port}")


def shown_nowhere(facts: Facts) -> Iterator[Finding]:
    """Rings of blocks whose values nobody sees: no output that stands open, and no condition or delay, needs
    them.

    What feeds an output of the design, or a block that grants this, is needed.
    """
    live = {block.number for block in facts.flat.blocks if _is_end(facts, block)}
    waiting = list(live)
    while waiting:
        block = facts.flat.block(waiting.pop())
        for end in facts.feeders(block) if block else []:
            if end.block not in live:
                live.add(end.block)
                waiting.append(end.block)
    after = {block.number: _readers(facts, block.number) for block in facts.flat.blocks
             if facts.outputs(block) and block.number not in live}
    for ring in components(after):
        ends = set[int]().union(*(after[number] for number in ring))
        block = facts.flat.block(min(ring))
        if block and ends <= ring:
            yield Finding("shown nowhere", block.place, "is shown nowhere: its values stay among "
                                                        f"{_some(facts, sorted(ring))}, of which none leads "
                                                        "to "
                                                        "an open output")


def _some(facts: Facts, numbers: list[int]) -> str:
    """The names of blocks, of many the first."""
    names = [facts.name(number) for number in numbers[:8]]
    return ", ".join(names) + (f" and {len(numbers) - 8} more" if len(numbers) > 8 else "")


def _is_end(facts: Facts, block: Block) -> bool:
    """Whether a block's values are needed by themselves."""
    is_open = any(not facts.wiring.takers(block.number, port) for port in range(1, facts.outputs(block) + 1))
    meant = bool(block.item.outputs) or "shown nowhere" in facts.grants(block)
    return bool(facts.events(block)) or is_open or meant


def _readers(facts: Facts, number: int) -> set[int]:
    """The blocks that a block's values feed."""
    return {end.block for kind, start in facts.wiring.starts_of(number) if kind == REGULAR
            for end in facts.wiring.takers(start.block, start.port)}


def same_input(facts: Facts) -> Iterator[Finding]:
    """Blocks of which two inputs have one and the same source."""
    for block in facts.flat.blocks:
        ports = [facts.wiring.source(block.number, port) for port in range(1, facts.inputs(block) + 1)]
        if block.kind == "SWITCH2_m":
            ports = [ports[0], *ports[2:3]] if len(ports) == 3 else []
        elif block.kind not in ALIKE and not (block.kind == "PRODUCT"
                                              and block.item.numbers("ipar")[1:2] == [-1]):
            ports = []
        for twice in sorted({end for end in ports if end and ports.count(end) > 1}):
            yield Finding("same input", block.place,
                          f"has two inputs that come from one output, of {facts.name(twice.block)}")


def same_block(facts: Facts) -> Iterator[Finding]:
    """Blocks that compute or remember what another one does, of the same inputs at the same events."""
    first: dict[object, Block] = {}
    for block in facts.flat.blocks:
        if not facts.inputs(block):
            continue
        told = [tuple(block.item.numbers(key))
                for key in ("ipar", "dstate", "firing", "intyp", "outtyp", "out")]
        feeders = tuple(facts.wiring.source(block.number, port) for port in range(1, facts.inputs(block) + 1))
        events = tuple(tuple(facts.wiring.activators(block.number, port))
                       for port in range(1, facts.activations(block) + 1))
        other = first.setdefault((block.kind, tuple(told), feeders, events), block)
        if other is not block:
            yield Finding("same block", block.place,
                          f"does what {facts.name(other.number)} does: both have the "
                                                     "same inputs, parameters and activation")


def decided(facts: Facts) -> Iterator[Finding]:
    """Conditions and switches that a constant decides, or a number that the type never passes."""
    for block in facts.flat.blocks:
        port = 1 if block.kind in CONDITIONS else 2 if block.kind in ("SWITCH2_m", "GATED_DELAY") else 0
        source = facts.wiring.source(block.number, port) if port else None
        if source and source.block in facts.constants:
            yield Finding("decided", block.place, "always decides alike, as it asks "
                                                  f"{facts.name(source.block)}, whose value never changes")
        elif source and block.kind == "SWITCH2_m":
            yield from _always_alike(block)


def _always_alike(block: Block) -> Iterator[Finding]:
    parameters, types = block.item.numbers("ipar"), block.item.numbers("intyp")
    kind = BY_CODE.get(types[1]) if len(types) > 1 else None
    if kind is None or len(parameters) != 2:
        return
    sign, number = parameters
    always = (number <= kind.least if sign == 0 else number < kind.least if sign == 1
              else not kind.holds(number))
    never = number > kind.greatest if sign == 0 else number >= kind.greatest if sign == 1 else False
    if always or never:
        sign_text = (">=", ">", "!=")[sign]
        yield Finding("decided", block.place,
                      f"{'always' if always else 'never'} gives its first input: a {kind.name} is "
                                              f"{'always' if always else 'never'} {sign_text} {number}")


def constant(facts: Facts) -> Iterator[Finding]:
    """Blocks that compute of constants alone, comparisons and states among them."""
    for block in facts.flat.blocks:
        feeders = facts.feeders(block)
        if feeders and facts.outputs(block) and block.number in facts.constants:
            names = ", ".join(dict.fromkeys(facts.name(end.block) for end in feeders))
            yield Finding("constant", block.place,
                          f"never changes its value, as it is computed of {names} alone")


def old_value(facts: Facts) -> Iterator[Finding]:
    """Blocks that read, at an event, what has no part in that event, without a hold or a delay between."""
    for block in facts.flat.blocks:
        if not facts.activations(block) or block.kind == "SAMPHOLD_m":
            continue
        for end, mine in _read(facts, block).items():
            theirs = facts.acting[end.block] - {START}
            missing = mine - theirs
            if end.block not in facts.constants and theirs and missing:
                yield Finding("old value", block.place,
                              f"reads at {facts.sources(missing)} an old value of {facts.name(end.block)}, "
                              f"which acts at {facts.sources(theirs)} alone; a SAMPHOLD_m shows that it is "
                              "meant")


def may_stop(facts: Facts) -> Iterator[Finding]:
    """Blocks that may stop a run by an overflow or a divisor of 0, where the ranges of signals are known."""
    for number, word in facts.ranges.stopping if facts.ranges else []:
        block = facts.flat.block(number)
        if block and word in STOPS:
            yield Finding("may stop", block.place, f"may stop a run, as {STOPS[word]}")


def _read(facts: Facts, block: Block) -> dict[End, set[Source]]:
    """What feeds a block, with the events at which it is read; by a `SELECT_m` only where its input may be
    chosen."""
    found: dict[End, set[Source]] = {}
    acting, chooses = facts.acting[block.number], block.kind == "SELECT_m"
    for port in range(1, facts.inputs(block) + 1):
        end = facts.wiring.source(block.number, port)
        if end:
            at = facts.activated_at(block.number, port) if chooses else acting
            found.setdefault(end, set()).update(at - {START})
    return found


CHECKS: dict[str, Callable[[Facts], Iterator[Finding]]] = {
    "not taken": not_taken, "not fed": not_fed, "shown nowhere": shown_nowhere, "same input": same_input,
    "same block": same_block, "decided": decided, "constant": constant, "old value": old_value,
    "may stop": may_stop}
