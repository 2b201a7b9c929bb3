"""Warnings about what acts and when: blocks, clocks, branches."""
from __future__ import annotations

from collections.abc import Callable, Iterator

from .flat import ACTIVATION, Block, Item
from .flat_wiring import INPUT, OUTPUT, Port, first_parameter
from .lint_facts import CONDITIONS, DELAYS, START, STATES, Facts, Finding
from .reports import Source
from .rings import ringed


def never_acts(facts: Facts) -> Iterator[Finding]:
    """Blocks in no row of `schedule`."""
    for block in facts.flat.blocks:
        if not facts.acting[block.number] and not (block.kind in DELAYS and _begins(block)):
            why = "nothing activates it" if facts.activations(block) else "nothing that feeds it ever acts"
            yield Finding("never acts", block.place,
                          f"can never act: {why}, so its outputs stay as they are at first")


def _begins(block: Block | Item) -> bool:
    """Whether a delay has a first date."""
    item = block.item if isinstance(block, Block) else block
    return any(date >= 0 for date in item.numbers("firing")[:1])


def not_activated(facts: Facts) -> Iterator[Finding]:
    """Activation inputs that nothing feeds, of blocks, superblocks, and what passes activations on."""
    for item in facts.flat.items():
        if not item.is_block or not (item.kind or item.inner) or (item.kind in DELAYS and _begins(item)):
            continue
        for port in range(1, item.ports(ACTIVATION, INPUT) + 1):
            if not _comes_from_block(facts, item,
                                     port) and not (item.inner and not _is_read(facts, item, port)):
                which = "its activation input" + (f" {port}" if item.ports(ACTIVATION, INPUT) > 1 else "")
                yield Finding("not activated", item.place, f"has nothing that feeds {which}")


def _comes_from_block(facts: Facts, item: Item, port: int) -> bool:
    return any(facts.flat.block_at(other.place)
               for other in facts.wiring.leading(Port(item.place, ACTIVATION, INPUT, port)))


def _is_read(facts: Facts, item: Item, port: int) -> bool:
    """Whether something inside of a superblock takes an activation input."""
    return any(facts.flat.block_at(other.place)
               for other in facts.wiring.reached(Port(item.place, ACTIVATION, INPUT, port)))


def event_not_taken(facts: Facts) -> Iterator[Finding]:
    """Delays whose event, and conditions whose branches, activate nothing; outputs and tags of activations
    that nobody takes.
    """
    for block in facts.flat.blocks:
        ports = [port for port in range(1, facts.events(block) + 1)
                 if facts.wiring.activated(block.number, port)]
        taken = {end.block for port in ports for end in facts.wiring.activated(block.number, port)}
        if facts.events(block) and taken <= {block.number} and not block.item.outputs:
            yield Finding("event not taken", block.place,
                          f"activates nothing{' but itself' if taken else ''} by its activation outputs")
    for item in facts.flat.items():
        if item.kind == "CLKGOTO" and not facts.wiring.takers_of.get(item.place):
            yield Finding("event not taken", item.place,
                          f"gives the tag {item.numbers('ipar')[0]}, which nothing takes")
        if item.kind in ("CLKFROM", "CLKINV_f") or item.inner:
            for port in range(1, item.ports(ACTIVATION, OUTPUT) + 1):
                if not _is_event_taken(facts, Port(item.place, ACTIVATION, OUTPUT, port)):
                    yield Finding("event not taken", item.place,
                                  f"gives activations at its output {port} that no block takes")


def _is_event_taken(facts: Facts, port: Port) -> bool:
    """Whether activations at a port come to a block, or leave the design."""
    if any(facts.flat.block_at(other.place) for other in facts.wiring.reached(port)):
        return True
    item = facts.flat.item(port.place)
    inside = item.inner.items if item and item.inner else []
    ends = [Port(one.place, ACTIVATION, INPUT, 1) for one in inside
            if one.kind == "CLKOUTV_f" and first_parameter(one) == port.number]
    before = [facts.flat.item(other.place) for end in ends for other in facts.wiring.leading(end)]
    return any(one.outputs for one in [item, *before] if one)


def fires_once(facts: Facts) -> Iterator[Finding]:
    """Clocks that fire once or never, and those that a first date makes fire, and afterwards another's events
    alone.
    """
    for block in facts.flat.blocks:
        if block.kind not in DELAYS:
            continue
        activators, first = facts.activators(block), block.item.numbers("firing")[:1]
        begins = _begins(block)
        if not activators and begins:
            yield Finding("fires once", block.place, f"fires once, at {first[0]}, as nothing activates it "
                                                     "again: a clock leads back to itself")
        elif block.kind == "EVTDLY_c" and block.item.numbers("ipar")[:1] == [-1] and activators:
            yield Finding("fires once", block.place,
                          "programs no event where it is activated, as its delay is -1")
        elif not begins and {end.block for end in activators} == {block.number}:
            yield Finding("fires once", block.place,
                          "never fires: its own event alone activates it, and it has no first date")


def not_a_clock(facts: Facts) -> Iterator[Finding]:
    """Delays with a first date that afterwards fire by other blocks alone."""
    again = ringed(_activates(facts))
    for block in facts.flat.blocks:
        origins = facts.activators(block)
        if block.kind in DELAYS and _begins(block) and origins and block.number not in again:
            by = facts.sources({(end.block, end.port) for end in origins})
            yield Finding("not a clock", block.place, f"fires at {block.item.numbers('firing')[0]} by "
                                                      f"itself, and afterwards by {by} alone: "
                                                      "a clock leads back to itself")


def _activates(facts: Facts) -> dict[int, set[int]]:
    """For each block those that its events or branches activate, or that inherit from these."""
    found: dict[int, set[int]] = {block.number: set() for block in facts.flat.blocks}
    for (kind, start), ends in facts.wiring.feeds.items():
        if kind == ACTIVATION:
            found[start.block] |= {end.block for end in ends}
    for source, rows in facts.schedule.items():
        if source[0] in found:
            found[source[0]] |= set(rows)
    return found


def no_time(facts: Facts) -> Iterator[Finding]:
    """Clocks of delay 0: their events never let the date pass."""
    for block in facts.flat.blocks:
        own = any(end.block == block.number for end in facts.activators(block))
        if own and block.kind == "EVTDLY_c" and block.item.numbers("ipar")[:1] == [0]:
            yield Finding("no time", block.place,
                          "fires again and again at one date, as its delay is 0 and it leads back to itself")


def two_clocks(facts: Facts) -> Iterator[Finding]:
    """Sensors that act at other events than the first sensor."""
    sensors = [block for block in facts.flat.blocks if block.kind == "SENSOR" and facts.acting[block.number]]
    told = [facts.acting[sensor.number] for sensor in sensors[:1]]
    for sensor in sensors[1:]:
        one, other = facts.acting[sensors[0].number], facts.acting[sensor.number]
        if other not in told:
            told.append(other)
            yield Finding("two clocks", sensor.place, f"takes its values at {facts.sources(other)}, and "
                                                      f"{facts.name(sensors[0].number)} at "
                                                      f"{facts.sources(one)}: the rows of the input file are "
                                                      "then no moments")


def activated_twice(facts: Facts) -> Iterator[Finding]:
    """Activation inputs to which one activation output leads twice, and blocks that one output activates at
    two inputs.
    """
    links: dict[tuple[Port, Port], int] = {}
    for link in facts.flat.links:
        ends = Port(link.start[0], link.kind, OUTPUT,
                    link.start[1]), Port(link.end[0], link.kind, INPUT, link.end[1])
        links[ends] = links.get(ends, 0) + 1
    for (start, end), count in links.items():
        if count > 1 and start.kind == ACTIVATION:
            yield Finding("activated twice", end.place,
                          f"has {count} links from {facts.flat.name_of(start.place)} to one activation input")
    for block in facts.flat.blocks:
        origins = facts.activators(block)
        for twice in sorted({end for end in origins if origins.count(end) > 1}):
            yield Finding("activated twice", block.place, "has two activation inputs that "
                                                          f"{facts.output((twice.block, twice.port))} "
                                                          "activates together")
        yield from _by_two_ways(facts, block)


def _by_two_ways(facts: Facts, block: Block) -> Iterator[Finding]:
    """An activation input that one output reaches by two links at its end."""
    for port in range(1, facts.activations(block) + 1):
        origins = facts.wiring.before.get(Port(block.place, ACTIVATION, INPUT, port), [])
        reach = [{other for other in facts.wiring.leading(origin) | {origin} if other.side == OUTPUT
                  and facts.flat.block_at(other.place)}
                 for origin in dict.fromkeys(origins)]
        for at, one in enumerate(reach):
            for common in sorted(set().union(*reach[:at]) & one):
                yield Finding("activated twice", block.place, "is activated by "
                                                              f"{facts.flat.name_of(common.place)} in two "
                                                              "ways at one activation input")


def both_branches(facts: Facts) -> Iterator[Finding]:
    """Blocks that all branches of one condition activate at one input, so that it decides nothing of them."""
    for block in facts.flat.blocks:
        for port in range(1, facts.activations(block) + 1):
            ends = facts.wiring.activators(block.number, port)
            for number in sorted({end.block for end in ends}):
                condition = facts.flat.block(number)
                ports = {end.port for end in ends if end.block == number}
                if condition and condition.kind in CONDITIONS and len(ports) == facts.events(condition):
                    yield Finding("both branches", block.place, "is activated by each branch of "
                                                                f"{facts.name(number)}, which so decides "
                                                                "nothing of it")


def branch_without_effect(facts: Facts) -> Iterator[Finding]:
    """Blocks that a branch activates, and that act anyway whatever it decides."""
    for block in facts.flat.blocks:
        if facts.activations(block) > 1:
            continue
        for end in sorted(set(facts.activators(block))):
            if facts.kind(end.block) not in CONDITIONS:
                continue
            shared = facts.acting[end.block]
            if shared and all(not facts.schedule[source].get(block.number, {(0, 0)}) for source in shared):
                yield Finding("branch without effect", block.place,
                              f"is activated by a branch of {facts.output((end.block, end.port))}, and acts "
                              "anyway, whatever that decides")


def never_stepped(facts: Facts) -> Iterator[Finding]:
    """States that are read, and act at start alone or never."""
    for block in facts.flat.blocks:
        acting = facts.acting[block.number]
        if block.kind in STATES and acting <= {START} and facts.wiring.takers(block.number, 1):
            readers = ", ".join(dict.fromkeys(facts.name(end.block)
                                              for end in facts.wiring.takers(block.number, 1)))
            when = "at start alone" if acting else "never"
            yield Finding("never stepped", block.place, f"is read by {readers}, and its state steps {when}")


CHECKS: dict[str, Callable[[Facts], Iterator[Finding]]] = {
    "never acts": never_acts, "not activated": not_activated, "event not taken": event_not_taken,
    "fires once": fires_once, "not a clock": not_a_clock, "no time": no_time,
    "two clocks": two_clocks, "activated twice": activated_twice, "both branches": both_branches,
    "branch without effect": branch_without_effect, "never stepped": never_stepped}
