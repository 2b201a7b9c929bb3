"""Runs of diagrams in plain Python, slowly and apart from the program: the trace, and the memory after each reaction.

The diagram has to be one that breaks no rule; the input file has to fit it.
"""
import importlib.machinery
import importlib.util
import json
import os
import sys
import types

import plain_kinds as kinds

HERE = os.path.dirname(os.path.abspath(__file__))
sys.path.insert(0, os.path.join(HERE, '..', 'python'))

from scicos.flat import REGULAR, Flat  # noqa: E402
from scicos.flat_wiring import Wiring  # noqa: E402


def script(name: str) -> types.ModuleType:
    """A script of this folder, as a module."""
    loader = importlib.machinery.SourceFileLoader(name, os.path.join(HERE, name))
    module = importlib.util.module_from_spec(importlib.util.spec_from_loader(name, loader))
    loader.exec_module(module)
    return module


PASSING = {'SPLIT_f', 'CLKSPLIT_f', 'CLKSOM_f', 'CLKSOMV_f', 'IN_f', 'OUT_f', 'CLKINV_f', 'CLKOUTV_f', 'GOTO', 'FROM', 'CLKGOTO', 'CLKFROM'}


def numbered(diagram, outer=()):
    """The blocks with their places, in the order of their numbers."""
    for at, item in enumerate(diagram['objs'], 1):
        if item['obj'] == 'Block':
            sim = item['model'].get('sim')
            if (sim[:1] if isinstance(sim, list) else [sim]) in (['super'], ['csuper']):
                yield from numbered(item['model']['rpar'], (*outer, at))
            elif item['gui'] not in PASSING:
                yield (*outer, at), item


class Ties:
    """Numbers that have to be one: of ports tied to each other, one declares it."""

    def __init__(self):
        self.parent, self.given = {}, {}

    def top(self, key):
        while key in self.parent:
            key = self.parent[key]
        return key

    def tie(self, one, other):
        one, other = self.top(one), self.top(other)
        if one != other:
            self.parent[one] = other
            if one in self.given:
                self.given[other] = self.given[one]

    def declare(self, block, key, number):
        """What a block's field says at a port: a number, or an unknown, which ties it to the others of that name in the block."""
        if number > 0:
            self.given[self.top(key)] = number
        elif number < 0:
            self.tie(key, (block, 'unknown', number))

    def number(self, key):
        return self.given[self.top(key)]


def numbers(value):
    """A list of numbers; one alone stands for a list of it."""
    return value if isinstance(value, list) else [value]


def edges(diagram):
    """The links between blocks, followed through superblocks, splits, unions and tags: kind, block and output, block and input."""
    for (kind, start), ends in Wiring(Flat(json.dumps(diagram))).feeds.items():
        for end in ends:
            yield kind, start.block, start.port, end.block, end.port


class Block:
    def __init__(self, number, item):
        model = item['model']
        field = {name: numbers(model.get(name, [])) for name in
                 ('in', 'in2', 'intyp', 'out', 'out2', 'outtyp', 'evtin', 'evtout', 'ipar', 'dstate', 'firing')}
        self.number, self.gui, self.dep_ut = number, item['gui'], model.get('dep_ut')
        self.ipar, self.dstate, self.firing = field['ipar'], field['dstate'], field['firing']
        self.evtin, self.evtout = len(field['evtin']), len(field['evtout'])
        self.declared = {side: list(zip(field[side + 'typ'] or [], field[side], field[side + '2'] or [1] * len(field[side]))) for side in ('in', 'out')}
        self.wires, self.feeds = [None] * len(self.declared['in']), [[] for _ in range(self.evtin)]
        self.ins = self.outs = []

    @property
    def is_constant(self):
        return not self.wires and not self.evtin

    @property
    def inherits(self):
        return bool(self.wires) and not self.evtin


class Net:
    """The flat diagram: its blocks by number, the source of each input, the feeds of each activation input, and for each source its blocks in order."""

    def __init__(self, diagram):
        found = list(numbered(diagram))
        self.blocks = {number: Block(number, item) for number, (_, item) in enumerate(found, 1)}
        for kind, start, port, end, entry in edges(diagram):
            if kind == REGULAR:
                self.blocks[end].wires[entry - 1] = (start, port)
            else:
                self.blocks[end].feeds[entry - 1].append((start, port))
        self.find_types()
        self.sources = [None] + [(b.number, p) for b in self.blocks.values() if b.gui not in kinds.SYNCHRONOUS for p in range(1, b.evtout + 1)]
        self.orders = {}

    def find_types(self):
        types, sizes = Ties(), Ties()
        for b in self.blocks.values():
            for side, ports in b.declared.items():
                for k, (kind, rows, cols) in enumerate(ports, 1):
                    types.declare(b.number, (b.number, side, k), kind)
                    sizes.declare(b.number, (b.number, side, k, 'rows'), rows)
                    sizes.declare(b.number, (b.number, side, k, 'columns'), cols)
            for k, (start, port) in enumerate(b.wires, 1):
                types.tie((b.number, 'in', k), (start, 'out', port))
                for part in ('rows', 'columns'):
                    sizes.tie((b.number, 'in', k, part), (start, 'out', port, part))
        for b in self.blocks.values():
            b.ins, b.outs = ([(types.number((b.number, side, k)), sizes.number((b.number, side, k, 'rows')), sizes.number((b.number, side, k, 'columns')))
                              for k in range(1, len(b.declared[side]) + 1)] for side in ('in', 'out'))

    def closed(self, found, branching):
        """The blocks that act with these: those that inherit from them and, if wanted, those on all branches of conditions."""
        found, grown = set(found), True
        while grown:
            more = {b.number for b in self.blocks.values() if b.number not in found and (
                b.inherits and any(start in found for start, _ in b.wires) or
                branching and any(start in found and self.blocks[start].gui in kinds.SYNCHRONOUS for feeds in b.feeds for start, _ in feeds))}
            found, grown = found | more, bool(more)
        return found

    def fed(self, source):
        """The blocks that an activation output feeds; those that start activates."""
        return {b.number for b in self.blocks.values() if (b.is_constant if source is None else any(source in feeds for feeds in b.feeds))}

    def order(self, source):
        """The blocks that may act at a source, by the longest chain of needs that ends at each and then by number."""
        if source not in self.orders:
            possible = self.closed(self.fed(source), True)
            reached = {(s, p): self.closed(self.fed((s, p)), False) for s in possible if self.blocks[s].gui in kinds.SYNCHRONOUS
                       for p in range(1, self.blocks[s].evtout + 1)}
            needs = {c: {start for k, (start, _) in enumerate(self.blocks[c].wires, 1) if kinds.feedthrough(self.blocks[c], k) and start in possible} |
                     {s for (s, _), blocks in reached.items() if c in blocks} for c in possible}
            depths, left = {}, set(possible)
            while left:
                ready = {c for c in left if all(b in depths for b in needs[c])}
                if not ready:
                    raise ValueError('an algebraic loop')
                depths.update({c: 1 + max([depths[b] for b in needs[c]], default=0) for c in ready})
                left -= ready
            self.orders[source] = sorted(possible, key=lambda c: (depths[c], c)), reached
        return self.orders[source]


class Run:
    """A run of a net: what it has observed, and its memory."""

    def __init__(self, net, columns):
        self.net, self.columns = net, columns
        self.states = {b.number: kinds.first_state(b) for b in net.blocks.values()}
        self.held = {b.number: kinds.first_held(b) for b in net.blocks.values()}
        self.cursors = {b.number: 0 for b in net.blocks.values()}
        self.fired = self.now = self.programmed = 0
        self.pending = []       # date, order, source
        for source in net.sources[1:]:
            firing = net.blocks[source[0]].firing
            if firing and firing[0] >= 0:
                self.program(firing[0], source)

    def program(self, date, source):
        self.programmed += 1
        self.pending = [event for event in self.pending if event[2] != source] + [(date, self.programmed, source)]

    def inputs(self, block, values):
        return [values[start][port - 1] for start, port in self.net.blocks[block].wires]

    def value(self, block, mask, values):
        b, reading = self.net.blocks[block], None
        if b.gui == 'SENSOR':
            column = self.columns[b.ipar[0] - 1]
            if self.cursors[block] >= len(column):
                raise kinds.NoValue('input')
            reading = column[self.cursors[block]]
        return kinds.out(b, self.states[block], mask, self.inputs(block, values), reading)

    def result(self, source):
        """The active blocks with their masks, and the values of all outputs."""
        blocks, (order, reached) = self.net.blocks, self.net.order(source)
        acting, taken, masks = self.net.closed(self.net.fed(source), False), {source}, {}
        values = dict(self.held)
        for number in order:
            if number in acting:
                b = blocks[number]
                masks[number] = sum(1 << p for p, feeds in enumerate(b.feeds) if any(feed in taken for feed in feeds))
                try:
                    values[number] = self.value(number, masks[number], values)
                except kinds.NoValue as stop:
                    raise kinds.NoValue('stop %s %d' % (stop, number))
                if b.gui in kinds.SYNCHRONOUS:
                    taken.add((number, kinds.branch(b, self.inputs(number, values))))
                    acting |= reached[number, kinds.branch(b, self.inputs(number, values))]
        return masks, values

    def reaction(self, source):
        """Lets a source react: the lines of what is observed, and whether the run halts; NoValue where it stops."""
        masks, values = self.result(source)
        for number in sorted(masks):
            b = self.net.blocks[number]
            for port in range(1, b.evtout + 1) if b.gui not in kinds.SYNCHRONOUS else ():
                later = kinds.delay(b, self.inputs(number, values))
                if later >= 0:
                    self.program(self.now + later, (number, port))
        self.states.update({number: kinds.following(self.net.blocks[number], self.states[number], self.inputs(number, values)) for number in masks})
        self.held = values
        for number in masks:
            self.cursors[number] += self.net.blocks[number].gui == 'SENSOR'
        lines = ['val %d %d %d %d' % (number, port, element, value) for number in sorted(masks)
                 for port, elements in enumerate(values[number], 1) for element, value in enumerate(elements, 1)]
        return lines, any(self.net.blocks[number].gui == 'HALT_f' for number in masks)

    def over(self, until, limit):
        """How the run ends here, if it does."""
        if self.fired >= limit:
            return 'end events'
        return 'end empty' if not self.pending else 'end until' if min(self.pending)[0] > until else None

    def step(self, source):
        """One reaction with its header, and the line that ends the run, if one does but for its bounds."""
        head = 'start' if source is None else 'event %d %d %d' % ((self.now,) + source)
        try:
            lines, halts = self.reaction(source)
        except kinds.NoValue as stop:
            return [head], str(stop)
        return [head] + lines, 'end halt' if halts else None

    def following(self):
        """Takes the next event."""
        event = min(self.pending)
        self.pending.remove(event)
        self.fired += 1
        self.now = event[0]
        return event[2]

    def reactions(self, until, limit, started=False):
        """Yields the lines of each reaction with the line that ends the run, if one does; from an image it goes on behind the last reaction."""
        source = None
        if started:
            end = self.over(until, limit)
            if end:
                yield [], end
                return
            source = self.following()
        while True:
            lines, end = self.step(source)
            end = end or self.over(until, limit)
            yield lines, end
            if end:
                return
            source = self.following()


def trace_of(reactions):
    """The text of reactions, and the status of the run."""
    lines = []
    for observed, end in reactions:
        lines += observed + ([end] if end else [])
    return ''.join(line + '\n' for line in lines), 6 if lines[-1].startswith('stop ') else 0
