"""What the builder lets pass, the program takes, but for algebraic loops: random blocks of all kinds, types
and sizes.
"""
from __future__ import annotations

import random
from collections import Counter
from collections.abc import Callable
from typing import Any

from drawing import checked

import scicos as s
from scicos.integers import TYPES, IntType
from scicos.kinds import KINDS
from scicos.program import Program


class Anything:
    """Draws blocks whose parts are often unfit; what the builder refuses is passed over."""

    def __init__(self, seed: int) -> None:
        self.random = random.Random(seed)
        self.signals: list[s.Signal] = []
        self.events: list[s.Event] = []
        self.column = 0

    def number(self) -> int:
        return self.random.choice([-1, 0, 1, 2, 3, 7, 8, 31, 127, 128, 255, 256, -128, -129, 32767, 65536,
                                   2 ** 31 - 1, -2 ** 31, 2 ** 32])

    def type(self) -> IntType:
        return self.random.choice(TYPES)

    def signal(self) -> s.Signal:
        return self.random.choice(self.signals)

    def like(self, other: s.Signal) -> s.Signal:
        """Most often a signal of the same type and size."""
        fits = [one for one in self.signals if one.type is other.type and one.size == other.size]
        return self.random.choice(fits) if self.random.random() < 0.9 else self.signal()

    def event(self) -> s.Event:
        return self.random.choice(self.events)

    def on(self, always: bool = False) -> s.Event | None:
        ways = [self.event(), self.event() | self.event()]
        return self.random.choice(ways if always and self.random.random() < 0.99 else [None, *ways])

    def close(self, design: s.Diagram) -> None:
        """Feed what is open, and give each tag that is taken."""
        for block in list(design.all_blocks()):
            if block.inputs and block.inputs[0] is None:
                type, (rows, columns) = block.input_types[0]
                (block.signals or block.events)[0].feed(s.constant([[1] * columns] * rows, type))
        for few in range(1, 5):
            for body in (lambda: s.give(f"t{few}", s.constant(1, s.int16), everywhere=True),
                         lambda: s.give(f"e{few}", self.events[0], everywhere=True)):
                try:
                    body()
                except s.DesignError:
                    pass

    def values(self) -> Any:
        row = [self.random.choice([0, 1, 5, self.number()]) for _ in range(self.random.randint(1, 3))]
        return self.random.choice([row[0], row, [row, row]])

    def ways(self) -> list[Callable[[], Any]]:
        a = self.signal()
        b, c, n, m = self.like(a), self.like(a), self.number(), self.number()
        on, act = self.on(), self.on(always=True)
        mode = self.random.choice(["wrap", "saturate", "stop", None])
        few = self.random.randint(1, 4)
        kind: Any = self.random.choice([self.type(), a])
        self.column += 1
        column = self.column
        return [lambda: s.constant(self.values(), self.type()), lambda: a + b - c, lambda: a + n,
                lambda: n - a, lambda: s.summation(a, b, c, signs=[1, -1, -1], mode=mode, on=on),
                lambda: s.gain(a, n, mode=mode, on=on), lambda: a * b,
                lambda: s.quotient(a, b, mode=mode, on=on), lambda: abs(a), lambda: s.signum(a, on=on),
                lambda: s.least(a, b, on=on), lambda: s.greatest(a, n, on=on),
                lambda: s.saturation(a, n, m, on=on), lambda: s.deadband(a, n, m, mode=mode, on=on),
                lambda: s.convert(a, self.type(), mode=mode, on=on),
                lambda: s.mux(a, b, self.signal(), on=on), lambda: s.demux(a, [1] * few, on=on),
                lambda: s.demux(a, on=on),
                lambda: s.extractor(a, *[self.random.randint(1, 4) for _ in range(few)], on=on),
                lambda: a & b, lambda: ~a, lambda: s.both(a, b, c, on=on), lambda: s.negation(a, on=on),
                lambda: a < b, lambda: a == n, lambda: s.relation(a, ">=", b, type=self.type(), on=on),
                lambda: s.shift(a, n, on=on), lambda: a >> 3, lambda: s.rotate(a, n, on=on),
                lambda: s.bitset(a, n, on=on), lambda: s.bitclear(a, n, on=on),
                lambda: s.extractbits(a, 0, n, on=on), lambda: s.switch(self.signal(), ">", n, a, b, on=on),
                lambda: s.choose((self.event(), a), (self.event(), b)),
                lambda: s.choose((self.event(), a), (act, b)),
                lambda: s.logic(a, b, table=[[self.random.randint(0, 1)] * few for _ in range(4)],
                                type=self.type(), on=on), lambda: s.andlog(self.event(), self.event()),
                lambda: s.delay(a, initial=self.values(), on=on),
                lambda: s.delay(self.type(), initial=n, rows=few, on=on).feed(self.signal()),
                lambda: s.hold(a, on=on), lambda: s.register(kind, [n, 0, 1], on=on),
                lambda: s.counter(n, first=m, type=self.type(), on=act),
                lambda: s.gated_delay(kind, self.signal(), initial=n, on=on),
                lambda: s.sensor(column, self.type(), on=act), lambda: s.clock(n, first=m),
                lambda: s.timer(n, first=m, on=act), lambda: s.variable_timer(kind, first=n, on=act),
                lambda: tuple(s.when(a, on=on)), lambda: s.select(a, few, on=on), lambda: s.halt(on=act),
                lambda: s.scaled(a, n / 7, bits=few * 4, on=on),
                lambda: s.give(f"t{few}", a, everywhere=bool(few % 2)), lambda: s.take(f"t{few}"),
                lambda: s.give(f"e{few}", self.event(), everywhere=True), lambda: s.take_event(f"e{few}"),
                lambda: a.feed(b)]

    def keep(self, made: Any) -> None:
        for one in made if isinstance(made, tuple) else [made]:
            if isinstance(one, s.Signal):
                self.signals.append(one)
            elif isinstance(one, s.Event):
                self.events.append(one)

    def part(self, depth: int) -> Any:
        for _ in range(self.random.randint(5, 12)):
            try:
                if depth < 4 and self.random.random() < 0.1:
                    s.subsystem(self.part)(depth + 1)
                else:
                    self.keep(self.random.choice(self.ways())())
            except s.DesignError:
                pass
        return self.signals[-1], self.events[-1]

    def drawn(self) -> s.Diagram | None:
        """A diagram, or None where the builder refuses it at its end."""
        try:
            with s.Diagram("anything") as design:
                self.keep(s.clock(3))
                self.keep(s.sensor(200, s.int16, on=self.events[0]))
                self.keep(s.constant([1, 2, 3], s.int16))
                self.keep(s.constant(1, s.uint8))
                for _ in range(3):
                    self.part(1)
                self.close(design)
        except s.DesignError:
            return None
        return design


def test_what_passes_is_taken(program: Program) -> None:
    answers: Counter[str] = Counter()
    kinds: Counter[str] = Counter()
    for seed in range(150):
        design = Anything(seed).drawn()
        if design is None:
            answers["refused by the builder"] += 1
            continue
        told = checked(program, design)
        answers["ok" if told.startswith("ok ") else " ".join(told.split()[1:3])] += 1
        kinds.update(block.kind for block in design.all_blocks())
        assert told.startswith(("ok ", "refused 24 AlgebraicLoop")), (seed, told, design.to_json())
    assert answers["ok"] > 50, answers
    assert set(KINDS) <= set(kinds), set(KINDS) - set(kinds)
