"""Random drawings with superblocks are, block by block, the drawings without them: the same trace, and the
same C.
"""
from __future__ import annotations

import json
import random
from collections.abc import Callable
from typing import Any

import pytest
from drawing import trace

import scicos as s
from scicos import int32
from scicos.program import Program, design_file


class Drawer:
    """Draws the same blocks each time; `nested` says whether functions are superblocks."""

    def __init__(self, seed: int, nested: bool) -> None:
        self.random = random.Random(seed)
        self.nested = nested
        self.signals: list[s.Signal] = []
        self.events: list[s.Event] = []
        self.open: list[s.Signal] = []

    def signal(self) -> s.Signal:
        return self.random.choice(self.signals)

    def event(self) -> s.Event:
        first = self.random.choice(self.events)
        return first | self.random.choice(self.events) if self.random.random() < 0.3 else first

    def block(self) -> None:
        """One block of any of several kinds, which takes what was made before, wherever that stands."""
        pick = self.random.randrange(9)
        if pick == 0:
            self.signals.append(self.signal() + self.signal() - self.signal())
        elif pick == 1:
            self.open.append(s.delay(int32, initial=self.random.randint(-9, 9), on=self.event()))
            self.signals.append(self.open[-1])
        elif pick == 2:
            self.events.extend(s.when(self.signal(), on=self.event()))
        elif pick == 3:
            self.signals.append(s.counter(7, on=self.event()))
        elif pick == 4:
            self.signals.append(s.switch(self.signal(), ">", 2, self.signal(), self.signal()))
        elif pick == 5:
            self.events.append(s.timer(self.random.randint(1, 9), on=self.event()))
        elif pick == 6:
            self.signals.append(s.saturation(self.signal(), -50, 50, on=self.event()))
        elif pick == 7:
            self.signals.append(s.choose((self.event(), self.signal()), (self.event(), self.signal())))
        else:
            self.signals.append(s.hold(self.signal(), on=self.event()))

    def part(self, depth: int, *given: Any) -> Any:
        """Some blocks, and parts within them; what it returns is a result of the superblock."""
        for _ in range(self.random.randint(1, 6)):
            if depth < 3 and self.random.random() < 0.25:
                self.inner(depth + 1, self.signal(), [self.event()])
            else:
                self.block()
        return self.random.choice([self.signals[-1], (self.signals[0], self.events[-1]), None])

    def inner(self, depth: int, *given: Any) -> Any:
        part: Callable[..., Any] = s.subsystem(self.part) if self.nested else self.part
        return part(depth, *given)

    def drawn(self) -> s.Diagram:
        with s.Diagram("random") as design:
            self.events.append(s.clock(3))
            self.events.append(s.clock(5, first=1))
            self.signals.append(s.sensor(1, int32, on=self.events[0]))
            for _ in range(4):
                self.part(1)
            for one in self.open:
                one.feed(self.signal())
        return design


@pytest.mark.parametrize("seed", range(25))
def test_nested_is_flat(seed: int, program: Program) -> None:
    nested, flat = Drawer(seed, True).drawn(), Drawer(seed, False).drawn()
    assert '"super"' not in flat.to_json()
    with design_file(flat) as one, design_file(nested) as other:
        answers = [program.ask("ccode", one), program.ask("ccode", other)]
    if answers[0].status:  # a loop: both are refused by the same rule, with the same numbers of blocks
        told = [answer.err.split() for answer in answers]
        assert told[0][1:3] == told[1][1:3] == ["24", "AlgebraicLoop"] and told[0][5:] == told[1][5:]
        return
    assert answers[0] == answers[1]
    column = json.dumps([[(7 * k) % 23 - 9 for k in range(60)]])
    lines = trace(program, flat, column, 100)
    assert lines == trace(program, nested, column, 100)
    assert len(lines) > 100
