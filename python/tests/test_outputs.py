"""What leaves a design: what lint then doesn't ask, what file and header say; and counting of events."""
from __future__ import annotations

import json
from typing import Any

import pytest
from drawing import trace

import scicos as s
from scicos.flat import Flat
from scicos.header import header
from scicos.lint import lint, unknown_grants
from scicos.program import Program


def blocks(design: s.Diagram) -> dict[str, Any]:
    """The objects of the top, by name."""
    return {one["name"]: one for one in json.loads(design.to_json())["objs"] if one["obj"] == "Block"}


def kinds(design: s.Diagram, program: Program) -> list[tuple[str, tuple[int, ...]]]:
    return [(finding.kind, finding.place) for finding in lint(design, program)]


def test_only_what_leaves_is_not_asked_for(program: Program) -> None:
    """One of two outputs leaves the design; of the other lint asks who takes it."""
    with s.Diagram("two") as design:
        tick = s.clock(5)
        same, other = s.logic(s.counter(2, on=tick), table=[[0, 1], [1, 0]], name="truth")
        s.output(other)
    assert blocks(design)["truth"]["output"] == [2]
    assert [finding.text for finding in lint(design, program)] == ["has an output 1 that nobody takes"]
    assert "truth: LOGIC, int32[1x1], int32[1x1]" in header(design, program=program).text
    assert "; output 2 leaves the design */" in header(design, program=program).text


def test_rings_events_and_what_comes_later(program: Program) -> None:
    """Of a ring, of an event, of a signal that is told later, and of one that is taken by a tag."""
    def drawn(told: bool) -> s.Diagram:
        with s.Diagram("many") as design:
            tick = s.clock(5)
            total = s.counted(tick)
            seen = s.later(s.int8)
            pulse = s.timer(2, on=tick)
            back = s.take("far", s.int8)
            if told:
                s.output([total, pulse], seen)
                s.output(back)
            seen.feed(s.counter(10, type=s.int8, on=tick, name="seen"))
            s.give("far", s.counter(9, type=s.int8, on=tick, name="far"))
        return design

    found = {kind for kind, _ in kinds(drawn(False), program)}
    assert found == {"not taken", "shown nowhere", "event not taken"}
    assert kinds(drawn(True), program) == []
    told = {name: one.get("output") for name, one in blocks(drawn(True)).items()}
    assert {name for name, ports in told.items() if ports} == {"total", "pulse", "seen", "back", "far"}
    assert "seen: Modulo_Count, int8[1x1]" in header(drawn(True), program=program).text


def test_an_event_that_comes_out_of_a_superblock(program: Program) -> None:
    @s.subsystem
    def part(tick: s.Event) -> s.Event:
        return s.timer(2, on=tick)

    def drawn(told: bool) -> s.Diagram:
        with s.Diagram("out") as design:
            pulse = part(s.clock(5))
            if told:
                s.output(pulse)
        return design

    assert kinds(drawn(False), program) != [] == kinds(drawn(True), program)


@pytest.mark.parametrize(("things", "text"), [((), "at least one"), ((3,), "3 is none"),
                                              (("x",), "'x' is none")])
def test_what_is_no_output(things: tuple[Any, ...], text: str) -> None:
    with pytest.raises(s.DesignError, match=rf"output takes .*{text}"), s.Diagram("none"):
        s.output(*things)


def test_an_output_that_there_is_not() -> None:
    text = ('{"objs": [{"obj": "Block", "gui": "CONST_m", "output": [1, 2],'
            ' "model": {"ipar": 1, "out": 1, "outtyp": 3}}]}')
    assert [finding.text for finding in unknown_grants(Flat(text))] == [
        "says that its output 2 leaves the design, and has none"]


def test_counted(program: Program) -> None:
    """From 0 before the first event; behind the greatest value as the mode says."""
    with s.Diagram("counts", mode="saturate") as design:
        tick = s.clock(1)
        with s.on(s.clock(2, first=1)):
            late = s.counted()
        full = s.counted(tick, type=s.int8)
        round_ = s.counted(on=tick, type=s.int8, mode="wrap", name="round")
    names = [block.name for block in design.all_blocks()]
    assert names[2:5] == ["late_before", "late_constant", "late"] and "round_before" in names
    lines = trace(program, design, until=130)
    found: dict[str, list[int]] = {}
    for line in lines:
        if line.startswith("val"):
            found.setdefault(names[int(line.split()[1]) - 1], []).append(int(line.split()[4]))
    assert found["late"] == list(range(1, 66))
    assert found["full"] == [min(count, 127) for count in range(1, 132)]
    assert found["round"] == [(count + 128) % 256 - 128 for count in range(1, 132)]
    assert (late.type, full.type, round_.type) == (s.int32, s.int8, s.int8)


def test_counted_needs_an_event() -> None:
    with pytest.raises(s.DesignError, match="counted counts an event"), s.Diagram("none"):
        s.counted()
