"""Superblocks: what crosses their borders, at every level, and tags. Traces are worked out by hand."""
from __future__ import annotations

import json
from dataclasses import dataclass
from typing import Any

import pytest
from drawing import checked, trace

import scicos as s
from scicos import int16, int32
from scicos.program import Program


def values(lines: list[str], block: int) -> list[int]:
    """The values of a block in a trace."""
    return [int(line.split()[4]) for line in lines if line.startswith(f"val {block} ")]


def number(design: s.Diagram, signal: s.Signal) -> int:
    """The number of a signal's block in a trace, of a diagram without tags."""
    return [id(block) for block in design.all_blocks()].index(id(signal.block)) + 1


def ports(design: s.Diagram, name: str, level: dict[str, Any] | None = None) -> dict[str, Any]:
    """The model of the superblock of this name."""
    for thing in (level or json.loads(design.to_json()))["objs"]:
        if thing.get("model", {}).get("sim"):
            if thing["name"] == name:
                return dict(thing["model"])
            found = ports(design, name, thing["model"]["rpar"])
            if found:
                return found
    return {}


@s.subsystem
def summed(u: s.Signal, tick: s.Event) -> s.Signal:
    """The sum of u over the activations of tick."""
    before = s.delay(int32, on=tick)
    total = before + u
    before.feed(total)
    return total


def test_arguments_and_results(program: Program) -> None:
    with s.Diagram("sum") as design:
        tick = s.clock(5)
        x = s.sensor(1, int32, on=tick)
        total = summed(x, tick)
        twice = 2 * total
    assert checked(program, design).startswith("ok 5 ")
    lines = trace(program, design, "[[1, 2, 3, 4]]", 15)
    assert values(lines, number(design, total)) == [1, 3, 6, 10]
    assert values(lines, number(design, twice)) == [2, 6, 12, 20]
    model = ports(design, "total")
    assert (model["in"], model["out"], model["evtin"]) == ([1], [1], [1])
    inside = [(one["gui"], one["name"]) for one in model["rpar"]["objs"] if one["obj"] == "Block"]
    assert inside == [("IN_f", "u"), ("CLKINV_f", "tick"), ("DOLLAR_m", "before"), ("SUMMATION", "total"),
                      ("OUT_f", "total_out")]


def test_what_is_used_of_outside_and_from_inside(program: Program) -> None:
    """A block deep inside uses a signal of the top, one of the level between, and one of another superblock.
    """
    with s.Diagram("deep") as design:
        tick = s.clock(5)
        x = s.sensor(1, int32, on=tick)
        kept: list[s.Signal] = []

        @s.subsystem
        def first() -> None:
            kept.append(s.gain(x, 10, name="tens"))

        @s.subsystem
        def outer() -> s.Signal:
            own = x + 1

            @s.subsystem
            def inner() -> s.Signal:
                count = s.counter(100, first=1, on=tick)
                return s.summation(x, own, kept[0], count, name="all")

            return inner()

        first()
        result = outer()
        last = s.hold(result, on=tick)
    assert checked(program, design).startswith("ok ")
    lines = trace(program, design, "[[3, 4, 5]]", 10)
    expected = [x + (x + 1) + 10 * x + count for x, count in ((3, 1), (4, 2), (5, 3))]
    assert values(lines, number(design, last)) == expected
    model = ports(design, "inner")
    entries = [one["name"] for one in model["rpar"]["objs"] if one.get("gui") == "IN_f"]
    assert sorted(entries) == ["own", "tens", "x"]


def test_events_cross_borders(program: Program) -> None:
    """An event from inside one superblock activates blocks in another, joined with an event from outside."""
    with s.Diagram("events") as design:
        slow = s.clock(10)

        @s.subsystem
        def source() -> s.Event:
            return s.clock(4, first=2)

        @s.subsystem
        def sink(event: s.Event) -> s.Signal:
            return s.counter(100, on=event)

        count = sink(source() | slow)
        count2 = s.hold(count, on=slow)
    lines = trace(program, design, until=12)
    dates = [line.split()[1] for line in lines if line.startswith("event")]
    assert dates == ["0", "2", "6", "10", "10"]
    assert values(lines, number(design, count)) == [0, 1, 2, 3, 4]
    assert values(lines, number(design, count2)) == [0, 3]
    assert ports(design, "count")["evtin"] == [1]


def test_feedback_through_two_superblocks(program: Program) -> None:
    """A signal that is told later goes into one superblock, and comes from another."""
    with s.Diagram("loop") as design:
        tick = s.clock(5)
        back = s.later(int32)

        @s.subsystem
        def plus_one(u: s.Signal) -> s.Signal:
            return s.summation(u, s.constant(1, int32), on=tick)

        @s.subsystem
        def delayed(u: s.Signal) -> s.Signal:
            return s.delay(u, initial=5, on=tick)

        forward = plus_one(back)
        back.feed(delayed(forward))
    lines = trace(program, design, until=10)
    assert values(lines, number(design, forward)) == [6, 7, 8]


def test_a_dataclass_and_a_dict_of_signals(program: Program) -> None:
    @dataclass
    class Motor:
        speed: s.Signal
        current: s.Signal

    @s.subsystem
    def model(motor: Motor, others: dict[str, list[s.Signal]]) -> dict[str, s.Signal]:
        return {"sum": motor.speed + motor.current, "first": s.gain(others["more"][0], 2)}

    with s.Diagram("fields") as design:
        tick = s.clock(5)
        a, b = s.sensor(1, int32, on=tick), s.sensor(2, int32, on=tick)
        made = model(Motor(a, b), {"more": [a]})
        s.hold(made["sum"], on=tick)
    inside = ports(design, "made")["rpar"]["objs"]
    assert [one["name"] for one in inside if one.get("gui") == "IN_f"] == ["motor_speed", "motor_current"]
    assert len([one for one in inside if one.get("gui") == "OUT_f"]) == 2
    assert checked(program, design).startswith("ok 6 ")


def test_an_argument_that_is_not_used_has_its_port(program: Program) -> None:
    @s.subsystem
    def ignoring(u: s.Signal, v: s.Signal) -> s.Signal:
        return s.gain(v, 3)

    with s.Diagram("ignored") as design:
        tick = s.clock(5)
        y = ignoring(s.sensor(1, int16, on=tick), s.sensor(2, int16, on=tick))
    assert ports(design, "y")["in"] == [1, 1]
    assert checked(program, design).startswith("ok 4 ")


def test_tags(program: Program) -> None:
    """A tag everywhere, one of a level, and one that is taken before it is given."""
    with s.Diagram("tags") as design:
        tick = s.clock(5)
        s.give("clock", tick, everywhere=True)
        early = s.take("level", int32)

        @s.subsystem
        def inside() -> s.Signal:
            x = s.sensor(1, int32, on=s.take_event("clock"))
            s.give("level", x)
            return s.gain(s.take("level"), 2, name="doubled")

        s.give("level", inside())
        shown = s.hold(early, on=tick)
    lines = trace(program, design, "[[3, 4]]", 5)
    assert values(lines, 4) == [6, 8]
    tags = {one["name"]: one["model"]["ipar"] for one in json.loads(design.to_json())["objs"]
            if "GOTO" in one.get("gui", "")}
    assert tags == {"give_clock": [1, 3], "give_level": [2, 1]}
    assert shown.name == "shown"


def test_a_tag_of_the_level_goes_before_one_of_everywhere(program: Program) -> None:
    with s.Diagram("scopes") as design:
        tick = s.clock(5)
        s.give("it", s.sensor(1, int16, on=tick), everywhere=True)

        @s.subsystem
        def inside() -> s.Signal:
            s.give("it", s.sensor(2, int32, on=tick))
            return s.take("it")

        @s.subsystem
        def beside() -> s.Signal:
            return s.take("it")

        own, other = s.hold(inside(), on=tick), s.hold(beside(), on=tick)
        assert (own.type, other.type) == (int32, int16)
    lines = trace(program, design, "[[7], [80000]]", 0)
    assert (values(lines, 4), values(lines, 5)) == ([80000], [7])


def test_a_tag_that_changes_behind_its_taking() -> None:
    """What is given in the level afterwards would go before what the type was taken of."""
    with pytest.raises(s.DesignError, match="taken as int16, 1x1, and .* is int32, 1x1"):
        with s.Diagram("changed"):
            tick = s.clock(5)
            s.give("it", s.sensor(1, int16, on=tick), everywhere=True)
            s.take("it")
            s.give("it", s.sensor(2, int32, on=tick))


def test_default_activation(program: Program) -> None:
    """Within `with on(..)` blocks are clocked, but for those that say otherwise, and constants."""
    with s.Diagram("default") as design:
        tick, other = s.clock(5), s.clock(7)
        with s.on(tick):
            x = s.sensor(1, int32)
            plus = x + 1
            held = s.hold(x, on=other)
            free = s.gain(x, 2, on=s.INHERIT)
        alone = x + 2
    models = {one["name"]: one["model"] for one in json.loads(design.to_json())["objs"]
              if one["obj"] == "Block"}
    clocked = {name for name, model in models.items() if "evtin" in model}
    assert clocked == {"tick", "other", "x", "plus", "held"}
    lines = trace(program, design, "[[3, 4]]", 5)
    assert values(lines, number(design, plus)) == [4, 5]
    assert values(lines, number(design, alone)) == [2, 5, 6]
    assert [values(lines, number(design, one)) for one in (held, free)] == [[3], [6, 8]]


def test_a_bad_argument_is_a_python_error() -> None:
    with pytest.raises(TypeError):
        with s.Diagram("bad"):
            summed(1, 2, 3)  # type: ignore


def unions(design: s.Diagram) -> list[tuple[str, int]]:
    """The unions that are drawn, in any level, each with the number of its inputs."""
    found = []
    waiting = [json.loads(design.to_json())]
    while waiting:
        for thing in waiting.pop()["objs"]:
            if thing.get("gui") == "CLKSOM_f":
                found.append((thing["name"], len(thing["model"]["evtin"])))
            elif thing.get("model", {}).get("sim"):
                waiting.append(thing["model"]["rpar"])
    return found


@pytest.mark.parametrize(("uses", "drawn"), [(1, []), (2, []), (3, [("often", 2)])])
def test_a_union_that_is_used_often_is_drawn(program: Program, uses: int, drawn: list[Any]) -> None:
    with s.Diagram("uses") as design:
        often = s.clock(4) | s.clock(6, first=1)
        counts = [s.counter(100, first=1, on=often) for _ in range(uses)]
    assert unions(design) == drawn
    lines = trace(program, design, until=8)
    assert [values(lines, number(design, count)) for count in counts] == [[1, 2, 3, 4, 5]] * uses


def test_unions_of_unions(program: Program) -> None:
    """A union comes into a superblock, is joined there with what it has and another event, and comes out."""
    @s.subsystem
    def inner(both: s.Event, first: s.Event) -> tuple[s.Event, s.Signal]:
        all_of_them = both | s.clock(3, first=2) | first
        for _ in range(3):
            s.counter(9, on=all_of_them)
        return all_of_them, s.counter(100, first=1, on=[all_of_them, both], name="inside")

    with s.Diagram("nested") as design:
        first = s.clock(10)
        told = s.later_event()
        out, inside = inner(told, first)
        outside = s.counter(100, first=1, on=out)
        told.feed(first, s.clock(7, first=4))
    assert unions(design) == [("told", 2), ("all_of_them", 2)]
    model = ports(design, "out_inside")
    assert (model["evtin"], model["evtout"]) == ([1, 1], [1])
    lines = trace(program, design, until=12)
    dates = [line.split()[1] for line in lines if line.startswith("event")]
    assert dates == ["0", "2", "4", "5", "8", "10", "11", "11"]
    for count in (inside, outside):
        assert values(lines, number(design, count)) == list(range(1, 9))
