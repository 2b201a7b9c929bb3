"""What the builder knows to be wrong is an exception whose text says what, where, and what to do."""
from __future__ import annotations

import re
from collections.abc import Callable
from typing import Any

import pytest

import scicos as s
from scicos import DesignError, int8, int16, int32, uint8
from scicos.program import Program
from scicos.runs import simulate

x: s.Signal  # the sensor of each case: int16, of column 1
v: s.Signal  # a column of three int16
tick: s.Event


def drawn(body: Callable[[], Any]) -> s.Diagram:
    """A diagram with a clock, a sensor and a vector, and what the body draws."""
    global x, v, tick
    with s.Diagram("wrong") as design:
        tick = s.clock(5, name="tick")
        x = s.sensor(1, int16, on=tick, name="x")
        v = s.constant([1, 2, 3], int16, name="v")
        body()
    return design


CASES: list[tuple[str, Callable[[], Any], str]] = [
    ("two types", lambda: x + s.sensor(2, int8, on=tick, name="y"),
     r"`x` .* is int16, `y` .* is int8.*convert"),
    ("two sizes", lambda: x + v, r"`x` .* is 1x1, `v` .* is 3x1"),
    ("literal", lambda: x + 40000, r"40000, which int16 doesn't hold: it is from -32768 to 32767"),
    ("fraction", lambda: x * 0.3, r"0\.3.*scaled"),
    ("fraction in a sum", lambda: x + 0.3, r"0\.3 is none.*Q\(bits\)"),
    ("truth", lambda: x + True, r"True is none"),
    ("text", lambda: x < "a", r"compared by < with 'a'"),
    ("none", lambda: x == None, r"compared by == with None"),  # noqa: E711
    ("if", lambda: 1 if x > 3 else 2, r"no truth value while the diagram is drawn.*when\(\)"),
    ("chain", lambda: 1 < x < 3, r"no truth value"),
    ("div", lambda: x // 2, r"rounds toward zero.*quotient"),
    ("truediv", lambda: x / 2, r"quotient"),
    ("iteration", lambda: list(x), r"`x` .* is one signal"),
    ("element", lambda: x[0], r"extractor\(x, 1\)"),
    ("not of a truth", lambda: ~(x > 3), r"~1 isn't 0.*negation"),
    ("shift by a signal", lambda: x << x, r"`x` is a signal"),
    ("shift too far", lambda: x >> 16, r"is 16, and has to be from 0 to 15"),
    ("event added", lambda: tick + x, r"`tick` .* is an event"),
    ("event as a signal", lambda: s.gain(tick, 2),  # type: ignore
     r"takes a signal, and `tick` .* is an event"),
    ("event beside", lambda: x + tick, r"takes a signal, and `tick` .* is an event"),  # type: ignore
    ("signal as an event", lambda: s.counter(5, on=x), r"`x` .* is a signal. when\(x\)"),  # type: ignore
    ("signal in a union", lambda: tick | x, r"takes events, and `x` .* is a signal"),  # type: ignore
    ("event or not", lambda: tick and x, r"no truth value"),
    ("on what", lambda: s.hold(x, on="tick"), r"on= takes events, and 'tick' is none"),  # type: ignore
    ("number as a signal", lambda: s.saturation(5, 0, 9),  # type: ignore
     r"takes a signal, and 5 is none. constant"),
    ("no type", lambda: s.sensor(2, "int16", on=tick), r"needs a type, .*without quotes"),  # type: ignore
    ("no known type", lambda: s.sensor(2, int, on=tick),  # type: ignore
     r"needs a type, and .* is none. Take one"),
    ("remainder", lambda: x % 2, r"a & \(2\^n - 1\)"),
    ("power", lambda: x ** 2, r"a \* a for a square"),
    ("greatest by Python", lambda: max(x, x), r"greatest\(\) or least\(\)"),
    ("both branches", lambda: s.counter(5, on=s.when(x)), r"when\(\) gives two of them"),  # type: ignore
    ("a branch or an event", lambda: s.when(x) | tick, r"when\(\.\.\)\.then \| e"),
    ("an event or a branch", lambda: tick | s.when(x), r"gives two"),  # type: ignore
    ("a branch by its number", lambda: s.when(x)[0], r"when\(\.\.\)\.otherwise"),
    ("factor by a signal", lambda: s.gain(x, x), r"Take product\(x, x\)"),  # type: ignore
    ("bound by a signal", lambda: s.saturation(x, 0, x), r"Take least\(\) and greatest\(\)"),  # type: ignore
    ("switch by a signal", lambda: s.switch(x, ">", x, 0, x), r"Compare first"),  # type: ignore
    ("switch between numbers", lambda: s.switch(x, ">", 5, 0, 1), r"numbers alone has no type.*type=uint8"),
    ("switch of another type", lambda: s.switch(x, ">", 5, x, 1, type=int8), r"int8, and `x` .* is int16"),
    ("switch of a number", lambda: s.switch(x, ">", 5, 1, 300, type=uint8), r"300, which uint8 doesn't hold"),
    ("choice between numbers", lambda: s.choose((tick, 1), (tick, 0)), r"numbers alone has no type"),
    ("greatest number", lambda: s.greatest(1, 2), r"numbers alone has no type"),
    ("grant of a number", lambda: s.grant(3, "never acts"), r"halt\(\) or give\(\) return"),  # type: ignore
    ("switch by what", lambda: s.switch(x, "=>", 5, x, 1), r"one of >=, >, !=, <, <=, ==, and not by '=>'"),
    ("choice turned", lambda: s.choose((x, tick), (x, 1)),  # type: ignore
     r"in this order, and `x` .*signal"),
    ("mode", lambda: s.gain(x, 2, mode="clip"), r"mode 'clip' is none.*saturate"),
    ("bounds", lambda: s.saturation(x, 5, 4), r"low is 5, and high 4"),
    ("bound", lambda: s.saturation(x, 0, 40000), r"high is 40000, which int16 doesn't hold"),
    ("factor", lambda: s.gain(x, 2.5), r"2\.5 is none\. scaled\(x, 2\.5, bits=\.\.\)"),  # type: ignore
    ("constant", lambda: s.constant(256, uint8), r"256, which uint8 doesn't hold"),
    ("ragged", lambda: s.constant([[1, 2], [3]], uint8), r"rows of a matrix have to have one length"),
    ("mixed", lambda: s.constant([1, [2, 3]], uint8),  # type: ignore
     r"rows of a matrix have to have one length"),
    ("text as values", lambda: s.constant("12", uint8), r"whole number, and '12' is none"),  # type: ignore
    ("empty", lambda: s.constant([], uint8), r"0 rows"),
    ("too many elements", lambda: s.constant([0] * 257, uint8), r"257 rows .* 1 to 256 elements"),
    ("column twice", lambda: s.sensor(1, int16, on=tick), r"Column 1 has a sensor already, `x`"),
    ("column", lambda: s.sensor(256, int16, on=tick), r"is 256, and has to be from 1 to 255"),
    ("no clock", lambda: s.sensor(2, int16, name="y"), r"nothing activates `y`. Say on="),
    ("counter's base", lambda: s.counter(257, type=uint8, on=tick), r"257, and has to be from 1 to 256"),
    ("counter's first", lambda: s.counter(5, first=5, on=tick), r"5, and has to be from 0 to 4"),
    ("initial", lambda: s.delay(uint8, initial=-1), r"-1, which uint8 doesn't hold"),
    ("initial matrix", lambda: s.delay(uint8, initial=[[1, 2], [3, 4], [5, 6]], rows=2, columns=3),
     r"delay is 2x3, and its first values are 3x2"),
    ("initial values", lambda: s.delay(v, initial=[1, 2]), r"3 elements, and 2 first values"),
    ("open delay", lambda: s.delay(int32, on=tick, name="d"),
     r"^test_errors.py:\d+: the input of `d` is open"),
    ("open later", lambda: s.later(int32), r"^test_errors.py:\d+: `later` is told later, and never was"),
    ("open event", lambda: s.later_event(), r"^test_errors.py:\d+: `later` is told later, and never was"),
    ("fed twice", lambda: s.delay(x, on=tick, name="d").feed(x), r"`d` .* is fed already, by `x`"),
    ("no input", lambda: x.feed(x), r"`x` .* is fed already: it has no input that is open"),
    ("fed by another type", lambda: s.delay(int8, on=tick, name="d").feed(x),
     r"`d` .* is int8, and `x` .* is int16"),
    ("fed by another size", lambda: s.delay(int16, on=tick).feed(v), r"1x1, and `v` .* is 3x1"),
    ("scalar", lambda: s.when(v), r"when takes a scalar, and `v` .* is 3x1"),
    ("choices", lambda: s.choose((tick, x)), r"2 to 8 pairs.*1"),
    ("choice", lambda: s.choose((tick, x), (x, tick)), r"signal"),  # type: ignore
    ("table", lambda: s.logic(x, x, table=[0, 1, 1]), r"4 rows; here are 3"),
    ("table's values", lambda: s.logic(x, table=[0, 2]), r"0 and 1 alone"),
    ("operation", lambda: s.logical_op(x, operation="AND"), r"AND has 1 inputs here"),
    ("relation", lambda: s.relation(x, "=", 3), r"'=' is none: take one of =="),
    ("element's number", lambda: s.extractor(v, 4), r"4, and has to be from 1 to 3"),
    ("cut", lambda: s.demux(v, [1, 1]), r"3 elements, into parts of \[1, 1\]"),
    ("bits", lambda: s.extractbits(x, 5, 4), r"first bit is 5, and the last 4"),
    ("bit", lambda: s.bitset(x, 16), r"from 0 to 15"),
    ("signs", lambda: s.summation(x, x, signs=[1, 2]), r"one 1 or -1 for each"),
    ("one term", lambda: s.summation(x), r"2 to 64 inputs, and here are 1"),
    ("inputs", lambda: s.summation(*[x] * 65), r"65 inputs, and a SUMMATION has 2 to 64"),
    ("activated twice", lambda: s.choose((tick, x), (tick, x)).activated_by(tick),
     r"no single activation input"),
    ("period", lambda: s.clock(-1), r"period of a clock is -1"),
    ("union's block", lambda: (tick | tick).activated_by(tick), r"no block to be activated"),
    ("tag never given", lambda: s.take("drive", int16), r"\"drive\" is taken by .*, and never given"),
    ("tag's type", lambda: s.take("drive"), r"\"drive\" isn't given so far"),
    ("tag twice", lambda: (s.give("a", x), s.give("a", x)), r"\"a\" is given already, at test_errors.py:\d+"),
    ("tag of another type", lambda: (s.take("a", int8), s.give("a", x)),
     r"taken as int8, 1x1, and `x` .* is int16, 1x1"),
    ("fixed point", lambda: s.Q(15).of(1, int16), r"32768, which int16 doesn't hold"),
    ("no number", lambda: s.Q(4).of("a"), r"'a' is no number"),
    ("scaled out of the type", lambda: s.scaled(x, 2, bits=4), r"-65536 to 65534, which int16 doesn't hold"),
    ("scaled too far", lambda: s.scaled(s.convert(x, int32), 0.999, bits=31), r"needs more than int32"),
    ("name", lambda: s.gain(x, 2, name=""), r"name '' is none"),
]


@pytest.mark.parametrize(("body", "text"), [case[1:] for case in CASES], ids=[case[0] for case in CASES])
def test_error(body: Callable[[], Any], text: str) -> None:
    with pytest.raises(DesignError) as caught:
        drawn(body)
    told = str(caught.value)
    assert re.search(text, told), told
    assert re.match(r"test_errors.py:\d+: ", told), told
    assert told.endswith("."), told


def test_line_is_that_of_the_mistake() -> None:
    with pytest.raises(DesignError) as caught:
        with s.Diagram("line"):
            s.constant(300, uint8)
    assert str(caught.value).startswith(f"test_errors.py:{caught.traceback[0].lineno + 1}: ")


def test_two_diagrams() -> None:
    with s.Diagram("first"):
        clock = s.clock(5)
        other = s.sensor(1, int8, on=clock)
    with pytest.raises(DesignError,
                       match=r"`other` .* signal of another diagram, `first`; this one is `second`"):
        with s.Diagram("second"):
            s.gain(other, 2)
    with pytest.raises(DesignError, match=r"`clock` .* event of another diagram, `first`"):
        with s.Diagram("third"):
            s.sensor(1, int8, on=clock)


def test_outside_of_a_diagram() -> None:
    with pytest.raises(DesignError, match="No diagram is open"):
        s.clock(5)
    with s.Diagram("ended") as design:
        s.clock(5)
    with pytest.raises(DesignError, match="is finished"):
        with design:
            pass
    with pytest.raises(DesignError, match="is still open"):
        s.Diagram("open").to_json()


def test_a_run_of_an_open_diagram_is_told_at_its_line(program: Program) -> None:
    with s.Diagram("open") as design:
        s.clock(5)
        with pytest.raises(DesignError, match=r"^test_errors\.py:\d+: .* run it after its `with`"):
            simulate(design, until=5, program=program)


def test_what_is_no_design(program: Program) -> None:
    with pytest.raises(s.ScicosError, match="a Diagram or the path of its file, and not {'objs'"):
        simulate({"objs": []}, until=5, program=program)  # type: ignore


def test_a_failed_diagram_leaves_nothing_open() -> None:
    with pytest.raises(DesignError):
        with s.Diagram("failed"):
            s.constant(300, uint8)
    with pytest.raises(DesignError, match="No diagram is open"):
        s.clock(5)


def test_blocks_at_the_limit() -> None:
    with pytest.raises(DesignError, match="at most 2048 blocks"):
        with s.Diagram("many") as design:
            for _ in range(2048):
                s.constant(1, uint8)
            assert design.blocks == 2048
            s.constant(1, uint8)


def test_tags_at_the_limit() -> None:
    with pytest.raises(DesignError, match="at most 1024 tags"):
        with s.Diagram("tags"):
            one = s.constant(1, uint8)
            for number in range(1025):
                s.give(f"t{number}", one)


def test_levels_at_the_limit() -> None:
    @s.subsystem
    def deeper(depth: int) -> None:
        s.constant(1, uint8)
        if depth:
            deeper(depth - 1)

    with s.Diagram("deep"):
        deeper(14)
    with pytest.raises(DesignError, match="at most 16 levels"):
        with s.Diagram("deeper"):
            deeper(15)


def test_elements_at_the_limit() -> None:
    with pytest.raises(DesignError, match="65792 elements, and may have 65536"):
        with s.Diagram("elements"):
            for _ in range(257):
                s.constant([0] * 256, uint8)
