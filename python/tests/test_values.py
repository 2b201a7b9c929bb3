"""Operators and fixed point: the values of runs are those of plain Python, also at the ends of the types."""
from __future__ import annotations

import json
import random
from collections.abc import Callable
from fractions import Fraction

import pytest
from drawing import trace

import scicos as s
from scicos import int8, int16, int32, uint8, uint16, uint32
from scicos.integers import TYPES, IntType
from scicos.program import Program


def run(program: Program, design: s.Diagram, signal: s.Signal, columns: list[list[int]]) -> list[int]:
    """The values of a signal at the dates of a clock, by runs of the program."""
    number = [id(block) for block in design.all_blocks()].index(id(signal.block)) + 1
    lines = trace(program, design, json.dumps(columns), 10 ** 9, len(columns[0]))
    first = next(k for k, line in enumerate(lines) if line.startswith("event"))
    return [int(line.split()[4]) for line in lines[first:] if line.startswith(f"val {number} ")]


def wrapped(value: int, kind: IntType) -> int:
    value %= 1 << kind.bits
    return value - (1 << kind.bits) if value > kind.greatest else value


def ends(value: int, kind: IntType) -> int:
    return min(max(value, kind.least), kind.greatest)


OPERATORS: list[tuple[str, Callable[[s.Signal, s.Signal], s.Signal], Callable[[int, int], int]]] = [
    ("+", lambda a, b: a + b, lambda a, b: a + b),
    ("-", lambda a, b: a - b, lambda a, b: a - b),
    ("a - 3 + b", lambda a, b: a - 3 + b, lambda a, b: a - 3 + b),
    ("3 - a", lambda a, b: 3 - a, lambda a, b: 3 - a),
    ("a - (b - a)", lambda a, b: a - (b - a), lambda a, b: 2 * a - b),
    ("*", lambda a, b: a * b, lambda a, b: a * b),
    ("3 * a", lambda a, b: 3 * a, lambda a, b: 3 * a),
    ("<", lambda a, b: a < b, lambda a, b: int(a < b)),
    ("<=", lambda a, b: a <= b, lambda a, b: int(a <= b)),
    (">", lambda a, b: a > b, lambda a, b: int(a > b)),
    (">=", lambda a, b: a >= b, lambda a, b: int(a >= b)),
    ("==", lambda a, b: a == b, lambda a, b: int(a == b)),
    ("!=", lambda a, b: a != b, lambda a, b: int(a != b)),
    ("5 < a", lambda a, b: 5 < a, lambda a, b: int(5 < a)),
    ("abs", lambda a, b: abs(a), lambda a, b: abs(a)),
]

BITS: list[tuple[str, Callable[[s.Signal, s.Signal], s.Signal], Callable[[int, int], int]]] = [
    ("&", lambda a, b: a & b, lambda a, b: a & b),
    ("|", lambda a, b: a | b, lambda a, b: a | b),
    ("^", lambda a, b: a ^ b, lambda a, b: a ^ b),
    ("6 & a", lambda a, b: 6 & a, lambda a, b: 6 & a),
    ("~", lambda a, b: ~a, lambda a, b: ~a),
    ("<<", lambda a, b: a << 2, lambda a, b: a << 2),
    (">>", lambda a, b: a >> 2, lambda a, b: a >> 2),
]


def samples(kind: IntType) -> tuple[list[int], list[int]]:
    """Pairs of values of a type, with its ends."""
    near = [kind.least, kind.least + 1, kind.greatest, kind.greatest - 1, 0, 1, 2, 5, 100]
    near += [-1, -3, -100] if kind.signed else [200]
    pairs = [(a, b) for a in near for b in near]
    return [a for a, _ in pairs], [b for _, b in pairs]


@pytest.mark.parametrize("mode", ["wrap", "saturate"])
@pytest.mark.parametrize(("drawn", "meant"), [case[1:] for case in OPERATORS],
                         ids=[case[0] for case in OPERATORS])
@pytest.mark.parametrize("kind", [int8, uint8, int32, uint32], ids=str)
def test_arithmetic(kind: IntType, drawn: Callable[[s.Signal, s.Signal], s.Signal],
                    meant: Callable[[int, int], int], mode: str, program: Program) -> None:
    left, right = samples(kind)
    with s.Diagram("operator", mode=mode) as design:
        tick = s.clock(1)
        made = drawn(s.sensor(1, kind, on=tick), s.sensor(2, kind, on=tick))
    bring = wrapped if mode == "wrap" else ends
    due = [bring(meant(a, b), kind) for a, b in zip(left, right)]
    assert run(program, design, made, [left, right]) == due


@pytest.mark.parametrize(("drawn", "meant"), [case[1:] for case in BITS], ids=[case[0] for case in BITS])
@pytest.mark.parametrize("kind", [int8, uint16], ids=str)
def test_bits(kind: IntType, drawn: Callable[[s.Signal, s.Signal], s.Signal],
              meant: Callable[[int, int], int], program: Program) -> None:
    left, right = samples(kind)
    with s.Diagram("bits", mode="saturate") as design:
        tick = s.clock(1)
        made = drawn(s.sensor(1, kind, on=tick), s.sensor(2, kind, on=tick))
    due = [wrapped(meant(a, b), kind) for a, b in zip(left, right)]
    assert run(program, design, made, [left, right]) == due


def test_types() -> None:
    """The six types by their codes and ends, as docs/FORMAT.md has them."""
    rows = [("int32", 3, -2147483648, 2147483647), ("int16", 4, -32768, 32767), ("int8", 5, -128, 127),
            ("uint32", 6, 0, 4294967295), ("uint16", 7, 0, 65535), ("uint8", 8, 0, 255)]
    assert [(kind.name, kind.code, kind.least, kind.greatest) for kind in TYPES] == rows


def test_q() -> None:
    assert [s.Q(15).of(0.3), s.Q(12).of(0.2), s.Q(16).of(0.002), s.Q(8).of(-0.5), s.Q(0).of(2.5)] == [
        9830, 819, 131, -128, 2]
    assert s.Q(8).value(128) == Fraction(1, 2)
    assert s.Q(12).error(0.2) == Fraction(819, 4096) - Fraction(1, 5)
    assert s.Q(4).of("1/3") == 5 and s.Q(4).of(Fraction(1, 3)) == 5


SCALED = [
    (int16, 0.2, 12, -20000, 20000, 4),   # by way of int32: convert, gain, shift, convert
    (int16, 0.5, 4, -100, 100, 2),        # fits: gain, shift
    (int32, 0.2, 12, -100000, 100000, 2),
    (int32, 0.2, 12, None, None, 7),      # in two parts
    (int32, -0.7, 15, None, None, 6),
    (int32, 0.9, 16, -2000000, 2000000, 7),
    (uint8, 0.3, 8, None, None, 4),
    (uint16, 0.999, 15, None, None, 4),
    (int8, 1.5, 6, -80, 80, 4),
    (int32, 3, 0, -1000, 1000, 1),
    (int32, 0.75, 20, 0, 5592405, 7),     # the sum of the parts is 2147483520 at most
]


@pytest.mark.parametrize(("kind", "factor", "bits", "least", "greatest", "blocks"), SCALED)
def test_scaled(kind: IntType, factor: float, bits: int, least: int | None, greatest: int | None, blocks: int,
                program: Program) -> None:
    """The exact product, rounded down once; in the mode that stops no block overflows in the range that is
    told.
    """
    low = kind.least if least is None else least
    high = kind.greatest if greatest is None else greatest
    drawn = random.Random(1)
    column = [low, low + 1, high, high - 1, 0, 1] + [drawn.randint(low, high) for _ in range(200)]
    column += [-1] if kind.signed else []
    with s.Diagram("scaled", mode="stop") as design:
        made = s.scaled(s.sensor(1, kind, on=s.clock(1)), factor, bits=bits, least=least, greatest=greatest)
    exact = round(Fraction(str(factor)) * 2 ** bits)
    assert run(program, design, made, [column]) == [value * exact // 2 ** bits for value in column]
    assert design.blocks == blocks + 2


def test_scaled_says_where_int32_is_too_small() -> None:
    """Also where each part fits, 2730 times 786432 and 2047 times 786432, and their sum is 2147745791."""
    with pytest.raises(s.DesignError, match="needs more than int32, also in two parts"):
        with s.Diagram("sum"):
            s.scaled(s.sensor(1, int32, on=s.clock(1)), 0.75, bits=20, least=0, greatest=2731 * 2048 - 1)
    with pytest.raises(s.DesignError, match="needs int32, which doesn't hold its range, 0 to 4294967295"):
        with s.Diagram("small"):
            s.scaled(s.sensor(1, uint32, on=s.clock(1)), 0.5, bits=4)


def test_matrices(program: Program) -> None:
    """Elements are counted down the columns: a matrix by rows, joined and cut again."""
    with s.Diagram("matrix") as design:
        tick = s.clock(1)
        table = s.constant([[1, 2, 3], [4, 5, 6]], int16)
        chosen = s.extractor(table, 3, 2)
        head, rest = s.demux(s.mux(chosen, s.sensor(1, int16, on=tick)), [1, 2])
        sums = s.hold(rest + 10 * rest, on=tick)
        s.hold(head, on=tick)
        moved = table * 2 + 100
    assert (table.size, rest.size, moved.size) == ((2, 3), (2, 1), (2, 3))
    lines = trace(program, design, "[[7]]", 0)
    values = [line for line in lines if line.startswith("val 2 ")]
    assert values == [f"val 2 1 {element} {value}" for element, value in enumerate([1, 4, 2, 5, 3, 6], 1)]
    number = [id(block) for block in design.all_blocks()].index(id(sums.block)) + 1
    assert lines[-4:-2] == [f"val {number} 1 1 44", f"val {number} 1 2 77"]


def test_a_switch_by_each_comparison(program: Program) -> None:
    """Also by those that the block lacks, for which its inputs change places."""
    given = [-2, -1, 0, 1, 2]
    comparisons: dict[str, Callable[[int], bool]] = {
        ">=": lambda a: a >= 0, ">": lambda a: a > 0, "!=": lambda a: a != 0,
        "<": lambda a: a < 0, "<=": lambda a: a <= 0, "==": lambda a: a == 0}
    for comparison, holds in comparisons.items():
        with s.Diagram("switch") as design:
            column = s.sensor(1, int16, on=s.clock(1))
            found = s.switch(column, comparison, 0, column, 7)
        assert run(program, design, found, [given]) == [a if holds(a) else 7 for a in given], comparison


def test_choices_between_numbers(program: Program) -> None:
    """`type=` says what a choice of numbers alone is."""
    with s.Diagram("numbers") as design:
        tick, other = s.clock(5), s.clock(5, first=2)
        x = s.sensor(1, s.int16, on=tick)
        hot = s.switch(x, ">", 3, 200, 7, type=s.uint8)
        last = s.choose((tick, 1), (other, -1), type=s.int8)
        most = s.greatest(4, 9, 2, type=s.int32)
    assert [one.type for one in (hot, last, most)] == [s.uint8, s.int8, s.int32]
    names = [block.name for block in design.all_blocks()]
    lines = trace(program, design, "[[3, 4, 3]]", 12)
    found = {name: [int(line.split()[4]) for line in lines if line.startswith(f"val {number} ")]
             for number, name in enumerate(names, 1)}
    assert (found["hot"], found["last"], found["most"]) == ([7, 7, 200, 7], [1, -1, 1, -1, 1, -1], [9])
