"""Tables of truths: as rows, and as a function of the truths."""
from __future__ import annotations

import json

import pytest

import scicos as s
from scicos import DesignError


def table_of(design: s.Diagram) -> list[int]:
    """The parameters of the one LOGIC of a diagram."""
    objects = json.loads(design.to_json())["objs"]
    (found,) = [one["model"]["ipar"] for one in objects if one.get("gui") == "LOGIC"]
    assert isinstance(found, list)
    return found


def more(a: int, b: int) -> bool:
    return a > b


def bits_of_sum(a: int, b: int, c: int) -> tuple[int, int]:
    return divmod(a + b + c, 2)


def one_more(a: int) -> int:
    return a + 1


def test_a_function_gives_the_rows() -> None:
    with s.Diagram("more") as design:
        a, b = s.constant(1, s.int8), s.constant(0, s.int8)
        s.logic(a, b, table=more)
    assert table_of(design) == [0, 0, 1, 0]  # 0 > 0, 0 > 1, 1 > 0, 1 > 1


def test_a_function_of_several_outputs() -> None:
    with s.Diagram("sum of bits") as design:
        a = s.constant(1, s.int8)
        s.logic(a, a, a, table=bits_of_sum)
    assert table_of(design) == [0, 0, 0, 1, 0, 1, 1, 0, 0, 1, 1, 0, 1, 0, 1, 1]


def test_a_function_that_gives_no_truths() -> None:
    with s.Diagram("none"), pytest.raises(DesignError, match="0 and 1 alone"):
        s.logic(s.constant(1, s.int8), table=one_more)


def test_a_port_has_no_dot_in_its_name() -> None:
    @s.subsystem
    def halves(byte: s.Signal) -> tuple[s.Signal, ...]:
        return s.demux(byte, name="parts")

    with s.Diagram("ports") as design:
        halves(s.constant([1, 2], s.uint8), name="halves")
    inside = json.loads(design.to_json())["objs"][1]["model"]["rpar"]["objs"]
    names = [one["name"] for one in inside if one.get("gui") == "OUT_f"]
    assert names == ["parts_1_out", "parts_2_out"]
