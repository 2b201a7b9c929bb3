"""Stops as sentences: the inputs come from the program; the exact results and bounds were worked out by hand.
"""
from __future__ import annotations

import json
from pathlib import Path
from typing import Any

import pytest
from small import block, clock, condition, constant, counter, delay, event, gain, sensor, total, wire, written

from scicos import stops
from scicos.program import Program


def stopped(program: Program, folder: Path, objects: list[Any], columns: list[list[int]],
            until: int = 1000) -> str:
    """The sentence for the stop of a run."""
    path, inputs = written(folder, objects), folder / "i.json"
    inputs.write_text(json.dumps(columns))
    answer = program.ask("simulate", path, inputs, until, 1000)
    assert answer.status == 6, answer
    stop = stops.stop_of(answer.out)
    assert stop is not None
    return stops.explained(stop, path, inputs, until, program)


def test_an_overflow_with_a_state(program: Program, tmp_path: Path) -> None:
    """1, 3, 9, 27, 81, and then three times 81."""
    objects = [clock(), delay("before", 1, 5), gain("triple", 3, 5, 2), event([1, 1], [1, 1]),
               event([1, 1], [2, 1]), wire([2, 1], [3, 1]),
               wire([3, 1], [2, 1])]
    assert stopped(program, tmp_path, objects, []) == (
        "the run stopped at date 20: triple (GAINBLK, object 3, d.json:4) got 3 times 81 = 243, which is "
        "more than 127, the greatest int8 "
        "(before is 81); bound its inputs, take a wider type, or the mode 1 (saturate)")


ROWS: dict[str, tuple[Any, list[list[int]], str]] = {
    "SUMMATION": (total("block", 5, 2), [[100, -100], [20, -29]],
                  "got (-100) + (-29) = -129, which is less than -128, the least int8 (a is -100, b is -29)"),
    "PRODUCT": (block("PRODUCT", "block", ipar=[2, 1], in_=[1, 1], intyp=[5, 5], out=1, outtyp=5),
                [[11, 16], [11, 8]],
                "got 16 times 8 = 128, which is more than 127, the greatest int8 (a is 16, b is 8)"),
    "quotient": (block("PRODUCT", "block", ipar=[2, -1], in_=[1, 1], intyp=[5, 5], out=1, outtyp=5),
                 [[-128, -128], [1, -1]],
                 "got -128 over -1 = 128, which is more than 127, the greatest int8 (a is -128, b is -1)"),
    "zero": (block("PRODUCT", "block", ipar=[0, -1], in_=[1, 1], intyp=[5, 5], out=1, outtyp=5),
             [[7, 9], [2, 0]],
             "had to divide 9 by 0 (a is 9, b is 0)"),
}


@pytest.mark.parametrize("row", ROWS)
def test_each_kind_with_two_inputs(row: str, program: Program, tmp_path: Path) -> None:
    made, columns, due = ROWS[row]
    objects = [clock(), sensor(1, "a", 5), sensor(2, "b", 5), made, event([1, 1], [1, 1]),
               event([1, 1], [2, 1]), event([1, 1], [3, 1]),
               wire([2, 1], [4, 1]), wire([3, 1], [4, 2])]
    told = stopped(program, tmp_path, objects, columns)
    assert told.startswith(f"the run stopped at date 5: block ({made['gui']}, object 4, d.json:5) {due};")


ONE: dict[str, tuple[Any, int, str]] = {
    "ABS_VALUE": (block("ABS_VALUE", "block", ipar=2, in_=1, intyp=5, out=1, outtyp=5), -128,
                  "got the magnitude of -128 = 128, which is more than 127"),
    "DEADBAND": (block("DEADBAND", "block", ipar=[2, -100, -90], in_=1, intyp=5, out=1, outtyp=5), 100,
                 "got what 100 has outside of -100 to -90 = 190, which is more than 127"),
    "CONVERT": (block("CONVERT", "block", ipar=2, in_=1, intyp=5, out=1, outtyp=8), -3,
                "got the input -3 = -3, which is less than 0, the least uint8"),
}


@pytest.mark.parametrize("row", ONE)
def test_each_kind_with_one_input(row: str, program: Program, tmp_path: Path) -> None:
    made, value, due = ONE[row]
    objects = [clock(), sensor(1, "a", 5), made, event([1, 1], [1, 1]), event([1, 1], [2, 1]),
               wire([2, 1], [3, 1])]
    told = stopped(program, tmp_path, objects, [[1 if row == "CONVERT" else -95, value]])
    assert f"at date 5: block ({row}, object 3, d.json:4) {due}" in told and f"(a is {value})" in told


def test_an_element_at_start_and_a_held_input(program: Program, tmp_path: Path) -> None:
    vector = block("SUMMATION", "sum", ipar=[2, 1, 1], in_=[2, 2], intyp=[5, 5], out=2, outtyp=5)
    objects = [block("CONST_m", "pair", ipar=[1, 100], out=2, outtyp=5), vector, wire([1, 1], [2, 1]),
               wire([1, 1], [2, 2])]
    assert "at date 0 (at start): sum (SUMMATION, object 2, d.json:3) got 100 + 100 = 200 at element 2" in stopped(program, tmp_path, objects, [])


def test_a_sensor_at_start(program: Program, tmp_path: Path) -> None:
    """A constant lets a branch activate the sensor at start, and its column has one value."""
    objects = [constant(1, "one"), condition("if"), sensor(1, "u", 5), gain("big", 100, 5, 2), wire([1, 1], [2, 1]),
               event([2, 1], [3, 1]), wire([3, 1], [4, 1])]
    assert "at date 0 (at start): big (GAINBLK, object 4, d.json:5) got 100 times 100 = 10000" in stopped(
        program, tmp_path, objects, [[100]])


def test_an_input_that_is_held_from_before(program: Program, tmp_path: Path) -> None:
    """The counter of the fast clock is read where the slow clock alone acts: at 11 it holds what it had at 9.
    """
    objects = [clock("fast", 3), clock("slow", 11, 11), counter("count"), gain("big", 20, 3, 0),
               gain("small", 100, 3, 2)]
    objects[3]["model"].update(ipar=[0, 100000000])
    objects[4]["model"].update(evtin=1)
    objects += [event([1, 1], [1, 1]), event([2, 1], [2, 1]), event([1, 1], [3, 1]), wire([3, 1], [4, 1]),
                wire([4, 1], [5, 1]), event([2, 1], [5, 1])]
    assert "at date 11: small (GAINBLK, object 5, d.json:6) got 100 times 300000000 = 30000000000, which is more than 2147483647, the greatest int32 " \
        "(big is 300000000)" in stopped(program, tmp_path, objects, [])


def test_a_column_that_is_used_up(program: Program, tmp_path: Path) -> None:
    objects = [clock(), sensor(1, "speed"), event([1, 1], [1, 1]), event([1, 1], [2, 1])]
    assert stopped(program, tmp_path, objects, [[4, 5]]) == (
        "the run stopped at date 10: speed (SENSOR, object 2, d.json:3) took all 2 values of column 1 of "
        "i.json and needs another one; "
        "write more values, or end the run before")


def test_blocks_that_would_stop_too(program: Program, tmp_path: Path) -> None:
    """The first of three that have no result is told, with its inputs, though the two others would stop the
    run as well.
    """
    objects = [clock(), sensor(1, "a", 5), gain("first", 2, 5, 2), gain("second", 2, 5, 2),
               constant(0, "zero", 5),
               block("PRODUCT", "third", ipar=[0, -1], in_=[1, 1], intyp=[5, 5], out=1, outtyp=5),
               event([1, 1], [1, 1]), event([1, 1], [2, 1]),
               wire([2, 1], [3, 1]), wire([3, 1], [4, 1]), wire([3, 1], [6, 1]), wire([5, 1], [6, 2])]
    objects[5]["model"]["evtin"] = 1
    objects.append(event([1, 1], [6, 1]))
    assert "at date 0: first (GAINBLK, object 3, d.json:4) got 2 times 100 = 200" in stopped(program,
                                                                                             tmp_path,
                                                                                             objects,
                                                                                             [[100, 3]])


def test_a_stop_is_found_in_pieces() -> None:
    watch = stops.Watch()
    for piece in (b"start\nval 1 1 1 3\nevent 0 2 1\n", b"val 3 1 1 4\nevent 7 2 1\n", b"stop zero 4\n"):
        watch.take(piece)
    assert watch.stop == stops.Stop("zero", 4, 7, 3)
    assert stops.stop_of(b"start\nend empty\n") is None


def test_parts_whose_sizes_are_inferred(program: Program, tmp_path: Path) -> None:
    """Of the four elements 1, 2, 3, 100 the second part has the last three, though the file doesn't say so."""
    demux = block("DEMUX", "cut", in_=4, intyp=5, out=[-1, -2], outtyp=[5, 5])
    ends = [block("GAINBLK", f"part {rows}", ipar=[0, 1], in_=rows, intyp=5, out=rows, outtyp=5) for rows in (1, 3)]
    three = block("MUX", "three", in_=[1, 1, 1], intyp=[5, 5, 5], out=3, outtyp=5)
    objects = [clock(), block("CONST_m", "four", ipar=[1, 2, 3, 100], out=4, outtyp=5), demux, *ends,
               sensor(1, "reading", 5), three,
               block("SUMMATION", "sum", ipar=[2, 1, 1], in_=[3, 3], intyp=[5, 5], out=3, outtyp=5, evtin=1),
               event([1, 1], [1, 1]), event([1, 1], [6, 1]), event([1, 1], [8, 1]), wire([2, 1], [3, 1]),
               wire([3, 1], [4, 1]), wire([3, 2], [5, 1]), wire([3, 2], [8, 1]), wire([7, 1], [8, 2]),
               *(wire([6, 1], [7, port]) for port in (1, 2, 3))]
    told = stopped(program, tmp_path, objects, [[1, 2, 60]])
    assert "at date 10: sum" in told and "got 100 + 60 = 160 at element 3" in told
