"""Ranges by name: what is made of the program's lines, of which a stand-in gives some; and the program itself, where it is built."""
from __future__ import annotations

from collections.abc import Callable
from pathlib import Path

import pytest
from conftest import TOP
from small import clock, constant, event, sensor, total, wire, written
from test_cli import kit
from test_program import script

from scicos import Diagram, clock as ticking, int8, int16, int32, lint, output, ranges, sensor as sensed, uint8
from scicos.errors import DataError, MissingError, ReadError
from scicos.program import Program, Refused
from scicos.ranges import Interval, Ranges, find_ranges, narrowest

COUNTER = TOP / "examples" / "counter.json"
TOLD = ("range 2 1 1 1 1\nheld 2 1 1 0 1\nrange 3 1 1 -5 200\nheld 4 1 1 0 0\nstate 4 0 9\nstop overflow 3\nidle 4\nopen\n")
StandIn = Callable[[str], None]


@pytest.fixture
def stand_in(tmp_path: Path, monkeypatch: pytest.MonkeyPatch) -> StandIn:
    """Puts a program in the place of `ranges` that writes a text."""
    def put(text: str) -> None:
        path = script(tmp_path / "ranges", f"sys.stdout.write({text!r})")
        monkeypatch.setenv("SCICOS_RANGES", path)
    return put


@pytest.fixture
def real(program: Program) -> Program:
    """The program `ranges`; a test that wants it is skipped where there is none."""
    try:
        return find_ranges(program)
    except MissingError as error:
        pytest.skip(str(error))


def of_counter(program: Program) -> Ranges:
    return ranges.ranges(COUNTER, program=program)


def test_by_name(program: Program, stand_in: StandIn) -> None:
    stand_in(TOLD)
    found = of_counter(program)
    assert [row.column.name for row in found.rows] == ["CONST_m 2", "SUMMATION 3", "DOLLAR_m 4"]
    one = found.of("CONST_m 2")
    assert (one.shown, one.held) == (Interval(1, 1), Interval(0, 1))
    assert found.of("SUMMATION 3").shown == found.of("SUMMATION 3").held == Interval(-5, 200)
    assert (found.of("DOLLAR_m 4").shown, found.of("DOLLAR_m 4").held) == (None, Interval(0, 0))
    assert found.states == {"DOLLAR_m 4": Interval(0, 9)}
    assert (found.stops, found.idle, found.safe) == ([("SUMMATION 3", "overflow")], ["DOLLAR_m 4"], False)
    with pytest.raises(DataError, match="no signal 'sum'"):
        found.of("sum")


def test_as_text(program: Program, stand_in: StandIn) -> None:
    stand_in(TOLD)
    assert of_counter(program).text(types=True) == (
        "signal       type   least  greatest  held\n"
        "CONST_m 2    int32      1         1  0 to 1\n"
        "SUMMATION 3  int32     -5       200\n"
        "DOLLAR_m 4   int32      -         -  0\n"
        "state of DOLLAR_m 4: 0 to 9\n"
        "type of SUMMATION 3: int16 would do in place of int32\n"
        "type of DOLLAR_m 4: int8 would do in place of int32\n"
        "may stop: SUMMATION 3, as its exact result may be outside of its type\n"
        "never acts: DOLLAR_m 4\n"
        "open\n")
    assert of_counter(program).text(["CONST_m 2"]).splitlines()[1] == "CONST_m 2  int32      1         1  0 to 1"


def test_narrower_types() -> None:
    assert narrowest(int32, [Interval(0, 255)]) == uint8 and narrowest(int32, [Interval(-1, 127)]) == int8
    assert narrowest(int32, [Interval(0, 100)]) == int8 and narrowest(int32, [Interval(0, 9), Interval(-200, 0)]) == int16
    assert narrowest(int16, [Interval(0, 256)]) is None and narrowest(int8, [Interval(0, 0)]) is None


def test_lint_marks_what_may_stop(program: Program, stand_in: StandIn, tmp_path: Path) -> None:
    objects = [clock(), sensor(1, "a", grant=["not taken"]), constant(1, "one"), total("sum", mode=2, grant=["not taken"]),
               event([1, 1], [1, 1]), event([1, 1], [2, 1]), wire([2, 1], [4, 1]), wire([3, 1], [4, 2])]
    path = written(tmp_path, objects)
    stand_in("range 2 1 1 0 1\nrange 3 1 1 1 1\nheld 3 1 1 0 1\nrange 4 1 1 1 2\nheld 4 1 1 0 2\nstop input 2\nstop overflow 4\nopen\n")
    found = lint.lint(path, program, ranges=ranges.ranges(path, {"a": [0, 1]}, program))
    assert [(finding.kind, finding.place, finding.text) for finding in found] == [
        ("may stop", (4,), "may stop a run, as its exact result may be outside of its type")]
    assert lint.lint(path, program) == []
    objects[3]["grant"].append("may stop")
    path = written(tmp_path, objects)
    assert lint.lint(path, program, ranges=ranges.ranges(path, {"a": [0, 1]}, program)) == []


def test_the_program_is_found(program: Program, tmp_path: Path, monkeypatch: pytest.MonkeyPatch) -> None:
    monkeypatch.delenv("SCICOS_RANGES", raising=False)
    monkeypatch.setenv("PATH", "")
    beside = script(tmp_path / "scicos", "")
    with pytest.raises(MissingError, match="no program `ranges` beside `scicos` or on PATH"):
        find_ranges(Program(beside))
    own = script(tmp_path / "ranges", "")
    assert find_ranges(Program(beside)).path == own
    monkeypatch.setenv("SCICOS_RANGES", str(tmp_path / "gone"))
    with pytest.raises(MissingError, match="SCICOS_RANGES, .*gone, isn't there"):
        find_ranges(Program(beside))


def test_what_is_wrong(program: Program, stand_in: StandIn, tmp_path: Path, monkeypatch: pytest.MonkeyPatch) -> None:
    monkeypatch.setenv("SCICOS_RANGES", script(tmp_path / "ranges", "sys.stderr.write('refused 28 InputRange at 2 1 1 -129\\n'); sys.exit(1)"))
    with pytest.raises(Refused) as raised:
        of_counter(program)
    assert raised.value.refusal.rule == "InputRange" and raised.value.words[0] == "ranges"
    stand_in("range 2 1 1 0 1\nsafe\n")
    with pytest.raises(ValueError, match="nothing is told of SUMMATION 3"):
        of_counter(program)
    with pytest.raises(ReadError, match="none.json can't be read"):
        ranges.ranges(tmp_path / "none.json", program=program)


def test_a_design(real: Program, program: Program) -> None:
    with Diagram("sum", mode="stop") as design:
        tick = ticking(5)
        first, second = sensed(1, int8, on=tick), sensed(2, int8, on=tick)
        added = first + second
        output(added)
    narrow = ranges.ranges(design, {"first": [0, 60], "second": [-3, 60]}, program)
    assert (narrow.of("added").shown, narrow.safe) == (Interval(-3, 120), True)
    wide = ranges.ranges(design, program=program)
    assert (wide.of("added").shown, wide.stops[-1], wide.safe) == (Interval(-128, 127), ("added", "overflow"), False)


def test_the_command(real: Program, tmp_path: Path) -> None:
    ran = kit("ranges", str(TOP / "examples" / "first.json"), "--types", SCICOS_RANGES=real.path)
    assert (ran.returncode, ran.stderr) == (0, "")
    assert ran.stdout.splitlines()[-3:] == ["state of Modulo_Count 2: 0 to 9",
                                            "type of Modulo_Count 2: int8 would do in place of int32", "safe"]
    with Diagram("sum", mode="stop") as design:
        tick = ticking(5)
        output(sensed(1, int8, on=tick, name="u") + 1)
    path = design.write(tmp_path / "d.json")
    for words, status in ((["--strict"], 1), ([], 0)):
        ran = kit("ranges", str(path), *words, SCICOS_RANGES=real.path)
        assert (ran.returncode, ran.stdout.splitlines()[-1]) == (status, "open")
    (tmp_path / "i.csv").write_text("u\n1\n126\n")
    assert kit("ranges", str(path), str(tmp_path / "i.csv"), "--strict", SCICOS_RANGES=real.path).returncode == 0
    ran = kit("lint", str(path), "--inputs", str(tmp_path / "i.csv"), SCICOS_RANGES=real.path)
    assert (ran.returncode, ran.stdout) == (0, "")


def test_no_program(program: Program, tmp_path: Path) -> None:
    ran = kit("ranges", str(COUNTER), SCICOS_RANGES=str(tmp_path / "none"))
    assert ran.returncode == 70 and ran.stderr.count("\n") == 1 and "SCICOS_RANGES" in ran.stderr
