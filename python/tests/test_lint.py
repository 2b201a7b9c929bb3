"""Each kind of warning, by a diagram that has it and one that hasn't."""
from __future__ import annotations

import subprocess
from pathlib import Path
from typing import Any

import pytest
from small import block, clock, condition, constant, counter, delay, event, gain, inside, sensor, total, wire, written

import scicos as builder
from scicos import flat, lint
from scicos.errors import ScicosError
from scicos.program import Program, Refused

TOP = Path(__file__).resolve().parents[2]
Objects = list[Any]
OPEN = {"grant": ["not taken"]}
TICK = event([1, 1], [1, 1])


def found(program: Program, folder: Path, objects: Objects) -> list[str]:
    """The warnings of a diagram, each as its kind and the name of its object."""
    path = written(folder, objects)
    seen = flat.read(path)
    return [f"{finding.kind}: {seen.name_of(finding.place)}" for finding in lint.lint(path, program)]


def hold(name: str, **more: Any) -> Any:
    return block("SAMPHOLD_m", name, evtin=1, in_=1, intyp=3, out=1, outtyp=3, **more)


def counted(*more: Any) -> Objects:
    """A clock and a counter that is meant to be seen, and further objects."""
    return [clock(), counter("count", **OPEN), TICK, event([1, 1], [2, 1]), *more]


SWITCHED = [clock(), sensor(1, "u"), constant(0, "zero"), constant(9, "nine"), event([1, 1], [1, 1]),
            event([1, 1], [2, 1])]
SWITCH = dict(in_=[1, 1, 1], intyp=[3, 3, 3], out=1, outtyp=3, **OPEN)
PART = [block("IN_f", "u", ipar=1, out=1), block("OUT_f", "y", ipar=1, in_=1), gain("double"),
        wire([3, 1], [2, 1])]
LIMITED = [clock(), sensor(1, "u", 8), constant(0, "zero"), constant(9, "nine"), event([1, 1], [1, 1]),
           event([1, 1], [2, 1])]
BRANCH = [clock(), sensor(1, "u"), condition("if"), TICK, event([1, 1], [2, 1]), wire([2, 1], [3, 1])]
TIMED = [clock("fast", 3), clock("slow", 11), event([1, 1], [1, 1]), event([2, 1], [2, 1])]
CHOSEN = [*TIMED, counter("count"), counter("other"),
          block("SELECT_m", "choice", evtin=[1, 1], in_=[1, 1], intyp=[3, 3], out=1, outtyp=3, **OPEN),
          event([1, 1], [5, 1]), event([2, 1], [6, 1]), wire([5, 1], [7, 1]), wire([6, 1], [7, 2])]

HAS: dict[str, tuple[Objects, list[str]]] = {
    "a block without activation, and its reader": (
        [clock(), counter("count"), gain("double", **OPEN), TICK, wire([2, 1], [3, 1])],
        ["event not taken: clock", "never acts: count", "not activated: count", "never stepped: count",
         "never acts: double"]),
    "a block that a clock activates": (counted(), []),
    "a tag of activations that nothing feeds": (
        counted(block("CLKGOTO", "give", evtin=1, ipar=[7, 3]), block("CLKFROM", "take", evtout=1, ipar=7),
                counter("other", **OPEN), event([6, 1], [7, 1])),
        ["not activated: give", "never acts: other", "not activated: other"]),
    "a tag of activations": (
        counted(block("CLKGOTO", "give", evtin=1, ipar=[7, 3]), block("CLKFROM", "take", evtout=1, ipar=7),
                counter("other", **OPEN), event([6, 1], [7, 1]),
                event([1, 1], [5, 1])), []),
    "a tag of activations that nothing takes": (counted(block("CLKGOTO", "give", evtin=1, ipar=[7, 3]),
                                                        event([1, 1], [5, 1])), ["event not taken: give"]),
    "a delay whose event nobody takes": (counted(block("EVTDLY_c", "late", evtin=1, evtout=1, ipar=3,
                                                       firing=-1), event([1, 1], [5, 1])),
                                         ["event not taken: late"]),
    "a clock that fires once": ([clock(), counter("count", **OPEN), event([1, 1], [2, 1])],
                                ["fires once: clock"]),
    "a clock that never fires": ([clock(first=-1), counter("count", **OPEN), TICK, event([1, 1], [2, 1])],
                                 ["fires once: clock"]),
    "a delay that programs nothing": (counted(block("EVTDLY_c", "late", evtin=1, evtout=1, ipar=-1,
                                                    firing=-1), event([1, 1], [5, 1]),
                                              counter("other", **OPEN),
                                              event([5, 1], [7, 1])), ["fires once: late"]),
    "a timer": (counted(block("EVTDLY_c", "late", evtin=1, evtout=1, ipar=3, firing=-1),
                        event([1, 1], [5, 1]), counter("other", **OPEN), event([5, 1], [7, 1])), []),
    "a clock that another one drives": (counted(clock("late", 3, 0), event([1, 1], [5, 1]),
                                                counter("other", **OPEN), event([5, 1], [7, 1])),
                                        ["not a clock: late"]),
    "two delays in a ring": ([clock("one"), clock("two", 7, -1), event([1, 1], [2, 1]),
                              event([2, 1], [1, 1])], []),
    "a clock of delay 0": ([clock(ticks=0), counter("count", **OPEN), TICK, event([1, 1], [2, 1])],
                           ["no time: clock"]),
    "sensors of two clocks": ([*TIMED, sensor(1, "a", **OPEN), sensor(2, "b", **OPEN), event([1, 1], [5, 1]),
                               event([2, 1], [6, 1])], ["two clocks: b"]),
    "sensors of one clock": ([clock(), sensor(1, "a", **OPEN), sensor(2, "b", **OPEN), TICK,
                              event([1, 1], [2, 1]), event([1, 1], [3, 1])], []),
    "two links to one activation input": (counted(event([1, 1], [2, 1])), ["activated twice: count"]),
    "a link and a way through a union": (counted(block("CLKSOM_f", "union", evtin=[1, 1], evtout=1),
                                                 event([1, 1], [5, 1]), event([5, 1], [2, 1]),
                                                 block("CLKSPLIT_f", "split", evtin=1, evtout=1),
                                                 event([1, 1], [8, 1]), event([8, 1], [5, 2])),
                                         ["activated twice: count"]),
    "two activation inputs of a choice": ([clock(), constant(0, "zero"), constant(1, "one"),
                                           block("SELECT_m", "choice", evtin=[1, 1], in_=[1, 1], intyp=[3, 3],
                                                 out=1, outtyp=3, **OPEN), TICK,
                                           wire([2, 1], [4, 1]), wire([3, 1], [4, 2]), event([1, 1], [4, 1]),
                                           event([1, 1], [4, 2])],
                                          ["activated twice: choice"]),
    "both branches": ([*BRANCH, counter("count", **OPEN), event([3, 1], [7, 1]), event([3, 2], [7, 1])],
                      ["both branches: count"]),
    "one branch": ([*BRANCH, counter("count", **OPEN), event([3, 1], [7, 1])], []),
    "a branch and the clock": ([*BRANCH, counter("count", **OPEN), event([3, 1], [7, 1]),
                                event([1, 1], [7, 1])], ["branch without effect: count"]),
    "a branch, and another clock": ([*BRANCH, counter("count", **OPEN), event([3, 1], [7, 1]),
                                     clock("slow", 11), event([9, 1], [9, 1]), event([9, 1], [7, 1])], []),
    "a state of a constant that steps at start alone": (
        [constant(1, "one"), block("DOLLAR_m", "before", dstate=0, in_=1, intyp=3, out=1, outtyp=3),
         gain("double", **OPEN), wire([1, 1], [2, 1]),
         wire([2, 1], [3, 1])], ["never stepped: before"]),
    "an output that nobody takes": ([clock(), counter("count"), TICK, event([1, 1], [2, 1])],
                                    ["not taken: count"]),
    "a tag that nobody takes": ([clock(), counter("count"), TICK, event([1, 1], [2, 1]),
                                 block("GOTO", "give", in_=1, ipar=[7, 3]), wire([2, 1], [5, 1])],
                                ["not taken: count", "not taken: give"]),
    "an input that nothing inside reads": (
        [clock(), counter("count", **OPEN), TICK, event([1, 1], [2, 1]),
         inside("part", [block("IN_f", "u", ipar=1, out=1)], in_=1), wire([2, 1], [5, 1])],
        ["not taken: part.u"]),
    "an output of a superblock that nobody takes": (
        [clock(), counter("count"), TICK, event([1, 1], [2, 1]),
         inside("part", [block("IN_f", "u", ipar=1, out=1), block("OUT_f", "y", ipar=1, in_=1),
                         gain("double"), wire([1, 1], [3, 1]), wire([3, 1], [2, 1])],
                in_=1, out=1), wire([2, 1], [5, 1])],
        ["not taken: part.double"]),
    "an output of a superblock that is taken inside alone": (
        [clock(), counter("count"), TICK, event([1, 1], [2, 1]),
         inside("part", [block("IN_f", "u", ipar=1, out=1), block("OUT_f", "y", ipar=1, in_=1),
                         gain("double"), gain("four", **OPEN), wire([1, 1], [3, 1]),
                         wire([3, 1], [2, 1]), wire([3, 1], [4, 1])], in_=1, out=1), wire([2, 1], [5, 1])],
        ["not taken: part"]),
    "an input of a superblock that nothing feeds": (
        [inside("part", [block("IN_f", "u", ipar=1, out=1)], in_=1, evtin=[])],
        ["not fed: part", "not taken: part.u"]),
    "a ring that nobody sees": ([clock(), delay("before"), constant(1, "one"), total("next"), TICK,
                                 event([1, 1], [2, 1]), wire([2, 1], [4, 1]),
                                 wire([3, 1], [4, 2]), wire([4, 1], [2, 1])], ["shown nowhere: before"]),
    "a ring that is granted": ([clock(), delay("before"), constant(1, "one"),
                                total("next", grant="shown nowhere"), TICK, event([1, 1], [2, 1]),
                                wire([2, 1], [4, 1]), wire([3, 1], [4, 2]), wire([4, 1], [2, 1])], []),
    "a ring that a condition reads": ([clock(), delay("before"), constant(1, "one"), total("next"), TICK,
                                       event([1, 1], [2, 1]), wire([2, 1], [4, 1]),
                                       wire([3, 1], [4, 2]), wire([4, 1], [2, 1]), condition("if"),
                                       wire([4, 1], [10, 1]), counter("count", **OPEN),
                                       event([10, 1], [12, 1])], []),
    "a sum of one and the same": ([clock(), sensor(1, "u"), TICK, event([1, 1], [2, 1]),
                                   total("twice", **OPEN), wire([2, 1], [5, 1]), wire([2, 1], [5, 2])],
                                  ["same input: twice"]),
    "a square": ([clock(), sensor(1, "u"), TICK, event([1, 1], [2, 1]),
                  block("PRODUCT", "square", ipar=[0, 1], in_=[1, 1], intyp=[3, 3], out=1, outtyp=3, **OPEN),
                  wire([2, 1], [5, 1]), wire([2, 1], [5, 2])], []),
    "two delays of one signal": ([clock(), sensor(1, "u"), TICK, event([1, 1], [2, 1]), delay("one", **OPEN),
                                  delay("other", **OPEN),
                                  wire([2, 1], [5, 1]), wire([2, 1], [6, 1]), event([1, 1], [5, 1]),
                                  event([1, 1], [6, 1])],
                                 ["same block: other"]),
    "two delays of other first states": ([clock(), sensor(1, "u"), TICK, event([1, 1], [2, 1]),
                                          delay("one", **OPEN),
                                          delay("other", 7, **OPEN), wire([2, 1], [5, 1]),
                                          wire([2, 1], [6, 1]),
                                          event([1, 1], [5, 1]), event([1, 1], [6, 1])], []),
    "a switch that a constant decides": ([*SWITCHED, block("SWITCH2_m", "switch", ipar=[1, 0], **SWITCH),
                                          wire([2, 1], [7, 1]), wire([4, 1], [7, 2]),
                                          wire([3, 1], [7, 3])], ["decided: switch"]),
    "a switch that a value decides": ([*SWITCHED[:3], constant(9, "nine"), *SWITCHED[4:],
                                       block("SWITCH2_m", "switch", ipar=[1, 0], **SWITCH),
                                       wire([4, 1], [7, 1]),
                                       wire([2, 1], [7, 2]), wire([3, 1], [7, 3])], []),
    "a number that the type never passes": ([*LIMITED,
                                             block("SWITCH2_m", "switch", ipar=[1, 255],
                                                   **{**SWITCH, "intyp": [3, 8, 3]}), wire([3, 1], [7, 1]),
                                             wire([2, 1], [7, 2]), wire([4, 1], [7, 3])],
                                            ["decided: switch"]),
    "a number within the type": ([*LIMITED, block("SWITCH2_m", "switch", ipar=[1, 254],
                                                  **{**SWITCH, "intyp": [3, 8, 3]}), wire([3, 1], [7, 1]),
                                  wire([2, 1], [7, 2]), wire([4, 1], [7, 3])], []),
    "a value of constants": ([constant(1, "one"), gain("double", **OPEN), wire([1, 1], [2, 1])],
                             ["constant: double"]),
    "a value of another clock": ([*TIMED, counter("count"), delay("before", **OPEN), event([1, 1], [5, 1]),
                                  event([2, 1], [6, 1]), wire([5, 1], [6, 1])],
                                 ["old value: before"]),
    "a choice of another clock's value": ([*CHOSEN, event([2, 1], [7, 1]), event([1, 1], [7, 2])],
                                          ["old value: choice", "old value: choice"]),
    "a choice of each clock's own value": ([*CHOSEN, event([1, 1], [7, 1]), event([2, 1], [7, 2])], []),
    "a held value of another clock": ([*TIMED, counter("count"), hold("held", **OPEN), event([1, 1], [5, 1]),
                                       event([2, 1], [6, 1]), wire([5, 1], [6, 1])], []),
}


@pytest.mark.parametrize("case", HAS)
def test_each_kind_of_warning(case: str, program: Program, tmp_path: Path) -> None:
    objects, due = HAS[case]
    assert sorted(found(program, tmp_path, objects)) == sorted(due)


def test_each_kind_is_tried() -> None:
    of_ranges = {"may stop"}  # test_ranges.py tries it
    assert {warning.split(":")[0] for _, due in HAS.values() for warning in due} | of_ranges == set(lint.CHECKS)


def test_the_lines_of_the_command(program: Program, tmp_path: Path) -> None:
    path = written(tmp_path, [clock(), counter("count"), event([1, 1], [2, 1])])
    ran = subprocess.run([TOP / "scicos-kit", "lint", path], capture_output=True, text=True,
                         env={"SCICOS": program.path, "PATH": "/usr/bin:/bin"})
    assert (ran.returncode, ran.stderr) == (1, "")
    assert ran.stdout == (
        "clock (EVTDLY_c, object 1, d.json:2) fires once, at 0, as nothing activates it again: a clock leads "
        "back to itself [fires once]\n"
        "count (Modulo_Count, object 2, d.json:3) has an output that nobody takes [not taken]\n")
    ran = subprocess.run([TOP / "scicos-kit", "lint", written(tmp_path, counted())], capture_output=True,
                         text=True,
                         env={"SCICOS": program.path, "PATH": "/usr/bin:/bin"})
    assert (ran.returncode, ran.stdout, ran.stderr) == (0, "", "")


def test_what_is_granted_is_told_where_it_is_asked_for(program: Program, tmp_path: Path) -> None:
    path = written(tmp_path, counted())
    assert lint.lint(path, program) == []
    assert [finding.kind for finding in lint.lint(path, program, granted=True)] == ["not taken"]


def test_a_grant_of_no_kind_is_told(tmp_path: Path) -> None:
    seen = flat.read(written(tmp_path, [clock(), counter("count", grant=["not takn"])]))
    assert [finding.place for finding in lint.unknown_grants(seen)] == [(2,)]


def test_a_refused_diagram_has_no_warnings_but_its_refusal(program: Program, tmp_path: Path) -> None:
    with pytest.raises(Refused, match="has 300 as entry 1 of ipar") as refused:
        lint.lint(written(tmp_path, [constant(300, "one", 5)]), program)
    assert isinstance(refused.value, ScicosError) and refused.value.status == 1


@pytest.mark.parametrize("design", sorted(TOP.glob("examples/*/diagram.json")), ids=lambda path: path.parent.name)
def test_the_designs_have_no_warnings_but_granted_ones(design: Path, program: Program) -> None:
    assert lint.lines(design, program) == []
    assert bool(lint.lint(design, program, granted=True)) == ('"grant": [' in design.read_text())


@pytest.mark.parametrize(("sign", "number", "told"), [
    (">=", 0, "always"), (">=", 1, ""), (">", 0, ""), (">", 254, ""), (">", 255, "never"), (">=", 255, ""), (">=", 256, "never"), ("!=", 256, "always")])
def test_a_number_at_the_end_of_the_type(sign: str, number: int, told: str, program: Program) -> None:
    with builder.Diagram("switch") as design:
        tick = builder.clock(1)
        reading = builder.sensor(1, builder.uint8, on=tick)
        builder.switch(reading, sign, number, reading, 7, on=tick, name="chosen")
    decided = [finding.text for finding in lint.lint(design, program) if finding.kind == "decided"]
    assert [text.split()[0] for text in decided] == ([told] if told else [])
