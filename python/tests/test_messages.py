"""Each refusal's sentence, by the program's own answer to a file that breaks the rule; the sentences were
written from the pages.
"""
from __future__ import annotations

from pathlib import Path
from typing import Any

import pytest
from small import block, clock, condition, constant, counter, delay, event, gain, inside, sensor, total, wire, written

from scicos import messages
from scicos.explain import explain
from scicos.flat import Flat
from scicos.program import Program, Refusal, Refused

RULES: dict[str, tuple[list[Any], str]] = {
    "2 MissingField": ([{"obj": "Block", "gui": "HALT_f", "name": "end"}],
                       "end (HALT_f, object 1, d.json:2) has no field `model`; write it: an object of fields"),
    "3 WrongField": ([{"obj": "Link", "from": 1, "to": [1, 1], "ct": [1, 1]}],
                     "link 1 (object 1, d.json:2) has a field `from` that is not a list as [object, port, "
                     "side]; mend that field"),
    "31 TagShape": ([block("GOTO", "out", in_=1, intyp=3, ipar=7)],
                    "out (GOTO, object 1, d.json:2) has an ipar that is not [tag, scope] with a scope of 1 "
                    "(its own diagram) or 3 (everywhere), "
                    "where a tag is from 1 to 2147483647; mend ipar"),
    "32 TagTwice": ([constant(1, "one"), block("GOTO", "a", in_=1, ipar=[7, 3]),
                     block("GOTO", "b", in_=1, ipar=[7, 3])],
                    "b (GOTO, object 3, d.json:4) gives the tag 7, which a (GOTO, object 2, d.json:3) gives "
                    "already; give one of them another tag"),
    "33 TagMissing": ([block("FROM", "wanted", out=1, ipar=7),
                       inside("part", [block("GOTO", "given", in_=1, ipar=[7, 1])])],
                      "wanted (FROM, object 1, d.json:2) takes the tag 7, which nothing gives here; "
                      "part.given (GOTO, object 2/1, d.json:3) gives it in its own diagram alone: give it "
                      "scope 3"),
    "14 SuperPorts": ([inside("part", [], in_=[1, 1], intyp=[3, 3])],
                      "part (a superblock, object 1, d.json:2) and the IN_f blocks inside of it disagree "
                      "about input 1; "
                      "each input of a superblock has one IN_f inside, numbered from 1 in ipar"),
    "7 UnknownBlock": ([block("SUMATION", "sum", ipar=[0, 1, 1])],
                       "sum (SUMATION, object 1, d.json:2) is of the kind 'SUMATION', which there is not; "
                       "did you mean SUMMATION?"),
    "9 PortShape": ([block("SENSOR", "speed", ipar=1, out=1, outtyp=3)],
                    "speed (SENSOR, object 1, d.json:2) has no activation input: a SENSOR has to be clocked; "
                    "give it evtin and lead an activation link to it"),
    "10 NotInteger": ([constant(1, "one", 1)],
                      "one (CONST_m, object 1, d.json:2) has the type 1 at output 1, which is no integer "
                      "type; "
                      "take a code from 3 (int32) to 8 (uint8): there are no reals"),
    "11 AlwaysActive": ([gain("double", dep_ut=[True, True])],
                        "double (GAINBLK, object 1, d.json:2) is to be always active, by the second part of "
                        "its dep_ut, which is for continuous time; "
                        "write false there, and clock the block"),
    "8 BadParameter": ([gain("double", mode=4)],
                       "double (GAINBLK, object 1, d.json:2) has 4 for mode, entry 1 of ipar, and it has to "
                       "be "
                       "0 (wrap around), 1 (saturate) or 2 (stop); mend ipar"),
    "12 LinkEnd": ([clock(), counter("count"), event([1, 1], [2, 2])],
                   "the link 3 (d.json:4) from activation output 1 of clock to activation input 2 of count "
                   "can't be there: "
                   "count has 1 activation input; count objects and ports anew, and mend `to`"),
    "13 InputTwice": ([constant(1, "one"), constant(2, "two"), gain("double"), wire([1, 1], [3, 1]),
                       wire([2, 1], [3, 1])],
                      "double (GAINBLK, object 3, d.json:4) has two links to its input 1: from output 1 of "
                      "one (d.json:5) and "
                      "from output 1 of two (d.json:6); add both by a SUMMATION, or choose one by a SELECT_m "
                      "or SWITCH2_m"),
    "15 NoSource": ([constant(1, "one"), total("sum"), wire([1, 1], [2, 1])],
                    "sum (SUMMATION, object 2, d.json:3) has nothing that feeds its input 2; link it, or "
                    "feed it from a CONST_m"),
    "16 ColumnTwice": ([clock(), sensor(1, "speed"), sensor(1, "load")],
                       "load (SENSOR, object 3, d.json:4) takes column 1, which speed (SENSOR, object 2, "
                       "d.json:3) takes already; "
                       "use one sensor, whose output may have several links"),
    "19 TypeOpen": ([constant(1, "one", -1), gain("double", code=-1), wire([1, 1], [2, 1])],
                    "one (CONST_m, object 1, d.json:2) leaves the type of output 1 open, and none of what "
                    "has to be equal to it declares one "
                    "either (double); declare it, in its outtyp or at one of those"),
    "21 TypeNotHere": ([constant(300, "one", 5)],
                       "one (CONST_m, object 1, d.json:2) has 300 as entry 1 of ipar, which is outside of "
                       "its type of int8; "
                       "take a value within the type, or a wider type"),
    "22 ShapeRule": ([block("CONST_m", "one", ipar=[1, 2], out=3, outtyp=3)],
                     "one (CONST_m, object 1, d.json:2) has 2 values in ipar, and its size asks for another "
                     "number: one, or one for each element; "
                     "mend ipar"),
    "23 SignalTooLarge": ([block("CONST_m", "one", ipar=1, out=300, outtyp=3)],
                          "one (CONST_m, object 1, d.json:2) has 300 elements at output 1, and 256 are the "
                          "most; take shorter vectors"),
}


@pytest.mark.parametrize("rule", RULES)
def test_each_refusal_is_a_sentence(rule: str, program: Program, tmp_path: Path,
                                    monkeypatch: pytest.MonkeyPatch) -> None:
    objects, due = RULES[rule]
    monkeypatch.chdir(tmp_path)
    answer = program.ask("check", written(tmp_path, objects).name)
    assert answer.err.startswith(f"refused {rule} at ")
    assert messages.told_of(("check", "d.json"), answer.status, answer.err) == due


def refusal(program: Program, path: Path) -> str:
    answer = program.ask("check", path)
    return messages.told_of(("check", str(path)), answer.status, answer.err)


ROWS: dict[str, tuple[Any, str]] = {
    "LOGIC": (block("LOGIC", "b", ipar=[0, 1, 1], in_=[1, 1], intyp=[3, 3], out=1, outtyp=3),
              "has 3 values in ipar, and has to have 4 values: a row of 1 output for each of the 2^2 rows"),
    "SUMMATION": (block("SUMMATION", "b", ipar=[0, 1], in_=[1, 1], intyp=[3, 3], out=1, outtyp=3),
                  "has 2 values in ipar, and has to have 3 values: the mode, and a sign for each of its 2 inputs"),
    "BITSET": (block("BITSET", "b", ipar=16, in_=1, intyp=4, out=1, outtyp=4),
               "has 16 for bit, entry 1 of ipar, and for its type of int16 it has to be from 0 to 15"),
    "Modulo_Count": (block("Modulo_Count", "b", ipar=10, dstate=10, evtin=1, out=1, outtyp=3),
                     "has 10 for first, entry 1 of dstate, and it has to be from 0 to the base less 1"),
    "GAINBLK": (gain("b", 40000, 4), "has 40000 as entry 2 of ipar, which is outside of its type of int16"),
    "ANDLOG_f": (block("ANDLOG_f", "b", evtin=[1, 1], out=1, outtyp=4),
                 "has a type at output 1 that an ANDLOG_f does not take: its output is an int32"),
    "REGISTER": (block("REGISTER", "b", dstate=1, in_=2, intyp=3, out=2, outtyp=3),
                 "has a size at input 1 that a REGISTER does not take: all its ports are scalars"),
}


@pytest.mark.parametrize("kind", ROWS)
def test_what_a_kind_asks_is_told(kind: str, program: Program, tmp_path: Path) -> None:
    """All inputs come from a constant of their size and type."""
    made, due = ROWS[kind]
    inputs = made["model"].get("in", [])
    size = inputs if isinstance(inputs, int) else 1
    feed = block("CONST_m", "c", ipar=1, out=size, outtyp=4 if kind in ("BITSET", "GAINBLK") else 3)
    wires = [wire([2, 1], [1, port]) for port in range(1, (1 if isinstance(inputs, int) else len(inputs)) + 1)]
    assert refusal(program, written(tmp_path, [made, feed, *wires])).startswith(f"b ({kind}, object 1, d.json:2) {due};")


def test_a_conflict_of_types_tells_both_ends_and_the_way(program: Program, tmp_path: Path) -> None:
    """The way goes through a superblock, a hold of unknown type, and a tag."""
    part = [block("IN_f", "u", ipar=1, out=-1, outtyp=-1),
            block("SAMPHOLD_m", "held", in_=1, intyp=-1, out=1, outtyp=-1, evtin=1),
            block("OUT_f", "y", ipar=1, in_=-1, intyp=-1), wire([1, 1], [2, 1]), wire([2, 1], [3, 1])]
    objects = [constant(1, "one", 4), inside("part", part, in_=1, intyp=-1, out=1, outtyp=-1),
               block("GOTO", "give", in_=1, ipar=[7, 3]),
               block("FROM", "take", out=1, ipar=7), gain("double", code=8), wire([1, 1], [2, 1]),
               wire([2, 1], [3, 1]), wire([4, 1], [5, 1])]
    assert refusal(program, written(tmp_path, objects)) == (
        "one (CONST_m, object 1, d.json:2) declares int16 at output 1, and double (GAINBLK, object 5, "
        "d.json:6) declares uint8 at input 1; "
        "both have to be one, as output 1 of one feeds input 1 of part.held, part.held has one unknown at "
        "both of its ports and "
        "output 1 of part.held feeds input 1 of double; mend one of them, or put a CONVERT between them")


def test_a_conflict_of_sizes(program: Program, tmp_path: Path) -> None:
    objects = [block("CONST_m", "three", ipar=1, out=3, outtyp=3), gain("double"), wire([1, 1], [2, 1])]
    assert refusal(program, written(tmp_path, objects)) == (
        "double (GAINBLK, object 2, d.json:3) declares 1 row at input 1, and three (CONST_m, object 1, "
        "d.json:2) declares 3 rows at output 1; "
        "both have to be one, as output 1 of three feeds input 1 of double; mend one of them, or put a MUX, "
        "DEMUX or EXTRACTOR between them")


def test_a_loop_is_a_path_by_names(program: Program, tmp_path: Path) -> None:
    objects = [clock(), sensor(1, "speed"), total("sum"), gain("half"), event([1, 1], [1, 1]),
               event([1, 1], [2, 1]), wire([2, 1], [3, 1]),
               wire([3, 1], [4, 1]), wire([4, 1], [3, 2])]
    assert refusal(program, written(tmp_path, objects)) == (
        "an algebraic loop at the events of output 1 of clock: half (GAINBLK, object 4, d.json:5) needs the "
        "value of sum and "
        "sum (SUMMATION, object 3, d.json:4) needs the value of half, so none of them can be computed first; "
        "put a DOLLAR_m or a REGISTER into the loop, activated by none of the loop's branches")


def test_a_loop_through_a_branch(program: Program, tmp_path: Path) -> None:
    objects = [clock(), delay("before", 1), condition("if"), constant(0, "zero"), event([1, 1], [1, 1]),
               wire([4, 1], [2, 1]), wire([2, 1], [3, 1]),
               event([3, 1], [2, 1])]
    objects[2]["model"]["evtin"] = 1
    objects.append(event([1, 1], [3, 1]))
    assert "before (DOLLAR_m, object 2, d.json:3) needs the branch of if" in refusal(program,
                                                                                     written(tmp_path,
                                                                                             objects))


def test_the_line_of_python_is_told(program: Program, tmp_path: Path) -> None:
    objects = [constant(300, "one", 5)]
    objects[0]["line"] = "design.py:12"
    assert refusal(program,
                   written(tmp_path, objects)).startswith("one (CONST_m, object 1, design.py:12) has 300")


INPUTS = {
    "[[1, 2], [3": "i.json is no JSON: line 1, column 11: the text ends too early; mend it there",
    "{}": "i.json is no list of lists of whole numbers, but an object; write a list for each column, as [[1, "
          "2, 3], [4, 5, 6]]",
    "[[1], 5]": "i.json has in column 2 (of load) no list, but the number 5; write a list of whole numbers "
                "there, also of one value",
    '[[1], [2, "x"]]': "i.json has in column 2 (of load), value 2, the text 'x' in place of a whole number; "
                       "mend it",
    "[[1, 2.5], [2]]": "i.json has in column 1 (of speed), value 2, the number 2.5 in place of a whole "
                       "number; mend it",
    "[[1]]": "i.json has 1 column, and 2 are needed: load takes column 2; write a list for each column",
    "[[1],\n [7,\n  300]]": "i.json has 300 as value 2 of column 2 (line 3), and the type uint8 of load "
                            "(SENSOR, object 3, d.json:4) is from 0 to 255; "
                           "bring the value into the type, or declare a wider one",
}


@pytest.mark.parametrize("text", INPUTS)
def test_input_files_are_told_by_column_position_and_sensor(text: str, program: Program, tmp_path: Path,
                                                            monkeypatch: pytest.MonkeyPatch) -> None:
    monkeypatch.chdir(tmp_path)
    written(tmp_path,
            [clock(), sensor(1, "speed"), sensor(2, "load", 8), event([1, 1], [2, 1]), event([1, 1], [3, 1])])
    Path("i.json").write_text(text)
    answer = program.ask("simulate", "d.json", "i.json", 1, 1)
    assert answer.status == 1
    assert messages.told_of(("simulate", "d.json", "i.json", "1", "1"), 1, answer.err) == INPUTS[text]


def explained(program: Program, *words: str) -> tuple[int, str]:
    with open("out", "wb") as out:
        return explain(words, out, program)


def test_files_and_words(program: Program, tmp_path: Path, monkeypatch: pytest.MonkeyPatch) -> None:
    monkeypatch.chdir(tmp_path)
    written(tmp_path, [clock(), counter("count"), event([1, 1], [1, 1]), event([1, 1], [2, 1])])
    Path("none.json").write_text("[]")
    Path("bad").write_text('{"objs": [\n  {"obj" "Block"}]}')
    Path("text").write_text("hello\n")
    run = ("d.json", "none.json", "12", "10")
    assert explained(program, "simulate", *run) == (0, "")
    assert explained(program, "check",
                     "bad") == (1, "bad is no JSON: line 2, column 10: a colon is missing; mend it there")
    assert explained(program, "simulate", "d.json", "gone", "1", "1") == (
        3, "gone, the input file, can't be read: No such file or directory; look at its name and its "
           "permissions")
    assert explained(program, "save", *run, "9") == (
        1, "the run has 4 reactions, so there is nothing to save after reaction 9; take a K below 4")
    assert explained(program, "resume", "d.json", "none.json", "text", "12",
                     "10")[1].startswith("text, line 1, which is 'hello', is no line of an image of d.json")
    assert explained(program, "vcdat", "text",
                     "5")[1].startswith("text, line 1, which is 'hello', is no line of a dump")
    assert explained(program, "simulate", "d.json", "none.json", "12",
                     "10000000") == (2, "N, the most events, is 10000000, which is more than 1000000")
    assert explained(program, "save", *run, "0") == (2, "K, the reaction, is 0, which is less than 1")
    assert explained(program, "vcdat", "text",
                     "05")[1] == "K, the tick, is '05', which isn't digits alone, without sign, leading zero or separators"
    assert explained(program, "simulat", *run)[1] == "there is no command 'simulat': did you mean simulate?"
    assert explained(program, "check")[1] == "check takes D (D the diagram's file), and was given 0 words"


def test_c_that_is_none_is_told_by_line_and_column(program: Program, tmp_path: Path,
                                                   monkeypatch: pytest.MonkeyPatch) -> None:
    monkeypatch.chdir(tmp_path)
    written(tmp_path, [clock(), event([1, 1], [1, 1])])
    Path("none.json").write_text("[]")
    lines = program.text("ccode", "d.json").split("\n")
    lines[-3] = "  v99999 = INT64_C(1);"
    Path("p.c").write_text("\n".join(lines))
    status, sentence = explained(program, "crun", "p.c", "none.json", "1", "1")
    assert status == 1 and sentence.startswith(f"p.c is no C program of the subset: line {len(lines) - 2}, "
                                               f"column 3: '  v99999 = INT64_C(1);' can't stand there")


def test_the_first_wrong_line_of_a_trace(program: Program, tmp_path: Path,
                                         monkeypatch: pytest.MonkeyPatch) -> None:
    monkeypatch.chdir(tmp_path)
    written(tmp_path, [clock(), counter("count"), event([1, 1], [1, 1]), event([1, 1], [2, 1])])
    Path("none.json").write_text("[]")
    true = ["start", "event 0 1 1", "val 2 1 1 0", "event 5 1 1", "val 2 1 1 1", "event 10 1 1",
            "val 2 1 1 2", "end until"]

    def judged(lines: list[str], end: str = "\n") -> str:
        Path("v").write_text("\n".join(lines) + end)
        return explained(program, "judge", "d.json", "none.json", "v", "12", "10")[1]

    assert judged(true) == ""
    assert judged([*true[:4], "val 2 1 1 2", *true[5:]]) == (
        "v, line 5, in the reaction at date 5: `val 2 1 1 2` (count is 2) stands there, and the run has `val "
        "2 1 1 1` (count is 1)")
    assert judged(true[:3]) == "v, line 4, in the reaction at date 5: the file ends, and the run has `event 5 1 1` (an event of clock)"
    assert judged([*true,
                   "end until"]) == "v, line 9, in the reaction at date 10: `end until` stands there, and the trace of this run has 8 lines"
    assert judged(true, "").startswith("v, line 8, in the reaction at date 10: `end until`, without a line "
                                       "feed, stands there")


def test_a_rule_that_is_not_known_still_gives_a_sentence() -> None:
    flat = Flat('{"objs": [{"obj": "Block", "gui": "HALT_f", "name": "end", "model": {"evtin": 1}}]}',
                "d.json")
    assert messages.explained(Refused(Refusal(99, "Strange", (1,), (4, 5)), ("check", "d.json")), flat) == (
        "end (HALT_f, object 1, d.json:1) breaks rule 99, Strange (4, 5); docs/FORMAT.md tells what it asks")


def test_all_rules_have_a_row() -> None:
    assert set(messages.RULES) == set(range(1, 38)) - {30}
