"""Coverage, held against counts that were made by hand, from the meaning of the diagrams and from traces printed in docs/FORMAT.md."""
from __future__ import annotations

import json
import re
from pathlib import Path
from typing import Any

import pytest
from test_cli import kit

import scicos as s
from scicos.coverage import Coverage, merged
from scicos.errors import DataError, WordsError
from scicos.measure import measure
from scicos.program import Program, Refused

TOP = Path(__file__).resolve().parents[2]
BRANCHES, READINGS = str(TOP / "examples" / "branches.json"), str(TOP / "examples" / "readings.json")


class Text:
    """A design that isn't in a file."""

    def __init__(self, *objs: dict[str, Any]) -> None:
        self.objs = objs

    def to_json(self) -> str:
        """The diagram."""
        return json.dumps({"objs": list(self.objs)})


def acts(found: Coverage) -> dict[str, int | None]:
    """How often each block acted."""
    return {block.name: block.acted for block in found.blocks}


def came(found: Coverage, name: str) -> dict[str, int | None]:
    """What came of a block."""
    return {outcome.what: outcome.count for outcome in found.outcomes if outcome.name == name}


def test_first_by_hand(program: Program) -> None:
    """To tick 12 the clock of period 5 fires at 0, 5 and 10. Each event activates the clock and the counter, which counts 0, 1, 2."""
    found = measure(TOP / "examples" / "first.json", until=12, program=program)
    assert acts(found) == {"EVTDLY_c 1": 3, "Modulo_Count 2": 3}
    assert [block.fired for block in found.blocks] == [3, None]
    assert [(of.name, of.least, of.greatest, of.count, of.bounds_met) for of in found.signals] == [("Modulo_Count 2", 0, 2, 3, (False, False))]
    assert [(ran.events, ran.date, ran.end) for ran in found.runs] == [(3, 10, "end until")]
    assert found.outcomes == () and found.missed() == [] and found.share() == (2, 2)


def test_branches_by_hand(program: Program) -> None:
    """The clock of period 1 fires at 0, 1 and 2; the sensor reads 5, -1 and 10.

    5 and 10 are above 0, so branch 1 is taken at 0 and 2, and block 4 counts 0 and 1; -1 is not, so branch 2 is taken at 1, and block 5 counts 0.
    The sum inherits from both counters, so it acts in each of the three: 0 - 0, 0 - 0 and 1 - 0.
    """
    found = measure(BRANCHES, READINGS, until=2, program=program)
    assert acts(found) == {"EVTDLY_c 1": 3, "SENSOR 2": 3, "IFTHEL_f 3": 3, "Modulo_Count 4": 2, "Modulo_Count 5": 1, "SUMMATION 6": 3}
    assert came(found, "IFTHEL_f 3") == {"branch 1": 2, "branch 2": 1}
    assert [(of.least, of.greatest) for of in found.signals] == [(-1, 10), (0, 1), (0, 0), (0, 1)]
    assert found.share() == (8, 8) and found.missed() == []


def test_a_stopped_reaction_is_not_counted(program: Program) -> None:
    """At tick 3 the column has no fourth value: the event comes, and nothing of its reaction is shown."""
    found = measure(BRANCHES, READINGS, until=5, program=program)
    assert acts(found)["SENSOR 2"] == 3 and found.blocks[0].fired == 4 and found.blocks[0].acted == 3
    assert found.runs[0].end == "stop input at SENSOR 2" and found.runs[0].events == 4


def conditions() -> tuple[Any, Any]:
    """The diagram of docs/FORMAT.md with conditions and delays, and its inputs."""
    page = (TOP / "docs" / "FORMAT.md").read_text()
    pairs = re.findall(r"```diagram\n([^`]*)```\s*```inputs\n([^`]*)```", page)
    diagram, inputs = next(pair for pair in pairs if "ESELECT_f" in pair[0])
    return json.loads(diagram), json.loads(inputs)


def test_conditions_by_the_trace_on_the_page(program: Program) -> None:
    """By the trace below the diagram: the clock fires at 0, 10, 20, 30 and 40, where the sensor reads 3, -1, 2, 0 and 1. So block 3 takes branch 1 three
    times (3, 2, 1) and branch 2 twice. The variable delay is activated at all five; its events are four, at 3, 22, 30 and 41, as -1 programs none
    (that of 1 at 41). Block 7 counts them, 1 to 4, and block 8 inherits from it: each of its branches is taken once. The fourth is the halt."""
    diagram, inputs = conditions()
    found = measure(Text(*diagram["objs"]), inputs, until=1000, events=1000, program=program)
    assert [block.acted for block in found.blocks] == [5, 5, 5, 3, 2, 5, 4, 4, 1]
    assert {block.number: block.fired for block in found.blocks if block.fired is not None} == {1: 5, 6: 4}
    assert came(found, "IFTHEL_f 3") == {"branch 1": 3, "branch 2": 2}
    assert came(found, "ESELECT_f 8") == {"branch 1": 1, "branch 2": 1, "branch 3": 1, "branch 4": 1}
    assert found.runs[0].end == "end halt" and found.missed() == []


def misses() -> s.Diagram:
    """A design of which the values 1, 2 and 3 leave something of each kind untried."""
    with s.Diagram("misses") as design:
        tick = s.clock(10)
        with s.on(tick):
            x = s.sensor(1, s.int8)
            is_large = s.relation(x, ">", 100, type=s.int8)
            limited = s.saturation(x, -5, 3)  # noqa: F841
            kept = s.switch(x, ">=", 0, x, 0)  # noqa: F841
            table = s.logic(is_large, x, table=[[0], [1], [1], [0]])  # noqa: F841
            any_of = s.either(x, is_large)  # noqa: F841
        rare, usual = s.when(is_large, on=tick, name="is it large")
        s.select(x, 4, on=tick, name="which")
        rare_count = s.counter(10, on=rare)  # noqa: F841
        usual_count = s.counter(3, on=usual)  # noqa: F841
        which_one = s.choose((rare, s.constant(7, s.int8)), (tick, x))  # noqa: F841
        at_once = s.andlog(tick, rare)  # noqa: F841
        late = s.timer(5, on=rare)
        s.halt(on=late, name="the end")
    return design


def test_each_kind_of_miss(program: Program) -> None:
    """With 1, 2 and 3 at ticks 0, 10 and 20 nothing is above 100, so all that `rare` leads to never acts."""
    found = measure(misses(), {"x": [1, 2, 3]}, until=20, program=program)
    assert {block.name for block in found.never_acted()} == {"rare_count", "late", "the end"}
    assert came(found, "is_large") == {"true": 0, "false": 3}
    assert came(found, "limited") == {"low -5": 0, "high 3": 1}
    assert came(found, "kept") == {"input 1 (input 2 >= 0)": 3, "input 3 (else)": 0}
    assert came(found, "table") == {"row 00": 0, "row 01": 3, "row 10": 0, "row 11": 0}
    assert came(found, "any_of") == {"true": 3, "false": 0}
    assert came(found, "is it large") == {"branch 1": 0, "branch 2": 3}
    assert came(found, "which") == {"branch 1": 1, "branch 2": 1, "branch 3": 1, "branch 4": 0}
    assert came(found, "which_one") == {"input 1": 0, "input 2": 3}
    assert came(found, "at_once") == {"both": 0, "one alone": 3}
    sentences = found.missed()
    assert "'rare_count' (Modulo_Count) never acted" in sentences and "'which' (ESELECT_f): branch 4 never came" in sentences
    assert len(sentences) == 3 + 1 + 1 + 3 + 1 + 1 + 1 + 1 + 1
    assert [outcome.what for outcome in found.never_came("bound")] == ["low -5"]


def test_runs_add_up(program: Program) -> None:
    """127 is above 100, and the type's greatest; then the branch is taken, the timer fires 5 ticks later, and the run halts."""
    small = measure(misses(), {"x": [1, 2, 3]}, until=20, program=program)
    large = measure(misses(), {"x": [127, 127]}, until=20, program=program, called="large values")
    both = small + large
    assert large.runs[0].end == "end halt" and [ran.inputs for ran in both.runs] == ["inputs", "large values"]
    assert both.acted("the end") == 1 and both.acted("x") == 4 and both.outcome("is it large", "branch 1") == 1
    # x was never below 0 and never 0, so rows 00 and 10 (is_large without x) never came
    assert both.missed() == ["'kept' (SWITCH2_m): input 3 (else) never came", "'table' (LOGIC): row 00 never came",
                             "'table' (LOGIC): row 10 never came", "'any_of' (LOGICAL_OP): false never came"]
    values = {of.name: of for of in both.signals}["x"]
    assert (values.least, values.greatest, values.count, values.bounds_met) == (1, 127, 4, (False, True))
    assert merged([small, large]) == both and "bounds that were never met: limited: low -5" in both.text()


def test_what_is_added_is_of_one_design(program: Program) -> None:
    first, branches = measure(TOP / "examples" / "first.json", until=1, program=program), measure(BRANCHES, READINGS, until=1, program=program)
    with pytest.raises(DataError, match="of one design"):
        first + branches
    with pytest.raises(DataError, match="no run"):
        merged([])


def test_data_and_back(program: Program) -> None:
    found = measure(misses(), {"x": [1, 2, 3]}, until=20, program=program)
    data = json.loads(json.dumps(found.to_dict()))
    assert Coverage.from_dict(data) == found and data["missed"] == found.missed() and data["tried"] == list(found.share())


@pytest.mark.parametrize("change", [{"scicos": "coverage 2"}, {"blocks": 5}, {"blocks": [{"number": 1}]}, {"runs": [{"inputs": 4}]}, {"signals": None},
                                    {"outcomes": [{"block": 1, "kind": 2, "name": "", "group": "", "what": "", "count": None}]}])
def test_data_that_is_none(change: dict[str, Any], program: Program) -> None:
    data = measure(BRANCHES, READINGS, until=2, program=program).to_dict()
    with pytest.raises(DataError, match="this is no"):
        Coverage.from_dict({**data, **change})


def test_names_that_are_not_there(program: Program) -> None:
    found = measure(BRANCHES, READINGS, until=2, program=program)
    with pytest.raises(DataError, match="no block 'counter'"):
        found.acted("counter")
    with pytest.raises(DataError, match="no outcome 'branch 3': there is 'branch 1', 'branch 2'"):
        found.outcome("IFTHEL_f 3", "branch 3")


def large(counters: int) -> Text:
    """branches.json with further counters."""
    diagram = json.loads(Path(BRANCHES).read_text())
    counter = {"obj": "Block", "gui": "Modulo_Count", "model": {"evtin": [1], "ipar": [2], "dstate": [0], "out": [1], "outtyp": [8]}}
    return Text(*diagram["objs"], *[counter] * counters)


def test_a_design_without_room(program: Program) -> None:
    """branches.json has 6 blocks and wants 3 probes. With 2,047 blocks only one fits at a time, so each has a run of its own; with 2,048 none fits."""
    found = measure(large(2041), READINGS, until=2, program=program)
    assert [block.acted for block in found.blocks[:7]] == [3, 3, 3, 2, 1, 3, 0] and found.unmeasured() == []
    found = measure(large(2042), READINGS, until=2, program=program)
    assert [block.acted for block in found.blocks[:7]] == [None, 3, None, 2, 1, 3, 0]
    assert found.unmeasured() == ["EVTDLY_c 1", "IFTHEL_f 3"] and (found + found).unmeasured() == found.unmeasured()
    assert "not measured, as the diagram has no room for probes: EVTDLY_c 1, IFTHEL_f 3" in found.text()


def test_a_refusal_is_of_the_design(program: Program) -> None:
    with pytest.raises(Refused) as refused:
        measure(BRANCHES, str(TOP / "examples" / "no-inputs.json"), until=2, program=program)
    assert refused.value.refusal.rule == "InputShape" and refused.value.words[1] == BRANCHES
    with pytest.raises(DataError, match="outside of the int32"):
        measure(BRANCHES, [[2**40]], until=2, program=program)
    with pytest.raises(WordsError, match="at most 1,000,000 events"):
        measure(BRANCHES, READINGS, until=2, events=10**7, program=program)


def test_command(program: Program, tmp_path: Path) -> None:
    ran = kit("coverage", BRANCHES, READINGS, READINGS, "--until", "2", "--events", "9", SCICOS=program.path)
    assert ran.returncode == 0 and ran.stderr == ""
    # both runs together: ticks 0, 1 and 2 of each
    assert re.search(r"^IFTHEL_f 3 +IFTHEL_f +branch 1 +4$", ran.stdout, re.M) and re.search(r"^SENSOR 2 +SENSOR +6$", ran.stdout, re.M)
    assert re.search(r"^run 2: \S+readings.json, to tick 2; 3 events, the last at tick 2, end until$", ran.stdout, re.M)
    blocks = [line for line in ran.stdout.splitlines() if re.match(r"(block|\w+ \d) .* (acted|\d+)", line)][:7]
    assert len({re.match(r"(\w+(?: \d)? +)\S", line).end() for line in blocks if re.match(r"(\w+(?: \d)? +)\S", line)}) == 1  # type: ignore[union-attr]


def test_command_keeps_and_adds(program: Program, tmp_path: Path) -> None:
    kept = tmp_path / "kept.json"
    assert kit("coverage", "--data", "-o", str(kept), BRANCHES, READINGS, "--until", "0", SCICOS=program.path).returncode == 0
    assert json.loads(kept.read_text())["missed"] == ["'Modulo_Count 5' (Modulo_Count) never acted", "'IFTHEL_f 3' (IFTHEL_f): branch 2 never came"]
    strict = kit("coverage", "--strict", BRANCHES, READINGS, "--until", "0", SCICOS=program.path)
    assert strict.returncode == 1 and "tried 6 of 8 blocks and outcomes, not tried:" in strict.stdout
    added = kit("coverage", "--strict", "--also", str(kept), BRANCHES, READINGS, "--until", "2", SCICOS=program.path)
    assert added.returncode == 0 and re.search(r"^SENSOR 2 +SENSOR +4$", added.stdout, re.M)


@pytest.mark.parametrize(("words", "status", "told"), [
    ([BRANCHES], 2, "required: --until"),
    ([BRANCHES, READINGS, "--until", "two"], 2, "'two'"),
    ([BRANCHES, READINGS, "--until", "2", "--events", "-9"], 2, "-9"),
    ([BRANCHES, READINGS, "--until", "2", "--events", "10000000"], 2, "at most 1,000,000 events"),
    ([BRANCHES, READINGS, "--until", str(2**62 + 1)], 2, "the last date"),
    (["none.json", READINGS, "--until", "2"], 3, "none.json can't be read"),
    ([BRANCHES, "none.json", "--until", "2"], 3, "none.json can't be read"),
    ([BRANCHES, "none.csv", "--until", "2"], 3, "none.csv can't be read"),
    ([str(TOP / "examples" / "loop.json"), READINGS, "--until", "2"], 1, "loop"),
    ([BRANCHES, str(TOP / "examples" / "no-inputs.json"), "--until", "2"], 1, "1 are needed"),
    (["--also", BRANCHES, BRANCHES, READINGS, "--until", "2"], 1, "this is no coverage"),
    (["--also", str(TOP / "README.md"), BRANCHES, READINGS, "--until", "2"], 1, "it is no JSON"),
    (["--also", "none.json", BRANCHES, READINGS, "--until", "2"], 3, "none.json can't be read"),
    (["-o", "/none/there.txt", BRANCHES, READINGS, "--until", "2"], 4, "can't be written"),
    (["-o", "/dev/full", BRANCHES, READINGS, "--until", "2"], 4, "can't be written"),
])
def test_bad_words(words: list[str], status: int, told: str, program: Program) -> None:
    ran = kit("coverage", *words, SCICOS=program.path)
    assert ran.returncode == status and told in ran.stderr and ran.stdout == "" and "Traceback" not in ran.stderr


@pytest.mark.parametrize(("sign", "times"), [(">=", 2), (">", 1), ("!=", 2)])
def test_a_switch_at_its_number(sign: str, times: int, program: Program) -> None:
    """Of the values 4, 5 and 6 two are at least 5, one is more, and two are others."""
    with s.Diagram("switch") as design:
        tick = s.clock(1)
        reading = s.sensor(1, s.int8, on=tick)
        s.switch(reading, sign, 5, reading, 0, on=tick, name="chosen")
    found = measure(design, {"reading": [4, 5, 6]}, until=2, program=program)
    assert found.outcome("chosen", f"input 1 (input 2 {sign} 5)") == times
    assert found.outcome("chosen", "input 3 (else)") == 3 - times
