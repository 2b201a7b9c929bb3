"""Runs by the program: what is kept of them, and how they end. What is due stands in docs/FORMAT.md and in examples/."""
from __future__ import annotations

import json
import pickle
import re
import subprocess
import sys
from collections.abc import Iterator
from pathlib import Path
from typing import Any

import pytest
from waiting import of_command

from scicos.errors import DataError, ReadError, WordsError
from scicos.program import Program, ProgramError, Refusal, Refused
from scicos.runs import read_trace, simulate


def block(gui: str, **model: Any) -> dict[str, Any]:
    """A block, with a field `name` where one is given."""
    name = {"name": model.pop("name")} if "name" in model else {}
    return {"obj": "Block", "gui": gui, **name, "model": model}


def event(start: list[int], end: list[int]) -> dict[str, Any]:
    """A link of activations."""
    return {"obj": "Link", "from": start, "to": end, "ct": [5, -1]}


class Text:
    """A design that isn't in a file."""

    def __init__(self, *objs: dict[str, Any]) -> None:
        self.text = json.dumps({"objs": objs})

    def to_json(self) -> str:
        """The diagram."""
        return self.text


CLOCK = block("EVTDLY_c", name="clock", evtin=[1], evtout=[1], ipar=[5], firing=[0])
COUNT = block("Modulo_Count", name="count", evtin=[1], ipar=[10], dstate=[7], out=[1], outtyp=[3])


def branches() -> Text:
    """The diagram of docs/FORMAT.md with an IFTHEL_f, an EVTVARDLY and a HALT_f, and the page's inputs and trace."""
    page = (Path(__file__).resolve().parents[2] / "docs" / "FORMAT.md").read_text()
    part = page.split("how long an event waits (`EVTVARDLY`)")[1].split("```diagram\n")[1]
    design = Text()
    design.text = part.split("```")[0]
    return design


def test_the_first_diagram(program: Program, examples: Path) -> None:
    run = simulate(examples / "first.json", until=12, events=10, program=program)
    assert str(run.end) == run.why() == "end until" and not run.end.stopped
    assert [column.name for column in run.columns] == ["Modulo_Count 2"]
    assert list(run.values("Modulo_Count 2")) == [(0, 0), (5, 1), (10, 2)]
    assert list(run.events()) == [(0, "EVTDLY_c 1"), (5, "EVTDLY_c 1"), (10, "EVTDLY_c 1")]
    assert [run.at("b2_1_1", tick) for tick in (0, 4, 5, 9, 10, 11, 10**18)] == [0, 0, 1, 1, 2, 2, 2]


def test_events_branches_and_a_halt(program: Program) -> None:
    run = simulate(branches(), [[3, -1, 2, 0, 1, 4, 5]], until=1000, events=1000, program=program)
    assert str(run.end) == "end halt"
    assert list(run.values("Modulo_Count 4")) == [(0, 0), (20, 1), (40, 2)]
    assert list(run.values("Modulo_Count 5")) == [(10, 0), (30, 1)]
    assert list(run.values("b7_1_1")) == [(3, 1), (22, 2), (30, 3), (41, 4)]
    assert [date for date, name in run.events() if name == "EVTVARDLY 6"] == [3, 22, 30, 41]
    assert run.at("b7_1_1", 0) == 1 and run.at("b7_1_1", 21) == 1 and run.at("b5_1_1", 9) == 0


def test_names_of_superblocks_outputs_and_elements(program: Program, examples: Path) -> None:
    run = simulate(examples / "push-button" / "diagram.json", examples / "push-button" / "inputs.json", until=70,
                   signals=["presses", "debounce"], program=program)
    names = [column.name for column in run.columns]
    assert names[0] == "presses" and {"debounce.table.1", "debounce.table.2", "debounce.was"} <= set(names)
    assert list(run.values("presses")) == [(25, 1), (65, 2)]
    assert [date for date, value in run.values("debounce.table.2") if value] == [25, 65]


def test_elements_of_a_vector(program: Program) -> None:
    vector = block("CONST_m", name="three", ipar=[4, 5, 6], out=[3], outtyp=[5])
    run = simulate(Text(vector), until=0, program=program)
    assert [(column.name, column.type) for column in run.columns] == [(f"three[{n}]", "int8") for n in (1, 2, 3)]
    assert list(run.values("three[3]")) == [(0, 6)]
    second = simulate(Text(vector), until=0, signals=["three[2]"], program=program)
    assert list(second.values("three[2]")) == [(0, 5)] and len(second.columns) == 1
    with pytest.raises(DataError, match=r"'three' are 3 signals: name one, as 'three\[1\]'"):
        run.at("three", 0)


def test_a_name_twice_gets_the_number(program: Program) -> None:
    run = simulate(Text(*[block("CONST_m", name="same", ipar=[n], out=[1], outtyp=[3]) for n in (4, 5)]), until=0, program=program)
    assert [(column.name, run.at(column.name, 0)) for column in run.columns] == [("same 1", 4), ("same 2", 5)]


def test_unknown_names(program: Program, examples: Path) -> None:
    with pytest.raises(DataError, match="no signal 'presess': did you mean 'presses'"):
        simulate(examples / "push-button" / "diagram.json", {"button": [0]}, until=0, signals=["presess"], program=program)
    with pytest.raises(DataError, match="no signal 'table': did you mean 'debounce.table'"):
        simulate(examples / "push-button" / "diagram.json", {"button": [0]}, until=0, signals=["table"], program=program)
    run = simulate(examples / "push-button" / "diagram.json", {"button": [0]}, until=0, signals=["presses"], program=program)
    with pytest.raises(DataError, match="'button' wasn't asked for"):
        run.values("button")


def test_a_run_that_stops(program: Program, examples: Path) -> None:
    run = simulate(examples / "push-button" / "diagram.json", {"button": [1, 1, 1]}, until=1000, program=program)
    assert run.end.stopped and (run.end.kind, run.end.block, run.end.name) == ("input", 2, "button")
    assert str(run.end) == "stop input at button (block 2)"
    assert list(run.values("presses")) == [(10, 1)]
    again = simulate(examples / "push-button" / "diagram.json", {"button": iter([1, 1, 1])}, until=1000, program=program)
    assert "at date 15: button" in run.why() and "all 3 values of column 1 of the inputs" in run.why() == again.why()


def test_an_overflow_is_told_by_name(program: Program) -> None:
    count = block("Modulo_Count", name="count", evtin=[1], ipar=[100], dstate=[60], out=[1], outtyp=[5])
    twice = block("GAINBLK", name="twice", ipar=[2, 2], **{"in": [1], "intyp": [5], "out": [1], "outtyp": [5]})
    wire = {"obj": "Link", "from": [2, 1], "to": [3, 1], "ct": [1, 1]}
    run = simulate(Text(CLOCK, count, twice, event([1, 1], [1, 1]), event([1, 1], [2, 1]), wire), until=1000, program=program)
    assert str(run.end) == "stop overflow at twice (block 3)"
    assert list(run.values("twice")) == [(0, 120), (5, 122), (10, 124), (15, 126)]
    assert re.search("the run stopped at date 20: twice .*64.*128.*127", run.why())


def test_bounds(program: Program, examples: Path) -> None:
    design = examples / "first.json"
    with pytest.raises(WordsError, match="at most 1,000,000 events, and 1,000,001 .* compiled C, which `scicos ccode` and `scicos host`"):
        simulate(design, until=1, events=1_000_001, program=program)
    for until, events in ((-1, 1), (2**62 + 1, 1), (1, -1), (1.5, 1), ("5", 1)):
        with pytest.raises(WordsError, match="`until`|`events`") as raised:
            simulate(design, until=until, events=events, program=program)  # type: ignore[arg-type]
        assert raised.value.status == 2
    assert str(simulate(design, until=2**62, events=0, program=program).end) == "end events"


def test_a_refused_design(program: Program, examples: Path, tmp_path: Path) -> None:
    with pytest.raises(Refused) as raised:
        simulate(examples / "loop.json", until=1, program=program)
    assert raised.value.refusal.rule == "AlgebraicLoop" and raised.value.design == examples / "loop.json"
    (tmp_path / "in.json").write_text("[[300]]")
    with pytest.raises(Refused, match="in.json has 300 as value 1 .*button") as raised:
        simulate(examples / "push-button" / "diagram.json", tmp_path / "in.json", until=1, program=program)
    assert raised.value.refusal == Refusal(28, "InputRange", (2,), (1, 1, 300))


def test_a_refused_design_that_is_in_no_file(program: Program) -> None:
    with pytest.raises(Refused, match="count .*has no activation input"):
        simulate(Text(dict(COUNT, model={**COUNT["model"], "evtin": []})), until=1, program=program)


def test_a_missing_file(program: Program, examples: Path) -> None:
    with pytest.raises(ReadError, match="nothing.json can't be read"):
        simulate(examples / "nothing.json", until=1, program=program)
    with pytest.raises(ReadError, match="nothing.json can't be read"):
        simulate(examples / "push-button" / "diagram.json", "nothing.json", until=1, program=program)


def test_a_trace_of_compiled_c(program: Program, examples: Path, tmp_path: Path) -> None:
    folder = examples / "push-button"
    run = read_trace(folder / "diagram.json", folder / "trace.txt", program=program)
    assert list(run.values("presses")) == [(25, 1), (65, 2)] and str(run.end) == "end until"
    text = (folder / "trace.txt").read_text()
    for wrong, told in ((text.replace("end until\n", ""), "ends before the line"), (text.replace("start", "begin", 1), "'begin' is no line"),
                        (text + "end until\n", "no line of a trace comes here"), (text.replace("val 8 1 1 1", "val 8 1 1 x"), "invalid literal"),
                        (text.replace("val 8 1 1 1", "val 8 1 1 -1"), "")):
        (tmp_path / "trace.txt").write_text(wrong)
        with pytest.raises(DataError, match=told):
            read_trace(folder / "diagram.json", tmp_path / "trace.txt", program=program)
    with pytest.raises(ReadError):
        read_trace(folder / "diagram.json", tmp_path / "none.txt", program=program)


def test_progress_is_told(program: Program, examples: Path) -> None:
    told: list[tuple[int, int]] = []
    simulate(examples / "first.json", until=10**7, events=50_000, program=program, progress=lambda *at: told.append(at))
    assert len(told) > 2 and told[-1] == (50_000, 5 * 49_999) and told == sorted(told)


def fakes(tmp_path: Path, behind: str) -> Program:
    """A program that answers `map` and `vcd` as the program does of the first diagram, and begins a trace."""
    real = tmp_path / "fake"
    real.write_text(f"#!{sys.executable}\nimport sys, time, os, signal\nword = sys.argv[1]\n"
                    "if word == 'map': print('1 1 EVTDLY_c\\n2 2 Modulo_Count int32[1x1]')\n"
                    "elif word == 'vcd': print('$timescale 1 ns $end\\n$scope module scicos $end\\n$var integer 32 v1 b2_1_1 $end\\n$upscope $end\\n"
                    "$enddefinitions $end\\n#0\\n$dumpvars\\nb' + 32 * '0' + ' v1\\n$end')\n"
                    f"else:\n    print('start\\nevent 0 1 1\\nval 2 1 1 0', flush=True)\n    {behind}\n")
    real.chmod(0o755)
    return Program(str(real))


def test_a_program_that_ends_early(tmp_path: Path, examples: Path) -> None:
    for behind, told, status in (("sys.exit(0)", "no last line", 70), ("os.kill(os.getpid(), signal.SIGKILL)", "ended by signal 9", 137),
                                 ("sys.stderr.write('out of memory\\n'); sys.exit(5)", "no memory", 5)):
        with pytest.raises(ProgramError, match=told) as raised:
            simulate(examples / "first.json", until=1, program=fakes(tmp_path, behind))
        assert raised.value.status == status


def test_what_interrupts_a_run_ends_the_program(tmp_path: Path, examples: Path) -> None:
    def interrupt(count: int, date: int) -> None:
        raise KeyboardInterrupt
    fake = fakes(tmp_path, "print('event 5 1 1\\n' * 100000, flush=True); open(sys.argv[0] + '.pid', 'w').write(str(os.getpid())); time.sleep(600)")
    with pytest.raises(KeyboardInterrupt):
        simulate(examples / "first.json", until=1, program=fake, progress=interrupt)
    assert of_command(fake.path) == []


@pytest.fixture()
def wide(tmp_path: Path) -> Iterator[Path]:
    """A diagram of one clock and ten counters."""
    objs = [dict(CLOCK, model={**CLOCK["model"], "ipar": [1]}), event([1, 1], [1, 1])]
    for number in range(10):
        objs.append(block("Modulo_Count", name=f"c{number}", evtin=[1], ipar=[1_000_000 + number], dstate=[0], out=[1], outtyp=[3]))
        objs.append(event([1, 1], [len(objs), 1]))
    path = tmp_path / "wide.json"
    path.write_text(json.dumps({"objs": objs}))
    yield path


MEASURED = """
import resource, sys
import numpy, pandas
from scicos.runs import simulate
def peak():
    return resource.getrusage(resource.RUSAGE_SELF).ru_maxrss * 1024
simulate(sys.argv[1], until=10, events=10).table()
before = peak()
run = simulate(sys.argv[1], until=10**9, events=100_000)
read = peak()
table = run.table()
print(read - before, peak() - before, int(table.memory_usage(deep=True).sum()), table["c9"].iloc[-1], len(table) * 10, table["c0"].isna().sum())
"""


def test_memory_of_a_million_values(wide: Path, program: Program) -> None:
    pytest.importorskip("pandas")
    import os
    top = Path(__file__).resolve().parents[1]
    ran = subprocess.run([sys.executable, "-c", MEASURED, str(wide)], capture_output=True, text=True, timeout=300,
                         env={**os.environ, "PYTHONPATH": str(top), "SCICOS": program.path})
    assert ran.stderr == ""
    reading, whole, table, last, values, missing = map(int, ran.stdout.split())
    assert values > 1_000_000 and last == 99_999 and missing == 1
    room = 4 * 2**20  # of the pieces that are read, and of what the allocator keeps
    assert reading < table + room and whole < 1.5 * table + room


def test_runs_and_errors_go_from_one_process_to_another(program: Program, examples: Path) -> None:
    run = simulate(examples / "push-button" / "diagram.json", {"button": [1, 1, 1, 1]}, until=1000, program=program)
    again = pickle.loads(pickle.dumps(run))
    assert list(again.values("presses")) == list(run.values("presses")) == [(10, 1)] and again.why() == run.why()
    with pytest.raises(Refused) as raised:
        simulate(examples / "loop.json", until=1, program=program)
    copy = pickle.loads(pickle.dumps(raised.value))
    assert (str(copy), copy.refusal, copy.status) == (str(raised.value), raised.value.refusal, 1)
    copy = pickle.loads(pickle.dumps(ProgramError("text", 5, "said")))
    assert (str(copy), copy.status, copy.answer) == ("text", 5, "said")


def test_a_trace_that_lacks_a_line(program: Program, tmp_path: Path) -> None:
    design = Text(block("CONST_m", name="three", ipar=[4, 5, 6], out=[3], outtyp=[5]))
    whole = ["start", "val 1 1 1 4", "val 1 1 2 5", "val 1 1 3 6", "end empty"]
    path = tmp_path / "trace.txt"
    for lost in range(len(whole)):
        path.write_text("".join(line + "\n" for at, line in enumerate(whole) if at != lost))
        with pytest.raises(DataError, match="trace.txt"):
            read_trace(design, path, program=program)
    path.write_text("\n".join([whole[1], *whole]) + "\n")
    with pytest.raises(DataError, match="before the line `start`"):
        read_trace(design, path, program=program)
