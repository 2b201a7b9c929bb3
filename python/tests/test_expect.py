"""Expected values. What is due stands in traces that are printed in docs/FORMAT.md and examples/."""
from __future__ import annotations

import json
from pathlib import Path
from typing import Any

import pytest
from test_cli import kit
from test_coverage import Text, conditions

from scicos.errors import DataError, WordsError
from scicos.expect import Unmet, Vacuous
from scicos.program import Program
from scicos.runs import Run, read_trace, simulate

TOP = Path(__file__).resolve().parents[2]
PI = TOP / "examples" / "pi-controller"
DRIVES = [1000, 1000, 1000, 1000, 930, 608, 528, 508, 1000]  # `val 8 1 1` of its trace.txt, every 10 ticks


@pytest.fixture()
def run(program: Program) -> Run:
    """The run of the PI controller that its page shows: at 0, 10 .. 80."""
    return simulate(PI / "diagram.json", PI / "inputs.json", until=80, program=program)


@pytest.fixture()
def steps(program: Program) -> Run:
    """The run of the conditions' diagram, where two events fall on tick 30: block 5 counts at the first, block 7 at the second."""
    diagram, inputs = conditions()
    return simulate(Text(*diagram["objs"]), inputs, until=1000, events=1000, program=program)


def test_what_is_as_expected(run: Run) -> None:
    run.expect("controller.drive", DRIVES)
    run.expect("controller.drive", {0: 1000, 40: 930, 45: 930, 49: 930, 50: 608, 80: 1000})
    run.expect("controller.drive", [929, 609, 527.5], tolerance=1, window=(40, 60))
    run.expect("controller.drive", [931, 610], tolerance=(2, 0), window=(40, 59))
    run.expect("controller.drive", [0] + DRIVES, by="event")  # at start nothing acts, and 0 is held
    run.expect("controller.drive", {0: 0, 5: 930, 9: 1000}, by="event")


@pytest.mark.parametrize("form", ["numpy", "series", "table"])
def test_arrays_and_tables(form: str, run: Run) -> None:
    pandas = pytest.importorskip("pandas")
    values: Any = {"numpy": pandas.Series(DRIVES).to_numpy(), "series": pandas.Series(DRIVES), "table": run.table(by="tick")["controller.drive"]}[form]
    run.expect("controller.drive", values)
    wrong = values.copy()
    wrong[4 if form != "table" else 40] = 931
    with pytest.raises(Unmet, match="is 930 at tick 40"):
        run.expect("controller.drive", wrong)


def test_by_event_and_by_tick(steps: Run) -> None:
    """By event each reaction of tick 30 is a row; by tick the last one tells. Before it has acted block 7 holds its first state, 1."""
    steps.expect("Modulo_Count 7", {1: 1, 6: 2, 7: 3}, by="event")  # of the trace on the page: events at 0, 3, 10, 20, 22, 30, 30
    steps.expect("Modulo_Count 7", {29: 2, 30: 3, 31: 3, 5000: 4})  # the run halts at 41, so 4 is held from then on
    steps.expect("Modulo_Count 7", [1, 1, 1, 1, 2, 3, 3, 4])  # at 0, 3, 10, 20, 22, 30, 40 and 41
    with pytest.raises(Unmet, match=r"is 2 at tick 30 \(event 6, EVTDLY_c 1\), and 3 is expected:"):
        steps.expect("Modulo_Count 7", {6: 3}, by="event")


def test_the_text_of_a_failure(run: Run) -> None:
    with pytest.raises(Unmet) as unmet:
        run.expect("controller.drive", {30: 1000, 45: 925, 50: 700, 60: 1}, tolerance=4)
    assert isinstance(unmet.value, AssertionError) and unmet.value.tick == 40
    assert str(unmet.value) == """\
'controller.drive' is 930 at tick 40 (event 5, clock), asked for at tick 45, and 925 is expected (tolerance 4):
   tick  event  expected  controller.drive
     10  clock                        1000
     20  clock                        1000
     30  clock      1000              1000
>    40  clock       925               930
     50  clock       700               608
     60  clock         1               528
     70  clock                         508
3 of 4 values differ: also at tick 50, 60"""


@pytest.mark.parametrize(("values", "options", "told"), [
    ({81: 1000}, {}, "is expected to be 1000 at tick 81, and the run tells nothing of it: it is known up to tick 80 (end until)"),
    ({10: 5}, {"by": "event"}, "at event 10, and the run has 9 events (end until)"),
    (DRIVES[1:], {}, "has 8 expected values, and the run has 9 rows (end until)"),
    (DRIVES, {"window": (0, 70)}, "has 9 expected values, and the run has 8 rows from tick 0 to 70"),
    (DRIVES, {"by": "event"}, "has 9 expected values, and the run has 10 rows"),
])
def test_a_run_that_is_too_short(values: Any, options: Any, told: str, run: Run) -> None:
    with pytest.raises(Unmet) as unmet:
        run.expect("controller.drive", values, **options)
    assert told in str(unmet.value)


def test_a_run_that_stops(program: Program) -> None:
    """push-button has 15 readings, so it stops at tick 75; the last tick that is whole is 70."""
    folder = TOP / "examples" / "push-button"
    run = simulate(folder / "diagram.json", folder / "inputs.json", until=100, program=program)
    run.expect("presses", {64: 1, 65: 2, 70: 2})
    with pytest.raises(Unmet, match=r"it is known up to tick 70 \(stop input at button"):
        run.expect("presses", {80: 2})
    nothing = Text({"obj": "Block", "gui": "CONST_m", "model": {"ipar": [0], "out": [1], "outtyp": [3]}},
                   {"obj": "Block", "gui": "PRODUCT", "model": {"ipar": [0, -1], "in": [1, 1], "intyp": [3, 3], "out": [1], "outtyp": [3]}},
                   *[{"obj": "Link", "from": [1, 1], "to": [2, port], "ct": [1, 1]} for port in (1, 2)])
    stopped = simulate(nothing, until=5, program=program)
    with pytest.raises(Unmet, match="the run stopped at start"):
        stopped.expect("PRODUCT 2", {0: 0})


def test_a_trace_from_a_file(program: Program) -> None:
    """Of a trace's file the last date isn't known, so it is that of its last event."""
    run = read_trace(PI / "diagram.json", PI / "trace.txt", program=program)
    run.expect("controller.drive", DRIVES)
    with pytest.raises(Unmet, match="known up to tick 80"):
        run.expect("controller.drive", {85: 1000})


@pytest.mark.parametrize(("values", "options", "told"), [
    ([1000, None, 1000], {}, "the expected values of 'controller.drive': value 2 is empty"),
    ([1000, float("nan")], {}, "value 2 is empty"),
    ([1000, "high"], {}, "value 2 is 'high', which is no number"),
    ([1000, True], {}, "value 2 is 'True', which is no number"),
    ([float("inf")], {}, "value 1 is 'inf'"),
    (["1_000"], {}, "value 1 is '1_000'"),
    ({10: None}, {}, "the value at tick 10 is empty"),
    ({-1: 0}, {}, "-1 is no tick"),
    ({"10": 0}, {}, "'10' is no tick"),
    ({1.5: 0}, {"by": "event"}, "1.5 is no event"),
    ([], {}, "there are no expected values of 'controller.drive'"),
    ({}, {}, "there are no expected values"),
    (5, {}, "expected values are a dict by tick, a list, an array, or the path of a CSV file, and not '5'"),
    ({1, 2}, {}, "expected values are a dict"),
])
def test_expected_values_that_are_none(values: Any, options: Any, told: str, run: Run) -> None:
    with pytest.raises(DataError) as error:
        run.expect("controller.drive", values, **options)
    assert told in str(error.value)


@pytest.mark.parametrize(("options", "told"), [
    ({"by": "row"}, "by 'event' or by 'tick', and not by 'row'"),
    ({"tolerance": -1}, "a tolerance is a number from 0 on"),
    ({"tolerance": "2"}, "a tolerance is a number"),
    ({"tolerance": (1, 2, 3)}, "a tolerance is a number"),
    ({"window": 5}, "a window is a pair of ticks"),
    ({"window": (20, 10)}, "doesn't end before it begins"),
    ({"window": (-5, 10)}, "a window begins at tick 0 or later"),
])
def test_words_that_are_none(options: Any, told: str, run: Run) -> None:
    with pytest.raises(WordsError) as error:
        run.expect("controller.drive", [1], **options)
    assert told in str(error.value)


def test_nothing_in_the_window(run: Run) -> None:
    with pytest.raises(Vacuous, match="none of the 2 expected values"):
        run.expect("controller.drive", {0: 1000, 10: 1000}, window=(20, 30))


def test_names_that_are_not_there(run: Run) -> None:
    with pytest.raises(DataError, match="did you mean 'controller.drive'"):
        run.expect("controller.driv", DRIVES)


def csv(tmp_path: Path, *lines: str) -> str:
    """A CSV file of these lines."""
    path = tmp_path / "due.csv"
    path.write_text("\n".join(lines) + "\n")
    return str(path)


def test_csv(tmp_path: Path, run: Run) -> None:
    run.expect("controller.drive", csv(tmp_path, "date,controller.drive", "40,930", "45,930", "50,608"))
    run.expect("controller.drive", csv(tmp_path, "date;drive", "40;930.4", "50;607.6"), column="drive", tolerance=0.5)
    run.expect("controller.drive", csv(tmp_path, "controller.drive", *map(str, DRIVES)))
    run.expect("controller.drive", csv(tmp_path, "date,controller.drive", "0,0", *(f"{10 * at},{drive}" for at, drive in enumerate(DRIVES))), by="event")
    with pytest.raises(Unmet, match="is 608 at tick 50"):
        run.expect("controller.drive", csv(tmp_path, "date,controller.drive", "40,930", "50,609"))


def test_a_run_that_was_written(tmp_path: Path, run: Run) -> None:
    """What `to_csv` writes by tick is what is expected of the same run."""
    path = tmp_path / "run.csv"
    run.to_csv(path, by="tick")
    for column in run.columns:
        run.expect(column.name, path)


@pytest.mark.parametrize(("lines", "told"), [
    (["date,controller.drive", "40,930", "50,"], "due.csv: line 3 (row 2) of 'controller.drive' is empty"),
    (["date,controller.drive", "40,930", ",608"], "due.csv: line 3 (row 2) of 'date' is empty"),
    (["date,controller.drive", "40,930", "50"], "due.csv: line 3 (row 2) has no cell for 'controller.drive'"),
    (["date,controller.drive", "40,fast"], "due.csv: line 2 (row 1) of 'controller.drive' is 'fast', which is no number"),
    (["date,controller.drive", "50,608", "40,930"], "due.csv: line 3 (row 2) of 'date' is 40, and the line before has 50"),
    (["date,controller.drive", "4.5,930"], "due.csv: line 2 (row 1) of 'date' is '4.5', which is no tick"),
    (["date,drive", "40,930"], "has no column 'controller.drive': its columns are 'date', 'drive'"),
    (["date,controller.drive"], "there are no expected values"),
])
def test_csv_that_is_none(lines: list[str], told: str, tmp_path: Path, run: Run) -> None:
    with pytest.raises(DataError) as error:
        run.expect("controller.drive", csv(tmp_path, *lines))
    assert told in str(error.value)


def command(path: str, *words: str, program: Program) -> tuple[int, str, str]:
    """The command on the run of the PI controller."""
    ran = kit("expect", path, str(PI / "diagram.json"), str(PI / "inputs.json"), "--until", "80", *words, SCICOS=program.path)
    assert "Traceback" not in ran.stderr
    return ran.returncode, ran.stdout, ran.stderr


def test_command(program: Program, tmp_path: Path) -> None:
    due = csv(tmp_path, "date,controller.drive,speed", "40,930,1241", "50,600,1434")
    status, out, _ = command(due, program=program)
    assert status == 8 and out.startswith("'controller.drive' is 608 at tick 50 (event 6, clock), and 600 is expected:\n   tick  event")
    assert command(due, "--tolerance", "8", program=program)[:2] == (0, "as expected: 2 signals, end until\n")
    assert command(due, "--window", "0", "49", program=program)[0] == 0
    assert command(due, "--signal", "speed", program=program)[:2] == (0, "as expected: 1 signal, end until\n")


@pytest.mark.parametrize(("lines", "words", "status", "told"), [
    (["date,speed", "0,0", "10,"], [], 1, "line 3 (row 2) of 'speed' is empty"),
    (["date,sped", "0,0"], [], 1, "did you mean 'speed'"),
    (["date,speed", "0,0"], ["--signal", "reference"], 1, "has no column 'reference'"),
    (["date", "0"], [], 1, "has no column of a signal"),
    (["date,speed", "0,0"], ["--window", "9", "3"], 2, "doesn't end before it begins"),
    (["date,speed", "0,0"], ["--tolerance", "-1"], 2, "a tolerance is a number"),
    (["date,speed", "0,0"], ["--tolerance", "nan"], 2, "a tolerance is a number"),
    (["date,speed", "0,0"], ["--tolerance", "inf"], 2, "a tolerance is a number"),
    (["date,speed", "0,0"], ["--by", "row"], 2, "invalid choice"),
    (["date,speed", "0,0"], ["--events", "1000001"], 2, "at most 1,000,000 events"),
])
def test_command_on_bad_input(lines: list[str], words: list[str], status: int, told: str, program: Program, tmp_path: Path) -> None:
    ended, out, err = command(csv(tmp_path, *lines), *words, program=program)
    assert (ended, out) == (status, "") and told in err


def test_command_without_files(program: Program) -> None:
    assert command("none.csv", program=program)[0] == 3
    assert json.loads((PI / "inputs.json").read_text())[1][4] == 1241  # what the tests above take from there
