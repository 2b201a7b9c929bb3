"""Sweeps on this machine: what their rows tell, against equations that are worked out in `sweeping`."""
from __future__ import annotations

import csv
import io
import json
import os
import subprocess
import sys
from pathlib import Path
from typing import Any

import pytest
from sweeping import DESIGN, ROWS, due, written
from test_cli import TOP, kit

from scicos import Diagram, clock, counter, int8
from scicos.errors import DataError, ReadError, ScicosError, WordsError
from scicos.measures import measured
from scicos.program import Program
from scicos.sweep import count, first, greatest, last, least, signal, sweep

BUTTON = TOP / "examples" / "push-button"


def test_two_hundred_runs(tmp_path: Path, program: Program) -> None:
    design, paths = written(tmp_path, 20)
    gains = list(range(1, 11))
    found = sweep(design, inputs=paths, parameters={"gain": gains}, until=60, rows=ROWS, program=program)
    assert len(found.rows) == 200 and found.columns == ["run", "gain", "inputs", "end", *ROWS, "why"]
    for at, (row, (gain, number, end, values, where)) in enumerate(zip(found.rows, due(gains, 20)), 1):
        assert (row.run, row.parameters, row.inputs, row.end, list(row.values)) == (at, {"gain": gain}, str(paths[number - 1]), end, values)
        assert f" {where} " in row.why if where else row.why == ""
    assert {row.end for row in found.rows} == {"until", "overflow", "input"}


def make(period: int = 5, base: int = 10) -> Diagram:
    """A counter."""
    with Diagram("counter") as design:
        tick = clock(period)
        ticks = counter(base, type=int8, on=tick)  # noqa: F841
    return design


def test_a_function_and_measures(program: Program) -> None:
    rows = [last("ticks"), least("ticks"), greatest("ticks"), first(signal("ticks") >= 3), count("ticks"), count(signal("ticks") == 0),
            first(signal("ticks") > 100)]
    found = sweep(make, parameters=[{"period": 5}, {"period": 3, "base": 4}], until=30, rows=rows, program=program)
    assert [list(row.values) for row in found.rows] == [[6, 0, 6, 15, 7, 1, None], [2, 0, 3, 9, 11, 3, None]]
    assert [dict(row.parameters) for row in found.rows] == [{"period": 5}, {"period": 3, "base": 4}]
    assert found.columns[:5] == ["run", "period", "base", "inputs", "end"] and found.columns[-2:] == ["first ticks > 100", "why"]
    assert found.text().decode().splitlines()[1] == "1,5,,,until,6,0,6,15,7,1,,"


def test_a_table_of_pandas(program: Program) -> None:
    pytest.importorskip("pandas")
    table = sweep(make, parameters={"base": [2, 4], "period": [5, 10]}, until=35, rows=[last("ticks"), "first ticks == 3"],
                  program=program).table()
    assert table["last ticks"].tolist() == [1, 1, 3, 3] and table["base"].tolist() == [2, 2, 4, 4]
    assert table["first ticks == 3"].isna().tolist() == [True, True, False, False] and table["first ticks == 3"].tolist()[2:] == [15, 30]


def test_inputs_of_all_forms(tmp_path: Path, program: Program) -> None:
    (tmp_path / "in.csv").write_text("button\n" + "1\n" * 15)
    (tmp_path / "hole.csv").write_text("button\n1\n\n1\n")
    inputs: list[Any] = [BUTTON / "inputs.json", tmp_path / "in.csv", {"button": [1, 1, 1]}, [[0] * 20], tmp_path / "hole.csv", {"buton": [1]}, [[300]]]
    found = sweep(BUTTON / "diagram.json", inputs=inputs, until=70, rows=["last presses", "first presses == 2"], program=program)
    assert [(row.end, row.values) for row in found.rows] == [
        ("until", (2, 65)), ("until", (1, None)), ("input", (1, None)), ("until", (None, None)), *[("refused", (None, None))] * 3]
    assert [row.inputs for row in found.rows][2:] == ["inputs 3", "inputs 4", str(tmp_path / "hole.csv"), "inputs 6", "inputs 7"]
    assert "stopped at date 15: button" in found.rows[2].why and "took all 3 values of column 1" in found.rows[2].why
    for row, told in zip(found.rows[4:], ("hole.csv: line 3", "did you mean 'button'", "outside of the uint8")):
        assert told in row.why


def test_what_is_refused_is_a_row(tmp_path: Path, program: Program) -> None:
    (tmp_path / "in.json").write_text("[[300]]")
    found = sweep(BUTTON / "diagram.json", inputs=[tmp_path / "in.json"], until=1, rows=["last presses"], program=program)
    assert (found.rows[0].end, found.rows[0].values) == ("refused", (None,)) and "in.json has 300 as value 1" in found.rows[0].why
    found = sweep(TOP / "examples" / "loop.json", until=1, rows=["last x"], program=program)
    assert found.rows[0].end == "refused" and "SUMMATION 3" in found.rows[0].why and "GAINBLK 4" in found.rows[0].why

    def divided(by: int) -> Diagram:
        return make(period=10 // by)
    found = sweep(divided, parameters={"by": [2, 0]}, until=30, rows=["last ticks"], program=program)
    assert [(row.end, row.values) for row in found.rows] == [("until", (6,)), ("refused", (None,))]
    assert "test_sweep.py:" in found.rows[1].why and "ZeroDivisionError" in found.rows[1].why


def test_a_design_that_the_builder_refuses(tmp_path: Path, program: Program) -> None:
    (tmp_path / "d.py").write_text("from scicos import *\ndef make(base):\n    with Diagram('d') as design:\n"
                                   "        ticks = counter(base, type=int8, on=clock(5))\n    return design\n")
    found = sweep(tmp_path / "d.py", parameters={"base": [8, 1000]}, until=30, rows=["last ticks"], program=program)
    assert [(row.end, row.values) for row in found.rows] == [("until", (6,)), ("refused", (None,))]
    assert found.rows[1].why.startswith("d.py:4: ")


def test_traces_are_kept_where_that_is_asked(tmp_path: Path, program: Program, monkeypatch: pytest.MonkeyPatch) -> None:
    design, paths = written(tmp_path, 2)
    temporary = tmp_path / "temporary"
    temporary.mkdir()
    monkeypatch.setattr("tempfile.tempdir", str(temporary))
    sweep(design, inputs=paths, parameters={"gain": [1]}, until=60, rows=ROWS, program=program, keep=tmp_path / "traces")
    json_file = tmp_path / "made.json"
    subprocess.run([sys.executable, "-c", DESIGN + "import sys; make(gain=1).write(sys.argv[1])", str(json_file)], check=True,
                   env={**os.environ, "PYTHONPATH": str(TOP / "python")})
    for number, path in enumerate(paths, 1):
        assert (tmp_path / "traces" / f"{number}.txt").read_bytes() == program.ask("simulate", json_file, path, 60, 1_000_000).out != b""
    assert len(list((tmp_path / "traces").iterdir())) == 2 and list(temporary.iterdir()) == []


@pytest.mark.parametrize("text, told", [
    ("last", "written as `last NAME`"), ("lst speed", "did you mean last?"), ("median speed", "one of last, least, greatest, first, count"),
    ("first alarm", "needs a condition"), ("last alarm == 1", "takes the name of a signal alone"), ("first alarm == x", "no whole number"),
    ("first alarm == 1.5", "no whole number"), ("", "written as")])
def test_wrong_measures(text: str, told: str) -> None:
    with pytest.raises(WordsError, match=told):
        measured(text)


def test_measures_from_texts() -> None:
    assert measured(" first  SUMMATION 3 = -4 ") == first(signal("SUMMATION 3") == -4)
    assert measured("count b[2]<=7") == count(signal("b[2]") <= 7) and measured("count x") == count("x")
    for text in ("last a.b", "least a.b", "greatest a.b", "first a != 3", "count a > 3", "count a"):
        assert str(measured(text)) == text
    with pytest.raises(WordsError, match="no truth before a run"):
        first((signal("a") == 1) and (signal("b") == 1))
    with pytest.raises(WordsError, match="takes a condition"):
        first("a")  # type: ignore[arg-type]
    with pytest.raises(WordsError, match="with a whole number"):
        signal("a") > 1.5  # type: ignore[operator]


def with_gian(gain: int = 1, **others: int) -> Diagram:
    """A function that takes any parameter."""
    return make(base=gain + others.get("more", 0))


@pytest.mark.parametrize("words, error, told", [
    ({"parameters": {"perod": [1]}}, WordsError, "make takes no parameter 'perod': did you mean 'period'"),
    ({"parameters": {"period": []}}, WordsError, "'period' has no values"),
    ({"design": lambda base: make(base=base)}, WordsError, "needs values for its parameter 'base'"),
    ({"design": 5}, WordsError, "a design is a path"),
    ({"design": lambda: 5}, WordsError, "gives int in place of a Diagram"),
    ({"design": TOP / "examples" / "first.json", "parameters": {"gain": [1]}}, WordsError, "first.json is a diagram's file"),
    ({"design": "none.json"}, ReadError, "none.json can't be read"), ({"design": "none.py"}, ReadError, "none.py can't be read"),
    ({"rows": ["last tiks"]}, DataError, "no signal 'tiks': did you mean 'ticks'"),
    ({"rows": ["last tiks"], "parameters": {"base": [3, 4]}}, DataError, "with base=3: the design has no signal"),
    ({"inputs": ["none.csv"]}, ReadError, "the input file none.csv can't be read: No such file"),
    ({"until": -1}, WordsError, "`until`"), ({"events": 2_000_000}, WordsError, "compiled C")])
def test_what_is_wrong(words: dict[str, Any], error: type[ScicosError], told: str, program: Program, tmp_path: Path,
                       monkeypatch: pytest.MonkeyPatch) -> None:
    monkeypatch.chdir(tmp_path)
    given = {"design": make, "until": 10, "rows": ["last ticks"], "path": "table.csv", "program": program, **words}
    with pytest.raises(error, match=told):
        sweep(given.pop("design"), **given)
    assert list(tmp_path.iterdir()) == []
    assert [row.values for row in sweep(with_gian, parameters={"gain": [3], "more": [2]}, until=30, rows=["last ticks"], program=program).rows] == [(1,)]


@pytest.mark.parametrize("text, told", [
    ("def f(:\n", "d.py, line 1, is no Python"), ("x = 1 / 0\n", "d.py:1: ZeroDivisionError"), ("import nothing_of_this_name\n", "d.py:1: ModuleNotFound"),
    ("x = 1\n", "d.py has no function that gives a Diagram"), ("def f(): pass\ndef g(): pass\n", "has the functions f, g: name"),
    ("raise SystemExit(3)\n", "d.py:1: SystemExit")])
def test_files_of_python(text: str, told: str, tmp_path: Path, program: Program) -> None:
    (tmp_path / "d.py").write_text(text)
    with pytest.raises(ScicosError, match=told):
        sweep(tmp_path / "d.py", until=1, program=program)


def test_which_function_of_a_file(tmp_path: Path, program: Program) -> None:
    begin = "from scicos import *\nfrom helper import base\ndef part(x): return x\n"
    (tmp_path / "helper.py").write_text("base = 3\n")
    body = "    with Diagram('d') as design:\n        ticks = counter({}, type=int8, on=clock(5))\n    return design\n"
    (tmp_path / "d.py").write_text(begin + "def one():\n" + body.format("base") + "def two() -> Diagram:\n" + body.format("2"))
    for name, value in (("d.py", 0), ("d.py:one", 1), ("d.py:two", 0)):
        assert sweep(str(tmp_path / name), until=20, rows=["last ticks"], program=program).rows[0].values == (value,)
    with pytest.raises(WordsError, match="no function 'on': did you mean 'one'"):
        sweep(str(tmp_path / "d.py:on"), until=20, program=program)
    (tmp_path / "e.py").write_text("from scicos import *\n" + "\n".join(line[4:] for line in body.format("4").splitlines()[:2]) + "\nprint('drawn')\n")
    assert sweep(tmp_path / "e.py", until=20, rows=["last ticks"], program=program).rows[0].values == (0,)


def test_the_command(tmp_path: Path, program: Program) -> None:
    design, paths = written(tmp_path, 3)
    words = ["sweep", str(design), "--set", "gain=1..5..2,2", "--set", "limit=40", "--inputs", *map(str, paths), "--until", "60", "--events", "1000",
             *[word for row in ROWS for word in ("--row", row)]]
    ran = kit(*words, "-o", str(tmp_path / "table.csv"), SCICOS=program.path)
    assert (ran.returncode, ran.stdout) == (0, "") and ran.stderr.startswith("12 runs: ") and not (tmp_path / "table.csv.journal").exists()
    lines = list(csv.DictReader(io.StringIO((tmp_path / "table.csv").read_text())))
    for line, (gain, number, end, values, where) in zip(lines, due([1, 3, 5, 2], 3, limit=40)):
        assert (line["gain"], line["limit"], line["inputs"], line["end"]) == (str(gain), "40", str(paths[number - 1]), end)
        assert [line[row] for row in ROWS] == ["" if value is None else str(value) for value in values] and where in line["why"]
    printed = kit(*words, SCICOS=program.path).stdout.splitlines()
    assert len(printed) == 13 and printed[0].split()[:4] == ["run", "gain", "limit", "inputs"]


@pytest.mark.parametrize("words, status, told", [
    (["--set", "gain"], 2, "as gain=1,2,3"), (["--set", "gain=1", "--set", "gain=2"], 2, "given twice"), (["--set", "gian=1"], 2, "did you mean 'gain'"),
    (["--row", "last sped"], 1, "did you mean 'speed'"), (["--row", "speed"], 2, "written as `last NAME`"), (["--inputs", "none.json"], 3, "none.json"),
    (["--workers", "0"], 2, "from 1 to 1024"), (["--cluster", "tcp://127.0.0.1:1"], 70, "doesn't answer"), (["--keep", "design.py"], 4, "design.py can't be"),
    (["-o", "none/table.csv"], 4, "none/table.csv.journal can't be written")])
def test_wrong_words(words: list[str], status: int, told: str, tmp_path: Path, program: Program) -> None:
    if "--cluster" in words:
        pytest.importorskip("distributed")
    design, paths = written(tmp_path, 1)
    ran = subprocess.run([str(TOP / "scicos-kit"), "sweep", "design.py", "--until", "60", "--inputs", "in01.json", *words], cwd=tmp_path, capture_output=True,
                         text=True, timeout=120, env={**os.environ, "SCICOS": program.path})
    assert (ran.returncode, ran.stdout) == (status, "") and told in ran.stderr and "Traceback" not in ran.stderr
    assert sorted(tmp_path.iterdir()) == [design, *paths]


def test_all_refused_is_status_1(tmp_path: Path, program: Program) -> None:
    ran = kit("sweep", str(TOP / "examples" / "loop.json"), "--until", "5", SCICOS=program.path)
    assert ran.returncode == 1 and "1 runs: 1 refused" in ran.stderr and "SUMMATION 3" in ran.stdout
