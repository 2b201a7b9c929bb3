"""Tables of runs: what is missing by event, what is held by tick; CSV and files of NumPy. What is due is written out from docs/FORMAT.md."""
from __future__ import annotations

import csv
import io
import json
import re
import sys
import types
from pathlib import Path

import pytest
from test_runs import CLOCK, COUNT, Text, block, branches, event

from scicos import tables
from scicos.errors import DataError, MissingError, WordsError, WriteError
from scicos.program import Program
from scicos.runs import Run, simulate

# of the diagram of docs/FORMAT.md: date, event, and what its trace shows of the sensor and of the three counters
SHOWN = [(0, "start", None, None, None, None), (0, "EVTDLY_c 1", 3, 0, None, None), (3, "EVTVARDLY 6", None, None, None, 1),
         (10, "EVTDLY_c 1", -1, None, 0, None), (20, "EVTDLY_c 1", 2, 1, None, None), (22, "EVTVARDLY 6", None, None, None, 2),
         (30, "EVTDLY_c 1", 0, None, 1, None), (30, "EVTVARDLY 6", None, None, None, 3), (40, "EVTDLY_c 1", 1, 2, None, None),
         (41, "EVTVARDLY 6", None, None, None, 4)]
HELD = [(0, 3, 0, 0, 1), (3, 3, 0, 0, 1), (10, -1, 0, 0, 1), (20, 2, 1, 0, 1), (22, 2, 1, 0, 2), (30, 0, 1, 1, 3), (40, 1, 2, 1, 3),
        (41, 1, 2, 1, 4)]
NAMES = ["SENSOR 2", "Modulo_Count 4", "Modulo_Count 5", "Modulo_Count 7"]


@pytest.fixture()
def run(program: Program) -> Run:
    """The run of the diagram with branches."""
    return simulate(branches(), {"SENSOR 2": [3, -1, 2, 0, 1, 4, 5]}, until=1000, program=program)


def test_by_event(run: Run) -> None:
    pandas = pytest.importorskip("pandas")
    table = run.table()
    assert list(table.columns) == ["event", *NAMES] and table.index.name == "date"
    found = [(date, *[None if cell is pandas.NA else cell for cell in row])
             for date, row in zip(table.index, table.itertuples(index=False, name=None))]
    assert found == SHOWN
    assert {str(table[name].dtype) for name in NAMES} == {"Int32"}


def test_by_tick(run: Run) -> None:
    pytest.importorskip("pandas")
    table = run.table(by="tick")
    assert [(date, *row) for date, row in zip(table.index, table.itertuples(index=False, name=None))] == HELD
    assert {str(table[name].dtype) for name in NAMES} == {"int32"}
    some = run.table(by="tick", ticks=range(0, 50, 15))
    assert list(some.index) == [0, 15, 30, 45] and some["Modulo_Count 7"].tolist() == [1, 1, 3, 4]
    for column in NAMES:
        assert table[column].tolist() == [run.at(column, date) for date in table.index]


@pytest.mark.parametrize("ticks", [[0, 1, 22], [0, 0, 20], [40, 0, 20], [0, 41, 10], [30, 30, 30], [22, 20, 10]])
def test_ticks_in_any_order(run: Run, ticks: list[int]) -> None:
    pytest.importorskip("pandas")
    due = {date: row for date, *row in HELD}
    rows = [due[max(date for date in due if date <= tick)] for tick in ticks]
    table = run.table(by="tick", ticks=ticks)
    assert [list(row) for row in table.itertuples(index=False, name=None)] == rows


def test_ticks_of_one_clock(program: Program) -> None:
    pytest.importorskip("pandas")
    one = simulate(Text(CLOCK, COUNT, event([1, 1], [1, 1]), event([1, 1], [2, 1])), until=50, program=program)
    for ticks, due in (([0, 1, 10], [7, 7, 9]), ([0, 10, 0, 5, 20], [7, 9, 7, 8, 1]), ([5, 5, 15], [8, 8, 0]), ([0, 5], [7, 8])):
        assert one.table(by="tick", ticks=ticks)["count"].tolist() == due


def test_signals_that_are_called_as_other_columns(program: Program, tmp_path: Path) -> None:
    names = ["date", "block", "port", "date@"]
    counters = [{**COUNT, "name": name} for name in names]
    design = Text(CLOCK, *counters, event([1, 1], [1, 1]), *(event([1, 1], [at, 1]) for at in range(2, 6)))
    run = simulate(design, until=10, program=program)
    path = tmp_path / "run.csv"
    run.to_csv(path, by="tick")
    assert path.read_text().splitlines()[0] == "_date,date,block,port,date@"
    run.expect("block", path)
    numpy = pytest.importorskip("numpy")
    for by in "event", "tick":
        run.to_npz(tmp_path / "run.npz", by=by)
        with numpy.load(tmp_path / "run.npz") as arrays:
            assert len(set(arrays.files)) == len(arrays.files)
            assert arrays["_date"].tolist() == ([0] if by == "event" else []) + [0, 5, 10]
            assert {tuple(arrays[name][-1:].tolist()) for name in names} == {(9,)}


def test_words_of_a_table(run: Run) -> None:
    pytest.importorskip("pandas")
    with pytest.raises(WordsError, match="by 'event' or by 'tick', and not by 'ticks'"):
        run.table(by="ticks")
    with pytest.raises(WordsError, match="by='tick'"):
        run.table(ticks=[1])
    with pytest.raises(DataError, match="from 0 on"):
        run.table(by="tick", ticks=[-1])


@pytest.mark.parametrize("by, due", [("event", SHOWN), ("tick", HELD)])
def test_csv(run: Run, by: str, due: list[tuple[object, ...]], tmp_path: Path) -> None:
    run.to_csv(tmp_path / "run.csv", by)
    with open(tmp_path / "run.csv", newline="") as file:
        lines = list(csv.reader(file))
    assert lines[0] == ["date", *(["event"] if by == "event" else []), *NAMES]
    assert lines[1:] == [["" if cell is None else str(cell) for cell in row] for row in due]
    stream = io.BytesIO()
    run.to_csv(stream, by)
    assert stream.getvalue() == (tmp_path / "run.csv").read_bytes()


def test_npz(run: Run, tmp_path: Path) -> None:
    numpy = pytest.importorskip("numpy")
    run.to_npz(tmp_path / "held.npz", "tick")
    with numpy.load(tmp_path / "held.npz") as found:
        assert found["date"].tolist() == [row[0] for row in HELD]
        for at, name in enumerate(NAMES, 1):
            assert found[name].tolist() == [row[at] for row in HELD] and found[name].dtype == "int32"
    run.to_npz(tmp_path / "shown.npz")
    with numpy.load(tmp_path / "shown.npz") as found:
        assert found["date"].tolist() == [row[0] for row in SHOWN] and found["block"].tolist()[:3] == [0, 1, 6]
        for at, name in enumerate(NAMES, 2):
            assert found[name + "@"].tolist() == [row[at] is not None for row in SHOWN]
            assert found[name][found[name + "@"]].tolist() == [row[at] for row in SHOWN if row[at] is not None]


def test_a_stop_is_a_row_without_values(program: Program) -> None:
    design = Text(CLOCK, block("SENSOR", name="sensor", evtin=[1], ipar=[1], out=[1], outtyp=[8]), event([1, 1], [1, 1]), event([1, 1], [2, 1]))
    run = simulate(design, [[7, 9]], until=100, program=program)
    stream = io.BytesIO()
    run.to_csv(stream)
    assert stream.getvalue() == b"date,event,sensor\n0,start,\n0,clock,7\n5,clock,9\n10,clock,\n"
    stream = io.BytesIO()
    run.to_csv(stream, "tick")
    assert stream.getvalue() == b"date,sensor\n0,7\n5,9\n"
    pytest.importorskip("pandas")
    assert run.table(by="tick")["sensor"].tolist() == [7, 9] and run.table()["sensor"].isna().tolist() == [True, False, False, True]


def test_first_states_are_held_before_a_block_acts(program: Program) -> None:
    late = {**CLOCK, "name": "late", "model": {**CLOCK["model"], "firing": [7]}}
    design = Text(CLOCK, COUNT, late, {**COUNT, "name": "slow"}, event([1, 1], [1, 1]), event([1, 1], [2, 1]), event([3, 1], [3, 1]),
                  event([3, 1], [4, 1]))
    run = simulate(design, until=13, program=program)
    stream = io.BytesIO()
    run.to_csv(stream, "tick")
    assert stream.getvalue() == b"date,count,slow\n0,7,7\n5,8,7\n7,8,7\n10,9,7\n12,9,8\n"


def test_a_signal_called_event(program: Program) -> None:
    run = simulate(Text(block("CONST_m", name="event", ipar=[4], out=[1], outtyp=[3])), until=0, program=program)
    stream = io.BytesIO()
    run.to_csv(stream)
    assert stream.getvalue() == b"date,_event,event\n0,start,4\n"


def test_a_full_disk_leaves_no_file(run: Run, tmp_path: Path) -> None:
    with pytest.raises(WriteError, match="No space left on device"):
        run.to_csv("/dev/full")
    with pytest.raises(WriteError, match="can't be written"):
        run.to_csv(tmp_path / "none" / "run.csv")
    (tmp_path / "run.csv").write_text("before")
    run.catalogue.name_of = lambda *key: 1 / 0  # type: ignore[method-assign, assignment]
    with pytest.raises(ZeroDivisionError):
        run.to_csv(tmp_path / "run.csv")
    assert [path.name for path in tmp_path.iterdir()] == ["run.csv"] and (tmp_path / "run.csv").read_text() == "before"


def test_missing_packages(run: Run, monkeypatch: pytest.MonkeyPatch) -> None:
    for name, call in (("pandas", lambda: run.table()), ("numpy", lambda: run.to_npz("x.npz")), ("matplotlib.figure", lambda: run.plot())):
        with monkeypatch.context() as patch:
            patch.setitem(sys.modules, name, None)
            with pytest.raises(MissingError, match=f"apt-get install python3-{name.split('.')[0]}") as raised:
                call()
            assert raised.value.status == 70


def test_json_of_this_page_is_read() -> None:
    assert len(json.loads(branches().to_json())["objs"]) == 22


def test_names_that_look_alike_stay_apart(program: Program) -> None:
    design = Text(block("CONST_m", name="a", ipar=[4, 5], out=[2], outtyp=[3]), block("CONST_m", name="a[2]", ipar=[6], out=[1], outtyp=[3]))
    run = simulate(design, until=0, program=program)
    assert [(column.name, run.at(column.name, 0)) for column in run.columns] == [("a[1]", 4), ("a[2]", 5), ("a[2] b2_1_1", 6)]


def test_the_bar_of_a_long_run(monkeypatch: pytest.MonkeyPatch) -> None:
    pytest.importorskip("rich")

    class Terminal(io.StringIO):
        """A terminal that keeps what it shows."""

        def isatty(self) -> bool:
            return True
    shown = Terminal()
    monkeypatch.setattr(sys, "stderr", shown)
    monkeypatch.setenv("TERM", "xterm")
    times = iter([0, 0.5, 2])
    monkeypatch.setattr(tables, "time", types.SimpleNamespace(monotonic=lambda: next(times)))
    with tables.bar(True, 10**6, 10**6) as tell:
        assert tell is not None
        tell(1, 1)
        assert shown.getvalue() == ""
        tell(250_000, 500_000)
    assert "250,000 events, date 500,000" in shown.getvalue() and " 50%" in shown.getvalue()
    with tables.bar(False, 1, 1) as tell:
        assert tell is None


def bounds_of(folder: Path) -> tuple[int, int]:
    """The last date and the most events of the run that a design's page tells."""
    found = re.search(r"simulate \S+ \S+ (\d+) (\d+)", (folder / "README.md").read_text())
    assert found
    return int(found[1]), int(found[2])


DESIGNS = sorted(path.parent for path in (Path(__file__).resolve().parents[2] / "examples").glob("*/diagram.json"))


@pytest.mark.parametrize("folder", DESIGNS, ids=lambda folder: folder.name)
def test_a_run_has_all_of_its_trace(folder: Path, program: Program) -> None:
    """The trace, written again from what is kept of it, is the one beside the design."""
    until, events = bounds_of(folder)
    run = simulate(folder / "diagram.json", folder / "inputs.json", until=until, events=events, program=program)
    lines = []
    for row, (date, _, *values) in enumerate(tables.cells(run, "event")):
        lines.append(f"event {date} {run.trace.blocks[row]} {run.trace.ports[row]}" if row else "start")
        lines += [f"val {column.block} {column.port} {column.element} {value}" for column, value in zip(run.columns, values) if value is not None]
    lines.append(f"end {run.end.kind}")
    assert "".join(line + "\n" for line in lines) == (folder / "trace.txt").read_text()


@pytest.mark.parametrize("folder", DESIGNS, ids=lambda folder: folder.name)
def test_what_is_held_is_that_of_vcdat(folder: Path, program: Program, tmp_path: Path) -> None:
    until, events = bounds_of(folder)
    run = simulate(folder / "diagram.json", folder / "inputs.json", until=until, events=events, program=program)
    (tmp_path / "run.vcd").write_bytes(program.ask("vcd", folder / "diagram.json", folder / "inputs.json", until, events).out)
    ticks = [0, 1, until // 3, until // 2, until - 1, until, 2 * until]
    for tick in ticks:
        due = dict(line.split() for line in program.text("vcdat", tmp_path / "run.vcd", tick).splitlines())
        assert {column.code: str(run.at(column.name, tick)) for column in run.columns} == due
    pytest.importorskip("pandas")
    table = run.table(by="tick", ticks=ticks)
    assert [[run.at(name, tick) for name in table.columns] for tick in ticks] == table.to_numpy().tolist()
