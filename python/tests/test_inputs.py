"""Input files from what Python and CSV give, and each way in which these are wrong."""
from __future__ import annotations

import io
import json
from pathlib import Path
from typing import Any

import pytest
from test_runs import CLOCK, Text, block, event

from scicos import inputs
from scicos.columns import Columns, of_design
from scicos.errors import DataError, ReadError, WriteError
from scicos.program import Program, design_file
from scicos.runs import simulate


def sensor(name: str, column: int, kind: int) -> dict[str, Any]:
    """A sensor."""
    return block("SENSOR", name=name, evtin=[1], ipar=[column], out=[1], outtyp=[kind])


LINKS = [event([1, 1], [1, 1]), event([1, 1], [2, 1]), event([1, 1], [3, 1])]
ROOMS = Text(CLOCK, sensor("kitchen", 1, 5), sensor("study", 3, 8), *LINKS)  # of int8 and of uint8
INNER = Text(block("room", name="house", sim="super", rpar={"objs": [sensor("heat", 1, 4), CLOCK, event([2, 1], [2, 1]), event([2, 1], [1, 1])]}),
             block("room", name="shed", sim="super", rpar={"objs": [sensor("heat", 2, 4), CLOCK, event([2, 1], [2, 1]), event([2, 1], [1, 1])]}))


def catalogue(design: Text, program: Program) -> Columns:
    """The columns of a design."""
    with design_file(design) as path:
        return of_design(design, program, path)


@pytest.fixture()
def rooms(program: Program) -> Columns:
    """The columns of the two rooms."""
    return catalogue(ROOMS, program)


DUE = [[1, -2, 3], [], [7, 8, 9]]


def test_dicts_and_lists(rooms: Columns) -> None:
    for given in ({"kitchen": [1, -2, 3], "study": (7, 8, 9)}, {1: [1, -2, 3], 3: range(7, 10)}, {"1": iter([1, -2, 3]), "study": [7.0, 8, 9]},
                  [[1, -2, 3], [], [7, 8, 9]]):
        assert inputs.columns_of(given, rooms) == DUE
    assert inputs.columns_of({"kitchen": [], "study": [True]}, rooms) == [[], [], [1]]
    assert inputs.columns_of({1: [], 3: [], 2: [2**40]}, rooms) == [[], [2**40], []]


def test_arrays_and_tables(rooms: Columns) -> None:
    numpy, pandas = pytest.importorskip("numpy"), pytest.importorskip("pandas")
    array = numpy.array([[1, 0, 7], [-2, 0, 8], [3, 0, 9]], dtype="int16")
    assert inputs.columns_of(array, rooms) == [[1, -2, 3], [0, 0, 0], [7, 8, 9]]
    assert inputs.columns_of({"kitchen": array[:, 0], "study": array[:, 2]}, rooms) == DUE
    assert inputs.columns_of(pandas.DataFrame({"study": [7, 8, 9], "kitchen": [1.0, -2.0, 3.0]}), rooms) == DUE
    with pytest.raises(DataError, match="row 2 of 'study' is missing"):
        inputs.columns_of(pandas.DataFrame({"study": [7, None, 9], "kitchen": [1, 2, 3]}), rooms)
    with pytest.raises(DataError, match="row 2 of 'study' is missing"):
        inputs.columns_of(pandas.DataFrame({"study": pandas.array([7, None, 9], "Int8"), "kitchen": [1, 2, 3]}), rooms)
    with pytest.raises(DataError, match="has 3 dimensions"):
        inputs.columns_of(numpy.zeros((2, 2, 2)), rooms)


@pytest.mark.parametrize("given, told", [
    ({"kitchen": [1, 128], "study": []}, "value 2 of 'kitchen' is 128, outside of the int8 of the sensor 'kitchen', which holds -128 to 127"),
    ({"kitchen": [], "study": [0, -1]}, "value 2 of 'study' is -1, outside of the uint8 .* 0 to 255"),
    ({3: [256], 1: []}, "value 1 of column 3 is 256"),
    ({"kitchen": [1.5], "study": []}, "value 1 of 'kitchen' is 1.5, which is no whole number"),
    ({"kitchen": ["one"], "study": []}, "value 1 of 'kitchen' is 'one', which is no whole number"),
    ({"kitchen": [None], "study": []}, "value 1 of 'kitchen' is missing"),
    ({"kitchen": [float("inf")], "study": []}, "is inf, which is no whole number"),
    ({"kitchen": 5, "study": []}, "no list of values, but 5"),
    ({"kitchen": "12", "study": []}, "no list of values, but '12'"),
    ({"kitchn": [1], "study": []}, "a column 'kitchn', and the design has no sensor of that name: did you mean 'kitchen'"),
    ({"kitchen": [1]}, "no values for the sensor 'study' \\(column 3\\)"),
    (None, "no values for the sensors 'kitchen' \\(column 1\\), 'study' \\(column 3\\)"),
    ({"kitchen": [1], 1: [1], "study": []}, "column 1 twice"),
    ({256: [1]}, "a column 256, and columns are numbered from 1 to 255"),
    ({0: [1]}, "a column 0"),
    ([[1]], "no values for the sensor 'study'"),
    ([1, 2], "inputs are a dict, a list of columns"),
    (7, "inputs are a dict, a list of columns"),
    ([[2**70], [], []], "outside of the int8"),
])
def test_what_is_wrong(rooms: Columns, given: Any, told: str) -> None:
    with pytest.raises(DataError, match=told):
        inputs.columns_of(given, rooms)


def test_the_same_name_in_two_superblocks(program: Program) -> None:
    found = catalogue(INNER, program)
    assert inputs.columns_of({"shed.heat": [5], "house.heat": [6]}, found) == [[6], [5]]
    with pytest.raises(DataError, match="'heat', which may be 'house.heat' or 'shed.heat'"):
        inputs.columns_of({"heat": [5]}, found)


@pytest.mark.parametrize("text", ["kitchen,study\n1,7\n-2,8\n3,9\n", "study;kitchen\r\n7;1\r\n8;-2\r\n9;3", "\ufeff1\t3\n1\t7\n-2\t8\n 3 \t+9\n\n\n",
                                  '"kitchen","study"\n"1","7"\n-2,8\n3,9\n'])
def test_csv(rooms: Columns, text: str, tmp_path: Path) -> None:
    (tmp_path / "in.csv").write_bytes(text.encode())
    assert inputs.columns_of(tmp_path / "in.csv", rooms) == DUE


def test_a_column_that_is_no_sensors(rooms: Columns, tmp_path: Path) -> None:
    (tmp_path / "in.csv").write_text("the time,kitchen,study\n0,1,7\n")
    with pytest.raises(DataError, match="; what is no sensor's, `./scicos-kit inputs --ignore 'the time'` passes over$"):
        inputs.columns_of(tmp_path / "in.csv", rooms)


def test_written_at_a_path(rooms: Columns, tmp_path: Path) -> None:
    path = tmp_path / "inputs.json"
    inputs.write(inputs.columns_of({"kitchen": [1, 2], "study": [3]}, rooms), path)
    assert json.loads(path.read_text()) == [[1, 2], [], [3]]
    with pytest.raises(WriteError):
        inputs.write([[1]], tmp_path / "none" / "inputs.json")


@pytest.mark.parametrize("text, told", [
    ("kitchen,study\n1,7\n,8\n", "in.csv: line 3 \\(row 2\\) of 'kitchen' is empty"),
    ("kitchen,study\n1,7\nx,8\n", "in.csv: line 3 \\(row 2\\) of 'kitchen' is 'x', which is no whole number"),
    ("kitchen,study\n1,7\n1.5,8\n", "'1.5', which is no whole number"), ("kitchen,study\n1e3,7\n", "'1e3'"),
    ("kitchen,study\n1,7\n1\n", "line 3 \\(row 2\\) has no cell for 'study'"),
    ("kitchen,study\n1,7\n\n1,7\n", "line 3 \\(row 2\\) has no cell"),
    ("kitchen,study\n1,7,8\n", "line 2 \\(row 1\\) has 3 cells, and the first line names 2"),
    ("kitchen,study\n1,7\n1,300\n", "line 3 \\(row 2\\) of 'study' is 300, outside of the uint8"),
    ("kitchen,study,time\n1,7,0\n", "a column 'time', and the design has no sensor"),
    ("kitchen,kitchen,study\n1,2,7\n", "column 1 twice, the second time as 'kitchen'"),
    ("12,13\n1,2\n", "no values for the sensors"), ("300,1\n1,2\n", "a column 300"), ("", "in.csv is empty"), ("\n\n", "in.csv is empty"),
    ("kitchen,\n1,2\n", "a column ''"), ('kitchen,study\n"1,7\n', "no CSV"), ("kitchen,study\n١,7\n", "no whole number"),
    ("kitchen,study\n1,7\n" + "9" * 40 + ",7\n", "no whole number"),
])
def test_wrong_csv(rooms: Columns, text: str, told: str, tmp_path: Path) -> None:
    (tmp_path / "in.csv").write_text(text)
    with pytest.raises(DataError, match=told):
        inputs.columns_of(tmp_path / "in.csv", rooms)


def test_csv_that_is_none(rooms: Columns, tmp_path: Path) -> None:
    (tmp_path / "in.csv").write_bytes(b"kitchen,study\n\xff,7\n")
    with pytest.raises(DataError, match="no CSV in UTF-8"):
        inputs.columns_of(tmp_path / "in.csv", rooms)
    with pytest.raises(ReadError, match="none.csv can't be read"):
        inputs.columns_of(tmp_path / "none.csv", rooms)


def test_columns_that_are_passed_over(rooms: Columns, tmp_path: Path) -> None:
    (tmp_path / "in.csv").write_text("time,kitchen,study\n0.0,1,7\n0.5,-2,8\n,3,9\n")
    assert inputs.columns_of(tmp_path / "in.csv", rooms, ["time"]) == DUE


def test_the_file_is_one_that_the_program_takes(program: Program, tmp_path: Path) -> None:
    due = [(0, 1), (5, -2), (10, 3)]
    assert list(simulate(ROOMS, {"kitchen": [1, -2, 3], "study": [7, 8, 9]}, until=12, program=program).values("kitchen")) == due
    (tmp_path / "in.csv").write_text("kitchen,study\n1,7\n-2,8\n3,9\n")
    assert list(simulate(ROOMS, tmp_path / "in.csv", until=12, program=program).values("kitchen")) == due
    stream = io.BytesIO()
    inputs.write(DUE, stream)
    assert json.loads(stream.getvalue()) == DUE
    (tmp_path / "in.json").write_bytes(stream.getvalue())
    assert list(simulate(ROOMS, tmp_path / "in.json", until=12, program=program).values("study")) == [(0, 7), (5, 8), (10, 9)]
    stream = io.BytesIO()
    inputs.write([], stream)
    assert stream.getvalue() == b"[]\n"


def test_a_file_that_is_too_long() -> None:
    with pytest.raises(DataError, match="16,777,21[78] bytes, and the program takes 16,777,216: run it in parts"):
        inputs.write([[1] * (2**23 - 1)], io.BytesIO())
    inputs.write([[1] * (2**23 - 3)], io.BytesIO())


@pytest.mark.parametrize("key", [True, "\u00b2", "9" * 5000, "True", "\u0663"])
def test_columns_that_are_no_numbers(rooms: Columns, key: Any) -> None:
    with pytest.raises(DataError, match="have a column"):
        inputs.columns_of({key: [1], "kitchen": [1], "study": [1]}, rooms)


def test_a_table_with_a_name_twice(rooms: Columns) -> None:
    pandas = pytest.importorskip("pandas")
    with pytest.raises(DataError, match="the table gives column 1 twice"):
        inputs.columns_of(pandas.DataFrame([[1, 2]], columns=["kitchen", "kitchen"]), rooms)
