"""Plots: the lines that matplotlib is given, in units."""
from __future__ import annotations

from pathlib import Path

import pytest

pytest.importorskip("matplotlib")

from scicos.errors import DataError, WordsError  # noqa: E402
from scicos.program import Program  # noqa: E402
from scicos.runs import Run, simulate  # noqa: E402


@pytest.fixture()
def run(program: Program, examples: Path) -> Run:
    """The run of the thermostat; its page shows the temperatures, in tenths of a degree, each 60 minutes."""
    return simulate(examples / "thermostat" / "diagram.json", {"kitchen": [205, 200, 189], "study": [190, 188, 199]}, until=120, program=program)


def test_lines_in_units(run: Run) -> None:
    figure = run.plot("kitchen", "boiler", units={"kitchen": (0.1, "°C")}, tick=(1 / 60, "h"), until=180, title="Two rooms")
    left, right = figure.axes
    (kitchen,), (boiler,) = left.lines, right.lines
    assert [round(x, 9) for x in kitchen.get_xdata()] == [0, 1, 2, 3]
    assert [round(y, 9) for y in kitchen.get_ydata()] == [20.5, 20.0, 18.9, 18.9] and kitchen.get_drawstyle() == "steps-post"
    assert list(boiler.get_xdata()) == [0, 1, 3] and list(boiler.get_ydata()) == [0, 1, 1]
    assert (left.get_ylabel(), right.get_ylabel(), left.get_xlabel()) == ("°C", "", "h")
    assert [text.get_text() for text in left.get_legend().get_texts()] == ["kitchen [°C]", "boiler"]


def test_signals_of_one_unit_share_an_axis(run: Run) -> None:
    figure = run.plot("kitchen", "study", units={"kitchen": (0.1, "°C"), "study": (0.1, "°C")})
    assert len(figure.axes) == 1 and len(figure.axes[0].lines) == 2


@pytest.mark.parametrize("name, begin", [("p.png", b"\x89PNG"), ("p.svg", b"<?xml"), ("p.pdf", b"%PDF")])
def test_files(run: Run, tmp_path: Path, name: str, begin: bytes) -> None:
    run.plot("boiler", path=tmp_path / name)
    first = (tmp_path / name).read_bytes()
    run.plot("boiler", path=tmp_path / name)
    assert first.startswith(begin) and len(list(tmp_path.iterdir())) == 1
    assert name != "p.svg" or (tmp_path / name).read_bytes() == first


def test_what_is_wrong(run: Run, tmp_path: Path) -> None:
    with pytest.raises(WordsError, match="none of png, svg"):
        run.plot("boiler", path=tmp_path / "p.txt")
    with pytest.raises(DataError, match="did you mean 'boiler'"):
        run.plot("boilr")
    with pytest.raises(WordsError, match="a scale and a word"):
        run.plot("boiler", units={"boiler": (1, 2, 3)})  # type: ignore[dict-item]
    assert list(tmp_path.iterdir()) == []
