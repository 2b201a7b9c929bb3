"""Waveforms: the pictures of examples/ are what is drawn, byte for byte."""
from __future__ import annotations

import re
from pathlib import Path

import pytest

from scicos import dump, waves
from scicos.errors import DataError, WordsError
from scicos.program import Program

TOP = Path(__file__).resolve().parents[2]


def dump_of(program: Program, folder: Path) -> dump.Dump:
    """The dump of the run that a design's page tells."""
    found = re.search(r"simulate \S+ \S+ (\d+) (\d+)", (folder / "README.md").read_text())
    assert found
    return dump.read(program.ask("vcd", folder / "diagram.json", folder / "inputs.json", *found.groups()).out)


@pytest.mark.parametrize("folder", sorted(path.parent.name for path in TOP.glob("examples/*/waves.svg")))
def test_pictures_of_the_examples(program: Program, folder: str) -> None:
    place = TOP / "examples" / folder
    assert waves.drawn(dump_of(program, place), place / "diagram.json") == (place / "waves.svg").read_text()


def test_chosen_signals(program: Program) -> None:
    place = TOP / "examples" / "push-button"
    found = dump_of(program, place)
    by_code, by_name = waves.drawn(found, None, None, ["b9_1_1"]), waves.drawn(found, place / "diagram.json", None, ["presses"])
    assert re.findall(r'class="name" x="4.0" y="[\d.]+">(.*?)<', by_code) == ["b9_1_1"]
    assert by_name == by_code.replace('class="block" x="60.0" y="30.0"><', 'class="block" x="60.0" y="30.0">presses<') != by_code
    inside = waves.drawn(found, place / "diagram.json", None, ["debounce"])
    assert set(re.findall(r"\bb\d+_\d+_\d+\b", inside)) == {"b3_1_1", "b4_1_1", "b5_1_1", "b6_1_1", "b6_2_1"}


def test_unknown_names(program: Program) -> None:
    place = TOP / "examples" / "push-button"
    found = dump_of(program, place)
    with pytest.raises(WordsError, match="no signal 'b8_1_2': did you mean 'b8_1_1'") as raised:
        waves.drawn(found, None, None, ["b8_1_2"])
    assert raised.value.status == 2
    with pytest.raises(WordsError, match="no signal 'preses': did you mean 'presses'"):
        waves.drawn(found, place / "diagram.json", None, ["presses", "preses"])
    with pytest.raises(DataError, match="it is of another diagram"):
        waves.drawn(found, TOP / "examples" / "first.json")
    with pytest.raises(WordsError, match="0 or more"):
        waves.drawn(found, until=-1)
