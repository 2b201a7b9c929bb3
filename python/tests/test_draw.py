"""Drawings: the pictures of the repository, refused diagrams, and files that are damaged."""
from __future__ import annotations

import re
import shutil
from pathlib import Path

import pytest
from small import clock, constant, counter, event, gain, inside, sensor, total, wire, written

from scicos import draw
from scicos.commands import draw as command
from scicos.program import Program

TOP = Path(__file__).resolve().parents[2]
DESIGNS = sorted(TOP.glob("examples/*/diagram.json"))
PICTURES = [(path, path.parent / "picture.svg") for path in DESIGNS]
PICTURES += [(TOP / "examples" / f"{path.stem}.json", path)
             for path in sorted(TOP.glob("examples/pictures/*.svg"))]


@pytest.mark.skipif(not shutil.which("dot"), reason="Graphviz isn't installed")
@pytest.mark.parametrize("design,picture", PICTURES,
                         ids=lambda path: path.parent.name if path.suffix == ".svg" else path.stem)
def test_the_pictures_of_the_examples(design: Path, picture: Path, program: Program) -> None:
    assert draw.drawing(design, program).svg() == picture.read_bytes()


def red(text: str) -> set[str]:
    """The blocks and links that are red."""
    return set(re.findall(r"^  (b\d+(?: -> b\d+)?) .*color=red", text, re.M))


def test_a_loop_is_red(program: Program, tmp_path: Path) -> None:
    objects = [clock(), sensor(1, "speed"), total("sum"), gain("half"), event([1, 1], [1, 1]),
               event([1, 1], [2, 1]), wire([2, 1], [3, 1]),
               wire([3, 1], [4, 1]), wire([4, 1], [3, 2])]
    drawn = draw.drawing(written(tmp_path, objects), program)
    assert red(drawn.text) == {"b3", "b4", "b3 -> b4", "b4 -> b3"}
    assert drawn.refusal.startswith("an algebraic loop at the events of output 1 of clock") and "an algebraic loop at the" in drawn.text


def test_a_link_a_block_and_a_superblock_are_red(program: Program, tmp_path: Path) -> None:
    twice = [constant(1, "one"), constant(2, "two"), gain("double"), wire([1, 1], [3, 1]),
             wire([2, 1], [3, 1])]
    assert red(draw.drawing(written(tmp_path, twice), program).text) == {"b2", "b3", "b2 -> b3"}
    wrong = [clock(), counter("count"), event([1, 1], [2, 2])]
    assert red(draw.drawing(written(tmp_path, wrong), program).text) >= {"b1", "b2"}
    assert red(draw.drawing(written(tmp_path, [clock(), inside("part", [counter("count")], in_=1)]),
                            program).text) == {"b2"}
    assert red(draw.drawing(written(tmp_path, [constant(300, "one", 5)]), program).text) == {"b1"}


def test_types_of_a_refused_diagram_are_those_that_it_declares(program: Program, tmp_path: Path) -> None:
    text = draw.drawing(written(tmp_path, [constant(1, "one", 4), gain("open", code=-1)]), program).text
    assert "1 CONST_m\\none\\nat 1\\nint16[1x1]" in text and "2 GAINBLK\\nopen\\nat 2\\n?[1x1]" in text


@pytest.mark.parametrize("content", [b"", b"{", b"\xff\xfe", b'{"objs": [{"obj": "Block", "gui": '
                                                             b'"a\\"b\\\\", "name": "\\u0000\\n"}, 3, null',
                                     b'{"objs": [{"obj": "Link", "from": [9, 9], "to": {}, "ct": [1, 1]}]}',
                                     b"[" * 100000])
def test_odd_files_are_drawn(content: bytes, program: Program, tmp_path: Path) -> None:
    (tmp_path / "odd").write_bytes(content)
    drawn = draw.drawing(tmp_path / "odd", program)
    assert drawn.refusal
    if shutil.which("dot"):
        assert b"<svg" in drawn.svg()


def test_the_source_of_events_colours_its_blocks(program: Program) -> None:
    text = draw.drawing(TOP / "examples" / "branches.json", program, (1, 1)).text
    assert re.findall(r"^  b(\d) .*fillcolor=gold", text, re.M) == ["1", "2", "3"]
    assert re.findall(r"^  b(\d) .*if (.*)\".*lightyellow", text,
                      re.M) == [("4", "3.1"), ("5", "3.2"), ("6", "3.1 or 3.2")]


def test_the_command_has_its_words() -> None:
    assert command.SUMMARY and "--source" in command.EXAMPLE
