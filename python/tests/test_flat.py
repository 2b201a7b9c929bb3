"""What is read of a diagram's file, held against the program's own answers, and of files that are damaged."""
from __future__ import annotations

import glob
import json
from pathlib import Path

import pytest

from scicos import flat
from scicos.flat_wiring import End, Wiring
from scicos.program import Program

TOP = Path(__file__).resolve().parents[2]
DESIGNS = sorted(glob.glob(str(TOP / "examples" / "*" / "diagram.json"))
                 + [str(TOP / "examples" / name) for name in ("tags.json", "superblocks.json")])


def told(program: Program, command: str, design: str) -> list[list[str]]:
    return [line.split() for line in program.text(command, design).splitlines()]


@pytest.mark.parametrize("design", DESIGNS)
def test_blocks_have_the_numbers_of_map(design: str, program: Program) -> None:
    found = [[str(block.number), flat.place_text(block.place), block.kind]
             for block in flat.read(design).blocks]
    assert found == [row[:3] for row in told(program, "map", design)]


@pytest.mark.parametrize("design", DESIGNS)
def test_lines_are_those_where_objects_begin(design: str) -> None:
    lines = Path(design).read_text().splitlines()
    for item in flat.read(design).items():
        assert '{"obj": "%s"' % item.fields["obj"] in lines[item.line - 1]


@pytest.mark.parametrize("design", DESIGNS)
def test_each_block_inherits_from_its_sources(design: str, program: Program) -> None:
    """A block with no activation input stands in a schedule wherever a block stands that feeds it: the
    wiring's sources are then true.
    """
    seen = flat.read(design)
    wiring = Wiring(seen)
    sources: dict[str, set[int]] = {}
    for row in told(program, "schedule", design):
        if row[0] == "source":
            active = sources.setdefault(row[1], set())
        else:
            active.add(int(row[0]))
    for block in seen.blocks:
        if not block.item.ports(flat.ACTIVATION, 1) and block.item.ports(flat.REGULAR, 1):
            feeders = {wiring.source(block.number, port)
                       for port in range(1, block.item.ports(flat.REGULAR, 1) + 1)}
            assert None not in feeders
            for active in sources.values():
                assert (block.number in active) == any(feeder.block in active for feeder in feeders if feeder)


def test_wiring_goes_through_superblocks_and_tags() -> None:
    design = TOP / "examples" / "thermostat" / "diagram.json"
    seen = flat.read(design)
    wiring = Wiring(seen)
    assert wiring.source(14, 1) == End(7, 1) and wiring.source(14, 2) == End(12, 1)
    assert wiring.activators(8, 1) == [End(1, 1)]
    assert wiring.takers(2, 1) == [End(6, 2), End(7, 2)]


def test_names_and_places() -> None:
    seen = flat.read(TOP / "examples" / "thermostat" / "diagram.json")
    assert seen.name(6) == "of_the_kitchen.unless_cold" and seen.where((4, 5)) == "design.py:15"
    unnamed = flat.read(TOP / "examples" / "first.json")
    assert unnamed.where((2,)) == "first.json:3"
    assert unnamed.name(2) == "Modulo_Count 2" and unnamed.signal(2, 1, 3) == "Modulo_Count 2[3]"
    table = flat.read(TOP / "examples" / "push-button" / "diagram.json")
    assert table.signal(6, 2) == "debounce.table.2" and table.find("debounce.was") == table.block(5)


def test_a_line_of_python_goes_first() -> None:
    seen = flat.Flat(json.dumps({"objs": [{"obj": "Block", "gui": "HALT_f", "name": "end",
                                           "line": "design.py:7", "model": {"evtin": 1}}]}))
    assert seen.where((1,)) == "design.py:7" and seen.blocks[0].item.ports(flat.ACTIVATION, 1) == 1


DAMAGED = ["", "{", "[]", "7", "null", '{"objs": 3}', '{"objs": {}}',
           '{"objs": [3, null, [], {"obj": 5}, {"obj": "Block"}]}',
           '{"objs": [{"obj": "Block", "gui": 4, "model": []}]}',
           '{"objs": [{"obj": "Link", "from": 3, "to": [1], "ct": "x"}]}',
           '{"objs": [{"obj": "Block", "model": {"sim": "super", "rpar": 5}}]}',
           '{"objs": [{"obj": "Link", "from": [1e400, 2], "to": [1, 1], "ct": [1, 1]}]}',
           '{"objs": ' * 3000, "[" * 100000, '{"objs": [{"obj": "Block", "gui": "FROM", "model": {}}]}',
           '\x00\ufffd', '{"objs": [' + "9" * 5000 + "]}"]


@pytest.mark.parametrize("text", DAMAGED)
def test_odd_data_is_no_error(text: str) -> None:
    seen = flat.Flat(text)
    Wiring(seen)
    for item in seen.items():
        assert seen.name_of(item.place) and seen.where(item.place)


def test_what_stands_before_a_damage_is_kept() -> None:
    text = (TOP / "examples" / "thermostat" / "diagram.json").read_text()
    whole = flat.Flat(text)
    assert whole.damage is None
    for end in range(0, len(text) - 3, 97):
        cut = flat.Flat(text[:end])
        assert cut.damage is not None
        assert [block.place for block in cut.blocks][:-1] == [block.place
                                                              for block in whole.blocks][:max(len(cut.blocks) - 1, 0)]
    assert len(flat.Flat(text[:-20]).blocks) == 14
