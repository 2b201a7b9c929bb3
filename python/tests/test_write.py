"""The text of a diagram's file: its form, and that it is written whole or not at all."""
from __future__ import annotations

import json
import os
import random
import stat
from pathlib import Path

import pytest
from drawing import checked

import scicos as s
from scicos.errors import WriteError
from scicos.program import Program, Refused


def simple() -> s.Diagram:
    with s.Diagram("simple") as design:
        s.abs_value(s.counter(10, on=s.clock(5, name="tick"), name="count"))
    return design


def test_the_form_is_that_of_the_examples() -> None:
    """One object a line; the fields in the order of the examples."""
    line = simple().to_json().splitlines()
    assert line[0] == '{"objs": [' and line[-1] == "]}"
    here = json.loads(line[1].rstrip(","))["line"]
    assert line[1] == (f'  {{"obj": "Block", "name": "tick", "line": "{here}", "gui": "EVTDLY_c", "model": '
                       '{"ipar": [5], "firing": [0], "evtin": [1], "evtout": [1]}},')
    kinds = [one["ct"][1] for one in json.loads(simple().to_json())["objs"] if one["obj"] == "Link"]
    assert kinds == [-1, -1, 1]
    assert line[-4] == '  {"obj": "Link", "from": [1, 1, 0], "to": [1, 1, 1], "ct": [5, -1]},'


def test_lines_are_short(program: Program) -> None:
    """Long tables are broken between their numbers; the file stays the same diagram."""
    drawn = random.Random(3)
    rows = [[drawn.randint(0, 1) for _ in range(8)] for _ in range(256)]
    with s.Diagram("wide") as design:
        tick = s.clock(5)

        @s.subsystem
        def part() -> None:
            s.logic(*[s.counter(2, on=tick) for _ in range(8)], table=rows, name="a long name " * 3)

        part()
    text = design.to_json()
    assert max(map(len, text.splitlines())) <= 150
    assert checked(program, design).startswith("ok 10 ")
    inside = json.loads(text)["objs"][1]["model"]["rpar"]["objs"]
    table = next(one for one in inside if one.get("gui") == "LOGIC")["model"]["ipar"]
    assert table == [value for row in rows for value in row]


def test_names_in_any_letters() -> None:
    with s.Diagram("letters") as design:
        s.counter(10, on=s.clock(5), name='Zähler "a" \\ π')
    assert 'Zähler \\"a\\" \\\\ π' in design.to_json()
    assert json.loads(design.to_json())["objs"][1]["name"] == 'Zähler "a" \\ π'


def test_write(tmp_path: Path) -> None:
    design = simple()
    path = design.write(tmp_path / "diagram.json")
    assert path.read_text(encoding="utf-8") == design.to_json()
    assert os.listdir(tmp_path) == ["diagram.json"]
    assert stat.S_IMODE(path.stat().st_mode) & 0o600 == 0o600


def test_write_says_what_is_wrong(tmp_path: Path) -> None:
    with pytest.raises(WriteError, match="nowhere.* can't be written"):
        simple().write(tmp_path / "nowhere" / "diagram.json")


def test_full_disk_leaves_what_was_there(tmp_path: Path, monkeypatch: pytest.MonkeyPatch) -> None:
    """Where the disk is full, the file from before stays, and nothing else."""
    target = tmp_path / "diagram.json"
    target.write_text("before")

    def full(source: str, to: str) -> None:
        raise OSError(28, "No space left on device")

    monkeypatch.setattr(os, "replace", full)
    with pytest.raises(WriteError, match="No space left on device"):
        simple().write(target)
    assert target.read_text() == "before" and os.listdir(tmp_path) == ["diagram.json"]


def test_check(program: Program) -> None:
    assert simple().check(program) == "ok 3 2 3 0"
    with s.Diagram("loop") as design:
        back = s.later(s.int8)
        back.feed(s.hold(back, on=s.clock(5)))
    with pytest.raises(Refused, match="back.*test_write.py") as caught:
        design.check(program)
    assert caught.value.refusal.rule == "AlgebraicLoop"


def test_grants(program: Program) -> None:
    """What is granted isn't warned of, at a block and at the superblock by which its output comes out."""
    from scicos.lint import lint

    @s.subsystem
    def part(tick: s.Event) -> s.Signal:
        return s.counter(10, on=tick)

    def drawn(granted: bool) -> list[tuple[str, tuple[int, ...]]]:
        with s.Diagram("granted") as design:
            tick = s.clock(5)
            alarm = s.counter(10, on=tick)
            inner = part(tick)
            if granted:
                s.grant(alarm, "not taken")
                s.grant(inner, "not taken")
        return [(finding.kind, finding.place) for finding in lint(design, program)]

    with s.Diagram("sinks") as design:
        s.grant(s.halt(on=s.when(s.constant(0, s.int8)).then), "never acts")
        s.grant(s.give("speed", s.counter(10, on=s.clock(5))), "not taken")
        s.grant(s.give("tick", s.clock(5)), "event not taken")
    told = [one.get("grant") for one in json.loads(design.to_json())["objs"]
            if one.get("gui") in ("HALT_f", "GOTO", "CLKGOTO")]
    assert told == [["never acts"], ["not taken"], ["event not taken"]]
    assert ("not taken", (2,)) in drawn(False)
    assert drawn(True) == []
    with pytest.raises(s.DesignError, match="'nottaken' is no kind of warning. They are never acts"):
        with s.Diagram("misspelt"):
            s.grant(s.counter(10, on=s.clock(5)), "nottaken")
