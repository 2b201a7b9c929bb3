"""Probes change nothing but what they add, and coverage counts what a run in plain Python, apart from program and package, counts."""
from __future__ import annotations

import json
from collections import Counter
from pathlib import Path
from typing import Any

import pytest
from plain import counted, random_diagrams

from scicos import flat
from scicos.coverage import Coverage
from scicos.measure import measure
from scicos.probes import Probe, probed, wanted
from scicos.program import Program

TOP = Path(__file__).resolve().parents[2]
DESIGNS = sorted(path.parent for path in TOP.glob("examples/*/diagram.json"))
SMALL = ["first", "counter", "branches", "clock", "two-clocks", "ring", "replaced", "tags", "superblocks"]


def renumbered(trace: str, copy: Any) -> str:
    """A trace of a copy, without the lines of its probes, by the numbers of the design."""
    own = set(copy.probes.values())
    lines = []
    for line in trace.splitlines():
        words = line.split()
        at = {"val": 1, "event": 2, "stop": 2}.get(words[0])
        if at is not None:
            if int(words[at]) in own:
                assert words[0] == "val"
                continue
            words[at] = str(copy.numbers[int(words[at])])
        lines.append(" ".join(words) + "\n")
    return "".join(lines)


def assert_unchanged(program: Program, tmp_path: Path, diagram: Any, inputs: str, until: int, events: int) -> None:
    """The trace of the copy with all probes is that of the diagram, with lines of probes beside it, and the same status."""
    path, beside = tmp_path / "diagram.json", tmp_path / "copy.json"
    path.write_text(json.dumps(diagram))
    seen = flat.read(path)
    copy = probed(diagram, seen, wanted(seen))
    beside.write_text(copy.to_json())
    due = program.ask("simulate", path, inputs, until, events)
    got = program.ask("simulate", beside, inputs, until, events)
    assert due.status in (0, 6) and (got.status, renumbered(got.out.decode(), copy)) == (due.status, due.out.decode())


@pytest.mark.parametrize("folder", DESIGNS, ids=lambda folder: folder.name)
def test_designs_with_probes(folder: Path, program: Program, tmp_path: Path) -> None:
    diagram = json.loads((folder / "diagram.json").read_text())
    assert_unchanged(program, tmp_path, diagram, str(folder / "inputs.json"), 10**6, 3000)


@pytest.mark.parametrize("name", SMALL)
def test_small_diagrams_with_probes(name: str, program: Program, tmp_path: Path) -> None:
    diagram = json.loads((TOP / "examples" / f"{name}.json").read_text())
    assert_unchanged(program, tmp_path, diagram, str(TOP / "examples" / "readings.json"), 50, 100)


def outcomes(found: Coverage) -> Counter[tuple[int, str]]:
    """What came of blocks, in the words of `plain`."""
    came: Counter[tuple[int, str]] = Counter()
    for outcome in found.outcomes:
        assert outcome.count is not None
        element = outcome.name.rpartition("[")[2].rstrip("]") if "[" in outcome.name else "1"
        what = outcome.what.split(" (")[0]
        if outcome.group in ("relation", "bound"):
            what = f"{what.split()[0]} {element}"
        came[outcome.block, what] += outcome.count
    return came


def assert_counted(found: Coverage, diagram: Any, columns: Any, until: int, events: int) -> None:
    """The coverage has the counts of a run in plain Python."""
    due = counted(diagram, columns, until, events)
    assert {block.number: block.acted for block in found.blocks} == {number: due.acts[number] for number in due.net.blocks}
    truths = {number for number, block in due.net.blocks.items() if block.gui == "LOGICAL_OP" and block.ipar[1]}
    assert +outcomes(found) == +Counter({key: count for key, count in due.came.items() if key[0] not in truths})
    least = [(min(values), max(values), len(values)) for _, values in sorted(due.values.items())]
    assert [(of.least, of.greatest, of.count) for of in found.signals if of.count] == least


@pytest.mark.parametrize("folder", DESIGNS, ids=lambda folder: folder.name)
def test_designs_are_counted(folder: Path, program: Program) -> None:
    diagram, inputs = (json.loads((folder / f"{name}.json").read_text()) for name in ("diagram", "inputs"))
    found = measure(folder / "diagram.json", folder / "inputs.json", until=1000, events=200, program=program)
    assert_counted(found, diagram, inputs, 1000, 200)


class Text:
    """A design that isn't in a file."""

    def __init__(self, diagram: Any) -> None:
        self.diagram = diagram

    def to_json(self) -> str:
        """The diagram."""
        return json.dumps(self.diagram)


@pytest.mark.parametrize("first", range(1, 121, 20))
def test_random_diagrams(first: int, program: Program, tmp_path: Path) -> None:
    """Diagrams of all kinds, with runs that stop, halt, end and go on: nothing changes by probes, and the counts are those of plain Python."""
    accepted = 0
    for seed in range(first, first + 20):
        maker = random_diagrams.Maker(seed)
        diagram, columns = maker.whole(), maker.inputs()
        (tmp_path / "i").write_text(json.dumps(columns))
        (tmp_path / "d").write_text(json.dumps(diagram))
        answer = program.ask("simulate", tmp_path / "d", tmp_path / "i", 50, 60)
        assert answer.status in (0, 1, 6), answer
        if answer.status == 1:
            continue
        accepted += 1
        assert_unchanged(program, tmp_path, diagram, str(tmp_path / "i"), 50, 60)
        assert_counted(measure(Text(diagram), str(tmp_path / "i"), until=50, events=60, program=program), diagram, columns, 50, 60)
    assert accepted > 5


def test_a_probe_is_activated_by_what_activates_the_block() -> None:
    """By the links of docs/FORMAT.md's diagram of conditions: three delays and conditions, and HALT_f."""
    seen = flat.read(TOP / "examples" / "watchdog" / "diagram.json")
    probes = wanted(seen)
    kinds = {seen.blocks[probe.block - 1].kind for probe in probes}
    assert kinds <= {"EVTDLY_c", "EVTVARDLY", "IFTHEL_f", "ESELECT_f", "HALT_f", "SELECT_m"}
    assert Probe(1, 1, 1) in probes
