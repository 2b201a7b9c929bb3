"""The tests beside designs in examples/: they pass, and each finds a design that is changed in a way that its page rules out."""
from __future__ import annotations

import json
import os
import shutil
import subprocess
import sys
from collections.abc import Iterator
from pathlib import Path
from typing import Any

import pytest

from scicos.program import Program

TOP = Path(__file__).resolve().parents[2]
TESTS = sorted(TOP.glob("examples/*/test_design.py"))


def ended(folder: Path, program: Program, *words: str) -> subprocess.CompletedProcess[str]:
    """A run of the tests in a folder, as docs/PYTHON.md tells it."""
    env = {**os.environ, "PYTHONPATH": str(TOP / "python"), "SCICOS": program.path, "PYTHONDONTWRITEBYTECODE": "1"}
    return subprocess.run([sys.executable, "-m", "pytest", "-q", "-p", "no:cacheprovider", str(folder), *words], cwd=folder, env=env,
                          capture_output=True, text=True, timeout=300)


@pytest.mark.parametrize("path", TESTS, ids=lambda path: path.parent.name)
def test_designs_pass(path: Path, program: Program, tmp_path: Path) -> None:
    for name in ("test_design.py", "diagram.json"):
        shutil.copy(path.parent / name, tmp_path)
    ran = ended(tmp_path, program)
    assert ran.returncode == 0 and " passed" in ran.stdout, ran.stdout


def blocks(diagram: Any) -> Iterator[Any]:
    """All blocks of a diagram, those of its superblocks too."""
    for item in diagram["objs"]:
        if item["obj"] == "Block":
            yield item
            yield from blocks(item["model"].get("rpar") or {"objs": []})


@pytest.mark.parametrize(("kind", "name", "ipar", "told"), [
    ("SATURATION", "drive", [0, 1100], "test_the_drive_is_0_to_1000_per_mille"),
    ("SATURATION", "drive", [-100, 1000], "test_the_drive_is_0_to_1000_per_mille"),
    ("SUMMATION", "error", [0, 1, -1], "test_the_error_is_never_turned_around"),
    ("SHIFT", "increment", [-2, 0], "test_it_comes_back_from_its_lower_end_in_one_sample"),
    ("SHIFT", "increment", [1, 0], "test_the_integral_does_not_wind_up"),
    ("GAINBLK", "proportional", [1, 3], "test_start"),
])
def test_a_changed_controller_is_found(kind: str, name: str, ipar: list[int], told: str, program: Program, tmp_path: Path) -> None:
    folder = TOP / "examples" / "pi-controller"
    diagram = json.loads((folder / "diagram.json").read_text())
    [block] = [block for block in blocks(diagram) if (block["gui"], block.get("name")) == (kind, name)]
    block["model"]["ipar"] = ipar
    (tmp_path / "diagram.json").write_text(json.dumps(diagram))
    shutil.copy(folder / "test_design.py", tmp_path)
    ran = ended(tmp_path, program, "-k", told)
    assert ran.returncode == 1 and told in ran.stdout.partition("short test summary")[2], ran.stdout
