"""The first design of README.md: run as it stands there, it prints what the page says."""
from __future__ import annotations

import re
import subprocess
import sys
from pathlib import Path

import pytest

TOP = Path(__file__).resolve().parents[2]


def test_the_first_design_prints_what_the_page_says(tmp_path: Path, monkeypatch: pytest.MonkeyPatch) -> None:
    page = (TOP / "README.md").read_text()
    code = re.search(r"^```python\n(.*?)^```$", page, re.M | re.S)
    said = re.search(r"`(\[\(0, .*?\)\])`", page)
    assert code and said
    (tmp_path / "ramp.py").write_text(code.group(1))
    monkeypatch.setenv("PYTHONPATH", str(TOP / "python"))
    run = subprocess.run([sys.executable, "ramp.py"], cwd=tmp_path, capture_output=True, text=True, timeout=60)
    assert (run.stdout, run.stderr) == (said.group(1) + "\n", "")
    # 12 is reached in steps of at most 5, and left again
    assert said.group(1) == "[(0, 5), (10, 10), (20, 12), (30, 7)]"
