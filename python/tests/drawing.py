"""What the tests of the builder share: diagrams that are looked at and run by the program."""
from __future__ import annotations

import tempfile
from pathlib import Path

import scicos as s
from scicos.program import Program, design_file


def checked(program: Program, design: s.Diagram) -> str:
    """What `check` says of a diagram, also of a refused one."""
    with design_file(design) as path:
        answer = program.ask("check", path)
        return (answer.out.decode() or answer.err).strip()


def trace(program: Program, design: s.Diagram, inputs: str = "[]", until: int = 1000,
          events: int = 1000) -> list[str]:
    """The lines of the trace of a diagram."""
    with design_file(design) as path, tempfile.TemporaryDirectory() as folder:
        file = Path(folder) / "inputs.json"
        file.write_text(inputs)
        answer = program.ask("simulate", path, file, until, events)
        assert answer.status in (0, 6), answer.err
        return answer.out.decode().splitlines()
