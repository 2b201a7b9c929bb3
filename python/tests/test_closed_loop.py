"""The example of a controller with its plant: the loop, the controller cut out of it, and its C with the plant in C, against both in plain Python."""
from __future__ import annotations

import os
import shutil
import subprocess
import sys
from collections.abc import Iterator
from pathlib import Path

import pytest

from cutting import Reaction, columns, of_blocks, of_controller, reactions
from scicos import header
from scicos.extract import extract
from scicos.flat import Flat, read
from scicos.program import Program
from scicos.runs import simulate

TOP = Path(__file__).resolve().parents[2]
FOLDER = TOP / "examples" / "closed-loop"
FLAGS = ["-std=c99", "-Wall", "-Wextra", "-pedantic", "-Werror", "-O2"]
SPARE = ["-Wno-unused-function"]
NAMES = ["wanted", "motor.speed", "controller.error", "controller.integral", "controller.drive"]

Row = tuple[int, ...]


def plain(until: int) -> Iterator[Row]:
    """The date, the speed that is wanted, the speed, the error, the integral and the drive at each event of the controller."""
    turning = speed = drive = following = step = 0
    for date in range(0, until + 1, 10):
        while step < date:
            speed, turning, step = turning, turning + (3 * drive - turning >> 3), step + 2
        wanted = 600 if date < 300 else 1500
        error, integral = wanted - speed, following
        drive = min(max((error >> 2) + integral, 0), 1000)
        following = integral + (drive - integral >> 2)
        yield date, wanted, speed, error, integral, drive


def test_the_values_beside_it_are_those_of_plain_python() -> None:
    lines = (FOLDER / "values.txt").read_text().splitlines()
    assert [tuple(map(int, line.split())) for line in lines] == list(plain(600)) and len(lines) == 61


def test_the_source_makes_the_files(program: Program, tmp_path: Path) -> None:
    shutil.copy(FOLDER / "design.py", tmp_path)
    ran = subprocess.run([sys.executable, "-B", "design.py"], cwd=tmp_path, capture_output=True, text=True,
                         env={**os.environ, "PYTHONPATH": str(TOP / "python"), "SCICOS": program.path})
    assert ran.returncode == 0, ran.stderr
    for name in ("loop.json", "controller.json", "controller.columns.json", "controller.h"):
        assert (tmp_path / name).read_bytes() == (FOLDER / name).read_bytes(), name
    run = program.ask("simulate", FOLDER / "loop.json", TOP / "examples" / "no-inputs.json", 60, 1000)
    assert run.out == (FOLDER / "loop-trace.txt").read_bytes()


def held(found: list[Reaction], flat: Flat, names: list[str], source: str) -> list[Row]:
    """The date, and what signals hold, at each event of a source."""
    numbers = {name: next(block.number for block in flat.blocks if flat.name(block.number) == name) for name in [*names, source]}
    now, rows = {number: 0 for number in numbers.values()}, []
    for date, (block, _), values in found:
        now.update({number: value for (number, _, _), value in values.items()})
        if block == numbers[source]:
            rows.append((date, *[now[numbers[name]] for name in names]))
    return rows


def test_the_loop_and_the_controller_alone(program: Program) -> None:
    """The loop's values are those of plain Python, and the controller gives them again on the columns that are recorded of the loop."""
    text = (FOLDER / "loop.json").read_text()
    whole, last = reactions(program, text, [], 600, 10000)
    assert last == "end until" and held(whole, Flat(text), NAMES, "tick") == list(plain(600))
    made = extract(FOLDER / "loop.json", "controller", program)
    recorded = made.inputs(simulate(FOLDER / "loop.json", until=600, program=program))
    assert recorded == {1: [row[1] for row in plain(600)], 2: [row[2] for row in plain(600)]}
    part, last = reactions(program, made.text, columns(made, recorded, []), 600, 10000)
    assert last == "end until" and of_blocks(part, made.numbers) == of_controller(whole, made.numbers)
    assert held(part, Flat(made.text), ["wanted", "speed", *NAMES[2:]], "tick") == list(plain(600))
    run = simulate(made, recorded, until=600, program=program)
    assert list(run.values("controller.drive")) == [(row[0], row[5]) for row in plain(600)]


@pytest.mark.skipif(shutil.which("gcc") is None, reason="gcc is not installed: the host of the closed loop")
def test_the_host_in_c(program: Program, tmp_path: Path) -> None:
    """The controller's C and a host with the motor, which goes by names, give the loop's values; names of another diagram don't compile."""
    code = program.text("ccode", FOLDER / "controller.json")
    (tmp_path / "controller.c").write_text(code)
    with open(tmp_path / "controller.c", "rb") as file:
        checksum = subprocess.run(["cksum"], stdin=file, capture_output=True, text=True).stdout.split()[0]
    files = ["-o", "loop", str(FOLDER / "host.c"), "controller.c"]
    built = subprocess.run(["gcc", *FLAGS, *SPARE, f"-DSCI_PROGRAM={checksum}u", *files], cwd=tmp_path, capture_output=True, text=True)
    assert (built.returncode, built.stderr) == (0, "")
    ran = subprocess.run([tmp_path / "loop", "600"], capture_output=True, text=True)
    assert ran.returncode == 0
    assert [tuple(map(int, line.split())) for line in ran.stdout.splitlines()] == list(plain(600))
    wrong = subprocess.run(["gcc", *FLAGS, *SPARE, "-DSCI_PROGRAM=1u", *files], cwd=tmp_path, capture_output=True, text=True)
    assert wrong.returncode != 0 and "the names are of another diagram than the program" in wrong.stderr


def test_the_header_has_what_the_host_names(program: Program) -> None:
    """Numbers by hand: the clock is taken along first, then come the two sensors, and the controller's blocks in the order of the source."""
    text = header.header(FOLDER / "controller.json", program=program).text
    for line in ("SCI_TICK 1", "SCI_TICK_TICKS 10 ", "SCI_TICK_FIRST 0 ", "SCI_WANTED 2", "SCI_WANTED_COLUMN 1 ", "SCI_SPEED 3",
                 "SCI_SPEED_COLUMN 2 ", "SCI_CONTROLLER_ERROR 4", "SCI_CONTROLLER_INTEGRAL 5", "SCI_CONTROLLER_DRIVE 8", "SCI_BLOCKS 11",
                 "SCI_COLUMNS 2"):
        assert f"#define {line}" in text
    assert [block.number for block in read(FOLDER / "controller.json").blocks if block.item.name == "drive"] == [8]
