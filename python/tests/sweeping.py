"""What the tests of sweeps share: a design with parameters, and what its runs come to, worked out here."""
from __future__ import annotations

import json
from collections.abc import Iterator
from pathlib import Path
from typing import Any

DESIGN = """from scicos import *


def make(gain=1, limit=50) -> Diagram:
    with Diagram("motor", mode="stop") as design:
        tick = clock(10)
        wanted = sensor(1, int8, on=tick)
        before = delay(int8, on=tick)
        error = wanted - before
        push = gain * error
        speed = before + push
        before.feed(speed)
        alarm = speed > limit
        seen = hold(alarm, on=tick)
    return design
"""
ROWS = ["last speed", "least speed", "greatest error", "first seen == 1", "count seen == 1"]


def motor(gain: int, limit: int, wanted: list[int], until: int) -> tuple[str, list[int | None], str]:
    """How a run of the design ends, its row, and the block where it stops: the equations as they stand above."""
    speeds: list[int] = []
    errors: list[int] = []
    before, end, where = 0, "until", ""
    for date in range(0, until + 1, 10):
        if date // 10 >= len(wanted):
            end, where = "input", "wanted"
            break
        error = wanted[date // 10] - before
        steps = (("error", error), ("push", gain * error), ("speed", before + gain * error))
        wrong = [name for name, value in steps if not -128 <= value <= 127]
        if wrong:
            end, where = "overflow", wrong[0]
            break
        errors.append(error)
        speeds.append(before + gain * error)
        before = speeds[-1]
    over = [10 * at for at, speed in enumerate(speeds) if speed > limit]
    row = [speeds[-1], min(speeds), max(errors), over[0] if over else None, len(over)] if speeds else [None, None, None, None, 0]
    return end, row, where


def wanted_of(number: int) -> list[int]:
    """The values of the sensor in an input file: a ramp of another slope for each, of 6 or 7 values."""
    return [(7 * number * step) % 101 - 20 for step in range(6 + number % 2)]


def written(folder: Path, count: int) -> tuple[Path, list[Path]]:
    """The design and its input files in a folder."""
    (folder / "design.py").write_text(DESIGN)
    paths = [folder / f"in{number:02}.json" for number in range(1, count + 1)]
    for number, path in enumerate(paths, 1):
        path.write_text(json.dumps([wanted_of(number)]))
    return folder / "design.py", paths


def due(gains: list[int], count: int, limit: int = 50, until: int = 60) -> Iterator[tuple[int, int, str, list[Any], str]]:
    """The rows that are due: gain, number of the input file, end, values, and the block where the run stopped."""
    for gain in gains:
        for number in range(1, count + 1):
            yield (gain, number, *motor(gain, limit, wanted_of(number), until))
