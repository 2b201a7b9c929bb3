"""A quadrature decoder: `python3 examples/quadrature/design.py` writes `diagram.json` anew."""
import sys
from pathlib import Path

sys.path.insert(0, str(Path(__file__).resolve().parents[2] / "python"))

from scicos import Diagram, clock, delay, int16, later, logic, output, sensor, uint8

FORWARD = [(0, 0), (1, 0), (1, 1), (0, 1)]


def turn(a_before, b_before, a, b):
    steps = (FORWARD.index((a, b)) - FORWARD.index((a_before, b_before))) % 4
    return steps == 1, steps == 3, steps == 2


with Diagram("quadrature") as design:
    tick = clock(1)
    a = sensor(1, uint8, on=tick)
    b = sensor(2, uint8, on=tick)
    a_before = delay(a, on=tick)
    b_before = delay(b, on=tick)
    up, down, fault = logic(a_before, b_before, a, b, table=turn, type=int16, name="table")
    position_before = later(int16)
    position = position_before + up - down
    position_before.feed(delay(position, on=tick))
    output(position, fault)

design.write(Path(__file__).with_name("diagram.json"))
