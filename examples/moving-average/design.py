"""A moving average: `python3 examples/moving-average/design.py` writes `diagram.json` anew."""
import sys
from pathlib import Path

sys.path.insert(0, str(Path(__file__).resolve().parents[2] / "python"))

from scicos import Diagram, clock, delay, int32, later, output, register, sensor

with Diagram("moving-average") as design:
    tick = clock(10)
    sample = sensor(1, int32, on=tick)
    leaving = register(sample, [0, 0, 0, 0], on=tick)
    total_before = later(int32)
    total = total_before + sample - leaving
    total_before.feed(delay(total, on=tick))
    average = total >> 2
    output(average)

design.write(Path(__file__).with_name("diagram.json"))
