"""A pulse-width generator: `python3 examples/pulse-width/design.py` writes `diagram.json` anew."""
import sys
from pathlib import Path

sys.path.insert(0, str(Path(__file__).resolve().parents[2] / "python"))

from scicos import Diagram, clock, counter, output, sensor, uint8, when

with Diagram("pulse-width") as design:
    tick = clock(1)
    phase = counter(8, type=uint8, on=tick)
    within = when(phase)
    duty = sensor(1, uint8, on=within.otherwise)
    pulse = phase < duty
    output(pulse)

design.write(Path(__file__).with_name("diagram.json"))
