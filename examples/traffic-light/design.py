"""A traffic light: `python3 examples/traffic-light/design.py` writes `diagram.json` anew."""
import sys
from pathlib import Path

sys.path.insert(0, str(Path(__file__).resolve().parents[2] / "python"))

from scicos import Diagram, choose, constant, extractor, select, sensor, timer, uint8, when

with Diagram("traffic-light") as design:
    green = timer(10)
    amber = timer(3)
    red = timer(12)
    red_and_amber = timer(2, first=0)
    button = sensor(1, uint8, on=green)
    asked = when(button)
    as_green = constant([1, 0, 0, 1], uint8)
    as_amber = constant([2, 0, 1, 0], uint8)
    as_red = constant([3, 1, 0, 0], uint8)
    as_red_and_amber = constant([4, 1, 1, 0], uint8)
    state = choose((asked.otherwise | red_and_amber, as_green), (asked.then, as_amber), (amber, as_red),
                   (red, as_red_and_amber))
    number = extractor(state, 1)
    begin = select(number, 4)
    for end, begins in zip((green, amber, red, red_and_amber), begin):
        end.activated_by(begins)

design.write(Path(__file__).with_name("diagram.json"))
