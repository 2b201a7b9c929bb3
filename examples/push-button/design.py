"""A debounced push button: `python3 examples/push-button/design.py` writes `diagram.json` anew."""
import sys
from pathlib import Path

sys.path.insert(0, str(Path(__file__).resolve().parents[2] / "python"))

from scicos import Diagram, clock, delay, logic, output, sensor, subsystem, uint8, when


def decide(sample, before, before_that, was):
    steady = sample if sample == before == before_that else was
    return steady, steady > was


@subsystem
def debounce(raw, tick):
    before = delay(raw, on=tick)
    before_that = delay(before, on=tick)
    was = delay(uint8, on=tick)
    steady, pressed = logic(raw, before, before_that, was, table=decide, name="table")
    was.feed(steady)
    return pressed


with Diagram("push-button") as design:
    tick = clock(5)
    button = sensor(1, uint8, on=tick)
    pressed = debounce(button, tick, name="debounce")
    with when(pressed, name="press"):
        presses_before = delay(uint8)
        presses = presses_before + pressed
    presses_before.feed(presses)
    output(presses)

design.write(Path(__file__).with_name("diagram.json"))
