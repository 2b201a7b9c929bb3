"""A PI controller with anti-windup: `python3 examples/pi-controller/design.py` writes `diagram.json` anew."""
import sys
from pathlib import Path

sys.path.insert(0, str(Path(__file__).resolve().parents[2] / "python"))

from scicos import Diagram, clock, delay, give, int16, output, saturation, sensor, subsystem, take, take_event


@subsystem
def controller(reference, speed):
    tick = take_event("clock")
    error = reference - speed
    proportional = 2 * error
    integral = delay(int16, on=tick)
    wanted = proportional + integral
    drive = saturation(wanted, 0, 1000)
    give("drive", drive)
    behind = take("drive") - integral
    increment = behind >> 3
    next_integral = integral + increment
    integral.feed(next_integral)
    return drive


with Diagram("pi-controller", mode="saturate") as design:
    give("clock", clock(10), everywhere=True)
    tick = take_event("clock")
    reference = sensor(1, int16, on=tick)
    speed = sensor(2, int16, on=tick)
    drive = controller(reference, speed, name="controller")
    output(drive)

design.write(Path(__file__).with_name("diagram.json"))
