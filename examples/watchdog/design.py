"""A watchdog: `python3 examples/watchdog/design.py` writes `diagram.json` anew."""
import sys
from pathlib import Path

sys.path.insert(0, str(Path(__file__).resolve().parents[2] / "python"))

from scicos import (Diagram, choose, constant, counter, grant, int32, output, sensor, subsystem, timer, uint8,
                    variable_timer)


@subsystem
def device():
    life = variable_timer(int32, first=60)
    gap = sensor(1, int32, on=life)
    life.activated_by(life).feed(gap)
    return life


@subsystem
def watchdog(life):
    timeout = timer(50, first=50, on=life)
    well, lost = constant(0, uint8), constant(1, uint8)
    grant(timeout, "not a clock")
    state = choose((life, well), (timeout, lost))
    return state, timeout


with Diagram("watchdog") as design:
    life = device(name="device")
    alarm, timeout = watchdog(life, name="watchdog")
    barks = counter(256, first=1, type=uint8, on=timeout)
    output(alarm, barks)

design.write(Path(__file__).with_name("diagram.json"))
