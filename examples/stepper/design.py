"""A ramp for a stepper motor: `python3 examples/stepper/design.py` writes `diagram.json` anew."""
import sys
from pathlib import Path

sys.path.insert(0, str(Path(__file__).resolve().parents[2] / "python"))

from scicos import (Diagram, counter, grant, int32, later_event, least, on, saturation, sensor, subsystem,
                    switch, timer, variable_timer)


@subsystem
def ramp(done, steps, event):
    with on(event):
        left = steps - done - 1
        grant(left, "old value")
        from_an_end = least(done, left)
        faster = 8 * from_an_end
        ramp = 40 - faster
        fast_enough = saturation(ramp, 10, 40)
        delay = switch(from_an_end, ">=", 0, fast_enough, -1)
    return delay


with Diagram("stepper") as design:
    go = timer(-1, first=0)
    grant(go, "fires once")
    steps = sensor(1, int32, on=go)
    go_or_step = later_event()
    done = counter(32768, on=go_or_step)
    delay = ramp(done, steps, go_or_step, name="ramp")
    step = variable_timer(delay, on=go_or_step)
    go_or_step.feed(go | step)

design.write(Path(__file__).with_name("diagram.json"))
