"""A button that is debounced, and held long: `python3 examples/debouncer/design.py` writes `diagram.json` anew."""
import sys
from pathlib import Path

sys.path.insert(0, str(Path(__file__).resolve().parents[2] / "python"))

from scicos import (Diagram, choose, clock, constant, counted, delay, int8, int32, on, output, saturation,
                    select, sensor, subsystem, switch, uint8, variable_timer)

HOLD, NEVER = 300, 2147483647


@subsystem
def debounce(raw, tick):
    with on(tick):
        count = delay(int8)
        next_count = saturation(count + 2 * raw - 1, 0, 3)
        count.feed(next_count)
        was = delay(int8)
        unless_0 = switch(next_count, ">", 0, was, 0)
        pressed = switch(next_count, ">=", 3, 1, unless_0)
        was.feed(pressed)
        edge = pressed - was + 2
        release, none, press = select(edge, 3, name="which_edge")
    return press, release


with Diagram("debouncer") as design:
    tick = clock(5)
    button = sensor(1, int8, on=tick)
    press, release = debounce(button, tick, name="debounce")
    hold = choose((press, constant(HOLD, int32)), (release, NEVER))
    timeout = variable_timer(hold, on=press | release)
    presses = counted(press, type=uint8)
    long_presses = counted(timeout, type=uint8)
    held_long = choose((timeout, constant(1, uint8)), (release, 0))
    output(presses, long_presses, held_long)

design.write(Path(__file__).with_name("diagram.json"))
