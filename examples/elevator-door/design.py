"""The controller of an elevator's door: `python3 examples/elevator-door/design.py` writes `diagram.json` anew."""
import sys
from pathlib import Path

sys.path.insert(0, str(Path(__file__).resolve().parents[2] / "python"))

from scicos import (Diagram, both, choose, clock, constant, delay, either, int16, later, later_event, on,
                    saturation, select, sensor, subsystem, switch, timer, uint8, when)

CLOSED, OPENS, OPEN, CLOSES = range(4)


@subsystem
def controller(call, blocked, position, tick):
    over = later_event()
    with on(tick):
        wanted = either(call, blocked)
        before = delay(uint8, initial=CLOSED)
        number = before + 1
        closed, opens, is_open, closes = select(number, 4, name="which")
    with on(closed):
        from_closed = switch(call, ">", 0, constant(OPENS, uint8), CLOSED)
    with on(opens):
        from_opens = switch(position, ">=", 100, constant(OPEN, uint8), OPENS)
    with on(closes):
        unless_wanted = switch(position, ">", 0, constant(CLOSES, uint8), CLOSED)
        from_closes = switch(wanted, ">", 0, constant(OPENS, uint8), unless_wanted)
    state = choose((closed, from_closed), (opens, from_opens), (is_open, before), (closes, from_closes),
                   (over, CLOSES))
    before.feed(state)
    before.activated_by(over)
    with on(tick):
        opened = before != OPEN
        begins = both(state == OPEN, either(opened, wanted))
        waits, _ = when(begins)
    wait = timer(3000, on=waits)
    over.feed(wait)
    unless_opens = switch(state, "==", CLOSES, constant(-20, int16), 0)
    motor = switch(state, "==", OPENS, constant(20, int16), unless_opens)
    return motor


@subsystem
def door(motor, tick):
    position = delay(int16, on=tick)
    next_position = saturation(position + motor, 0, 100)
    position.feed(next_position)
    return position


with Diagram("elevator-door") as design:
    tick = clock(200)
    with on(tick):
        call, blocked = sensor(1, uint8), sensor(2, uint8)
    position = later(int16)
    motor = controller(call, blocked, position, tick, name="controller")
    position.feed(door(motor, tick, name="door"))

design.write(Path(__file__).with_name("diagram.json"))
