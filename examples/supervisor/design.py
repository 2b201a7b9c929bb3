"""A controller and its supervisor: `python3 examples/supervisor/design.py` writes `diagram.json` anew."""
import sys
from pathlib import Path

sys.path.insert(0, str(Path(__file__).resolve().parents[2] / "python"))

from scicos import (Diagram, choose, clock, constant, deadband, delay, gated_delay, grant, hold, int32,
                    later, on, output, saturation, select, sensor, subsystem, switch)

IDLE, RUN, FAULT = 1, 2, 3


@subsystem
def supervisor(slow):
    with on(slow):
        command = sensor(1, int32)
        temperature = sensor(2, int32)
        idle, run, fault = constant(IDLE, int32), constant(RUN, int32), constant(FAULT, int32)
        mode_before = delay(int32, initial=IDLE)
        in_idle, in_run, in_fault = select(mode_before, 3, name="in_mode")
    with on(in_idle):
        after_idle = switch(command, ">", 0, run, idle)
    with on(in_run):
        run_on = switch(command, ">", 0, run, idle)
        after_run = switch(temperature, ">=", 900, fault, run_on)
    with on(in_fault):
        acknowledged = switch(command, ">", 0, fault, idle)
        after_fault = switch(temperature, ">=", 700, fault, acknowledged)
    mode = choose((in_idle, after_idle), (in_run, after_run), (in_fault, after_fault))
    mode_before.feed(mode)
    return mode


@subsystem
def loop(mode, measured, fast):
    with on(fast):
        setpoint = sensor(3, int32)
        grant(setpoint, "two clocks")
        mode = hold(mode)
        idle, run, fault = select(mode, 3, name="which_mode")
        error = setpoint - measured
        P = error << 1
        running = mode == RUN
        I = gated_delay(int32, running)
        next_I = I + error
        I_limited = saturation(next_I, -16000, 16000)
        I.feed(I_limited)
        PI = P + (I >> 4)
        u_before = delay(int32)
        ramp_down = deadband(u_before, -20, 20, on=fault)
        u_wanted = choose((idle, 0), (run, PI), (fault, ramp_down))
        u = saturation(u_wanted, 0, 1000)
        u_before.feed(u)
    return u


@subsystem
def plant(u, fast):
    y_16 = delay(int32, on=fast)
    y = y_16 >> 4
    next_y_16 = y_16 + u - y
    y_16.feed(next_y_16)
    return y


with Diagram("supervisor", mode="saturate") as design:
    slow, fast = clock(100), clock(10)
    mode = supervisor(slow, name="supervisor")
    measured = later(int32)
    u = loop(mode, measured, fast, name="loop")
    measured.feed(plant(u, fast, name="plant"))
    output(u)

design.write(Path(__file__).with_name("diagram.json"))
