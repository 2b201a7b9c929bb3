"""A motor and its PI controller: `python3 examples/motor-pi/design.py` writes `diagram.json` anew."""
import sys
from pathlib import Path

sys.path.insert(0, str(Path(__file__).resolve().parents[2] / "python"))

from scicos import (Diagram, Q, clock, delay, gain, grant, hold, int32, later, on, output, saturation,
                    scaled, sensor, signum, subsystem, switch, variable_timer)


@subsystem
def profile(column):
    step = variable_timer(int32, first=0)
    gap = sensor(column, int32, on=step)
    value = sensor(column + 1, int32, on=step)
    step.activated_by(step).feed(gap)
    grant(gap, "two clocks")
    return value


@subsystem
def controller(setpoint, speed, tick):
    with on(tick):
        wanted_speed = hold(setpoint)
        error = wanted_speed - speed
        P = scaled(error, 0.2, bits=12, least=-60000, greatest=60000)
        growth = gain(error, Q(16).of(0.002))
        integral = delay(int32)
        I = integral >> 16
        wanted = P + I
        u = saturation(wanted, 0, 1000)
        excess = wanted - u
        winds_up = signum(excess) * signum(error)
        increment = switch(winds_up, ">", 0, 0, growth)
        next_integral = integral + increment
        integral.feed(next_integral)
    return u


@subsystem
def motor(u, load, tick):
    drive = gain(u, 30)
    state = delay(int32, on=tick)
    speed = state >> 14
    missing = drive - load - speed
    growth = gain(missing, Q(14).of(0.01))
    next_state = state + growth
    state.feed(next_state)
    return speed


with Diagram("motor-pi", mode="stop") as design:
    tick = clock(1)
    setpoint = profile(1)
    load = profile(3)
    speed = later(int32)
    u = controller(setpoint, speed, tick, name="controller")
    speed.feed(motor(u, load, tick, name="motor"))
    output(u)

design.write(Path(__file__).with_name("diagram.json"))
