"""A thermostat with hysteresis: `python3 examples/thermostat/design.py` writes `diagram.json` anew."""
import sys
from pathlib import Path

sys.path.insert(0, str(Path(__file__).resolve().parents[2] / "python"))

from scicos import (Diagram, clock, constant, delay, either, int16, later, output, sensor, subsystem,
                    switch, uint8)


@subsystem
def hysteresis(temperature, tick):
    before = later(uint8)
    off, on = constant(0, uint8), constant(1, uint8)
    unless_cold = switch(temperature, ">=", 190, before, on, on=tick)
    unless_warm = switch(temperature, ">", 210, off, unless_cold, on=tick)
    before.feed(delay(unless_warm, on=tick))
    return unless_warm


with Diagram("thermostat") as design:
    tick = clock(60)
    kitchen = sensor(1, int16, on=tick)
    study = sensor(2, int16, on=tick)
    of_the_kitchen = hysteresis(kitchen, tick)
    of_the_study = hysteresis(study, tick)
    boiler = either(of_the_kitchen, of_the_study)
    output(boiler)

design.write(Path(__file__).with_name("diagram.json"))
