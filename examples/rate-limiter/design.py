"""A rate limiter with two clocks: `python3 examples/rate-limiter/design.py` writes `diagram.json` anew."""
import sys
from pathlib import Path

sys.path.insert(0, str(Path(__file__).resolve().parents[2] / "python"))

from scicos import (Diagram, clock, constant, delay, give, hold, int32, later, output, relation, saturation,
                    sensor, subsystem, take_event, uint8)


@subsystem
def limiter(reference):
    fast = take_event("fast")
    held = hold(reference, on=fast)
    before = later(int32)
    to_go = held - before
    step = saturation(to_go, -8, 5)
    limited = before + step
    before.feed(delay(limited, on=fast))
    return limited


with Diagram("rate-limiter") as design:
    slow_clock = clock(40)
    give("slow", slow_clock, everywhere=True)
    fast_clock = clock(10)
    give("fast", fast_clock, everywhere=True)
    reference = sensor(1, int32, on=take_event("slow"))
    limited = limiter(reference, name="limiter")
    limit = later(int32)
    alarm = relation(limited, ">", limit, type=uint8, on=take_event("fast"))
    limit.feed(constant(20, int32))
    output(alarm)

design.write(Path(__file__).with_name("diagram.json"))
