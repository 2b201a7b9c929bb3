"""A motor and the controller of its speed in one diagram: loop.json; the controller alone, with a column for each input:
controller.json; and the names of its blocks for C: controller.h."""
from pathlib import Path

from scicos import Diagram, clock, constant, convert, counter, delay, int16, int32, later, on, saturation, subsystem, switch
from scicos.extract import extract
from scicos.header import header

HERE = Path(__file__).resolve().parent


@subsystem
def pi_controller(wanted, speed, tick):
    """A PI controller with anti-windup: the integral goes to the drive, which is 0 to 1000 per mille."""
    with on(tick):
        error = wanted - speed
        integral = delay(int16)
        drive = saturation((error >> 2) + integral, 0, 1000)
        integral.feed(integral + (drive - integral >> 2))
    return drive


@subsystem
def dc_motor(drive, step):
    """A motor that comes to 3 turns a minute for each per mille of drive, an eighth of the way in each step."""
    with on(step):
        turning = delay(int32)
        turning.feed(turning + (3 * convert(drive, int32) - turning >> 3))
        speed = convert(turning, int16)
    return speed


with Diagram("closed loop", mode="saturate") as design:
    tick = clock(10)
    step = clock(2)
    samples = counter(1000, on=tick)
    wanted = switch(samples, ">=", 30, 1500, constant(600, int16))
    measured = later(int16)
    controller = pi_controller(wanted, measured, tick)
    motor = dc_motor(controller, step)
    measured.feed(motor)

if __name__ == "__main__":
    design.write(HERE / "loop.json")
    extract(design, "controller").write(HERE / "controller.json")
    (HERE / "controller.h").write_text(header(HERE / "controller.json").text)
