"""What the PI controller has to do. From the checkout: `PYTHONPATH=python python3 -m pytest examples/pi-controller`."""
from __future__ import annotations

from pathlib import Path

import pytest

from scicos.coverage import merged
from scicos.measure import measure
from scicos.properties import event, shown, signal
from scicos.runs import Run, simulate

DESIGN = Path(__file__).with_name("diagram.json")
PERIOD = 10  # ticks, of 1 ms each

# By scenario the speed that is asked for and the speed that is measured, in turns a minute, every 10 ms.
SCENARIOS = {
    "start, and at 80 the sensor breaks": ([1500] * 9, [0, 375, 703, 990, 1241, 1434, 1482, 1494, -32768]),
    "too fast, and at 50 too slow": ([500] * 7, [2000, 2000, 2000, 1500, 900, 400, 400]),
    "steady": ([1000] * 5, [1000] * 5),
}

reference, speed = signal("reference"), signal("speed")
error, integral, drive = signal("controller.error"), signal("controller.integral"), signal("controller.drive")


def inputs(scenario: str) -> dict[str, list[int]]:
    return dict(zip(("reference", "speed"), SCENARIOS[scenario]))


def until(scenario: str) -> int:
    return PERIOD * (len(SCENARIOS[scenario][0]) - 1)


@pytest.fixture(params=SCENARIOS)
def run(request: pytest.FixtureRequest) -> Run:
    return simulate(DESIGN, inputs(request.param), until=until(request.param))


def test_it_never_stops(run: Run) -> None:
    assert run.end.kind == "until"


def test_each_sample_gives_a_drive_at_once(run: Run) -> None:
    run.within(0, after=event("clock"), then=shown("controller.drive"))


def test_the_drive_is_0_to_1000_per_mille(run: Run) -> None:
    run.always(drive.between(0, 1000))


def test_the_integral_does_not_wind_up(run: Run) -> None:
    """It lies where the drive may lie, and follows the drive, never past it."""
    run.always(integral.between(0, 1000))
    run.always(integral <= integral.before(), when=drive.before() <= integral.before())
    run.always(integral >= integral.before(), when=drive.before() >= integral.before())


def test_the_error_is_never_turned_around(run: Run) -> None:
    run.always(error >= 0, when=speed <= reference)
    run.always(error <= 0, when=speed >= reference)


def test_start() -> None:
    """The drive leaves its end at 40, with a speed of 1241, and the speed never passes 1500."""
    run = simulate(DESIGN, inputs("start, and at 80 the sensor breaks"), until=80)
    run.expect("controller.drive", [1000, 1000, 1000, 1000, 930, 608, 528, 508, 1000])
    run.within(10, after=(speed >= 1241) & event("clock"), then=drive < 1000, window=(0, 70))
    run.never(speed > 1500)


def test_a_broken_sensor_drives_on() -> None:
    """A reading at the end of its type is an error at the end of its type, and not one wrapped around, which would be -31268."""
    run = simulate(DESIGN, inputs("start, and at 80 the sensor breaks"), until=80)
    run.always(error == 32767, when=speed == -32768)
    run.always(drive == 1000, when=speed == -32768)


def test_it_comes_back_from_its_lower_end_in_one_sample() -> None:
    """At 50 the speed is 100 too low: P is 200, and the integral has waited at 0. At 60 it has grown by a quarter of the error."""
    run = simulate(DESIGN, inputs("too fast, and at 50 too slow"), until=60)
    run.expect("controller.drive", {0: 0, 40: 0, 50: 200, 60: 225})


def test_without_error_the_drive_stays() -> None:
    run = simulate(DESIGN, inputs("steady"), until=40)
    run.never(drive.changes())


def test_the_scenarios_try_all_of_it() -> None:
    """Each block acted, and the drive met both its ends."""
    found = merged(measure(DESIGN, inputs(scenario), until=until(scenario), called=scenario) for scenario in SCENARIOS)
    assert found.missed() == [] and found.never_came("bound") == [], found.text()
