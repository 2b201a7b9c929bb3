"""Properties over runs. What is due stands in traces that are printed in docs/FORMAT.md and examples/."""
from __future__ import annotations

from collections.abc import Callable
from pathlib import Path
from typing import Any

import pytest
from test_coverage import Text, conditions

from scicos.errors import DataError, WordsError
from scicos.expect import Unmet, Vacuous
from scicos.program import Program
from scicos.properties import event, shown, signal
from scicos.reactions import Row
from scicos.runs import Run, simulate

TOP = Path(__file__).resolve().parents[2]
PI = TOP / "examples" / "pi-controller"
DRIVE, SPEED = "controller.drive", "speed"


@pytest.fixture()
def run(program: Program) -> Run:
    """The PI controller at 0, 10 .. 80: the speed is 0, 375, 703, 990, 1241, 1434, 1482, 1494 and -32768, the drive 1000 up to 30, then 930, 608, 528,
    508 and 1000."""
    return simulate(PI / "diagram.json", PI / "inputs.json", until=80, program=program)


@pytest.fixture()
def steps(program: Program) -> Run:
    """The conditions' diagram: the sensor (2) is 3, -1, 2, 0, 1 at 0, 10 .. 40, and block 7 is 1, 2, 3, 4 at 3, 22, 30, 41, where the run halts."""
    diagram, inputs = conditions()
    return simulate(Text(*diagram["objs"]), inputs, until=1000, events=1000, program=program)


def test_what_holds(run: Run, steps: Run) -> None:
    run.always(signal(DRIVE).between(0, 1000))
    run.always(lambda row: 0 <= row[DRIVE] <= 1000)
    run.always(signal(SPEED) <= 1500, when=signal(SPEED) > 0)
    run.always(signal(DRIVE) == 1000, window=(0, 39), when=event("clock"))  # at start it is 0
    run.never(signal(SPEED) > 1500)
    run.never((signal(SPEED) > 1240) & (signal(DRIVE) >= 1000))
    run.within(0, after=event("clock"), then=shown(DRIVE))
    run.within(30, after=signal(SPEED) >= 1241, then=signal(DRIVE) <= 528)  # 1241 at 40, 528 at 60; what is after 50 is not decided
    steps.within(3, after=signal("SENSOR 2") == 3, then=signal("Modulo_Count 7").changes() | shown("Modulo_Count 7"))
    steps.always(signal("Modulo_Count 7") == 3, window=(30, 40), by="tick")  # at the first reaction of 30 it is 2
    with pytest.raises(Unmet, match="tick 30"):
        steps.always(signal("Modulo_Count 7") == 3, window=(30, 40))


def test_terms(run: Run) -> None:
    """At 40 the reference is 1500, the speed 1241, the error 259, P 518, I 412, and the drive their sum, 930."""
    at = {"window": (40, 40)}
    error, drive = signal("controller.error"), signal(DRIVE)
    run.always(signal("reference") - signal(SPEED) == error, **at)
    run.always(2 * error + signal("controller.integral") == drive, **at)
    run.always(error * 2 + 412 == 930 + 0 * drive, **at)
    run.always(abs(signal(SPEED) - signal("reference")) == 259, **at)
    run.always(1500 - signal(SPEED) == 259, **at)
    run.always(-error == -259, **at)
    run.always(3 + error == 262, **at)
    run.always((drive > 929) & (drive < 931) & (drive >= 930) & (drive <= 930) & (drive != 0), **at)
    run.always((drive == 1) | (drive == 930), **at)
    run.always(~(drive == 1), **at)
    run.always(drive.before() == 1000, **at)
    run.always(drive.changes(), **at)
    for wrong in (drive > 930, drive < 930, drive >= 931, drive <= 929, drive != 930, drive == 929, drive.between(0, 929), drive.between(931, 1000),
                  ~(drive == 930), (drive == 930) & (drive == 929), (drive == 1) | (drive == 2), drive.rises(), drive.falls()):
        with pytest.raises(Unmet):
            run.always(wrong, **at)


def test_edges(steps: Run) -> None:
    """The sensor is 3, -1, 2, 0, 1: above 0 from 0, 20 and 40, and not from 10 and 30 on. At start, where it is 0, nothing rises."""
    for ticks, condition in (([0, 20, 40], signal("SENSOR 2").rises()), ([10, 30], signal("SENSOR 2").falls()),
                             ([0, 10, 20, 30, 40], signal("SENSOR 2").changes())):
        found = []

        def taken(row: Row) -> bool:
            found.append(row.date) if condition(row) else None  # noqa: B023
            return True
        steps.always(taken)
        assert found == ticks


def test_the_text_of_a_failure(run: Run) -> None:
    with pytest.raises(Unmet) as unmet:
        run.always(signal(DRIVE) < 900, when=signal(SPEED) > 1000, name="the drive falls")
    assert isinstance(unmet.value, AssertionError) and unmet.value.tick == 40
    assert str(unmet.value) == """\
the drive falls has to hold always, when signal("speed") > 1000, and doesn't at tick 40 (event 5, clock): \
'speed' is 1241, 'controller.drive' is 930. The rows around:
   tick  event  speed  controller.drive
     10  clock    375              1000
     20  clock    703              1000
     30  clock    990              1000
>    40  clock   1241               930
     50  clock   1434               608
     60  clock   1482               528
     70  clock   1494               508
It doesn't hold in 1 of 4 rows."""
    with pytest.raises(Unmet, match=r'signal\("speed"\) < 0 may never hold, and does at tick 80 \(event 9, clock\): \'speed\' is -32768'):
        run.never(signal(SPEED) < 0)


def test_a_function_of_a_row(run: Run) -> None:
    """Its name tells it, and the signals that it read are shown."""
    def speeds_up(row: Row) -> bool:
        return row.before is None or row[SPEED] >= row.before[SPEED]
    with pytest.raises(Unmet) as unmet:
        run.always(speeds_up)
    assert str(unmet.value).startswith("speeds_up has to hold always, and doesn't at tick 80 (event 9, clock): 'speed' is -32768. The rows around:\n")
    with pytest.raises(Unmet, match="the condition has to hold always"):
        run.always(lambda row: row[SPEED] >= 0)


def test_within(run: Run, steps: Run) -> None:
    """The drive is 508 at 70, and never less."""
    with pytest.raises(Unmet) as unmet:
        run.within(20, after=signal(SPEED) >= 990, then=signal(DRIVE) < 530)
    # the speed is 990 at 30, 1241 at 40; the drive falls below 530 at 60, and 30 + 20 is 50
    assert str(unmet.value).startswith('signal("controller.drive") < 530 has to hold within 20 ticks after signal("speed") >= 990, which came at tick 30 '
                                       "(event 4, clock), and doesn't: ")
    assert unmet.value.tick == 30 and str(unmet.value).endswith("It is so of 1 of the 5 times that were decided.")
    # the run halts at 41, and nothing changes after that: what didn't come never comes
    with pytest.raises(Unmet):
        steps.within(1000, after=signal("Modulo_Count 7") == 4, then=signal("Modulo_Count 7") == 5)
    steps.within(19, after=shown("Modulo_Count 4") & event("EVTDLY_c 1"), then=signal("Modulo_Count 4") > 0, window=(1, 1000))


@pytest.mark.parametrize(("check", "told"), [
    (lambda run: run.always(signal(DRIVE) == 0, when=signal(SPEED) > 5000), 'signal("speed") > 5000 never came in the 10 rows, so nothing was looked at'),
    (lambda run: run.within(5, after=signal(SPEED) > 5000, then=signal(DRIVE) == 0), 'signal("speed") > 5000 never came in the 10 rows'),
    (lambda run: run.within(30, after=signal(SPEED) >= 1490, then=signal(DRIVE) == 0), "came first at tick 70 (event 8, clock), and the run tells what "
     "follows up to tick 80 only (end until)"),
    (lambda run: run.always(signal(DRIVE) == 0, window=(81, 90)), "there is nothing to look at: the run has no reaction from tick 81 to 90"),
    (lambda run: run.never(signal(DRIVE) == 0, window=(11, 19)), "there is nothing to look at"),
])
def test_what_is_vacuous_is_told(check: Callable[[Run], None], told: str, run: Run) -> None:
    with pytest.raises(Vacuous) as vacuous:
        check(run)
    assert told in str(vacuous.value) and isinstance(vacuous.value, AssertionError)


def test_what_is_vacuous_may_be_allowed(run: Run) -> None:
    run.always(signal(DRIVE) == 0, when=signal(SPEED) > 5000, vacuous=True)
    run.within(5, after=signal(SPEED) > 5000, then=signal(DRIVE) == 0, vacuous=True)
    run.within(30, after=signal(SPEED) >= 1490, then=signal(DRIVE) == 0, vacuous=True)
    run.never(signal(DRIVE) == 0, window=(11, 19), vacuous=True)


def test_a_run_cut_by_its_events_decides_nothing_at_its_last_tick(program: Program) -> None:
    """With 6 events the run ends behind the first reaction of tick 30; the second, which counts block 7 to 3, may still come there."""
    diagram, inputs = conditions()
    cut = simulate(Text(*diagram["objs"]), inputs, until=1000, events=6, program=program)
    with pytest.raises(Vacuous, match="up to tick 29 only"):
        cut.within(10, after=(signal("SENSOR 2") == 2) & event("EVTDLY_c 1"), then=signal("Modulo_Count 7") == 3)
    more = simulate(Text(*diagram["objs"]), inputs, until=1000, events=7, program=program)
    more.within(10, after=(signal("SENSOR 2") == 2) & event("EVTDLY_c 1"), then=signal("Modulo_Count 7") == 3)


@pytest.mark.parametrize(("check", "told"), [
    (lambda run: run.always(signal(DRIVE)), "a condition is a comparison of signals"),
    (lambda run: run.always(signal(DRIVE) or signal(SPEED)), "compare it"),
    (lambda run: run.always(0 <= signal(DRIVE) <= 5), "and no truth of its own"),
    (lambda run: run.always(signal(DRIVE) > 0 and signal(DRIVE) < 5), "join conditions by &"),
    (lambda run: run.always(True), "a condition is a comparison of signals"),
    (lambda run: run.always(signal(DRIVE) == 0.5), "compared with whole numbers and with signals, and not with 0.5"),
    (lambda run: run.always(signal(DRIVE) == None), "and not with None"),  # noqa: E711
    (lambda run: run.within(-1, after=event("clock"), then=shown(DRIVE)), "a whole number of ticks from 0 on"),
    (lambda run: run.within(1.5, after=event("clock"), then=shown(DRIVE)), "and not 1.5"),
    (lambda run: run.within(1, after="clock", then=shown(DRIVE)), "and not 'clock'"),
    (lambda run: run.never(signal(DRIVE) < 0, by="date"), "by 'event' or by 'tick'"),
    (lambda run: run.never(signal(DRIVE) < 0, window=(1,)), "a window is a pair"),
])
def test_words_that_are_none(check: Callable[[Run], None], told: str, run: Run) -> None:
    with pytest.raises(WordsError) as error:
        check(run)
    assert told in str(error.value)


def test_names_that_are_not_there(program: Program, run: Run) -> None:
    with pytest.raises(DataError, match="did you mean 'controller.drive'"):
        run.always(signal("drive") > 0)
    some: Any = simulate(PI / "diagram.json", PI / "inputs.json", until=80, signals=["speed"], program=program)
    with pytest.raises(DataError, match="wasn't asked for"):
        some.always(signal(DRIVE) >= 0)
