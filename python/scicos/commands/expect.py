"""`scicos-kit expect`: a run held against a table of expected values."""
from __future__ import annotations

import argparse
import sys

from scicos.commands import _run
from scicos.errors import DataError
from scicos.expect import Unmet, expect
from scicos.inputs import from_csv
from scicos.program import UNTRUE
from scicos.runs import Run

SUMMARY = "hold a run against a CSV file of expected values, and tell the first that differs"
EXAMPLE = ("expect due.csv examples/thermostat/diagram.json examples/thermostat/inputs.json --until 540\n"
           "expect due.csv design.json readings.csv --until 1000 --tolerance 2 --window 100 900 --signal"
           " motor.speed")


def configure(parser: argparse.ArgumentParser) -> None:
    """Adds the words of the command."""
    parser.add_argument("expected", metavar="CSV",
                        help="the expected values: a column for each signal, and by tick one called date")
    _run.add_run(parser)
    _run.add_signals(parser)
    parser.add_argument("--by", choices=("event", "tick"), default="tick",
                        help="by tick a row is a date, by event a reaction, start among them")
    parser.add_argument("--tolerance", metavar="K", type=float, default=0, help="how far a value may lie off")
    parser.add_argument("--window", metavar=("FROM", "UNTIL"), nargs=2, type=int,
                        help="look at these ticks only")


def signals(words: argparse.Namespace) -> list[str]:
    """The signals that are held against the file: those that are named, or all that it has."""
    found = [str(values.key) for values in from_csv(words.expected)]
    wanted = words.signal or [name for name in found if name not in ("date", "event")]
    missing = [name for name in wanted if name not in found]
    if missing:
        raise DataError(f"{words.expected} has no column {missing[0]!r}: its columns are"
                        f" {', '.join(map(repr, found))}")
    if not wanted:
        raise DataError(f"{words.expected} has no column of a signal: its first line names the signals, and"
                        " by tick the date")
    return wanted


def compared(run: Run, name: str, words: argparse.Namespace) -> str:
    """What differs of a signal, or nothing."""
    window = (words.window[0], words.window[1]) if words.window else None
    try:
        expect(run, name, words.expected, tolerance=words.tolerance, window=window, by=words.by)
    except Unmet as unmet:
        return str(unmet)
    return ""


def run(words: argparse.Namespace) -> int:
    """Runs the design and tells what differs; the status is 8 then, as that of `judge`, whatever the run's
    own is."""
    words.signal = signals(words)
    result = _run.ran(words)
    told = [text for name in words.signal for text in [compared(result, name, words)] if text]
    for text in told:
        sys.stdout.write(f"{text}\n")
    if not told:
        count = len(words.signal)
        sys.stdout.write(f"as expected: {count} signal{'s' * (count != 1)}, {result.end}\n")
    return UNTRUE if told else 0
