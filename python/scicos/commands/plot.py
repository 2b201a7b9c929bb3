"""`scicos-kit plot`: chosen signals of a run over the ticks, in units."""
from __future__ import annotations

import argparse
import sys

from scicos import plot
from scicos.commands import _run
from scicos.errors import WordsError
from scicos.program import STOPPED

SUMMARY = "run a design and draw chosen signals over the ticks, in units (matplotlib)"
EXAMPLE = ("plot examples/thermostat/diagram.json examples/thermostat/inputs.json --until 540 --signal "
           "kitchen --signal boiler"
           " \\\n      --unit kitchen=0.1:°C --tick 1:min -o thermostat.svg")


def configure(parser: argparse.ArgumentParser) -> None:
    """Adds the words of the command."""
    _run.add_run(parser)
    _run.add_signals(parser)
    parser.add_argument("--unit", metavar="NAME=SCALE:UNIT", action="append", default=[],
                        help="what a value of 1 of a signal stands for; signals of one unit share an axis; "
                        "may be repeated")
    parser.add_argument("--tick", metavar="SCALE:UNIT", default="1:ticks",
                        help="what a tick stands for, as 0.001:s")
    parser.add_argument("--title", metavar="TEXT", default="", help="the picture's title")
    parser.add_argument("-o", dest="output", metavar="FILE", required=True,
                        help="write the picture there, by its ending as PNG, SVG or PDF")


def unit(text: str) -> tuple[float, str]:
    """A scale and a unit, as `0.1:rpm`."""
    scale, colon, name = text.partition(":")
    try:
        return float(scale), name if colon else ""
    except ValueError:
        raise WordsError(f"a unit is a scale and a word, as 0.1:rpm, and not {text!r}") from None


def units(words: argparse.Namespace) -> dict[str, tuple[float, str]]:
    """The units of the words, by the names of the signals."""
    found = {}
    for text in words.unit:
        name, equal, rest = text.rpartition("=")
        if not equal:
            raise WordsError(f"a unit is given as NAME=SCALE:UNIT, as speed=0.1:rpm, and not {text!r}")
        found[name] = unit(rest)
    return found


def run(words: argparse.Namespace) -> int:
    """Runs the design and writes the picture."""
    plot.check_path(words.output)
    plot.load_figure()
    known, tick = units(words), unit(words.tick)
    result = _run.ran(words)
    plot.plot(result, units=known, tick=tick, title=words.title, path=words.output)
    if result.end.stopped:
        sys.stderr.write(f"{result.why()}\n")
    return STOPPED if result.end.stopped else 0
