"""The words that all commands have which run a design."""
from __future__ import annotations

import argparse

from scicos.program import MOST_EVENTS
from scicos.runs import Run, simulate


def add_run(parser: argparse.ArgumentParser, until: bool = True) -> None:
    """Adds the design, its inputs and the bounds."""
    parser.add_argument("diagram", metavar="D", help="the diagram's file")
    parser.add_argument("inputs", metavar="INPUTS", nargs="?",
                        help="values of the sensors, as CSV or as the program's input file (JSON)")
    add_bounds(parser, until)


def add_bounds(parser: argparse.ArgumentParser, until: bool = True) -> None:
    """Adds the bounds of a run: the last date, which has to be given where `until` says so, and the most events."""
    parser.add_argument("--until", metavar="T", type=int, required=until, help="the last date, in ticks")
    parser.add_argument("--events", metavar="N", type=int, default=MOST_EVENTS,
                        help=f"the most events, by default {MOST_EVENTS:,}")


def add_signals(parser: argparse.ArgumentParser) -> None:
    """Adds the choice of signals."""
    parser.add_argument("--signal", metavar="NAME", action="append",
                        help="keep this signal only: `motor.error`, a block or a superblock; may be repeated")


def ran(words: argparse.Namespace) -> Run:
    """The run that the words ask for."""
    return simulate(words.diagram, words.inputs, until=words.until, events=words.events, signals=words.signal,
                    progress=True)
