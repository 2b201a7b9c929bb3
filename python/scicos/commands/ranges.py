"""`scicos-kit ranges`: the ranges of all signals, by name."""
from __future__ import annotations

import argparse
import sys

from scicos.ranges import ranges

SUMMARY = "tell what each signal may ever be, and what may stop a run"
EXAMPLE = ("ranges examples/thermostat/diagram.json examples/thermostat/inputs.json\n"
           "ranges examples/counter.json --types")


def configure(parser: argparse.ArgumentParser) -> None:
    """Adds the words of the command."""
    parser.add_argument("diagram", metavar="D", help="the diagram's file")
    parser.add_argument("inputs", metavar="INPUTS", nargs="?",
                        help="values between whose least and greatest each sensor stays, as CSV or as the program's "
                             "input file (JSON); without them a sensor may take any number of its type")
    parser.add_argument("--signal", metavar="NAME", action="append",
                        help="tell of this signal only: `motor.error`, a block or a superblock; may be repeated")
    parser.add_argument("--types", action="store_true", help="tell which narrower types would do")
    parser.add_argument("--strict", action="store_true",
                        help="end with status 1 where a run may stop by an overflow or a divisor of 0")


def run(words: argparse.Namespace) -> int:
    """Prints the ranges; the status is that of the program, or 1 where --strict asks for it."""
    found = ranges(words.diagram, words.inputs)
    sys.stdout.write(found.text(words.signal, words.types))
    return 1 if words.strict and not found.safe else 0
