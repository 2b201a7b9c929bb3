"""`scicos-kit waves`: the waveforms of a dump as an SVG."""
from __future__ import annotations

import argparse

from scicos import dump, files, waves

SUMMARY = "draw the waveforms of a dump that `scicos vcd` wrote, as an SVG"
EXAMPLE = ("waves --diagram examples/thermostat/diagram.json thermostat.vcd > thermostat.svg\n"
           "waves --only b4_1_1 --until 60 thermostat.vcd -o one.svg")


def configure(parser: argparse.ArgumentParser) -> None:
    """Adds the words of the command."""
    parser.add_argument("dump", metavar="DUMP", help="the file that `scicos vcd` wrote")
    parser.add_argument("--diagram", metavar="D", help="the diagram's file, for the names of its blocks")
    parser.add_argument("--until", metavar="T", type=int,
                        help="the last tick of the picture, by default behind the last change")
    parser.add_argument("--only", metavar="NAME", action="append",
                        help="draw this signal only, as b4_1_1, or by name with --diagram; may be repeated")
    parser.add_argument("-o", dest="output", metavar="FILE",
                        help="write the picture there, by default on standard output")


def run(words: argparse.Namespace) -> int:
    """Writes the picture."""
    picture = waves.drawn(dump.read_file(words.dump), words.diagram, words.until, words.only)
    with files.output(words.output) as file:
        file.write(picture.encode("utf-8", "backslashreplace"))
    return 0
