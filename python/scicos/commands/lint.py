"""`scicos-kit lint`: warnings about a diagram."""
from __future__ import annotations

import argparse
import sys

from scicos import lint, messages
from scicos.errors import ScicosError
from scicos.program import find
from scicos.ranges import ranges

SUMMARY = "warn of what the program accepts and is hardly meant"
EXAMPLE = ("lint examples/first.json\n"
           "lint examples/pi-controller/diagram.json --inputs examples/pi-controller/inputs.json")


def configure(parser: argparse.ArgumentParser) -> None:
    """Adds the words of the command."""
    parser.add_argument("diagrams", metavar="D", nargs="+", help="the diagrams' files")
    parser.add_argument("--granted", action="store_true",
                        help="tell also what the diagram grants by its fields `grant`")
    parser.add_argument("--inputs", metavar="I",
                        help="tell also what may stop a run, on inputs that keep between the least and the greatest "
                             "values that this file has in each column (CSV or the program's input file)")


def run(words: argparse.Namespace) -> int:
    """Prints a line for each warning; the status is 1 where there are some, else that of a file that is refused
    or can't be read."""
    program, status = find(), 0
    for diagram in words.diagrams:
        try:
            found = ranges(diagram, words.inputs, program) if words.inputs else None
            lines = lint.lines(diagram, program, words.granted, found)
        except ScicosError as error:
            sys.stderr.write(f"scicos-kit lint: {messages.text_of(error)}\n")
            status = status or error.status
            continue
        sys.stdout.write("".join(line + "\n" for line in lines))
        status = 1 if lines else status
    return status
