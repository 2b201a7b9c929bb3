"""`scicos-kit inputs`: the program's input file from CSV."""
from __future__ import annotations

import argparse

from scicos import files, inputs
from scicos.columns import of_design
from scicos.program import find

SUMMARY = "make the program's input file of a CSV file, checked against the sensors' types"
EXAMPLE = "inputs examples/push-button/diagram.json samples.csv -o inputs.json"


def configure(parser: argparse.ArgumentParser) -> None:
    """Adds the words of the command."""
    parser.add_argument("diagram", metavar="D", help="the diagram's file")
    parser.add_argument("table", metavar="CSV",
                        help="the values: the first line names the sensors, or has the numbers of columns")
    parser.add_argument("--ignore", metavar="NAME", action="append", default=[],
                        help="pass over this column, as a time; may be repeated")
    parser.add_argument("-o", dest="output", metavar="FILE",
                        help="write the input file there, by default on standard output")


def run(words: argparse.Namespace) -> int:
    """Writes the input file."""
    columns = inputs.columns_of(words.table, of_design(words.diagram, find()), words.ignore)
    with files.output(words.output) as file:
        inputs.write(columns, file)
    return 0
