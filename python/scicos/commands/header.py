"""`scicos-kit header`: names for a host in C."""
from __future__ import annotations

import argparse
import sys

from scicos import files
from scicos.header import PREFIX, header

SUMMARY = "write a C header of names for a host: blocks, ports, columns, ticks and types"
EXAMPLE = ("header examples/moving-average/diagram.json -o average.h\n"
           "header --prefix MOTOR controller.json -o controller.h")


def configure(parser: argparse.ArgumentParser) -> None:
    """Adds the words of the command."""
    parser.add_argument("diagram", metavar="D", help="the diagram's file")
    parser.add_argument("--prefix", default=PREFIX, help=f"what each name begins with, by default {PREFIX}")
    parser.add_argument("--columns", metavar="FILE",
                        help="the map of columns that `extract` wrote, by default the one beside D, if it is there")
    parser.add_argument("-o", dest="output", metavar="FILE",
                        help="write the header there, by default on standard output")


def run(words: argparse.Namespace) -> int:
    """Writes the header, and tells on standard error which blocks with values have no name in it."""
    made = header(words.diagram, words.prefix, words.columns)
    with files.output(words.output) as file:
        file.write(made.text.encode())
    if made.unnamed:
        sys.stderr.write(f"scicos-kit header: {', '.join(made.unnamed)} without a name: give one to what the"
                         " host has to know\n")
    return 0
