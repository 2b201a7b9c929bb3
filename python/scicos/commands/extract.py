"""`scicos-kit extract`: a superblock as a controller of its own."""
from __future__ import annotations

import argparse
import sys

from scicos.column_map import path_of
from scicos.extract import extract, is_file

SUMMARY = "cut a superblock out of a diagram, with sensors in place of its inputs"
EXAMPLE = "extract examples/closed-loop/loop.json controller -o controller.json"


def configure(parser: argparse.ArgumentParser) -> None:
    """Adds the words of the command."""
    parser.add_argument("diagram", metavar="D", help="the diagram's file")
    parser.add_argument("name", metavar="NAME", help="the superblock's dotted name, or its place as 7/3")
    parser.add_argument("-o", dest="output", metavar="FILE", required=True,
                        help="write the controller there, and the map of its columns beside it, of c.json into"
                             " c.columns.json")


def run(words: argparse.Namespace) -> int:
    """Writes the controller and the map of its columns, and tells the columns in their order."""
    made = extract(words.diagram, words.name)
    made.write(words.output)
    told = sys.stdout if is_file(words.output) else sys.stderr
    for entry in made.columns.entries:
        told.write(f"{entry}\n")
    if is_file(words.output):
        told.write(f"{path_of(words.output)} has this too\n")
    for note in made.notes:
        sys.stderr.write(f"scicos-kit extract: {note}\n")
    return 0
