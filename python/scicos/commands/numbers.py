"""`scicos-kit numbers`: the blocks of a diagram with the numbers that traces and refusals tell."""
from __future__ import annotations

import argparse
import sys

from scicos.columns import flat_of
from scicos.errors import DataError
from scicos.flat import place_text

SUMMARY = "list the number, place, kind and name of each block, of refused diagrams too"
EXAMPLE = "numbers examples/loop.json"


def configure(parser: argparse.ArgumentParser) -> None:
    """Adds the words of the command."""
    parser.add_argument("diagram", metavar="D", help="the diagram's file")


def run(words: argparse.Namespace) -> int:
    """Prints a line for each block."""
    flat = flat_of(words.diagram)
    if flat.damage:
        raise DataError(f"{words.diagram} is no JSON: {flat.damage}")
    for block in flat.blocks:
        line = [str(block.number), place_text(block.place), block.kind, block.item.name]
        sys.stdout.write(" ".join(filter(None, line)) + "\n")
    return 0
