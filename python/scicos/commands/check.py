"""`scicos-kit check`: whether the program takes a diagram, with a refusal as a sentence."""
from __future__ import annotations

import argparse

from scicos.commands.explain import told

SUMMARY = "check a diagram, and tell why it is refused, by the names of its blocks"
EXAMPLE = "check examples/loop.json"


def configure(parser: argparse.ArgumentParser) -> None:
    """Adds the words of the command."""
    parser.add_argument("diagram", metavar="D", help="the diagram's file")


def run(words: argparse.Namespace) -> int:
    """Prints the answer, or the sentence on standard error; the status is the program's."""
    return told("check", ("check", words.diagram))
