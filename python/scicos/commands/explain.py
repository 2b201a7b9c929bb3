"""`scicos-kit explain`: a command line of the program, with its refusal, stop or verdict as a sentence."""
from __future__ import annotations

import argparse
import sys

from scicos import explain, files

SUMMARY = "run a command of the program, and tell its refusal, stop or verdict as a sentence"
EXAMPLE = ("explain simulate examples/thermostat/diagram.json examples/thermostat/inputs.json 1000 100\n"
           "explain check examples/loop.json")


def configure(parser: argparse.ArgumentParser) -> None:
    """Adds the words of the command."""
    parser.add_argument("words", metavar="WORD", nargs="*", help="the program's command and its words")


def run(words: argparse.Namespace) -> int:
    """Writes what the program writes, and the sentence on standard error; the status is the program's."""
    return told("explain", tuple(words.words))


def told(name: str, words: tuple[str, ...]) -> int:
    """The status of a command line of the program, whose sentence is told."""
    with files.output(None) as out:
        status, sentence = explain.explain(words, out)
    if sentence:
        sys.stderr.write(f"scicos-kit {name}: {sentence}\n")
    return status
