"""`scicos-kit dump`: a dump with names and scopes, for viewers."""
from __future__ import annotations

import argparse

from scicos import dump, files
from scicos.columns import of_design
from scicos.commands import _run
from scicos.errors import ReadError, WordsError
from scicos.program import find

SUMMARY = "write a value change dump with names, and a scope for each superblock, for viewers"
EXAMPLE = ("dump examples/thermostat/diagram.json examples/thermostat/inputs.json --until 540 --tick '1 s' "
           "-o thermostat.vcd\n"
           "dump examples/thermostat/diagram.json --of own.vcd -o named.vcd")


def configure(parser: argparse.ArgumentParser) -> None:
    """Adds the words of the command."""
    _run.add_run(parser, until=False)
    parser.add_argument("--of", metavar="DUMP",
                        help="copy this dump, which `scicos vcd` wrote, in place of a run")
    parser.add_argument("--tick", metavar="TIME", default="1 ns",
                        help="what a tick is in the copy: 1, 10 or 100 of s, ms, us, ns, ps or fs")
    parser.add_argument("-o", dest="output", metavar="FILE",
                        help="write the copy there, by default on standard output")


def run(words: argparse.Namespace) -> int:
    """Writes the copy."""
    if (words.of is None) == (words.until is None):
        raise WordsError("give either --until, the last date of a run, or --of, a dump to copy")
    if words.of is None:
        with files.output(words.output) as file:
            return dump.dump(words.diagram, words.inputs, file, until=words.until, events=words.events,
                             tick=words.tick)
    catalogue = of_design(words.diagram, find())
    dump.check_same(dump.read_file(words.of), catalogue, words.of)
    try:
        with open(words.of, "rb") as own, files.output(words.output) as file:
            dump.copied(catalogue, own, file, words.tick)
    except OSError as error:
        raise ReadError(f"{words.of} can't be read: {error.strerror}") from None
    return 0
