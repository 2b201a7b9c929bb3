"""`scicos-kit coverage`: what runs of a design have tried of it."""
from __future__ import annotations

import argparse
import json
from typing import Any

from scicos import files
from scicos.commands import _run
from scicos.coverage import Coverage, merged
from scicos.errors import DataError, ReadError
from scicos.measure import measure
from scicos.program import checked, find

SUMMARY = "tell how often blocks acted, which branches and relations runs tried, and what they missed"
EXAMPLE = ("coverage examples/branches.json examples/readings.json --until 2\n"
           "coverage examples/branches.json first.csv second.csv --until 100 --data -o runs.json\n"
           "coverage examples/branches.json third.csv --until 500 --also runs.json")


def configure(parser: argparse.ArgumentParser) -> None:
    """Adds the words of the command."""
    parser.add_argument("diagram", metavar="D", help="the diagram's file")
    parser.add_argument("inputs", metavar="INPUTS", nargs="*",
                        help="values of the sensors, as CSV or as the program's input file (JSON): each is a run")
    _run.add_bounds(parser)
    parser.add_argument("--also", metavar="FILE", action="append", default=[],
                        help="add the coverage that --data wrote before; may be repeated")
    parser.add_argument("--data", action="store_true", help="write JSON")
    parser.add_argument("--strict", action="store_true",
                        help="end with status 1 where something was never tried")
    parser.add_argument("-o", dest="output", metavar="FILE",
                        help="write it there, by default on standard output")


def earlier(path: str) -> Coverage:
    """The coverage in a file."""
    try:
        with open(path, "rb") as file:
            data: Any = json.load(file)
        return Coverage.from_dict(data)
    except OSError as error:
        raise ReadError(f"{path} can't be read: {error.strerror}") from None
    except (ValueError, RecursionError, DataError) as error:
        told = error if isinstance(error, DataError) else f"it is no JSON: {error}"
        raise DataError(f"{path}: {told}") from None


def run(words: argparse.Namespace) -> int:
    """Runs the design and tells its coverage."""
    checked(words.until, words.events)
    before, program = [earlier(path) for path in words.also], find()
    found = merged([*before, *(measure(words.diagram, inputs, until=words.until, events=words.events,
                                       program=program, progress=True)
                               for inputs in words.inputs or [None])])
    with files.output(words.output) as file:
        text = json.dumps(found.to_dict(), indent=1) if words.data else found.text()
        file.write(f"{text}\n".encode("utf-8", "backslashreplace"))
    return 1 if words.strict and found.missed() else 0
