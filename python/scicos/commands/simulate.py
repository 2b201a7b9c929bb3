"""`scicos-kit simulate`: a run as a table, as CSV, or as a file of NumPy."""
from __future__ import annotations

import argparse
import sys

from scicos import files, tables
from scicos.commands import _run
from scicos.errors import WordsError
from scicos.program import STOPPED

SUMMARY = "run a design and print its signals by name, as a table, CSV or NumPy's arrays"
EXAMPLE = ("simulate examples/thermostat/diagram.json examples/thermostat/inputs.json --until 540 "
           "--signal boiler\n"
           "simulate examples/push-button/diagram.json samples.csv --until 70 --by tick -o run.csv")
FORMATS = ("text", "csv", "npz")


def configure(parser: argparse.ArgumentParser) -> None:
    """Adds the words of the command."""
    _run.add_run(parser)
    _run.add_signals(parser)
    parser.add_argument("--by", choices=("event", "tick"), default="event",
                        help="a row for each event, with what is shown there, or one for each date, with "
                        "what is held then")
    parser.add_argument("--format", choices=FORMATS,
                        help="by default that of the file's ending, and text on standard output")
    parser.add_argument("-o", dest="output", metavar="FILE",
                        help="write there, by default on standard output")


def form(words: argparse.Namespace) -> str:
    """The form that is written."""
    ending = (words.output or "").rpartition(".")[2]
    if words.format:
        return str(words.format)
    if words.output in (None, "-") or ending == "txt":
        return "text"
    if ending not in FORMATS:
        raise WordsError(f"the ending of {words.output!r} is none of csv, npz and txt: name the form with "
                         "--format")
    return ending


def run(words: argparse.Namespace) -> int:
    """Runs the design, writes the table, and tells on standard error how the run ended."""
    wanted = form(words)
    if wanted == "npz":
        tables.load_numpy("a file of NumPy")
    result = _run.ran(words)
    with files.output(words.output) as file:
        {"text": tables.to_text, "csv": tables.to_csv, "npz": tables.to_npz}[wanted](result, file, words.by)
    sys.stdout.flush()
    sys.stderr.write(f"{result.why()}\n")
    return STOPPED if result.end.stopped else 0
