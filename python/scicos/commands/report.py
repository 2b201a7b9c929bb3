"""`scicos-kit report`: a design on one page, to show it to others."""
from __future__ import annotations

import argparse
import sys

from scicos import files
from scicos.commands import _run
from scicos.errors import WordsError
from scicos.program import STOPPED, find
from scicos.report import report

SUMMARY = "write one page (HTML) with drawings, warnings, waveforms, schedule and coverage, to show to others"
EXAMPLE = ("report examples/thermostat/diagram.json examples/thermostat/inputs.json --until 540 -o thermostat.html\n"
           "report examples/loop.json -o refused.html")


def configure(parser: argparse.ArgumentParser) -> None:
    """Adds the words of the command."""
    _run.add_run(parser, until=False)
    parser.add_argument("--signal", metavar="NAME", action="append",
                        help="have only this signal in the waveforms: `motor.error`, a block or a superblock; may be repeated")
    parser.add_argument("--title", metavar="TEXT", help="the page's title, by default the design's name")
    parser.add_argument("-o", dest="output", metavar="FILE", help="write the page there, by default on standard output")


def run(words: argparse.Namespace) -> int:
    """Writes the page, without --until of no run; the status is 1 where something was refused, and 6 where the run stopped."""
    if words.inputs is not None and words.until is None:
        raise WordsError("inputs are those of a run, so give --until, its last date")
    made = report(words.diagram, words.inputs, until=words.until, events=words.events, signals=words.signal,
                  title=words.title, program=find(), progress=True)
    with files.output(words.output) as file:
        file.write(made.text.encode("utf-8", "backslashreplace"))
    for told in filter(None, (made.refusal, made.stop)):
        sys.stderr.write(f"scicos-kit report: {told}\n")
    return 1 if made.refusal else STOPPED if made.stop else 0
