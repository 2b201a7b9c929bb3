"""`scicos-kit sweep`: many runs, of input files and of the parameters of a design in Python, as a table."""
from __future__ import annotations

import argparse
import logging
import re
import signal
import sys
from typing import Any

from scicos.errors import WordsError
from scicos.program import MOST_EVENTS

SUMMARY = "run a design with many input files and parameters, and give a table with a row for each run"
EXAMPLE = ('sweep design.py --set gain=1,2,3 --inputs inputs/*.json --until 1000 --row "last motor.speed" \\\n'
           '      --row "greatest motor.error" --row "first alarm == 1" -o speeds.csv')
WHOLE = re.compile(r"[+-]?\d+")
RANGE = re.compile(r"([+-]?\d+)\.\.([+-]?\d+)(?:\.\.([1-9]\d*))?")


def configure(parser: argparse.ArgumentParser) -> None:
    """Adds the words of the command."""
    parser.add_argument("design", metavar="D", help="the diagram's file, or a file of Python with a function "
                        "that takes parameters by "
                        "name and gives a Diagram; design.py:NAME names the function")
    parser.add_argument("--set", metavar="NAME=VALUES", action="append", default=[],
                        help="values of a parameter, as 1,2,3 or 1..10 or 0..100..5; of several parameters "
                        "all combinations are run")
    parser.add_argument("--inputs", metavar="FILE", nargs="+", action="extend",
                        help="input files, as CSV or JSON: each is a run")
    parser.add_argument("--until", metavar="T", type=int, required=True, help="the last date, in ticks")
    parser.add_argument("--events", metavar="N", type=int, default=MOST_EVENTS,
                        help=f"the most events, by default {MOST_EVENTS:,}")
    parser.add_argument("--row", metavar="WHAT", action="append", default=[],
                        help="what a row tells of its run: `last NAME`, `least NAME`, `greatest NAME`, "
                        "`first NAME == 1` (the date), "
                        "`count NAME` or `count NAME == 1`; may be repeated")
    parser.add_argument("-o", dest="output", metavar="FILE",
                        help="write the table there as CSV; while it grows it is in FILE.journal, from "
                        "which the sweep goes on where it was ended; without it the table is printed, and "
                        "nothing is kept")
    parser.add_argument("--anew", action="store_true", help="begin anew where FILE.journal has a sweep that "
                        "was ended")
    parser.add_argument("--keep", metavar="FOLDER", help="keep the traces there, by the numbers of the runs")
    parser.add_argument("--workers", metavar="COUNT", type=int,
                        help="how many runs go on at once, by default one for each processor")
    parser.add_argument("--cluster", metavar="ADDRESS", help="run on the cluster of dask.distributed at this "
                        "address, as tcp://host:8786")


def value(text: str) -> Any:
    """A value of a parameter: a whole number, a number, true or false, or else a text."""
    if WHOLE.fullmatch(text):
        return int(text)
    if text in ("true", "false", "True", "False"):
        return text in ("true", "True")
    try:
        return float(text)
    except ValueError:
        return text


def values(text: str) -> list[Any]:
    """The values of a parameter, as `1,2,3` or `1..10`."""
    found: list[Any] = []
    for part in text.split(","):
        bounds = RANGE.fullmatch(part.strip())
        if bounds:
            found += range(int(bounds[1]), int(bounds[2]) + 1, int(bounds[3] or 1))
        else:
            found.append(value(part.strip()))
    return found


def parameters(words: list[str]) -> dict[str, list[Any]] | None:
    """The values of each parameter by its name."""
    found: dict[str, list[Any]] = {}
    for word in words:
        name, equal, rest = word.partition("=")
        if not equal or not name.isidentifier() or not rest:
            raise WordsError(f"a parameter is given as NAME=VALUES, as gain=1,2,3, and not as {word!r}")
        if name in found:
            raise WordsError(f"the parameter {name!r} is given twice: write all its values in one --set")
        found[name] = values(rest)
    return found or None


def end(number: int, frame: object) -> None:
    """Ends the sweep as Ctrl-C does, where a batch system says that its time is over."""
    sys.exit(128 + number)


def run(words: argparse.Namespace) -> int:
    """Does the sweep, writes its table, and tells on standard error how the runs ended."""
    from scicos.sweep import Ended, sweep
    if words.workers is not None and not 1 <= words.workers <= 1024:
        raise WordsError(f"--workers is from 1 to 1024, and not {words.workers}")
    signal.signal(signal.SIGTERM, end)
    logging.getLogger("distributed").setLevel(logging.CRITICAL)
    output = None if words.output in (None, "-") else words.output
    try:
        found = sweep(words.design, inputs=words.inputs, parameters=parameters(words.set), until=words.until,
                      events=words.events,
                      rows=words.row, path=output, anew=words.anew, keep=words.keep, cluster=words.cluster,
                      workers=words.workers,
                      progress=True)
    except Ended as ended:
        sys.stderr.write(f"scicos-kit sweep: {ended}\n")
        return 130
    if output is None:
        found.to_text(sys.stdout.buffer)
        sys.stdout.buffer.flush()
    sys.stderr.write(f"{told(found.counts(), len(found.rows), found.again)}; {found.wall:.1f} s, with "
                     f"{found.processor:.1f} s of "
                     "processor time in the runs\n")
    return 70 if "failed" in found.counts() else 1 if set(found.counts()) == {"refused"} else 0


def told(counts: dict[str, int], total: int, again: int) -> str:
    """How the runs ended, in a line."""
    ends = ", ".join(f"{count:,} {name}" for name, count in sorted(counts.items(), key=lambda each: -each[1]))
    return f"{total:,} runs{f', {again:,} of them from the journal' if again else ''}: {ends}"
