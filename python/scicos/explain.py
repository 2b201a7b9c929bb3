"""Command lines of the program, run as they are, with their refusals, stops and verdicts told as sentences.
"""
from __future__ import annotations

from typing import IO

from . import judged, messages, stops
from .flat import Flat, read
from .program import Program, find

STOPPED, UNTRUE = 6, 8


def explain(words: tuple[str, ...], out: IO[bytes], program: Program | None = None) -> tuple[int, str]:
    """Runs a command line of the program: its answer goes to `out`, and its status comes back with a
    sentence.

    The sentence is empty where all is well.

    Example:
        >>> explain(("check", "examples/counter.json"), out)  # writes `ok 4 2 5 0`
        (0, '')
    """
    program = find(program)
    watch = stops.Watch()
    with program.stream(*words) as stream:
        last = b""
        for piece in stream.pieces():
            out.write(piece)
            watch.take(piece)
            last = piece
        stream.said.seek(0)
        err = stream.said.read().decode(errors="replace")
        status = stream.process.wait()
    if status == 0:
        return status, ""
    if status == STOPPED:
        return status, _stopped(words, watch.stop, program)
    if status == UNTRUE and last.startswith(b"no "):
        return status, judged.explained(words, int(last.split()[1]), program)
    return status, messages.told_of(words, status, err)


def _stopped(words: tuple[str, ...], stop: stops.Stop | None, program: Program) -> str:
    """The sentence for a run that stopped."""
    if words[0] == "vcd":
        stop = _stop_of_run(words, program)
    if stop is None:
        return "the run stopped"
    if words[0] in ("simulate", "vcd"):
        return stops.explained(stop, words[1], words[2], int(words[3]), program)
    return stops.brief(stop, read(words[1]) if words[0] == "resume" else Flat(""))


def _stop_of_run(words: tuple[str, ...], program: Program) -> stops.Stop | None:
    """The stop of the run that a dump is of."""
    watch = stops.Watch()
    with program.stream("simulate", *words[1:]) as stream:
        for piece in stream.pieces():
            watch.take(piece)
    return watch.stop

