"""The first wrong line of a trace, as `judge` finds it, as a sentence with its date and what was expected."""
from __future__ import annotations

from collections.abc import Iterator

from .flat import Flat, read
from .message_parts import plural
from .program import Program


def explained(words: tuple[str, ...], wrong: int, program: Program) -> str:
    """The sentence for `no WRONG`, the answer to the words ("judge", D, I, V, T, N).

    What was expected is the line that `simulate` writes there.
    """
    _, diagram, inputs, trace, until, events = words
    found = _line(trace, wrong)
    date, expected, count = "", None, 0
    with program.stream("simulate", diagram, inputs, until, events) as stream:
        for line in _lines(stream.pieces()):
            count += 1
            if line.startswith(("start", "event")):
                date = line
            if count == wrong:
                expected = line
                break
    flat = read(diagram)
    return (f"{trace}, line {wrong}, {_reaction(date)}: {_found(found, flat)}, and "
            f"{_expected(expected, count, flat)}")


def _lines(pieces: Iterator[bytes]) -> Iterator[str]:
    for piece in pieces:
        yield from piece.decode("ascii", "replace").splitlines()


def _line(name: str, number: int) -> bytes | None:
    """A line of a file with its line feed, from 1; None where it has none."""
    with open(name, "rb") as file:
        for at, line in enumerate(file, 1):
            if at == number:
                return line
    return None


def _reaction(line: str) -> str:
    """The reaction that a line of a trace begins."""
    parts = line.split()
    return f"in the reaction at date {parts[1]}" if parts[:1] == ["event"] else "in the reaction at start"


def _found(line: bytes | None, flat: Flat) -> str:
    if line is None:
        return "the file ends"
    shown = line.rstrip(b"\n")[:80].decode("utf-8", "replace")
    lacks = "" if line.endswith(b"\n") else ", without a line feed,"
    return f"`{shown}`{meaning(shown, flat)}{lacks} stands there"


def _expected(line: str | None, count: int, flat: Flat) -> str:
    if line is None:
        return f"the trace of this run has {plural(count, 'line')}"
    return f"the run has `{line}`{meaning(line, flat)}"


def meaning(line: str, flat: Flat) -> str:
    """What a line of a trace says, by names: ` (motor.error is 5)`; empty where it is no line of values or
    events.

    >>> speed = '{"obj": "Block", "gui": "SENSOR", "name": "speed", "model": {"out": 1}}'
    >>> meaning("val 1 1 1 7", Flat('{"objs": [%s]}' % speed))
    ' (speed is 7)'
    """
    parts = line.split()
    if not all(part.lstrip("-").isdigit() for part in parts[1:]):
        return ""
    if parts[:1] == ["val"] and len(parts) == 5:
        block, port, element, value = map(int, parts[1:])
        return f" ({flat.signal(block, port, None if element == 1 else element)} is {value})"
    if parts[:1] == ["event"] and len(parts) == 4:
        return f" (an event of {flat.name(int(parts[2]))})"
    return ""
