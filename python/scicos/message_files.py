"""Sentences for files and words: what is no JSON, input files, images, dumps, C, what can't be read, and
words out of range (rules 1, 26 to 29, 35 to 37).
"""
from __future__ import annotations

import difflib
from dataclasses import dataclass
from typing import Any, Callable

from .flat import whole
from .integers import BY_CODE
from .json_lines import JsonText
from .message_parts import Told, plural

LAST_DATE, MOST_EVENTS = 2**62, 1_000_000


@dataclass(frozen=True)
class Word:
    """A word of a command line: its letter in the usage, what it is, and for a number its bounds."""

    letter: str
    what: str
    least: int = 0
    most: int | None = None


D, I = Word("D", "the diagram's file"), Word("I", "the input file")
T, N = Word("T", "the last date in ticks", 0, LAST_DATE), Word("N", "the most events", 0, MOST_EVENTS)
COMMANDS: dict[str, tuple[Word, ...]] = {
    "check": (D,), "map": (D,), "schedule": (D,), "simulate": (D, I, T, N), "ccode": (D,),
    "crun": (Word("C", "the C program"), I, T, N), "host": (),
    "bulk": (Word("SEED", "the seed", 0, 2**32 - 1), Word("SIZE", "the number of data blocks", 1, 2000)),
    "judge": (D, I, Word("V", "the trace"), T, N),
    "save": (D, I, T, N, Word("K", "the reaction", 1, MOST_EVENTS + 1)),
    "resume": (D, I, Word("S", "the image"), T, N), "vcd": (D, I, T, N),
    "vcdat": (Word("V", "the dump"), Word("K", "the tick", 0, LAST_DATE))}
RANGES = {"ranges": (D, I)}  # the program of its own, which has no other command


def files_of(words: tuple[str, ...]) -> list[tuple[Word, str]]:
    """The files of a command line, in their order."""
    due = {**COMMANDS, **RANGES}.get(words[0] if words else "", ())
    return [(word, given) for word, given in zip(due, words[1:]) if word.most is None]


def wrong_words(words: tuple[str, ...]) -> str:
    """Which word of a command line is wrong, and its bounds.

    >>> wrong_words(("simulate", "d.json", "i.json", "12", "1e6"))
    "N, the most events, is '1e6', which isn't digits alone, without sign, leading zero or separators"
    """
    if not words:
        return f"a command is missing: one of {', '.join(COMMANDS)}"
    due = COMMANDS.get(words[0])
    if due is None:
        near = difflib.get_close_matches(words[0], COMMANDS, 2)
        return (f"there is no command {words[0]!r}: "
                f"{'did you mean ' + ' or '.join(near) + '?' if near else 'one of ' + ', '.join(COMMANDS)}")
    if len(words) - 1 != len(due):
        shown = " ".join(word.letter for word in due) or "no words"
        named = f" ({', '.join(f'{word.letter} {word.what}' for word in due)})" if due else ""
        return f"{words[0]} takes {shown}{named}, and was given {plural(len(words) - 1, 'word')}"
    for word, given in zip(due, words[1:]):
        if word.most is None:
            continue
        if not (given.isascii() and given.isdigit()) or given != str(int(given[:30])) and len(given) < 30:
            return (f"{word.letter}, {word.what}, is {given!r}, which isn't digits alone, without sign, "
                    "leading zero or separators")
        if len(given) > 29 or not word.least <= int(given) <= word.most:
            bound = (f"less than {word.least}" if len(given) < 30 and int(given) < word.least
                     else f"more than {word.most}")
            return f"{word.letter}, {word.what}, is {given}, which is {bound}"
    return f"`{' '.join(words)}` is no command line of the program"


def unread(words: tuple[str, ...]) -> str:
    """Which file of a command line can't be read, and why."""
    for word, name in files_of(words):
        try:
            with open(name, "rb") as file:
                file.read(1)
        except OSError as error:
            return (f"{name}, {word.what}, can't be read: {error.strerror or error}; look at its name and "
                    "its permissions")
    return f"a file of `{' '.join(words)}` can't be read; look at names and permissions"


def _file(told: Told, letter: str) -> str:
    return next((given for word, given in files_of(told.words) if word.letter == letter), "the file")


def _text(name: str) -> bytes:
    """The bytes of a file; nothing where it can't be read."""
    try:
        with open(name, "rb") as file:
            return file.read()
    except OSError:
        return b""


def _not_json(told: Told) -> str:
    damage = told.flat.damage
    if damage is None and not told.flat.is_text:
        return f"{told.flat.file} is no JSON: it has bytes that are no UTF-8; write it as UTF-8"
    if damage is None:
        return (f"{told.flat.file} is nested more than 127 deep, has a number that JSON lacks (past 1.8e308, or as "
                "NaN), or half of a pair as \\ud800 in a text; mend it")
    return (f"{told.flat.file} is no JSON: line {damage.line}, column {damage.column}: {damage.what}; mend "
            "it there")


def _too_long(told: Told) -> str:
    files = files_of(told.words)
    word, name = files[told.detail(0) - 1] if 0 < told.detail(0) <= len(files) else (D, told.flat.file)
    return (f"{name}, {word.what}, has more than {told.detail(1)} bytes; take a shorter file: fewer spaces "
            "and names, or a run in parts")


def _columns(text: bytes) -> tuple[JsonText, Any]:
    reader = JsonText(text.decode("utf-8", "replace"))
    return reader, reader.whole()


def _input_shape(told: Told) -> str:
    name = _file(told, "I")
    reader, columns = _columns(_text(name))
    if told.refusal.details:
        needed, found = told.detail(0), told.detail(1)
        sensors = ", ".join(f"{sensor} takes column {column}"
                            for column, sensor in sorted(told.sensors().items()) if column > found)
        return (f"{name} has {plural(found, 'column')}, and {needed} are needed: {sensors}; write a list for "
                "each column")
    if reader.damage:
        return (f"{name} is no JSON: line {reader.damage.line}, column {reader.damage.column}: "
                f"{reader.damage.what}; mend it there")
    if not isinstance(columns, list):
        return (f"{name} is no list of lists of whole numbers, but {_shown(columns)}; write a list for each "
                "column, as [[1, 2, 3], [4, 5, 6]]")
    for number, column in enumerate(columns, 1):
        sensor = told.sensors().get(number)
        at = f"column {number}" + (f" (of {sensor})" if sensor else "")
        if not isinstance(column, list):
            return (f"{name} has in {at} no list, but {_shown(column)}; write a list of whole numbers there, "
                    "also of one value")
        for position, value in enumerate(column, 1):
            if not whole(value) or not -2**63 <= value < 2**63:
                return (f"{name} has in {at}, value {position}, {_shown(value)} in place of a whole number; "
                        "mend it")
    return (f"{name} is no list of lists of whole numbers; a number is written without point or exponent, "
            "and -0 is none")


def _shown(value: Any) -> str:
    """A value in short."""
    if isinstance(value, dict):
        return "an object"
    if isinstance(value, list):
        return "a list"
    text = f"the text {value!r}" if isinstance(value, str) else {None: "null", True: "true",
                                                                 False: "false"}.get(value, repr(value)) \
        if value is None or isinstance(value, bool) else f"the number {value}"
    return text if len(text) < 60 else text[:57] + "..."


def _input_range(told: Told) -> str:
    name, column, position, value = _file(told, "I"), told.detail(0), told.detail(1), told.detail(2)
    item = told.flat.item(told.place)
    codes = item.numbers("outtyp") if item else []
    kind = BY_CODE.get(codes[0]) if codes else None
    bounds = (f"the type {kind.name} of {told.it} is from {kind.least} to {kind.greatest}" if kind
              else f"{told.it} has a narrower type")
    reader = JsonText(_text(name).decode("utf-8", "replace"))
    starts = list(reader.items(reader.start))
    values = list(reader.items(starts[column - 1])) if 0 < column <= len(starts) else []
    line = f" (line {reader.line(values[position - 1])})" if 0 < position <= len(values) else ""
    return (f"{name} has {value} as value {position} of column {column}{line}, and {bounds}; bring the value "
            "into the type, or declare a wider one")


def line_of(text: bytes, number: int) -> str:
    """A line of a file, from 1, as it is shown."""
    lines = text.split(b"\n")
    if number > len(lines) or (number == len(lines) and not lines[-1]):
        return "where the file ends"
    return f"which is {lines[number - 1][:80].decode('utf-8', 'replace')!r}"


def _not_save(told: Told) -> str:
    name = _file(told, "S")
    return (f"{name}, line {told.detail(0)}, {line_of(_text(name), told.detail(0))}, is no line of an image "
            f"of {told.flat.file} with these inputs; "
            "an image is of the diagram that it was saved of")


def _not_vcd(told: Told) -> str:
    name = _file(told, "V")
    return (f"{name}, line {told.detail(0)}, {line_of(_text(name), told.detail(0))}, is no line of a dump of "
            "the form that `vcd` writes; "
            "docs/FORMAT.md tells that form")


def _run_ended(told: Told) -> str:
    return (f"the run has {plural(told.detail(1), 'reaction')}, so there is nothing to save after reaction "
            f"{told.detail(0)}; take a K below {told.detail(1)}")


def _not_c(told: Told) -> str:
    name, at = _file(told, "C"), told.detail(0)
    text = _text(name)
    line = text.count(b"\n", 0, at) + 1
    column = at - (text.rfind(b"\n", 0, at) + 1) + 1
    found = ("the text ends too early" if at >= len(text)
             else f"{text.split(chr(10).encode())[line - 1][:80].decode('utf-8', 'replace')!r} can't stand "
                  "there")
    return (f"{name} is no C program of the subset: line {line}, column {column}: {found}; docs/FORMAT.md "
            "tells the spelling, and what `ccode` prints passes")


RULES: dict[int, Callable[[Told], str]] = {
    1: _not_json, 26: _not_c, 27: _input_shape, 28: _input_range, 29: _too_long, 35: _run_ended,
    36: _not_save, 37: _not_vcd}

__all__ = ["COMMANDS", "RULES", "files_of", "unread", "wrong_words"]
