"""Refusals of the program as sentences: what is wrong, where, and what to do.

Each rule of docs/FORMAT.md has a row in `RULES`: a function from what is known of the refusal to its
sentence. Objects are told by their names, with their places and the line of Python that made them, or the
line of the JSON file. A refusal that has no row still gives a sentence.
"""
from __future__ import annotations

import os
from typing import Callable

from . import message_blocks, message_files, message_ports
from .errors import ReadError, ScicosError
from .flat import Flat, read
from .message_parts import Told
from .program import ProgramError, Refusal, Refused, refusal_of

RULES: dict[int, Callable[[Told], str]] = {**message_files.RULES, **message_blocks.RULES,
                                           **message_ports.RULES}


def explained(refused: Refused, flat: Flat | None = None) -> str:
    """The sentence for a refusal that the program gave.

    Example:
        >>> explained(Refused(Refusal(15, "NoSource", (2,), (1,)), ("check", "examples/first.json")))[:45]
        'Modulo_Count 2 (object 2, first.json:3) has n'
    """
    return sentence(refused.refusal, refused.words, flat)


def sentence(refusal: Refusal, words: tuple[str, ...], flat: Flat | None = None) -> str:
    """The sentence for a refusal of a command line: its words from the command on, as ("simulate", D, I, T,
    N).
    """
    told = Told(refusal, words, flat or _diagram(words))
    row = RULES.get(refusal.number)
    return row(told) if row else _unknown(told)


def _diagram(words: tuple[str, ...]) -> Flat:
    """The diagram of a command line, as far as it can be read."""
    try:
        return read(words[1])
    except (ReadError, IndexError):
        return Flat("", os.path.basename(words[1]) if len(words) > 1 else "the diagram")


def _unknown(told: Told) -> str:
    """The sentence for a rule without a row."""
    refusal = told.refusal
    place = f"{told.who(refusal.place)} breaks" if refusal.place else f"{told.flat.file} breaks"
    numbers = f" ({', '.join(map(str, refusal.details))})" if refusal.details else ""
    return f"{place} rule {refusal.number}, {refusal.rule}{numbers}; docs/FORMAT.md tells what it asks"


def told_of(words: tuple[str, ...], status: int, err: str) -> str:
    """The sentence for any status of the program but 0, by the words of its command line and what it wrote on
    standard error.

    Example:
        >>> told_of(("simulate", "d.json", "i.json", "12", "10000000"), 2, "usage: ..")
        'N, the most events, is 10000000, which is more than 1000000'
    """
    refusal = refusal_of(err) if status == 1 else None
    if refusal:
        return sentence(refusal, words)
    if status == 2:
        return message_files.wrong_words(words)
    if status == 3:
        return message_files.unread(words)
    told = {4: "standard output could not be written: the disk may be full",
            5: "there was not enough memory for this run",
            6: "the run stopped",
            7: f"the C program came to a statement without meaning ({err.strip()}), as a division by 0",
            8: "the file is not the trace of this run"}
    return (told.get(status) or f"`scicos {' '.join(words)}` ended with status {status}: "
                                f"{err.strip() or 'it gives no reason'}")


def text_of(error: ScicosError) -> str:
    """The sentence for an exception of this package: of the program's refusals and faults that of this
    module, else the exception's own.

    Example:
        >>> text_of(ReadError("d.json can't be read: No such file or directory"))
        "d.json can't be read: No such file or directory"
    """
    if isinstance(error, Refused):
        return error.sentence or explained(error)
    return str(error)


__all__ = ["ProgramError", "RULES", "explained", "sentence", "text_of", "told_of"]
