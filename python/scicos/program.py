"""Finding the program `scicos` and calling it: its answers, its statuses, and its refusals as data.

Example:
    >>> from scicos.program import find
    >>> find().text("check", "examples/counter.json")
    'ok 4 2 5 0\\n'
"""
from __future__ import annotations

import contextlib
import functools
import operator
import os
import re
import shutil
import subprocess
import tempfile
from collections.abc import Iterator
from dataclasses import dataclass
from pathlib import Path
from typing import IO, Any, Protocol

from scicos.errors import MissingError, ReadError, ScicosError, WordsError
from scicos.files import told

MOST_EVENTS = 1_000_000  # that a run has, at most
LAST_DATE = 2**62  # in ticks
CHUNK = 1 << 18  # bytes that are read at once of a stream
STOPPED, UNTRUE = 6, 8  # the statuses of a run that stopped, and of a trace that `judge` denies
TOP = Path(__file__).resolve().parents[2]  # the checkout that the package stands in, if it does
WHAT = {4: "its output could not be written", 5: "there was no memory",
        7: "a C program came to a statement without meaning"}

Word = str | int | os.PathLike[str]


class Design(Protocol):
    """Anything that has the text of a diagram, as a `Diagram`."""

    def to_json(self) -> str:
        """The diagram as JSON."""


@dataclass(frozen=True)
class Refusal:
    """What a refusal tells: the rule by number and name, the place as (7, 3) for `7/3`, None for `-`, and the
    details."""

    number: int
    rule: str
    place: tuple[int, ...] | None
    details: tuple[int, ...]

    def __str__(self) -> str:
        place = "/".join(map(str, self.place)) if self.place else "-"
        return " ".join(["refused", str(self.number), self.rule, "at", place, *map(str, self.details)])


class ProgramError(ScicosError):
    """The program gave a status that isn't one of success; `status` is that one, `answer` what it wrote on
    standard error."""

    def __init__(self, text: str, status: int, answer: str = "") -> None:
        super().__init__(text)
        self.status, self.answer = status, answer

    def __reduce__(self) -> tuple[Any, ...]:  # an error that goes from one process to another stays what it is
        return ProgramError, (self.args[0], self.status, self.answer)


class Refused(ProgramError):
    """The program refused a file; `refusal` is what it told, `words` the command line, and `design` the
    design that it was called with, if known."""

    def __init__(self, refusal: Refusal, words: tuple[str, ...]) -> None:
        super().__init__(str(refusal), 1, str(refusal))
        self.refusal, self.words = refusal, words
        self.design: str | os.PathLike[str] | Design | None = None
        self.sentence = ""

    def __str__(self) -> str:
        return self.sentence or super().__str__()

    def __reduce__(self) -> tuple[Any, ...]:
        return Refused, (self.refusal, self.words), {"sentence": self.sentence}


@dataclass(frozen=True)
class Answer:
    """What the program answered: standard output, standard error, and the status."""

    out: bytes
    err: str
    status: int


def refusal_of(err: str) -> Refusal | None:
    """The refusal that standard error tells, as `refused 15 NoSource at 7/3 2`, or None where it tells
    none."""
    found = re.fullmatch(r"refused (\d+) (\w+) at (-|\d+(?:/\d+)*)((?: -?\d+)*)\n?", err)
    if not found:
        return None
    place = None if found[3] == "-" else tuple(map(int, found[3].split("/")))
    return Refusal(int(found[1]), found[2], place, tuple(map(int, found[4].split())))


def unread(words: tuple[str, ...]) -> str:
    """Which of the files on a command line can't be read, as a sentence."""
    for word in words[1:]:
        if word.isdigit() and not os.path.exists(word):
            continue
        try:
            with open(word, "rb") as file:
                file.read(1)
        except OSError as error:
            return f"{word} can't be read: {error.strerror}"
    return f"a file of `{' '.join(words)}` can't be read"


def error_of(words: tuple[str, ...], status: int, err: str, line: str = "") -> ScicosError:
    """The exception for a status that isn't one of success; `line` is the command line, where it isn't `scicos`
    and these words."""
    line = line or f"scicos {' '.join(words)}"
    if status < 0:
        return ProgramError(f"`{line}` was ended by signal {-status}", 128 - status, err)
    refusal = refusal_of(err) if status == 1 else None
    if refusal:
        return Refused(refusal, words)
    if status == 3:
        return ReadError(unread(words))
    told = WHAT.get(status) or err.strip().replace("\n", "; ") or "it gives no reason"
    return ProgramError(f"`{line}` ended with status {status}: {told}", status, err)


class Stream:
    """A run of the program whose standard output is read piece by piece; `status` is known behind the last
    piece."""

    def __init__(self, process: subprocess.Popen[bytes], words: tuple[str, ...], said: IO[bytes]) -> None:
        self.process, self.words, self.said = process, words, said
        self.status: int | None = None

    def pieces(self) -> Iterator[bytes]:
        """Standard output, in pieces that end at the end of a line."""
        assert self.process.stdout is not None
        rest = b""
        while piece := self.process.stdout.read(CHUNK):
            head, feed, tail = piece.rpartition(b"\n")
            if feed:
                yield rest + head + feed
                rest = tail
            else:
                rest += piece
        if rest:
            yield rest
        self.status = self.process.wait()

    def check(self, *good: int) -> int:
        """The status, where it is one of these (0 and 6 by default); else the error is raised."""
        status = self.process.wait()
        if status in (good or (0, STOPPED)):
            return status
        self.said.seek(0)
        raise error_of(self.words, status, self.said.read().decode(errors="replace"))


class Program:
    """The program at a path.

    Example:
        >>> Program("/usr/bin/scicos").text("check", "examples/counter.json")
        'ok 4 2 5 0\\n'
    """

    def __init__(self, path: str) -> None:
        self.path = path

    def ask(self, *words: Word) -> Answer:
        """The answer to a command line, whatever its status is."""
        try:
            ran = subprocess.run([self.path, *map(str, words)], stdin=subprocess.DEVNULL, capture_output=True)
        except OSError as error:
            raise MissingError(f"the program {self.path} can't be run: {error.strerror}") from None
        return Answer(ran.stdout, ran.stderr.decode(errors="replace"), ran.returncode)

    def text(self, *words: Word) -> str:
        """What a command prints; `Refused` or another `ScicosError` where its status isn't 0."""
        answer = self.ask(*words)
        if answer.status:
            raise error_of(tuple(map(str, words)), answer.status, answer.err)
        return answer.out.decode()

    @contextlib.contextmanager
    def stream(self, *words: Word) -> Iterator[Stream]:
        """A run whose standard output is read while it runs; what ends the reading early, as Ctrl-C, ends the
        program."""
        with tempfile.TemporaryFile() as said:
            try:
                process = subprocess.Popen([self.path, *map(str, words)], stdin=subprocess.DEVNULL,
                                           stdout=subprocess.PIPE, stderr=said)
            except OSError as error:
                raise MissingError(f"the program {self.path} can't be run: {error.strerror}") from None
            try:
                yield Stream(process, tuple(map(str, words)), said)
            finally:
                if process.poll() is None:
                    process.kill()
                process.wait()
                if process.stdout:
                    process.stdout.close()


@functools.cache
def reason(script: str) -> str:
    """Why the script `scicos` of a checkout has no program to run, in its own words; nothing where it has."""
    answer = Program(script).ask("host")
    return "" if answer.status != MissingError.status else answer.err.strip().removeprefix("scicos: ")


def is_scicos(program: Program) -> bool:
    """Whether a program says the usage line of `scicos`, as that does without words."""
    answer = program.ask()
    return answer.status == 2 and answer.err.startswith("usage: scicos check D ")


def find(program: str | os.PathLike[str] | Program | None = None) -> Program:
    """The program that is meant: the one given, that of the environment variable SCICOS, `./scicos` of this
    checkout, or the one on PATH.

        >>> find().text("check", "examples/counter.json")
        'ok 4 2 5 0\\n'
    """
    if isinstance(program, Program):
        return program
    for origin, path in (("given", program), ("of the variable SCICOS", os.environ.get("SCICOS"))):
        if path:
            found = shutil.which(path)
            if not found:
                raise MissingError(f"the program {origin}, {os.fspath(path)}, isn't there, or can't be run")
            return Program(os.path.abspath(found))
    script, told = TOP / "scicos", ""
    if os.access(script, os.X_OK):
        told = reason(str(script))
        if not told:
            return Program(str(script))
    found = shutil.which("scicos")
    if found:
        return Program(found)
    if told:
        raise MissingError(f"{told}; or name a program in the variable SCICOS")
    raise MissingError("there is no program `scicos` on PATH: put it there, or name it in the variable "
                       "SCICOS")


def checked(until: int, events: int) -> tuple[int, int]:
    """The bounds, where they are ones that the program takes."""
    try:
        until, events = operator.index(until), operator.index(events)
    except TypeError:
        told = f"`until` and `events` have to be whole numbers, and are {until!r} and {events!r}"
        raise WordsError(told) from None
    if events > MOST_EVENTS:
        raise WordsError(f"a run has at most {MOST_EVENTS:,} events, and {events:,} are asked for: longer ones "
                         "are those of the compiled C, which `scicos ccode` and `scicos host` give "
                         "(docs/SHIPPING.md)")
    if not 0 <= until <= LAST_DATE:
        raise WordsError(f"`until`, the last date, has to be from 0 to {LAST_DATE}, and is {until}")
    if events < 0:
        raise WordsError(f"`events`, the most events, has to be from 0 to {MOST_EVENTS}, and is {events}")
    return until, events


@contextlib.contextmanager
def design_file(design: str | os.PathLike[str] | Design) -> Iterator[str]:
    """The path of a design's JSON file; of a `Diagram` that of a file which is there as long as the block
    runs.

    A refusal within the block gets the design, and is told as a sentence.
    """
    try:
        if isinstance(design, (str, os.PathLike)):
            yield os.fspath(design)
            return
        if not hasattr(design, "to_json"):
            raise WordsError(f"a design is a Diagram or the path of its file, and not {str(design)[:60]}")
        with tempfile.TemporaryDirectory(prefix="scicos-") as work:
            path = os.path.join(work, "diagram.json")
            with told(path), open(path, "w", encoding="utf-8") as file:
                file.write(design.to_json())
            yield path
    except Refused as refused:
        explain(refused, design)
        raise


def explain(refused: Refused, design: str | os.PathLike[str] | Design) -> None:
    """Has a refusal told as a sentence, with the names of the design's objects."""
    from scicos import flat, messages
    refused.design = design
    with contextlib.suppress(ReadError):
        refused.sentence = messages.explained(refused, flat.read(design))
