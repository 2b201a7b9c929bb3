"""Value change dumps: those that the program writes are read, and copied with the blocks' names and a scope
for each superblock, for viewers."""
from __future__ import annotations

import os
import re
import tempfile
from collections.abc import Callable, Iterable, Iterator
from typing import IO

from scicos import inputs as given
from scicos.columns import Columns, of_design
from scicos.errors import DataError, ReadError, WordsError
from scicos.flat import Flat
from scicos.program import MOST_EVENTS, STOPPED, Design, Program, checked, design_file, error_of, find

LAST_TICK, MOST_SIGNALS, GREATEST = 2**62, 65536, (2048, 64, 256)
WIDTH = {3: 32, 4: 16, 5: 8, 6: 32, 7: 16, 8: 8}  # in bits, by the code of a type; up to 5 they are signed
TYPES = {("integer" if code <= 5 else "wire", str(width)): code for code, width in WIDTH.items()}
HEAD = ["$timescale 1 ns $end", "$scope module scicos $end"]
BEGUN = ["$upscope $end", "$enddefinitions $end", "#0", "$dumpvars"]
SIGNAL = re.compile(r"\$var (integer|wire) (8|16|32) v([1-9][0-9]*) "
                    r"b([1-9][0-9]*)_([1-9][0-9]*)_([1-9][0-9]*) \$end")
NAMES = {3: "int32", 4: "int16", 5: "int8", 6: "uint32", 7: "uint16", 8: "uint8"}
TICKS = [f"{count} {unit}" for unit in ("s", "ms", "us", "ns", "ps", "fs") for count in (1, 10, 100)]

Place = tuple[int, ...]
Changes = list[tuple[int, int]]


class WrongLine(Exception):
    """The first wrong line of a text, counted from 1."""


def code_of(place: Place) -> str:
    """The name of a signal in the program's dumps, as `b4_1_1`, from its block, port and element."""
    return "b" + "_".join(map(str, place))


class Dump:
    """The signals, each a type's code with block, port and element; their first values; and of each tick the
    changes, as numbers of signals with values."""

    def __init__(self) -> None:
        self.signals: list[tuple[int, Place]] = []
        self.first: list[int] = []
        self.ticks: list[tuple[int, Changes]] = []

    def values(self, tick: int) -> list[int]:
        """The value of each signal at a tick."""
        now = list(self.first)
        for date, changes in self.ticks:
            for signal, value in changes if date <= tick else ():
                now[signal - 1] = value
        return now

    def told(self, tick: int) -> str:
        """What `vcdat` prints."""
        return "".join(f"{code_of(place)} {value}\n"
                       for (_, place), value in zip(self.signals, self.values(tick)))

    def digits(self, signal: int, value: int) -> str:
        """The line of a value."""
        width = WIDTH[self.signals[signal - 1][0]]
        return f"b{value % (1 << width):0{width}b} v{signal}"

    def written(self) -> str:
        """The dump as the program writes it."""
        names = {code: name for name, code in TYPES.items()}
        lines = HEAD + [f"$var {' '.join(names[code])} v{number} {code_of(place)} $end"
                        for number, (code, place) in enumerate(self.signals, 1)] + BEGUN
        lines += [self.digits(n, value) for n, value in enumerate(self.first, 1)] + ["$end"]
        for tick, changes in self.ticks:
            lines += [f"#{tick}"] + [self.digits(*change) for change in changes]
        return "".join(line + "\n" for line in lines)


class Reader:
    """Takes the lines of a dump one by one: `due` are the next ones where these are fixed, and else `stage`
    tells whether a line may come next."""

    def __init__(self) -> None:
        self.dump = Dump()
        self.now: list[int] = []
        self.changes: Changes | None = None
        self.due = list(HEAD)
        self.stage: Callable[[str], bool] = self.signal

    def take(self, line: str) -> bool:
        """Whether the line may come next."""
        return line == self.due.pop(0) if self.due else self.stage(line)

    def signal(self, line: str) -> bool:
        """A signal, or the end of the signals."""
        if line == BEGUN[0]:
            self.due, self.stage = BEGUN[1:], self.first
            return True
        found, signals = SIGNAL.fullmatch(line), self.dump.signals
        if not found or len(signals) >= MOST_SIGNALS or int(found[3]) != len(signals) + 1:
            return False
        place = tuple(map(int, found.groups()[3:]))
        if any(map(int.__gt__, place, GREATEST)) or signals and place <= signals[-1][1]:
            return False
        signals.append((TYPES[found[1], found[2]], place))
        return True

    def value(self, line: str) -> tuple[int, int]:
        """The signal and the value of a line; 0 where it tells none."""
        found = re.fullmatch("b([01]+) v([1-9][0-9]*)", line)
        if not found or not 1 <= int(found[2]) <= len(self.dump.signals):
            return 0, 0
        code = self.dump.signals[int(found[2]) - 1][0]
        number = int(found[1], 2)
        if code <= 5 and number >> WIDTH[code] - 1:
            number -= 1 << WIDTH[code]
        return (int(found[2]) if len(found[1]) == WIDTH[code] else 0), number

    def first(self, line: str) -> bool:
        """A first value, or the end of these."""
        if len(self.now) == len(self.dump.signals):
            self.dump.first, self.stage = list(self.now), self.later
            return line == "$end"
        signal, value = self.value(line)
        self.now.append(value)
        return signal == len(self.now)

    def later(self, line: str) -> bool:
        """A tick or a change."""
        return self.tick(line) if line.startswith("#") else self.change(*self.value(line))

    def tick(self, line: str) -> bool:
        """A tick, behind one with changes."""
        found, ticks = re.fullmatch("#([1-9][0-9]*)", line), self.dump.ticks
        last = ticks[-1][0] if ticks else 0
        if not found or self.changes == [] or not self.now or not last < int(found[1]) <= LAST_TICK:
            return False
        self.changes = []
        ticks.append((int(found[1]), self.changes))
        return True

    def change(self, signal: int, value: int) -> bool:
        """A change to another value than before."""
        if not signal or self.changes is None or value == self.now[signal - 1]:
            return False
        if self.changes and signal <= self.changes[-1][0]:
            return False
        self.changes.append((signal, value))
        self.now[signal - 1] = value
        return True

    def is_whole(self) -> bool:
        """Whether the dump may end here."""
        return self.stage == self.later and self.changes != []


def read(content: bytes) -> Dump:
    """The dump that a text spells, or WrongLine."""
    lines, reader = content.split(b"\n"), Reader()
    for number, line in enumerate(lines[:-1], 1):
        if not reader.take(line.decode("latin-1")):
            raise WrongLine(number)
    if lines[-1] or not reader.is_whole():
        raise WrongLine(len(lines))
    return reader.dump


def read_file(path: str | os.PathLike[str]) -> Dump:
    """The dump in a file, or a sentence that tells what is wrong with it."""
    try:
        with open(path, "rb") as file:
            return read(file.read())
    except OSError as error:
        raise ReadError(f"{os.fspath(path)} can't be read: {error.strerror}") from None
    except WrongLine as wrong:
        raise DataError(f"{os.fspath(path)}: line {wrong} is no line of a dump of `scicos vcd`") from None


def first_values(program: Program, path: str) -> dict[str, int]:
    """What each output holds after start, by its code as `b4_1_1`, from the program's dump of a run without
    events."""
    with tempfile.TemporaryDirectory(prefix="scicos-") as work:
        inputs = os.path.join(work, "inputs.json")
        with open(inputs, "w", encoding="ascii") as file:
            file.write("[" + ",".join(["[]"] * 255) + "]\n")
        answer = program.ask("vcd", path, inputs, 0, 0)
    if answer.status not in (0, STOPPED):
        raise error_of(("vcd", path), answer.status, answer.err)
    dump = read(answer.out)
    return {code_of(place): value for (_, place), value in zip(dump.signals, dump.first)}


def check_same(found: Dump, catalogue: Columns, path: str) -> None:
    """Refuses a dump whose signals aren't those of the design."""
    if [code_of(place) for _, place in found.signals] != [column.code for column in catalogue.all]:
        raise DataError(f"{path} has other signals than the design: it is the dump of another diagram")


def scopes_of(flat: Flat | None, block: int) -> tuple[str, ...]:
    """The names of the superblocks round a block, and its own."""
    found = flat.block(block) if flat else None
    if flat is None or found is None:
        return (f"b{block}",)
    outer = [(place, flat.item(place))
             for place in (found.place[:depth] for depth in range(1, len(found.place)))]
    own = found.item.name or f"{found.kind} {block}"
    return (*(item.name if item and item.name else flat.name_of(place) for place, item in outer), own)


def identifiers(catalogue: Columns) -> Iterator[tuple[tuple[str, ...], str]]:
    """Of each column the scopes that it stands in, and its name there, both as words that viewers take."""
    taken: set[tuple[str, ...]] = set()
    for column in catalogue.all:
        *outer, name = scopes_of(catalogue.flat, column.block)
        name += column.name[len(catalogue.called[column.block]):]
        scopes, word = tuple(map(word_of, outer)), word_of(name)
        if (*scopes, word) in taken:
            word += f"_{column.code}"
        taken.add((*scopes, word))
        yield scopes, word


def word_of(name: str) -> str:
    """A name as one word of letters, digits and underscores."""
    return re.sub(r"\W+", "_", name).strip("_") or "_"


def head(catalogue: Columns, lines: Iterable[bytes], tick: str) -> Iterator[str]:
    """The declarations of a copy, from those of the program's own dump."""
    opened: tuple[str, ...] = ()
    yield f"$timescale {tick} $end"
    yield HEAD[1]
    named = identifiers(catalogue)
    for line in lines:
        words = line.decode().split()
        if words[0] == "$enddefinitions":
            break
        if words[0] == "$var":
            scopes, name = next(named)
            same = len(os.path.commonprefix([opened, scopes]))
            yield from ["$upscope $end"] * (len(opened) - same)
            yield from [f"$scope module {scope} $end" for scope in scopes[same:]]
            opened = scopes
            yield " ".join([*words[:4], name, "$end"])
    yield from ["$upscope $end"] * (len(opened) + 1)
    yield "$enddefinitions $end"


def copied(catalogue: Columns, own: Iterable[bytes], to: IO[bytes], tick: str = "1 ns") -> None:
    """Writes the copy of a dump, from the lines of the program's own."""
    if tick not in TICKS:
        raise WordsError("a tick of a dump is 1, 10 or 100 of s, ms, us, ns, ps or fs, as `1 ms`, and not "
                         f"{tick!r}")
    lines = iter(own)
    if next(lines, None) is None:  # the time scale; nothing at all stands where the run was refused
        return
    for text in head(catalogue, lines, tick):
        to.write(text.encode() + b"\n")
    for line in lines:
        to.write(line)


def dump(design: str | os.PathLike[str] | Design, inputs: given.Inputs, to: IO[bytes], *, until: int,
         events: int = MOST_EVENTS, tick: str = "1 ns",
         program: str | os.PathLike[str] | Program | None = None) -> int:
    """Runs a design and writes the dump with names and scopes into a file; gives the status, 6 where the run
    stopped.

    The copy is for viewers: `scicos vcdat` takes what `scicos vcd` prints.

        >>> with open("run.vcd", "wb") as file:  # doctest: +SKIP
        ...     dump("examples/clock.json", None, file, until=540, tick="1 s")
    """
    until, events = checked(until, events)
    called = find(program)
    with design_file(design) as path:
        catalogue = of_design(design, called, path)
        with given.input_file(inputs, catalogue, path) as file:
            with called.stream("vcd", path, file, until, events) as stream:
                lines = (line for piece in stream.pieces() for line in piece.splitlines(keepends=True))
                copied(catalogue, lines, to, tick)
                return stream.check()
