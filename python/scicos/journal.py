"""The journal of a sweep: a CSV file beside its table, with a line for each run that is done, so that a sweep
which was ended goes on where it was. Its first line tells by checksums of what sweep it is."""
from __future__ import annotations

import contextlib
import csv
import errno
import fcntl
import hashlib
import io
import os
from collections.abc import Callable, Iterable, Mapping, Sequence

from scicos.errors import DataError, WriteError

BEGIN = "# a sweep of scicos:"
ENDING = ".journal"


def checksum(parts: Iterable[str]) -> str:
    """A checksum of texts."""
    found = hashlib.sha256()
    for part in parts:
        content = part.encode("utf-8", "backslashreplace")
        found.update(b"%d:" % len(content) + content)
    return found.hexdigest()[:32]


def line_of(cells: Iterable[object]) -> bytes:
    """A line of CSV; a line's end within a cell is a space there."""
    text = io.StringIO()
    shown = ("" if cell is None else " ".join(str(cell).splitlines()) for cell in cells)
    csv.writer(text, lineterminator="\n").writerow(shown)
    return text.getvalue().encode("utf-8", "backslashreplace")


class Journal:
    """The journal at a path: `done` has the cells of each run by its number, the first cell of its line.

    `head` are the checksums of the sweep by what they are of, `columns` those of the table, and `is_row` says
    whether cells are ones of a row. A journal of another sweep is told as a `DataError`; with `anew` it is
    emptied.
    """

    def __init__(self, path: str, head: Mapping[str, str], columns: Sequence[str],
                 is_row: Callable[[Sequence[str]], bool],
                 anew: bool = False) -> None:
        self.path, self.columns, self.is_row = path, list(columns), is_row
        self.done: dict[int, list[str]] = {}
        self.lacking = False  # whether a run failed, which is done anew where the sweep is begun again
        try:
            self.file = os.open(path, os.O_RDWR | os.O_CREAT | os.O_APPEND, 0o666)
        except OSError as error:
            raise WriteError(f"{path} can't be written: {error.strerror}") from None
        try:
            self.lock()
            self.begin(head, anew)
        except BaseException:
            os.close(self.file)
            raise

    def lock(self) -> None:
        """Has this sweep alone write the file."""
        try:
            fcntl.flock(self.file, fcntl.LOCK_EX | fcntl.LOCK_NB)
        except BlockingIOError:
            raise WriteError(f"{self.path} is written by a sweep that is under way: wait for its end, or "
                             "name another "
                             "file for the table") from None
        except OSError:
            pass  # a file system without locks

    def begin(self, head: Mapping[str, str], anew: bool) -> None:
        """Reads what is there, cuts off what isn't a whole line, and begins the file where it is empty."""
        first = " ".join([BEGIN, *(f"{name}={value}" for name, value in head.items())]).encode("utf-8", "backslashreplace") + b"\n"
        top = first + line_of(self.columns)
        whole = self.text()
        if not whole.startswith(BEGIN.encode()[:len(whole)]):
            raise DataError(f"{self.path} is no journal of a sweep: name another file for the table, or move "
                            "that one away")
        text = b"" if anew else whole[:whole.rfind(b"\n") + 1]
        if text.count(b"\n") < 2:
            if text and text != first:
                self.check_head(text, head)
            os.ftruncate(self.file, 0)
            self.size = 0
            self.write(top)
            return
        self.check_head(text, head)
        os.ftruncate(self.file, len(text))
        self.size = len(text)
        self.read(text)

    def text(self) -> bytes:
        """All bytes of the file."""
        with open(self.path, "rb") as file:
            return file.read()

    def check_head(self, text: bytes, head: Mapping[str, str]) -> None:
        """Refuses the journal of another sweep, and says what has changed."""
        line = text.split(b"\n", 1)[0].decode(errors="replace")
        old = dict(part.split("=", 1) for part in line[len(BEGIN):].split() if "=" in part)
        changed = [name for name, value in head.items() if old.get(name) != value]
        if changed:
            what = " and ".join(filter(None, [", ".join(changed[:-1]), changed[-1]]))
            raise DataError(f"{self.path} is the journal of another sweep: since it was begun, the {what} "
                            f"{'has' if changed == ['design'] else 'have'} changed; begin the sweep anew "
                            "(--anew), which "
                            "drops the runs that are done, or name another file for the table")

    def read(self, text: bytes) -> None:
        """Reads the runs that are done."""
        lines = text.decode(errors="replace").split("\n")[1:-1]
        for number, cells in enumerate(csv.reader(lines), 2):
            if number == 2 and cells == self.columns:
                continue
            if len(cells) != len(self.columns) or not self.is_row(cells):
                raise DataError(f"{self.path}: line {number} is no row of this sweep; begin it anew (--anew)")
            self.done[int(cells[0])] = cells

    def add(self, cells: Sequence[object]) -> None:
        """Adds the line of a run, whole or not at all."""
        self.write(line_of(cells))

    def write(self, line: bytes) -> None:
        """Writes a line at the end; where that can't be done, what was written of it is cut off again."""
        try:
            if os.write(self.file, line) == len(line):
                self.size += len(line)
                return
            reason = os.strerror(errno.ENOSPC)
        except OSError as error:
            reason = error.strerror or str(error)
        os.ftruncate(self.file, self.size)
        raise WriteError(f"{self.path} can't be written: {reason}; it keeps the runs that are done, and "
                         "begun again, the "
                         "sweep goes on from there")

    def close(self, whole: bool) -> None:
        """Closes the file, and removes it where the sweep is whole."""
        with contextlib.suppress(FileNotFoundError):
            if whole and os.path.samestat(os.stat(self.path), os.fstat(self.file)):
                os.unlink(self.path)
        os.close(self.file)
