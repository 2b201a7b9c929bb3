"""Writing files: beside the file first, and then in its place, so that nothing half written looks whole."""
from __future__ import annotations

import contextlib
import os
import sys
import tempfile
from collections.abc import Iterator
from typing import IO

from scicos.errors import WriteError


@contextlib.contextmanager
def written(path: str | os.PathLike[str]) -> Iterator[IO[bytes]]:
    """A file to write into, which takes the path's place when the block has ended well, and else is removed.

    A device or a pipe is written as it is.

    Example:
        >>> with written("trace.csv") as file:
        ...     _ = file.write(b"date\\n")
    """
    if os.fspath(path).startswith("/dev/") or os.path.exists(path) and not os.path.isfile(path):
        with told(os.fspath(path)), open(os.open(path, os.O_WRONLY | os.O_APPEND), "wb") as file:
            yield file
        return
    path = os.path.realpath(path)
    with told(path):
        handle, beside = tempfile.mkstemp(prefix=".", suffix=".part", dir=os.path.dirname(path) or ".")
    try:
        with told(path):
            with os.fdopen(handle, "wb") as file:
                yield file
            mask = os.umask(0)
            os.umask(mask)
            os.chmod(beside, 0o666 & ~mask)
            os.replace(beside, path)
    except BaseException:
        with contextlib.suppress(FileNotFoundError):
            os.unlink(beside)
        raise


@contextlib.contextmanager
def told(path: str) -> Iterator[None]:
    """Turns a fault of the machine into a sentence that names the file."""
    try:
        yield
    except OSError as error:
        raise WriteError(f"{path} can't be written: {error.strerror or error}") from error


@contextlib.contextmanager
def output(path: str | None) -> Iterator[IO[bytes]]:
    """Standard output where no path is given (or `-`), else the file at the path, as `written`."""
    if path and path != "-":
        with written(path) as file:
            yield file
        return
    with told("standard output"):
        yield sys.stdout.buffer
        sys.stdout.buffer.flush()
