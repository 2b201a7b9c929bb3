"""What can go wrong, as exceptions whose text is one sentence: what is wrong, where, and what to do."""
from __future__ import annotations


class ScicosError(Exception):
    """The root of all errors of this package; `status` is what the command line ends with."""

    status = 1


class DesignError(ScicosError):
    """A design that the builder knows to be wrong, told at the line of Python that made it."""


class DataError(ScicosError):
    """Wrong data: an input file, a table, a dump, or a name of a signal that the design doesn't have."""


class WordsError(ScicosError):
    """Wrong words of a call or of the command line, as a number out of its bounds."""

    status = 2


class MissingError(ScicosError):
    """Something is missing on this machine: the program, or a package."""

    status = 70


class ReadError(ScicosError):
    """A file could not be read."""

    status = 3


class WriteError(ScicosError):
    """A file or standard output could not be written."""

    status = 4


def needed(package: str, what: str) -> MissingError:
    """The error for a Python package that is missing, as `needed("pandas", "a table")`."""
    return MissingError(f"{what} needs the Python package {package}, which isn't installed: apt-get install "
                        f"python3-{package}")
