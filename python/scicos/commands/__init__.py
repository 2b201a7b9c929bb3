"""The subcommands of `scicos-kit`: each is a module here, by its name with `-` in the place of `_`.

A module has
    SUMMARY     what the command does, in a few words, for the list of commands
    EXAMPLE     a command line (or several) that `--help` shows, without the leading `scicos-kit`
    configure   takes the parser of its words and adds them
    run         takes the words and does the work; the number it gives is the status

What goes wrong is an exception of `scicos.errors`, which `scicos.cli` tells with its status. A module is
loaded only where its command is called or all are listed; heavy packages are imported in `run`. Modules that
begin with `_` are none. """
from __future__ import annotations

import argparse
import importlib
import pkgutil
from typing import Protocol, cast


class Command(Protocol):
    """A module of this folder."""

    SUMMARY: str
    EXAMPLE: str

    def configure(self, parser: argparse.ArgumentParser) -> None:
        """Adds the words of the command."""

    def run(self, words: argparse.Namespace) -> int:
        """Does the work and gives the status."""


def names() -> list[str]:
    """The names of all subcommands, in alphabetical order."""
    return sorted(module.name.replace("_", "-") for module in pkgutil.iter_modules(__path__)
                  if not module.name.startswith("_"))


def load(name: str) -> Command:
    """The module of a subcommand."""
    return cast(Command, importlib.import_module(f"{__name__}.{name.replace('-', '_')}"))
