"""The command `scicos-kit`: its subcommands are the modules of `scicos.commands`.

Statuses: 0, 1 for a refused design or wrong data, 2 for wrong words, 3 and 4 for files that can't be read or
written, 70 for what is missing on the machine, 130 for Ctrl-C; other statuses of the program are passed on.
"""
from __future__ import annotations

import argparse
import contextlib
import difflib
import io
import os
import sys

from scicos import __version__, commands, messages
from scicos.errors import MissingError, ScicosError, WriteError
from scicos.program import find, is_scicos

USAGE = ("usage: scicos-kit COMMAND ..\n\n"
         "Works on diagrams of scicos: `scicos-kit COMMAND --help` shows the words of a command, and an "
         "example.")


def listed() -> str:
    """The list of the commands."""
    lines = [f"  {name:<11} {commands.load(name).SUMMARY}" for name in commands.names()]
    return "\n".join([USAGE, "", "commands:", *lines]) + "\n"


def parser_of(name: str) -> tuple[commands.Command, argparse.ArgumentParser]:
    """A command and the parser of its words."""
    command = commands.load(name)
    example = "\n".join(f"  scicos-kit {line}" for line in command.EXAMPLE.splitlines())
    parser = argparse.ArgumentParser(prog=f"scicos-kit {name}",
                                     description=command.SUMMARY[:1].upper() + command.SUMMARY[1:] + ".",
                                     epilog=f"example:\n{example}",
                                     formatter_class=argparse.RawDescriptionHelpFormatter,
                                     allow_abbrev=False)
    command.configure(parser)
    return command, parser


def told(name: str, error: ScicosError) -> str:
    """What is written on standard error: a sentence."""
    return f"scicos-kit {name}: {messages.text_of(error)}\n"


def unknown(name: str) -> str:
    """The sentence for a word that is no command."""
    near = difflib.get_close_matches(name, commands.names(), 3)
    hint = f": did you mean {' or '.join(near)}?" if near else ": `scicos-kit` without words lists them"
    return f"scicos-kit: there is no command {name}{hint}\n"


def called(name: str, rest: list[str]) -> int:
    """The status of a command on its words."""
    command, parser = parser_of(name)
    try:
        return command.run(parser.parse_intermixed_args(rest))
    except ScicosError as error:
        sys.stderr.write(told(name, error))
        return error.status
    except (ValueError, LookupError):  # an answer that can't be read: of another program, or a mistake here
        meant = find()
        if is_scicos(meant):
            raise
        sys.stderr.write(f"scicos-kit {name}: {meant.path} isn't scicos: without words it doesn't print that usage line\n")
        return MissingError.status


def drop_output() -> None:
    """Lets go what couldn't be written to standard output; Python would try again at its end, and end with 120."""
    with contextlib.suppress(OSError):
        os.dup2(os.open(os.devnull, os.O_WRONLY), sys.stdout.fileno())


def main(words: list[str] | None = None) -> int:
    """Runs `scicos-kit` on the words given, by default those of the command line, and gives its status."""
    words = sys.argv[1:] if words is None else words
    sys.stderr = sys.stderr or open(os.devnull, "w")
    if sys.stdout is None:
        sys.stderr.write("scicos-kit: standard output is closed\n")
        return WriteError.status
    if isinstance(sys.stdout, io.TextIOWrapper):
        sys.stdout.reconfigure(errors="backslashreplace")
    try:
        if not words or words[0] in ("-h", "--help", "help", "--version"):
            sys.stdout.write(f"scicos-kit {__version__}\n" if words[:1] == ["--version"] else listed())
            sys.stdout.flush()
            return 0
        if words[0] not in commands.names():
            sys.stderr.write(unknown(words[0]))
            return 2
        status = called(words[0], words[1:])
        sys.stdout.flush()
        return status
    except KeyboardInterrupt:
        sys.stderr.write("scicos-kit: ended by Ctrl-C\n")
        return 130
    except BrokenPipeError:  # who reads has gone, as `head`
        drop_output()
        return 4
    except OSError as error:
        sys.stderr.write(f"scicos-kit: {error.filename or 'standard output'}: {error.strerror}\n")
        if error.filename is None:
            drop_output()
        return 4


if __name__ == "__main__":
    sys.exit(main())
