"""Warnings: what the program accepts and an engineer would hardly mean, as a block that can never act, or an
output that nobody takes.

Each check is a function that looks at the facts of an accepted diagram and gives findings. What is meant all
the same is granted at the object: its field `grant` in the JSON lists kinds of warning, as `"grant": ["not
taken"]`.
"""
from __future__ import annotations

from collections.abc import Callable, Iterator

from . import lint_activation, lint_values
from .flat import ACTIVATION, REGULAR, Design, Flat, read
from .flat_wiring import Wiring
from .lint_facts import Facts, Finding
from .message_parts import Told
from .program import Program, Refusal, design_file, find
from .ranges import Ranges
from .reports import schedules

CHECKS: dict[str, Callable[[Facts], Iterator[Finding]]] = {**lint_activation.CHECKS, **lint_values.CHECKS}
"""The kinds of warning, each with its check."""


def lint(design: Design, program: Program | None = None, granted: bool = False,
         ranges: Ranges | None = None) -> list[Finding]:
    """The warnings of a diagram, in the order of its file; with `granted` those too that it grants, and with
    its `ranges` what may stop a run.

    Raises `Refused` where the program refuses the diagram.

    Example:
        >>> [finding.kind for finding in lint("examples/first.json")]
        ['not taken']
    """
    program = find(program)
    with design_file(design) as path:
        flat = read(path)
        facts = Facts(flat, Wiring(flat), schedules(program, path), granted, ranges)
    found = [finding for check in CHECKS.values() for finding in check(facts)]
    return sorted((finding for finding in found if granted or not is_granted(flat, finding)),
                  key=lambda finding: finding.place)


def lines(design: Design, program: Program | None = None, granted: bool = False,
          ranges: Ranges | None = None) -> list[str]:
    """The warnings of a diagram as `scicos-kit lint` prints them, and grants of kinds that there are not."""
    found, flat = lint(design, program, granted, ranges), read(design)
    return [line_of(flat, finding) for finding in [*found, *unknown_grants(flat)]]


def is_granted(flat: Flat, finding: Finding) -> bool:
    """Whether the object of a finding has its kind in its field `grant`."""
    item = flat.item(finding.place)
    return item is not None and finding.kind in item.grants


def line_of(flat: Flat, finding: Finding) -> str:
    """A finding as a line: where, who, what and why, and its kind, by which it is granted."""
    who = Told(Refusal(0, "", None, ()), (), flat).who(finding.place)
    return f"{who} {finding.text} [{finding.kind}]"


def unknown_grants(flat: Flat) -> list[Finding]:
    """The grants of kinds that there are not, which are likely misspelt, and outputs that there are not."""
    outputs = [Finding("output", item.place, f"says that its output {port} leaves the design, and has none")
               for item in flat.items() for port in item.outputs
               if not 1 <= port <= item.ports(REGULAR, 0) + item.ports(ACTIVATION, 0)]
    return [Finding("grant", item.place,
                    f"grants {grant!r}, which is no kind of warning: they are {', '.join(CHECKS)}")
            for item in flat.items() for grant in item.grants if grant not in CHECKS] + outputs
