"""Measuring coverage: a run of the design with probes, and what its trace shows."""
from __future__ import annotations

import contextlib
import hashlib
import json
import os
from collections.abc import Sequence
from typing import Any

from scicos import flat, runs
from scicos import inputs as given
from scicos.columns import flat_of, of_design
from scicos.coverage import Coverage, Ran
from scicos.outcomes import Seen, blocks_of, ended, outcomes_of, signals_of
from scicos.probes import Probe, probed, wanted
from scicos.program import MOST_EVENTS, Design, Program, Refused, design_file, find

# refusals of a diagram that is too large: blocks, links, elements, entries of schedules, bytes
FULL = {5, 6, 23, 25, 29}


def measure(design: str | os.PathLike[str] | Design, inputs: given.Inputs = None, *, until: int,
            events: int = MOST_EVENTS, program: str | os.PathLike[str] | Program | None = None,
            called: str | None = None, progress: bool = False) -> Coverage:
    """The coverage of a run: how often each block acted, what came of conditions, choices, relations and
    tables, and between which values signals lay.

    The words are those of `simulate`; `called` is the name of the inputs in reports. The run is one of a copy
    of the diagram with probes (`scicos.probes`), which change no value. A reaction in which the run stops
    shows nothing, and so isn't counted. What a signal holds before its block has acted isn't counted either.
    Where the program takes no copy with all probes, as the diagram is at a limit, several copies are run.

    Example:
        >>> found = measure("examples/branches.json", "examples/readings.json", until=2)
        >>> found.outcome("IFTHEL_f 3", "branch 1"), found.outcome("IFTHEL_f 3", "branch 2")
        (2, 1)
    """
    runs.checked(until, events)
    tool = find(program)
    with design_file(design) as path:
        catalogue = of_design(design, tool, path)
        seen_as, diagram = catalogue.flat or flat_of(design), loaded(path)
        with given.input_file(inputs, catalogue, path) as file:
            seen = looked(Bench(diagram, seen_as, path, file, until, events, tool, progress), wanted(seen_as))
    own = "no inputs" if inputs is None else "inputs"
    if isinstance(inputs, (str, os.PathLike)):
        own = os.fspath(inputs)
    trace = seen.trace
    ran = Ran(called or own, until, events, len(trace.dates) - 1, trace.dates[-1], ended(seen, catalogue))
    text = json.dumps(diagram, sort_keys=True, separators=(",", ":"))
    title = str(getattr(design, "name", "") or "the design")
    if isinstance(design, (str, os.PathLike)):
        title = os.fspath(design)
    return Coverage(title, hashlib.sha256(text.encode()).hexdigest(), (ran,), tuple(blocks_of(seen, seen_as)),
                    tuple(outcomes_of(seen, seen_as)), tuple(signals_of(seen, catalogue)))


def loaded(path: str) -> Any:
    """The JSON of a diagram that isn't refused."""
    with open(path, "rb") as file:
        return json.load(file)


class Bench:
    """A design, its inputs and the bounds of its run."""

    def __init__(self, diagram: Any, read: flat.Flat, path: str, file: str, until: int, events: int,
                 program: Program, progress: bool) -> None:
        self.diagram, self.flat, self.path, self.file = diagram, read, path, file
        self.until, self.events, self.program, self.progress = until, events, program, progress

    def run(self, probes: list[Probe]) -> Seen:
        """A run with these probes; a refusal is told of the design's own file."""
        copy = probed(self.diagram, self.flat, probes)
        is_part = bool(probes) and len(probes) < len(wanted(self.flat))
        signals = [f"b{number}_1_1" for number in copy.probes.values()] if is_part else None
        try:
            run = runs.simulate(copy, self.file, until=self.until, events=self.events, signals=signals,
                                program=self.program, progress=self.progress)
        except Refused as refused:
            raise Refused(refused.refusal, ("simulate", self.path, *refused.words[2:])) from None
        seen = Seen(run, copy)
        seen.rows = {probe: run.trace.rows[number].all() for probe, number in copy.probes.items()}
        return seen


def looked(bench: Bench, probes: list[Probe]) -> Seen:
    """A run with all probes; or one without, and further ones with as many as there is room for."""
    with contextlib.suppress(TooLarge):
        return tried(bench, probes)
    seen = bench.run([])
    seen.rows = parts(bench, probes)
    return seen


class TooLarge(Exception):
    """The program doesn't take the copy, as it is too large."""


def tried(bench: Bench, probes: list[Probe]) -> Seen:
    """A run with these probes, where the program takes the copy."""
    try:
        return bench.run(probes)
    except Refused as refused:
        if refused.refusal.number not in FULL or not probes:
            raise
        raise TooLarge from None


def parts(bench: Bench, probes: list[Probe]) -> dict[Probe, Sequence[int] | None]:
    """What the probes show, in runs with half of them each, or fewer; None where there is no room for a
    single one."""
    if not probes:
        return {}
    with contextlib.suppress(TooLarge):
        return tried(bench, probes).rows
    if len(probes) == 1:
        return {probes[0]: None}
    middle = len(probes) // 2
    return {**parts(bench, probes[:middle]), **parts(bench, probes[middle:])}
