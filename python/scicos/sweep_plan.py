"""All runs of a sweep: which design and which inputs a run has by its number, and what a worker has to do for
it."""
from __future__ import annotations

import os
import re
from collections.abc import Container, Iterator, Mapping, Sequence
from dataclasses import dataclass

from scicos.errors import MissingError, WriteError
from scicos.journal import checksum
from scicos.measures import Measure
from scicos.program import Program
from scicos.sweep_designs import Drawn, Parameters, Source, check_parameters, choices, drawn, origin_of
from scicos.sweep_runs import ENDED, REFUSED, Given, Result, Sent, Task
from scicos.sweep_table import Row, Sweep
from scicos.sweep_workers import Machine, completed
from scicos.trace import STOPS

ENDS = ("until", "events", "empty", "halt")


@dataclass
class Plan:
    """All runs of a sweep: a run is a design with inputs, by its number."""

    designs: list[Drawn]
    inputs: list[Given]
    until: int
    events: int
    program: Program
    keep: str | None
    measures: int
    sent: bool = False

    def of(self, number: int) -> tuple[Drawn, Given]:
        """The design and the inputs of a run."""
        return self.designs[(number - 1) // len(self.inputs)], self.inputs[(number - 1) % len(self.inputs)]

    def count(self) -> int:
        """How many runs there are."""
        return len(self.designs) * len(self.inputs)

    def is_row(self, cells: Sequence[str]) -> bool:
        """Whether cells of a journal can be those of a run."""
        end, *values = cells[-self.measures - 2:-1]
        numbers = all(re.fullmatch(r"(-?\d{1,30})?", value) for value in values)
        known = re.fullmatch(r"\d{1,18}", cells[0]) and 1 <= int(cells[0]) <= self.count()
        return bool(known and numbers and end in (*STOPS, *ENDS, REFUSED))

    def task(self, number: int, program: str | None) -> Task:
        """What a worker has to do for a run; where workers are elsewhere, files go with it."""
        design, inputs = self.of(number)
        paths = [sent(path) if self.sent and isinstance(path, str) else path
                 for path in (design.path, inputs.data)]
        return Task(number, program, paths[0], paths[1], design.sensors, self.until, self.events,
                    design.wanted, self.keep)

    def refused(self, done: Container[int]) -> Iterator[Row]:
        """The rows of refused designs, which need no run."""
        for number in range(1, self.count() + 1):
            design, inputs = self.of(number)
            if design.refusal and number not in done:
                nothing = (None,) * self.measures
                yield Row(number, design.parameters, inputs.name, REFUSED, design.refusal, nothing)

    def row(self, result: Result) -> Row:
        """The row of a run that a worker has done."""
        design, inputs = self.of(result.number)
        values = result.values or (None,) * self.measures
        return Row(result.number, design.parameters, inputs.name, result.end, result.why, values)


def sent(path: str) -> Sent:
    """A file that goes to another machine."""
    with open(path, "rb") as file:
        return Sent(path, file.read())


def design_list(design: Source, parameters: Parameters, measures: Sequence[Measure], program: Program,
                folder: str) -> tuple[list[Drawn], str]:
    """All designs of a sweep, whose files are in the folder where they aren't files already, and their
    checksum."""
    origin, chosen = origin_of(design), choices(parameters)
    check_parameters(origin, chosen)
    found, sums = [], []
    for number, choice in enumerate(chosen, 1):
        one, checksum_ = drawn(origin, choice, measures, program,
                               os.path.join(folder, f"design-{number}.json"))
        found.append(one)
        sums.append(checksum_)
    return found, checksum(sums)


def head_of(plan: Plan, design: str, measures: Sequence[Measure]) -> dict[str, str]:
    """The checksums of a sweep, by what they are of."""
    return {"design": design,
            "inputs": checksum(part for one in plan.inputs for part in (one.name, one.checksum)),
            "parameters": checksum(repr(sorted(one.parameters.items())) for one in plan.designs),
            "bounds": checksum([str(plan.until), str(plan.events)]), "rows": checksum(map(str, measures))}


def from_journal(cells: Sequence[str], plan: Plan, measures: int) -> Row:
    """A row that was read from a journal."""
    number = int(cells[0])
    design, inputs = plan.of(number)
    end, *values, why = cells[-measures - 2:]
    return Row(number, design.parameters, inputs.name, end, why,
               tuple(int(value) if value else None for value in values))


def rows_of(plan: Plan, done: Container[int], machine: Machine, program: str | None,
            found: Sweep) -> Iterator[Row]:
    """The rows of the runs that aren't done, as they come."""
    tasks = (plan.task(number, program) for number in range(1, plan.count() + 1)
             if number not in done and not plan.of(number)[0].refusal)
    for result in completed(machine, tasks):
        if result.end == ENDED:
            raise {4: WriteError, 70: MissingError}[result.status](result.why)
        found.processor += result.seconds
        yield plan.row(result)
