"""Coverage: what runs of a design have tried of it, and what they have not."""
from __future__ import annotations

import dataclasses
import functools
from collections.abc import Iterable, Mapping
from dataclasses import dataclass
from typing import Any, TypeVar

from scicos.columns import BOUNDS
from scicos.errors import DataError

DECISIONS = ("branch", "choice", "relation", "row")
Kept = TypeVar("Kept", "Ran", "Block", "Outcome", "Values")


@dataclass(frozen=True)
class Ran:
    """A run: its inputs as they were called, the bounds, how many events there were and the date of the last
    (in ticks), and how it ended."""

    inputs: str
    until: int
    most: int
    events: int
    date: int
    end: str


@dataclass(frozen=True)
class Block:
    """How often a block acted, and of a delay how often it fired; None where it couldn't be measured. `fired`
    is None of what isn't a delay."""

    number: int
    place: str
    kind: str
    name: str
    line: str
    acted: int | None
    fired: int | None


@dataclass(frozen=True)
class Outcome:
    """What may come of a block, and how often it did; None where it couldn't be measured.

    `group` is `branch` (of a condition), `choice` (of `SELECT_m`, `SWITCH2_m` and `ANDLOG_f`), `relation`
    (true and false), `row` (of `LOGIC`), or
    `bound` (of `SATURATION`).
    """

    block: int
    kind: str
    name: str
    group: str
    what: str
    count: int | None


@dataclass(frozen=True)
class Values:
    """The least and the greatest value of a signal among those that the traces show, and how many these are;
    None where there are none."""

    name: str
    type: str
    count: int
    least: int | None
    greatest: int | None

    @property
    def bounds_met(self) -> tuple[bool, bool]:
        """Whether the least and the greatest value of its type came."""
        low, high = BOUNDS[self.type]
        return self.least == low, self.greatest == high


def total(one: int | None, other: int | None) -> int | None:
    """The sum of two counts; None where one is lacking."""
    return None if one is None or other is None else one + other


def extreme(of: Any, one: int | None, other: int | None) -> int | None:
    """The least or the greatest of two values; one may be lacking."""
    there = [value for value in (one, other) if value is not None]
    return of(there) if there else None


@dataclass(frozen=True)
class Coverage:
    """What runs of a design have tried. Those of several runs are added by `+`; `text()` tells it,
    `to_dict()` has it as data.

    Example:
        >>> from scicos.measure import measure
        >>> found = measure("examples/first.json", until=12)
        >>> [block.acted for block in found.blocks], found.missed()
        ([3, 3], [])
    """

    design: str
    digest: str
    runs: tuple[Ran, ...]
    blocks: tuple[Block, ...]
    outcomes: tuple[Outcome, ...]
    signals: tuple[Values, ...]

    def __add__(self, other: Coverage) -> Coverage:
        if self.digest != other.digest:
            raise DataError(f"coverage is added up over runs of one design, and that of {self.design} and of"
                            f" {other.design} is of two: "
                            "measure both with the same diagram")
        replace = dataclasses.replace
        blocks = (replace(one, acted=total(one.acted, two.acted), fired=total(one.fired, two.fired))
                  for one, two in zip(self.blocks, other.blocks))
        outcomes = (replace(one, count=total(one.count, two.count))
                    for one, two in zip(self.outcomes, other.outcomes))
        signals = (replace(one, count=one.count + two.count, least=extreme(min, one.least, two.least),
                           greatest=extreme(max, one.greatest, two.greatest))
                   for one, two in zip(self.signals, other.signals))
        return replace(self, runs=self.runs + other.runs, blocks=tuple(blocks), outcomes=tuple(outcomes),
                       signals=tuple(signals))

    def acted(self, name: str) -> int | None:
        """How often a block acted, by its name."""
        found = [block.acted for block in self.blocks if block.name == name]
        if not found:
            raise DataError(f"the design has no block {name!r}: its blocks are"
                            f" {', '.join(repr(block.name) for block in self.blocks)}")
        return found[0]

    def outcome(self, name: str, what: str) -> int | None:
        """How often something came of a block, as `outcome("is high", "true")`."""
        found = {outcome.what: outcome.count for outcome in self.outcomes if outcome.name == name}
        if what not in found:
            known = ", ".join(map(repr, found)) or "none at all"
            raise DataError(f"of {name!r} there is no outcome {what!r}: there is {known}")
        return found[what]

    def never_acted(self) -> list[Block]:
        """The blocks that never acted."""
        return [block for block in self.blocks if block.acted == 0]

    def never_came(self, *groups: str) -> list[Outcome]:
        """What never came of blocks: of branches, choices, relations and rows of tables; or of these
        groups."""
        return [outcome for outcome in self.outcomes if outcome.count == 0
                and outcome.group in (groups or DECISIONS)]

    def unmeasured(self) -> list[str]:
        """The names of the blocks whose acts or outcomes couldn't be measured, as the diagram has no room for
        probes."""
        lacking = [block.name for block in self.blocks if block.acted is None]
        lacking += [outcome.name for outcome in self.outcomes if outcome.count is None]
        return list(dict.fromkeys(lacking))

    def missed(self) -> list[str]:
        """What wasn't tried, each as a sentence: blocks that never acted, and what never came of those that
        did. Bounds aren't among it."""
        idle = {block.number for block in self.never_acted()}
        return [f"{block.name!r} ({block.kind}) never acted" for block in self.never_acted()] + [
            f"{outcome.name!r} ({outcome.kind}): {outcome.what} never came" for outcome in self.never_came()
            if outcome.block not in idle]

    def share(self) -> tuple[int, int]:
        """How many of the blocks and outcomes were tried, and how many there are; bounds aren't counted."""
        counts = [block.acted for block in self.blocks]
        counts += [outcome.count for outcome in self.outcomes if outcome.group in DECISIONS]
        return sum(bool(count) for count in counts), len(counts)

    def text(self) -> str:
        """The coverage as text with aligned columns."""
        from scicos.coverage_text import text
        return text(self)

    def to_dict(self) -> dict[str, Any]:
        """The coverage as data for JSON, which `from_dict` reads."""
        return {"scicos": "coverage 1", **dataclasses.asdict(self), "missed": self.missed(),
                "tried": list(self.share())}

    @classmethod
    def from_dict(cls, data: Mapping[str, Any]) -> Coverage:
        """The coverage of data that `to_dict` gave."""
        if not isinstance(data, Mapping) or data.get("scicos") != "coverage 1":
            raise DataError("this is no coverage: it lacks the field `scicos` with `coverage 1`, which"
                            " to_dict() writes")
        try:
            return cls(str(data["design"]), str(data["digest"]), kept(Ran, data["runs"]),
                       kept(Block, data["blocks"]),
                       kept(Outcome, data["outcomes"]), kept(Values, data["signals"]))
        except (KeyError, TypeError) as error:
            raise DataError(f"this is no whole coverage: {error}; write it anew by to_dict()") from None


def kept(kind: type[Kept], rows: Iterable[Mapping[str, Any]]) -> tuple[Kept, ...]:
    """Rows of data as objects."""
    types = {field.name: field.type for field in dataclasses.fields(kind)}
    found = []
    for row in rows:
        wrong = [name for name, value in row.items() if not fits(value, str(types.get(name)))]
        if wrong:
            raise TypeError(f"{wrong[0]!r} of {row} is wrong")
        found.append(kind(**row))
    return tuple(found)


def fits(value: Any, kind: str) -> bool:
    """Whether a value is of a field's type."""
    if value is None:
        return "None" in kind
    return kind == "str" if isinstance(value, str) else type(value) is int and kind.startswith("int")


def merged(coverages: Iterable[Coverage]) -> Coverage:
    """The coverage of all runs together.

    Example: `merged(measure(design, inputs, until=100) for inputs in files)`.
    """
    found = list(coverages)
    if not found:
        raise DataError("there is no run to measure the coverage of: give one at least")
    return functools.reduce(Coverage.__add__, found)
