"""Coverage as text: aligned columns, by name."""
from __future__ import annotations

from scicos.coverage import Coverage
from scicos.reactions import aligned

NONE = "-"


def shown(count: int | None) -> str:
    """A count, or `-` where there is none."""
    return NONE if count is None else str(count)


def text(found: Coverage) -> str:
    """The text that `Coverage.text` gives."""
    parts = [heads(found), blocks(found), outcomes(found), signals(found), missed(found)]
    return "\n\n".join(filter(None, parts))


def heads(found: Coverage) -> str:
    """Which design and which runs it is of."""
    lines = [f"coverage of {found.design}"]
    for number, ran in enumerate(found.runs, 1):
        lines.append(f"run {number}: {ran.inputs}, to tick {ran.until}; {ran.events}"
                     f" event{'s' * (ran.events != 1)}, the last at tick {ran.date}, {ran.end}")
    return "\n".join(lines)


def blocks(found: Coverage) -> str:
    """How often each block acted."""
    if not found.blocks:
        return ""
    lines = [["block", "kind", "acted", "fired"]]
    lines += [[block.name, block.kind, shown(block.acted), shown(block.fired) if block.fired is not None
               else ""] for block in found.blocks]
    return aligned(lines, {0, 1})


def outcomes(found: Coverage) -> str:
    """What came of blocks."""
    if not found.outcomes:
        return ""
    lines = [["decision", "kind", "what came", "times"]]
    lines += [[outcome.name, outcome.kind, outcome.what, shown(outcome.count)] for outcome in found.outcomes]
    return aligned(lines, {0, 1, 2})


def signals(found: Coverage) -> str:
    """Between which values signals lay."""
    if not found.signals:
        return ""
    lines = [["signal", "type", "least", "greatest", "bound of its type that came"]]
    for values in found.signals:
        met = " and ".join(word for word, came in zip(("least", "greatest"), values.bounds_met) if came)
        lines.append([values.name, values.type, shown(values.least), shown(values.greatest), met])
    return aligned(lines, {0, 1, 4})


def missed(found: Coverage) -> str:
    """What wasn't tried."""
    tried, there = found.share()
    lines = [f"tried {tried} of {there} blocks and outcomes"
             + (", not tried:" if tried < there - len(found.unmeasured()) else "")]
    lines += [f"  {sentence}" for sentence in found.missed()]
    bounds = [f"{outcome.name}: {outcome.what}" for outcome in found.never_came("bound")]
    if bounds:
        lines.append("bounds that were never met: " + ", ".join(bounds))
    if found.unmeasured():
        lines.append("not measured, as the diagram has no room for probes: " + ", ".join(found.unmeasured()))
    return "\n".join(lines)


