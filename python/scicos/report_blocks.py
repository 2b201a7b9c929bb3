"""What the report tells of each block: a table of all, and for each what is shown when it is clicked."""
from __future__ import annotations

from dataclasses import dataclass, field

from .coverage import Coverage
from .flat import Block, place_text
from .lint_facts import Finding
from .report_levels import Seen
from .report_pictures import block_button, escape
from .report_words import parameters, ports
from .reports import Source

Schedules = dict[Source, dict[int, frozenset[Source]]]


@dataclass
class Known:
    """What is known of the blocks beside the diagram: warnings, schedules, and what a run has tried."""

    findings: list[Finding] = field(default_factory=list)
    schedules: Schedules = field(default_factory=dict)
    coverage: Coverage | None = None


def source_name(seen: Seen, source: Source) -> str:
    """What a source of activation is called: `start`, `clock`, or `stepper.2`."""
    number, port = source
    if not number:
        return "start"
    block = seen.flat.block(number)
    several = block is not None and len(block.item.entries("evtout")) > 1
    return seen.flat.name(number) + (f".{port}" if several else "")


def branch_name(seen: Seen, source: Source) -> str:
    """A branch as a condition: `is high above 0`, `mode is 2`."""
    block, port = seen.flat.block(source[0]), source[1]
    name = seen.flat.name(source[0])
    if block is None or block.kind == "IFTHEL_f":
        return f"{name} {'above 0' if port == 1 else 'not above 0'}"
    last = len(block.item.entries("evtout"))
    return f"{name} is {port}{' or less' if port == 1 else ' or more' if port == last else ''}"


def guards(seen: Seen, found: frozenset[Source]) -> str:
    """Under which branches a block acts; '' where it acts always."""
    return " or ".join(branch_name(seen, source) for source in sorted(found))


def table(seen: Seen) -> str:
    """The table of all blocks."""
    rows = "".join(_table_row(seen, block) for block in seen.flat.blocks)
    words = ("number", "block", "kind", "parameters", "outputs", "place", "line")
    head = "".join(f'<th scope="col">{word}</th>' for word in words)
    return ('<div class="wide"><table id="block-table">'
            f"<thead><tr>{head}</tr></thead><tbody>{rows}</tbody></table></div>")


def words_of(block: Block) -> str:
    """The parameters of a block in one line."""
    return ", ".join(f"{name} {value}" for name, value in parameters(block.item))


def _table_row(seen: Seen, block: Block) -> str:
    cells = [escape(block.kind), escape(words_of(block)), escape(", ".join(seen.types.get(block.number, []))),
             place_text(block.place), escape(seen.flat.where(block.place))]
    return (f'<tr><td class="count">{block.number}</td>'
            f'<th scope="row">{block_button(block.number, seen.flat.name(block.number))}</th>'
            + "".join(f"<td>{cell}</td>" for cell in cells) + "</tr>")


def details(seen: Seen, known: Known) -> str:
    """For each block what is shown when it is clicked."""
    acts: dict[int, list[tuple[Source, frozenset[Source]]]] = {}
    for source, rows in known.schedules.items():
        for number, found in rows.items():
            acts.setdefault(number, []).append((source, found))
    return "".join(_detail(seen, known, block, acts.get(block.number, [])) for block in seen.flat.blocks)


def _detail(seen: Seen, known: Known, block: Block, acts: list[tuple[Source, frozenset[Source]]]) -> str:
    flat, number = seen.flat, block.number
    rows = [("kind", escape(block.kind)), ("number", str(number)), ("place", place_text(block.place)),
            ("line", f"<code>{escape(flat.where(block.place))}</code>")]
    rows += [(name, escape(value)) for name, value in parameters(block.item)]
    rows += _measured(known.coverage, number)
    told = "".join(f"<dt>{name}</dt><dd>{value}</dd>" for name, value in rows)
    warned = [finding for finding in known.findings if finding.place == block.place]
    parts = [f"<h2>{escape(flat.name(number))}</h2>", f"<dl>{told}</dl>",
             "".join(f'<p class="warning">It {escape(finding.text)}.</p>' for finding in warned),
             _ports(seen, block), _acts(seen, acts)]
    return f'<template id="block-{number}">{"".join(parts)}</template>'


def _measured(coverage: Coverage | None, number: int) -> list[tuple[str, str]]:
    rows = []
    for block in coverage.blocks if coverage else ():
        if block.number == number:
            rows.append(("acted", "not measured" if block.acted is None else f"{block.acted:,} times"))
            rows += [("fired", f"{block.fired:,} times")] if block.fired is not None else []
    for outcome in coverage.outcomes if coverage else ():
        if outcome.block == number:
            count = "not measured" if outcome.count is None else f"{outcome.count:,} times"
            rows.append((escape(outcome.what), count))
    return rows[:40]


def _ports(seen: Seen, block: Block) -> str:
    rows = ""
    for name, type_, ends in ports(seen.flat, seen.wiring, block, seen.types.get(block.number, [])):
        shown = ", ".join(block_button(number, other) for number, other in ends[:20])
        shown += f" and {len(ends) - 20} more" if len(ends) > 20 else ""
        arrow = "→" if "output" in name else "←"
        rows += (f'<tr><th scope="row">{name}</th><td>{escape(type_)}</td>'
                 f"<td>{arrow} {shown or 'nothing'}</td></tr>")
    return f"<h3>Ports</h3><table>{rows}</table>" if rows else ""


def _acts(seen: Seen, acts: list[tuple[Source, frozenset[Source]]]) -> str:
    rows = ""
    for source, found in acts[:40]:
        when = guards(seen, found)
        rows += f"<li>at {escape(source_name(seen, source))}{escape(f', if {when}') if when else ''}</li>"
    return f"<h3>Acts</h3><ul>{rows}</ul>" if rows else ""
