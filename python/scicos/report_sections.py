"""The sections of the report: warnings, schedule, coverage."""
from __future__ import annotations

from collections import Counter
from collections.abc import Iterable

from .coverage import DECISIONS, Coverage
from .flat import place_text
from .lint_facts import Finding
from .report_blocks import Known, guards, source_name
from .report_levels import Seen
from .report_pictures import block_button, escape
from .runs import Run


def warnings(seen: Seen, found: list[Finding], granted: list[Finding]) -> str:
    """The warnings, each by name with its reason, and those that the design grants."""
    if not found:
        text = '<p class="good">There are none.</p>'
    else:
        text = f'<ul class="warnings">{"".join(_warning(seen, finding) for finding in found)}</ul>'
    if granted:
        rows = "".join(_warning(seen, finding) for finding in granted)
        text += (f"<details><summary>The design grants {len(granted)} more</summary>"
                 f'<ul class="warnings granted">{rows}</ul></details>')
    return text


def _warning(seen: Seen, finding: Finding) -> str:
    flat, block = seen.flat, seen.flat.block_at(finding.place)
    name = flat.name_of(finding.place)
    shown = block_button(block.number, name) if block else f"<strong>{escape(name)}</strong>"
    return (f'<li><span class="tag">{escape(finding.kind)}</span> {shown} {escape(finding.text)} '
            f"<small>at {place_text(finding.place)}, <code>{escape(flat.where(finding.place))}</code></small>"
            "</li>")


def schedule(seen: Seen, known: Known, run: Run | None) -> str:
    """By source the blocks that it activates, in the order of their computation."""
    fired = Counter(zip(run.trace.blocks, run.trace.ports)) if run else Counter()
    parts = []
    for source, rows in known.schedules.items():
        name = escape(source_name(seen, source))
        count = "" if not run else f" <small>{fired[source]:,} reaction{'s' * (fired[source] != 1)}</small>"
        items = "".join(_scheduled(seen, number, guards(seen, found)) for number, found in rows.items())
        body = f"<ol>{items}</ol>" if items else "<p>It activates no block.</p>"
        parts.append(folded(f"<h3>{name}</h3>{count}", body, len(rows) <= 40, "source"))
    return ("<p>What each source activates, in the order of computation.</p>"
            f'<div class="sources">{"".join(parts)}</div>')


def folded(head: str, body: str, is_open: bool, kind: str = "table") -> str:
    """What can be folded away."""
    return f'<details class="{kind}"{" open" * is_open}><summary>{head}</summary>{body}</details>'


def _scheduled(seen: Seen, number: int, when: str) -> str:
    condition = f' <span class="guard">if {escape(when)}</span>' if when else ""
    return f"<li>{block_button(number, seen.flat.name(number))}{condition}</li>"


def shown(count: int | None) -> str:
    """A count, or what stands in its place."""
    return "not measured" if count is None else f"{count:,}"


def cell(text: str, is_count: bool = False) -> str:
    """A cell of a table."""
    return f'<td class="count">{escape(text)}</td>' if is_count else f"<td>{escape(text)}</td>"


def heading(number: int, name: str) -> str:
    """The first cell of a row that is of a block."""
    return f'<th scope="row">{block_button(number, name)}</th>'


def grid(head: Iterable[str], rows: Iterable[tuple[bool, Iterable[str]]], about: str) -> str:
    """A table; rows with a truth in front are marked."""
    top = "".join(f'<th scope="col">{word}</th>' for word in head)
    text = "".join(f"<tr{' class=missed' if mark else ''}>{''.join(cells)}</tr>" for mark, cells in rows)
    return (f'<div class="wide"><table class="sorted" aria-label="{about}"><thead><tr>{top}</tr></thead>'
            f"<tbody>{text}</tbody></table></div>")


def coverage(found: Coverage) -> str:
    """What the run has tried, and what not."""
    tried, there = found.share()
    missed = found.missed()
    share = round(100 * tried / there) if there else 100
    text = (f'<p><strong>{tried} of {there}</strong> blocks and outcomes were tried ({share} %). '
            f'<meter min="0" max="{max(there, 1)}" value="{tried}">{share} %</meter></p>')
    if missed:
        lines = "".join(f"<li>{escape(line)}</li>" for line in missed)
        text += f'<h3>Not tried</h3><ul class="missed">{lines}</ul>'
    if found.unmeasured():
        text += ("<p>Not measured, as the diagram has no room for probes: "
                 f"{escape(', '.join(found.unmeasured()))}.</p>")
    return text + _outcomes(found) + _acted(found) + _values(found)


def _outcomes(found: Coverage) -> str:
    rows = [(outcome.count == 0 and outcome.group in DECISIONS,
             [heading(outcome.block, outcome.name), cell(outcome.kind), cell(outcome.what),
              cell(shown(outcome.count), True)]) for outcome in found.outcomes]
    head = ("block", "kind", "what came", "times")
    return "<h3>What came of decisions</h3>" + grid(head, rows, "outcomes") if rows else ""


def _acted(found: Coverage) -> str:
    rows = [(block.acted == 0,
             [heading(block.number, block.name), cell(block.kind), cell(shown(block.acted), True),
              cell("" if block.fired is None else shown(block.fired), True)]) for block in found.blocks]
    return folded("<h3>How often blocks acted</h3>", grid(("block", "kind", "acted", "fired"), rows, "acts"),
                  len(rows) <= 30)


def _values(found: Coverage) -> str:
    rows = []
    for values in found.signals:
        met = " and ".join(word for word, came in zip(("least", "greatest"), values.bounds_met) if came)
        low, high = ("" if bound is None else f"{bound}" for bound in (values.least, values.greatest))
        name = f'<th scope="row">{escape(values.name)}</th>'
        rows.append((False, [name, cell(values.type), cell(low, True), cell(high, True), cell(met)]))
    head = ("signal", "type", "least", "greatest", "bound of its type that came")
    return folded("<h3>Between which values signals lay</h3>", grid(head, rows, "values"), len(rows) <= 30)
