"""A design on one page, to show it to others: its drawings, warnings, waveforms, schedule and coverage.

The page is one file of HTML that opens anywhere and loads nothing. What it tells is the program's: a run, a
run with probes, `map` and `schedule`. The same inputs give the same bytes.
"""
from __future__ import annotations

import hashlib
import os
from collections.abc import Iterable
from dataclasses import dataclass

from . import draw, lint, report_blocks, report_packing, report_page, report_pictures, report_sections
from . import inputs as given
from .flat import Design, place_text, read
from .flat_wiring import Wiring
from .lint_facts import Finding
from .measure import measure
from .messages import explained
from .program import MOST_EVENTS, Program, Refused, design_file, find
from .report_blocks import Known
from .report_levels import Seen
from .report_page import Page, Section
from .report_pictures import escape
from .reports import schedules, shapes
from .runs import Run, checked, simulate


@dataclass(frozen=True)
class Report:
    """The page's text, the refusal's sentence where the program refuses the diagram or its inputs, and why
    the run stopped where it did.
    """

    text: str
    refusal: str = ""
    stop: str = ""


@dataclass(frozen=True)
class Words:
    """What a report is asked for."""

    inputs: given.Inputs = None
    until: int | None = None
    events: int = MOST_EVENTS
    signals: tuple[str, ...] | None = None
    progress: bool = False


def report(design: Design, inputs: given.Inputs = None, *, until: int | None = None,
           events: int = MOST_EVENTS, signals: Iterable[str] | None = None, title: str | None = None,
           program: str | os.PathLike[str] | Program | None = None, progress: bool = False) -> Report:
    """The page of a design and of its run with these inputs up to the date `until` (in ticks); without
    `until` there is no run on it.

    The words are those of `simulate`; `signals` are those that the page holds, by default all. A refused
    design, or refused inputs, give a page too, which tells the refusal.

        >>> report("examples/first.json", until=12).text[:15]
        '<!DOCTYPE html>'
    """
    tool = find(program)
    chosen = tuple(signals) if signals is not None else None
    words = Words(given.lasting(inputs), until, events, chosen, progress)
    if until is not None:
        checked(until, events)
    with design_file(design) as path:
        page = Page(title or title_of(design), "", facts_of(design, path, words))
        flat = read(path)
        seen = Seen(flat, Wiring(flat), {})
        try:
            seen.types = {number: list(map(str, ports)) for number, ports in shapes(tool, path).items()}
        except Refused as refused:
            return refused_page(page, seen, path, refused, tool)
        return accepted_page(page, seen, path, words, tool)


def title_of(design: Design) -> str:
    """What a design is called: its own name, or that of its file; of a `diagram.json` that of its folder."""
    if not isinstance(design, (str, os.PathLike)):
        return str(getattr(design, "name", "") or "design")
    stem = os.path.splitext(os.path.basename(os.fspath(design)))[0]
    folder = os.path.basename(os.path.dirname(os.path.abspath(design)))
    return folder if stem == "diagram" and folder else stem


def facts_of(design: Design, path: str, words: Words) -> list[tuple[str, str]]:
    """What was asked for: the files with their checksums, and the bounds."""
    name = os.fspath(design) if isinstance(design, (str, os.PathLike)) else "made by Python"
    facts = [("diagram", f"{escape(name)} {checksum(path)}")]
    if words.until is not None:
        own = words.inputs
        if isinstance(own, (str, os.PathLike)):
            facts.append(("inputs", f"{escape(os.fspath(own))} {checksum(own)}"))
        facts += [("last date", f"{words.until:,} ticks"), ("most events", f"{words.events:,}")]
    return facts


def checksum(path: str | os.PathLike[str]) -> str:
    """The begin of a file's SHA-256, with the whole of it to be seen."""
    try:
        with open(path, "rb") as file:
            found = hashlib.sha256(file.read()).hexdigest()
    except OSError:
        return ""
    return f'<code title="SHA-256 {found}">{found[:12]}</code>'


def refused_page(page: Page, seen: Seen, path: str, refused: Refused, tool: Program) -> Report:
    """The page of a refused diagram: the sentence, and what it blames in red."""
    refusal, sentence = refused.refusal, explained(refused, seen.flat)
    seen.types = {block.number: draw.declared(block) for block in seen.flat.blocks}
    seen.marks, seen.place = draw.blamed(seen.flat, seen.wiring, refused), refusal.place or ()
    place = place_text(refusal.place) if refusal.place else "-"
    page.lead = refusal_box("The program refuses this design.", sentence,
                            f"rule {refusal.number}, {refusal.rule}, at {place}")
    page.facts.append(("blocks", str(len(seen.flat.blocks))))
    page.sections.append(drawing_section(seen, path, tool))
    page.sections.append(blocks_section(seen))
    page.details = report_blocks.details(seen, Known())
    return Report(page.text(), sentence)


def refusal_box(head: str, sentence: str, rule: str) -> str:
    """What is told of a refusal at the top."""
    sentence = sentence[:1].upper() + sentence[1:]
    return (f'<div class="refusal" role="alert"><p><strong>{head}</strong></p><p>{escape(sentence)}</p>'
            f"<p><small>{escape(rule)}: docs/FORMAT.md has a row for it.</small></p></div>")


def accepted_page(page: Page, seen: Seen, path: str, words: Words, tool: Program) -> Report:
    """The page of a design that breaks no rule, with its run where that is asked for."""
    found = lint.lint(path, tool)
    granted = [finding for finding in lint.lint(path, tool, True) if finding not in found]
    found += lint.unknown_grants(seen.flat)
    known = Known(found, schedules(tool, path))
    run, refusal, stop = None, "", ""
    if words.until is not None:
        try:
            run = simulate(path, words.inputs, until=words.until, events=words.events, signals=words.signals,
                           program=tool, progress=words.progress)
            known.coverage = measure(path, words.inputs, until=words.until, events=words.events, program=tool,
                                     progress=words.progress)
            stop = run.why() if run.end.stopped else ""
        except Refused as refused:
            refusal = explained(refused, seen.flat)
            page.lead = refusal_box("The program refuses these inputs.", refusal, str(refused.refusal))
    page.lead += stop_box(stop)
    page.facts += counted(seen, known, run)
    page.sections = sections(seen, path, known, granted, run, tool, stop)
    page.details = report_blocks.details(seen, known)
    page.data = report_packing.waves(run) if run else {}
    return Report(page.text(), refusal, stop)


def stop_box(stop: str) -> str:
    """What is told of a stop."""
    if not stop:
        return ""
    return (f'<div class="refusal" role="alert"><p><strong>A block had no valid result.</strong></p>'
            f"<p>{escape(stop[:1].upper() + stop[1:])}.</p></div>")


def counted(seen: Seen, known: Known, run: Run | None) -> list[tuple[str, str]]:
    """The numbers at the top."""
    facts = [("blocks", str(len(seen.flat.blocks))),
             ("warnings", f'<a href="#warnings">{len(known.findings) or "none"}</a>')]
    if run:
        events = len(run.trace.dates) - 1
        facts += [("run", f"{events:,} event{'s' * (events != 1)}, the last at tick {run.trace.dates[-1]:,}; "
                          f"{escape(str(run.end))}")]
    if known.coverage:
        tried, there = known.coverage.share()
        facts.append(("tried", f'<a href="#coverage">{tried} of {there}</a> blocks and outcomes'))
    return facts


def sections(seen: Seen, path: str, known: Known, granted: list[Finding], run: Run | None, tool: Program,
             stop: str) -> list[Section]:
    """The sections of a design that breaks no rule."""
    found = [drawing_section(seen, path, tool)]
    if run:
        told = f'<p class="warning">{escape(stop[:1].upper() + stop[1:])}.</p>' if stop else ""
        found.append(Section("waves", "Waveforms", told + report_page.waves_body()))
    found.append(Section("warnings", "Warnings", report_sections.warnings(seen, known.findings, granted)))
    found.append(Section("schedule", "Schedule", report_sections.schedule(seen, known, run)))
    if known.coverage:
        found.append(Section("coverage", "Coverage", report_sections.coverage(known.coverage)))
    return [*found, blocks_section(seen)]


def drawing_section(seen: Seen, path: str, tool: Program) -> Section:
    """The drawings."""
    red = " What the refusal blames is red." if seen.place or seen.marks.blocks or seen.marks.links else ""
    drawing = draw.drawing(path, tool)
    sizes = report_page.tools([report_page.button("larger", "+", "Larger"),
                               report_page.button("smaller", "−", "Smaller"),
                               report_page.button("fit", "fit", "Fit the width")], "Size of the drawing")
    legend = ('<p class="legend"><span class="solid"></span> signal <span class="dashed"></span> activation '
              '<span class="box"></span> superblock, which opens. A block shows its parameters when it is '
              f"clicked.{red}</p>")
    levels = report_page.tools([report_pictures.chooser(seen)], "Levels", "levels")
    return Section("drawing", "Drawing", levels + sizes + report_pictures.pictures(seen, drawing) + legend)


def blocks_section(seen: Seen) -> Section:
    """The table of all blocks."""
    field = ('<label>Filter <input id="block-filter" type="search" autocomplete="off" '
             'placeholder="name, kind or parameter"></label> <span id="block-count"></span>')
    return Section("blocks", "Blocks", report_page.tools([field], "Filter") + report_blocks.table(seen))


__all__ = ["Report", "report", "title_of"]
