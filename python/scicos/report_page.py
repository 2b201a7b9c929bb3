"""The text of the report's page: one file of HTML, with its style and its script in it.

Nothing is loaded from elsewhere: a Content-Security-Policy forbids it, and lets run what the page itself
has, by its checksum.
"""
from __future__ import annotations

import base64
import hashlib
import json
from collections.abc import Iterable
from dataclasses import dataclass, field
from pathlib import Path
from typing import Any

from .report_pictures import escape

HERE = Path(__file__).parent
SCRIPTS = ("report", "report_numbers", "report_view", "report_canvas", "report_waves", "report_start")
"""The parts of the script, in their order."""


@dataclass
class Section:
    """A section: its id, its heading, and its HTML."""

    id: str
    title: str
    body: str


@dataclass
class Page:
    """What the page has."""

    title: str
    lead: str
    facts: list[tuple[str, str]]
    """What is told at the top: words with HTML."""
    sections: list[Section] = field(default_factory=list)
    details: str = ""
    data: dict[str, Any] = field(default_factory=dict)

    def text(self) -> str:
        """The page's HTML."""
        style, script = (HERE / "report.css").read_text("utf-8"), script_text()
        facts = "".join(f"<div><dt>{escape(name)}</dt><dd>{value}</dd></div>" for name, value in self.facts)
        links = "".join(f'<li><a href="#{section.id}">{section.title}</a></li>' for section in self.sections)
        return "".join([
            '<!DOCTYPE html>\n<html lang="en">\n<head>\n<meta charset="utf-8">\n',
            f'<meta http-equiv="Content-Security-Policy" content="{policy(style, script)}">\n',
            '<meta name="viewport" content="width=device-width, initial-scale=1">\n',
            '<meta name="color-scheme" content="light dark">\n',
            '<meta name="generator" content="scicos-kit report">\n',
            f"<title>{escape(self.title)}</title>\n<style>{style}</style>\n</head>\n<body>\n",
            '<a class="skip" href="#main">To the content</a>\n',
            f'<header><h1>{escape(self.title)}</h1>{self.lead}<dl class="facts">{facts}</dl></header>\n',
            f'<nav aria-label="Sections"><ul>{links}</ul></nav>\n<main id="main">\n',
            "\n".join(map(section_text, self.sections)),
            '\n</main>\n<aside id="block" tabindex="-1" aria-label="The chosen block" hidden>'
            '<button type="button" id="close" aria-label="Close">×</button>'
            '<div id="block-body"></div></aside>\n',
            self.details, f'\n<script type="application/json" id="data">{data_text(self.data)}</script>\n',
            f"<script>{script}</script>\n</body>\n</html>\n"])


def script_text() -> str:
    """The script: its parts, within a function of their own."""
    parts = [(HERE / f"{name}.js").read_text("utf-8") for name in SCRIPTS]
    return "\n".join(["(() => {", *parts, "})();\n"])


def section_text(section: Section) -> str:
    """The HTML of a section."""
    return (f'<section id="{section.id}" aria-labelledby="{section.id}-title">'
            f'<h2 id="{section.id}-title">{section.title}</h2>\n{section.body}\n</section>')


def policy(style: str, script: str) -> str:
    """What the page may do: use its own style and script, and nothing from elsewhere."""
    def checksum(text: str) -> str:
        return base64.b64encode(hashlib.sha256(text.encode()).digest()).decode("ascii")
    return (f"default-src 'none'; style-src 'sha256-{checksum(style)}'; "
            f"script-src 'sha256-{checksum(script)}'; base-uri 'none'; form-action 'none'")


def data_text(data: dict[str, Any]) -> str:
    """Data as JSON within a script: no letter of it can end the script."""
    return json.dumps(data, ensure_ascii=True, separators=(",", ":")).replace("<", "\\u003c")


def tools(items: Iterable[str], name: str, also: str = "") -> str:
    """A row of buttons and fields."""
    kind = f"tools {also}".rstrip()
    return f'<div class="{kind}" role="group" aria-label="{escape(name)}">{"".join(items)}</div>'


def button(id_: str, text: str, about: str) -> str:
    """A button with a few letters and a longer name."""
    told = escape(about)
    return f'<button type="button" id="{id_}" title="{told}" aria-label="{told}">{text}</button>'


def waves_body() -> str:
    """The part of the page in which the script draws waveforms."""
    return (HERE / "report_waves.html").read_text("utf-8")
