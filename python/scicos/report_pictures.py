"""The drawings of the report: by Graphviz, with what can be clicked marked for the page, or as lists."""
from __future__ import annotations

import html
import re
import shutil
from collections.abc import Callable, Iterable

from .draw import Drawing
from .errors import ScicosError
from .flat import ACTIVATION, REGULAR, Item, Level, Link, place_text
from .report_levels import MOST_DRAWN, MOST_LINKS, Seen, drawn_objects, graph, levels, links_of, own_name

NODE = re.compile(r'<g id="node\d+" class="(node[^"]*)">\n<title>(.*?)</title>')
BACKGROUND = re.compile(r'^(<svg[^>]*>\n<g[^>]*>\n)<polygon fill="white" stroke="(?:transparent|none)"'
                        r' [^>]*/>\n')
EDGE = re.compile(r'<g id="edge\d+" class="(edge[^"]*)">\n<title>.*?</title>')


def escape(text: object) -> str:
    """A text within HTML."""
    return html.escape(str(text))


def block_button(number: int, name: str) -> str:
    """What shows a block when it is clicked."""
    return f'<button type="button" class="to" data-block="{number}">{escape(name)}</button>'


def marked(svg: str, about: str, attributes: Callable[[str], str]) -> str:
    """A picture of Graphviz as a part of the page: without ids, which a page has once, and with attributes
    for its nodes by their names.
    """
    svg = svg[svg.index("<svg"):]
    size = re.search(r'width="(\d+)(?:\.\d+)?pt" height="(\d+)(?:\.\d+)?pt"', svg)
    width, height = (round(int(part) * 4 / 3) for part in size.groups()) if size else (600, 400)
    svg = re.sub(r'^<svg[^>]*?viewBox="([^"]*)"[^>]*>',
                 rf'<svg width="{width}" height="{height}" viewBox="\1" role="group" '
                 rf'aria-label="{escape(about)}">', svg, count=1, flags=re.S)
    svg = re.sub(r'<g id="graph0" class="graph"([^>]*)>\n<title>.*?</title>', r"<g\1>", svg, flags=re.S)
    svg = BACKGROUND.sub(r"\1", svg)
    svg = re.sub(r'<a xlink:[^>]*>|</a>|<g id="a_[^>]*>', "", svg)
    svg = EDGE.sub(r'<g class="\1">', svg)
    svg = NODE.sub(lambda found: f'<g class="{found[1]}"{attributes(html.unescape(found[2]))}>', svg)
    return re.sub(r' font-family="[^"]*"', "", svg)


def clickable(number: int, what: str) -> str:
    """The attributes of a node that is a block."""
    return f' data-block="{number}" role="button" tabindex="0" aria-label="{escape(what)}"'


def whole(seen: Seen, drawing: Drawing) -> str:
    """The flat drawing, or a sentence in its place."""
    flat = seen.flat
    if too_large(len(flat.blocks), drawing.text.count(" -> ")):
        return beyond(f"{len(flat.blocks):,} blocks")

    def attributes(node: str) -> str:
        number = int(node[1:]) if node[1:].isdigit() else 0
        block = flat.block(number)
        return clickable(number, f"{flat.name(number)}, {block.kind}, block {number}") if block else ""
    text = re.sub(r"\n  graph \[label=.*?\];\n", "\n", drawing.text)
    return rendered(text, "the flat drawing", attributes)


def one(seen: Seen, level: Level) -> str:
    """The picture of a level, or a sentence in its place."""
    objects = drawn_objects(level)
    if not objects:
        return '<p class="note">There is no block in it.</p>'
    if too_large(len(objects), len(links_of(seen, level))):
        return beyond(f"{len(objects):,} objects")

    def attributes(node: str) -> str:
        item = level.item(int(node[1:]))
        return attributes_of(seen, item) if item else ""
    return rendered(graph(seen, level), f"drawing of {title_of(seen, level)}", attributes)


def attributes_of(seen: Seen, item: Item) -> str:
    """The attributes of an object's node."""
    block = seen.flat.block_at(item.place)
    if block:
        return clickable(block.number, f"{own_name(seen, item)}, {block.kind}, block {block.number}")
    if item.inner:
        name = escape(f"{own_name(seen, item)}, superblock: show what is inside")
        return f' data-level="{level_id(item.inner)}" role="button" tabindex="0" aria-label="{name}"'
    return ""


def too_large(objects: int, links: int) -> bool:
    """Whether a drawing would be too large to look at."""
    return objects > MOST_DRAWN or links > MOST_LINKS


def beyond(what: str) -> str:
    """What stands in the place of a drawing that would be too large."""
    return f'<p class="note">It has {what}, too many for a drawing that can be read, so they are listed.</p>'


def rendered(text: str, about: str, attributes: Callable[[str], str]) -> str:
    """A picture by Graphviz, or the sentence why there is none."""
    if not shutil.which("dot"):
        return ('<p class="note">The command dot of Graphviz isn\'t installed where this page was made '
                "(apt-get install graphviz), so there is a list in place of a picture.</p>")
    try:
        return f'<div class="picture">{marked(Drawing(text).svg().decode(), about, attributes)}</div>'
    except ScicosError as error:
        return f'<p class="note">There is no picture: {escape(error)}</p>'


def level_id(level: Level) -> str:
    """The id of a level on the page, as `level-4-2`."""
    return "level" + "".join(f"-{part}" for part in level.place)


def title_of(seen: Seen, level: Level) -> str:
    """What a level is called."""
    return seen.flat.name_of(level.place) if level.place else "the whole design"


def crumbs(seen: Seen, level: Level) -> str:
    """The way to a level, each part of which leads to its level."""
    above = [seen.flat.item(level.place[:depth]) for depth in range(1, len(level.place) + 1)]
    outer = [seen.flat.top, *(item.inner for item in above if item and item.inner)]
    names = ["the whole design" if not part.place else own_name(seen, part.outer) if part.outer else "?"
             for part in outer]
    words = [f'<a href="#{level_id(part)}" data-level="{level_id(part)}">{escape(name)}</a>'
             for part, name in zip(outer[:-1], names)]
    return " › ".join([*words, escape(names[-1])])


def listed(seen: Seen, level: Level) -> str:
    """A level as a list: each object with what it leads to."""
    after: dict[int, list[Link]] = {}
    for link in links_of(seen, level):
        after.setdefault(link.start[0][-1], []).append(link)
    rows = [row(seen, item, after.get(item.place[-1], [])) for item in drawn_objects(level)]
    return f'<ul class="objects">{"".join(rows)}</ul>' if rows else ""


def row(seen: Seen, item: Item, links: Iterable[Link]) -> str:
    """An object of a list."""
    block, name = seen.flat.block_at(item.place), own_name(seen, item)
    shown = (block_button(block.number, name) if block else
             f'<a href="#{level_id(item.inner)}" data-level="{level_id(item.inner)}">{escape(name)}</a>'
             if item.inner else escape(name))
    kind = item.kind if not item.inner else "superblock"
    ends = [end(seen, link) for link in links]
    return (f"<li>{shown} <small>{escape(kind)}, at {place_text(item.place)}</small>"
            f"{' → ' + ', '.join(ends) if ends else ''}</li>")


def end(seen: Seen, link: Link) -> str:
    """Where a link leads."""
    item = seen.flat.item(link.end[0])
    if item is None:
        return "?"
    which = f" (input {link.end[1]})" if link.kind == REGULAR and item.ports(REGULAR, 1) > 1 else ""
    return escape(own_name(seen, item)) + which + (" ⚡" if link.kind == ACTIVATION else "")


def pictures(seen: Seen, drawing: Drawing) -> str:
    """All levels with their lists, and the flat drawing."""
    parts = []
    for level in levels(seen.flat.top):
        picture, items = one(seen, level), listed(seen, level)
        opened = " open" if "picture" not in picture[:24] else ""
        aside = f'<details class="list"{opened}><summary>As a list</summary>{items}</details>'
        parts.append(figure(level_id(level), crumbs(seen, level), picture + aside))
    about = "flat: superblocks and tags are followed, not drawn"
    return "".join([*parts, figure("flat", about, whole(seen, drawing))])


def figure(id_: str, caption: str, body: str) -> str:
    """A drawing with its caption."""
    return f'<figure class="level" id="{id_}"><figcaption>{caption}</figcaption>{body}</figure>'


def chooser(seen: Seen) -> str:
    """The buttons that choose a level."""
    names = [(level_id(level), title_of(seen, level)) for level in levels(seen.flat.top)]
    return "".join(f'<button type="button" data-level="{id_}">{escape(name)}</button>'
                   for id_, name in [*names, ("flat", "flat drawing")])
