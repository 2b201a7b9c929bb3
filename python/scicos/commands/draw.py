"""`scicos-kit draw`: a diagram as an SVG."""
from __future__ import annotations

import argparse
import shutil
import sys

from scicos import draw, files
from scicos.program import find

SUMMARY = "draw a diagram with Graphviz, a refused one too"
EXAMPLE = "draw examples/first.json > first.svg\ndraw --source 1 1 --text examples/branches.json"


def configure(parser: argparse.ArgumentParser) -> None:
    """Adds the words of the command."""
    parser.add_argument("diagram", metavar="D", help="the diagram's file")
    parser.add_argument("--text", action="store_true",
                        help="write the graph's text, for Graphviz, in place of the picture")
    parser.add_argument("--source", nargs=2, type=int, metavar=("B", "P"),
                        help="colour what output P of block B may activate; 0 0 is start")
    parser.add_argument("-o", dest="output", metavar="FILE",
                        help="write the picture there, by default on standard output")


def run(words: argparse.Namespace) -> int:
    """Writes the picture; the status is 1 where the diagram is refused, and the refusal is then told."""
    source = (words.source[0], words.source[1]) if words.source else None
    drawn = draw.drawing(words.diagram, find(), source)
    picture = drawn.text.encode() if words.text or not shutil.which("dot") else drawn.svg()
    with files.output(words.output) as file:
        file.write(picture)
    if not words.text and not shutil.which("dot"):
        sys.stderr.write("scicos-kit draw: dot isn't installed (apt-get install graphviz), so this is the "
                         "graph's text\n")
    if drawn.refusal:
        sys.stderr.write(f"scicos-kit draw: {drawn.refusal}\n")
    return 1 if drawn.refusal else 0
