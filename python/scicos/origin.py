"""Where in the Python source a block was made, and which name it gets from there."""
from __future__ import annotations

import ast
import bisect
import dis
import linecache
import os
import sys
from collections.abc import Iterator
from contextlib import contextmanager
from contextvars import ContextVar
from dataclasses import dataclass
from types import CodeType, FrameType
from typing import Optional

from .errors import DesignError

Position = tuple[int, int, int, int]
Place = tuple[Optional[int], Optional[int], Optional[int], Optional[int]]


@dataclass(frozen=True)
class Origin:
    """The line of Python that made an object, and the name that follows from it."""

    line: str
    name: str
    whole: bool
    code: CodeType
    offset: int
    frame: int
    stored: bool
    place: Place

    def encloses(self, inner: Origin) -> bool:
        """Whether this expression has the inner one as a part that nothing else can refer to."""
        if self.code is not inner.code or self.frame != inner.frame or inner.stored:
            return False
        line, last, column, end = self.place
        line2, last2, column2, end2 = inner.place
        if line is None or last is None or column is None or end is None or line2 is None or last2 is None \
                or column2 is None or end2 is None:
            return inner.offset < self.offset and self.line == inner.line
        around = (line, column) <= (line2, column2) and (last2, end2) <= (last, end)
        return around and self.place != inner.place


def user_frame() -> FrameType:
    """The innermost frame that isn't one of this package, nor of what Python does for its `with`."""
    frame: FrameType | None = sys._getframe(1)
    while frame is not None and frame.f_back is not None:
        module = str(frame.f_globals.get("__name__", ""))
        if module not in ("scicos", "contextlib") and not module.startswith("scicos."):
            break
        frame = frame.f_back
    assert frame is not None
    return frame


_parts: ContextVar[bool] = ContextVar("scicos_parts", default=False)


@contextmanager
def parts() -> Iterator[None]:
    """Within this, what is made is a part of the expression in the source, and is named so."""
    token = _parts.set(True)
    try:
        yield
    finally:
        _parts.reset(token)


def here(word: str, part: bool = False) -> Origin:
    """The origin of what is being made now; `word` says what it is, as \"sum\".

    With `part` it is only a part of the expression in the source, as the constant of `x + 1`.
    """
    frame = user_frame()
    code, offset = frame.f_code, frame.f_lasti
    place = _place_of(code, offset)
    line = f"{os.path.basename(code.co_filename)}:{frame.f_lineno}"
    stored, target = _store_after(code, offset)
    found = _name_by_source(frame, place, word)
    if found is None:
        found = (target, True) if target else (word, False)
    if found[1] and (part or _parts.get()):
        found = (f"{found[0]}_{word}", False)
    return Origin(line, found[0], found[1], code, offset, id(frame), stored, place)


def line_here() -> str:
    """The line of Python that called the package, as \"design.py:12\"."""
    frame = user_frame()
    return f"{os.path.basename(frame.f_code.co_filename)}:{frame.f_lineno}"


def wrong(text: str) -> DesignError:
    """What is wrong at the line of Python that called the package."""
    return DesignError(f"{line_here()}: {text}")


def wrong_at(line: str, text: str) -> DesignError:
    """What is wrong with what another line of Python made."""
    return DesignError(f"{line}: {text}")


@dataclass(frozen=True)
class _Code:
    """What is known of a code object: where each instruction stands, and what keeps its value at once."""

    code: CodeType
    places: list[Place]
    offsets: list[int]
    kept: list[tuple[bool, str | None]]


_codes: dict[int, _Code] = {}


def _known(code: CodeType) -> _Code:
    if id(code) not in _codes:
        steps = [one for one in dis.get_instructions(code) if one.opname not in ("CACHE", "EXTENDED_ARG")]
        kept: list[tuple[bool, str | None]] = []
        for step in steps[1:]:
            stores = step.opname.startswith("STORE_")
            name = step.argval[0] if stores and isinstance(step.argval, tuple) else step.argval
            kept.append((stores or step.opname == "COPY", name if stores and isinstance(name, str) else None))
        _codes[id(code)] = _Code(code, list(code.co_positions()), [step.offset for step in steps], kept)
    return _codes[id(code)]


def _place_of(code: CodeType, offset: int) -> Place:
    places = _known(code).places
    return places[offset // 2] if 0 <= offset // 2 < len(places) else (None, None, None, None)


def _store_after(code: CodeType, offset: int) -> tuple[bool, str | None]:
    """Whether the value of the instruction is kept at once by a name, and which, from the bytecode alone.

    The offset of a frame may be that of a cache behind the instruction, so the last one up to it is meant.
    """
    known = _known(code)
    at = bisect.bisect_right(known.offsets, offset) - 1
    return known.kept[at] if 0 <= at < len(known.kept) else (False, None)


class _Source:
    """The expressions of a source file by their positions, each with the node around it."""

    def __init__(self, text: str) -> None:
        self.around: dict[ast.AST, ast.AST] = {}
        self.by_end: dict[tuple[int, int], list[ast.expr]] = {}
        for node in ast.walk(ast.parse(text)):
            for child in ast.iter_child_nodes(node):
                self.around[child] = node
            if isinstance(node, (ast.Call, ast.BinOp, ast.UnaryOp, ast.Compare, ast.Subscript)):
                end = (node.end_lineno or 0, node.end_col_offset or 0)
                self.by_end.setdefault(end, []).append(node)
        self.augmented = {_span(node): node for node in self.around if isinstance(node, ast.AugAssign)}

    def find(self, place: Place) -> ast.AST | None:
        """The expression, or the augmented assignment, at a position."""
        line, last, column, end = place
        if line is None or last is None or column is None or end is None:
            return None
        if (line, column, last, end) in self.augmented:
            return self.augmented[(line, column, last, end)]
        fits = [node for node in self.by_end.get((last, end), ())
                if (node.lineno, node.col_offset) <= (line, column)]
        return max(fits, key=_begin) if fits else None


def _begin(node: ast.expr) -> tuple[int, int]:
    return (node.lineno, node.col_offset)


def _span(node: ast.AugAssign) -> Position:
    return (node.lineno, node.col_offset, node.end_lineno or 0, node.end_col_offset or 0)


_sources: dict[str, tuple[str, _Source | None]] = {}


def _source_of(frame: FrameType) -> _Source | None:
    name = frame.f_code.co_filename
    text = "".join(linecache.getlines(name, frame.f_globals))
    if name not in _sources or _sources[name][0] != text:
        try:
            _sources[name] = (text, _Source(text) if text else None)
        except (SyntaxError, ValueError, RecursionError):
            _sources[name] = (text, None)
    return _sources[name][1]


def _name_by_source(frame: FrameType, place: Place, word: str) -> tuple[str, bool] | None:
    source = _source_of(frame)
    node = source.find(place) if source else None
    if source is None or node is None:
        return None
    if isinstance(node, ast.AugAssign):
        return _target(node.target) or word, True
    return _climb(source, node, word)


def _climb(source: _Source, node: ast.AST, word: str) -> tuple[str, bool]:
    """The name that an expression gets from the statement around it, and whether it is all that is named."""
    whole = True
    for child, parent in _upwards(source, node):
        name: str | None = None
        if isinstance(parent, ast.Assign):
            name = _by_targets(parent.targets[0], parent.value, child, node)
        elif isinstance(parent, (ast.AnnAssign, ast.AugAssign, ast.NamedExpr)):
            name = _target(parent.target)
        elif isinstance(parent, ast.withitem) and parent.optional_vars is not None:
            name = _target(parent.optional_vars)
        elif isinstance(parent, ast.Call) and child in parent.args and _fed(parent):
            name = f"{_fed(parent)}_next"
        elif isinstance(parent, (ast.Tuple, ast.List, ast.Dict, ast.ListComp, ast.DictComp, ast.GeneratorExp,
                                 ast.IfExp, ast.Starred, ast.Set, ast.SetComp)):
            continue
        elif isinstance(parent, (ast.stmt, ast.Lambda)):
            return word, False
        else:
            whole = False
            continue
        if name:
            return (name, True) if whole else (f"{name}_{word}", False)
        return word, False
    return word, False


def _upwards(source: _Source, node: ast.AST) -> Iterator[tuple[ast.AST, ast.AST]]:
    while node in source.around:
        yield node, source.around[node]
        node = source.around[node]


def _fed(call: ast.Call) -> str | None:
    """The name of x in a call x.feed(..)."""
    if isinstance(call.func, ast.Attribute) and call.func.attr == "feed":
        return _target(call.func.value)
    return None


def _target(node: ast.AST) -> str | None:
    """The name that an assignment's target gives."""
    if isinstance(node, ast.Name):
        return node.id
    if isinstance(node, ast.Attribute):
        return node.attr
    if isinstance(node, ast.Starred):
        return _target(node.value)
    if isinstance(node, ast.Subscript):
        base = _target(node.value)
        if base and isinstance(node.slice, ast.Constant) and isinstance(node.slice.value, (str, int)):
            return f"{base}_{node.slice.value}"
        return base
    if isinstance(node, (ast.Tuple, ast.List)):
        names = [_target(part) for part in node.elts]
        return "_".join(name for name in names if name and name != "_") or None
    return None


def _by_targets(target: ast.AST, value: ast.AST, child: ast.AST, node: ast.AST) -> str | None:
    """The name from targets: `a, b = x, y` names each value by its own target."""
    if isinstance(target, (ast.Tuple, ast.List)) and isinstance(value, (ast.Tuple, ast.List)):
        if len(target.elts) == len(value.elts):
            for one, part in zip(target.elts, value.elts):
                if any(below is node for below in ast.walk(part)):
                    return _target(one)
    return _target(target)
