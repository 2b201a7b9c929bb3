"""JSON texts with the line of each object of a diagram, read as far as they are whole.

The standard library's ``json`` tells no positions, and gives nothing of a damaged text. Here the items of a
list are decoded one by one, so that each has its line, and what stands before a damage is kept.
"""
from __future__ import annotations

import bisect
import json
import re
from dataclasses import dataclass
from typing import Any, Iterator

_SPACE = re.compile(r'[ \t\r\n]*')
_DEEPEST = 150


@dataclass(frozen=True)
class Damage:
    """Where a text stops being JSON, by its line and its column, both counted from 1."""

    what: str
    line: int
    column: int

    def __str__(self) -> str:
        return "line %d, column %d: %s" % (self.line, self.column, self.what)


@dataclass(frozen=True)
class _Part:
    """A member of an object, or an item of a list (with an empty key): where it begins and its value."""

    key: str
    start: int
    value: Any


class JsonText:
    """A JSON text whose parts are found by their positions.

    >>> text = JsonText('{"objs": [\\n  {"obj": "Text"},\\n  {"obj": ')
    >>> [text.line(at) for at in text.items(text.member(text.start, 'objs'))]
    [2, 3]
    >>> str(text.damage)
    'line 3, column 9: the text ends too early'
    """

    def __init__(self, text: str) -> None:
        self.text = text
        self.damage: Damage | None = None
        self.start = self._blank(0)
        self._decoder = json.JSONDecoder()
        self._breaks = [found.start() for found in re.finditer('\n', text)]

    def line(self, at: int) -> int:
        """The line of a position, from 1."""
        return bisect.bisect_left(self._breaks, at) + 1

    def column(self, at: int) -> int:
        """The column of a position, from 1."""
        line = self.line(at)
        return at - (self._breaks[line - 2] if line > 1 else -1)

    def value(self, at: int | None) -> Any:
        """The value at a position, as far as it can be read; None where nothing can."""
        return None if at is None else self._value(at, 0)[0]

    def items(self, at: int | None) -> Iterator[int]:
        """The position of each item of the list at a position."""
        if at is not None and self.text[at:at + 1] == "[":
            for part in self._parts(at, 0, False):
                yield part.start

    def member(self, at: int | None, key: str) -> int | None:
        """The position of a member of the object at a position; of several with this key, the last."""
        found = None
        if at is not None and self.text[at:at + 1] == "{":
            for part in self._parts(at, 0, True):
                found = part.start if part.key == key else found
        return found

    def whole(self) -> Any:
        """The text's value, as far as it can be read; where something stands behind it, that is a damage."""
        value, end = self._value(self.start, 0)
        if end is not None and self._blank(end) < len(self.text):
            self._fail(self._blank(end), "something stands behind the end")
        return value

    def _blank(self, at: int) -> int:
        found = _SPACE.match(self.text, at)
        return found.end() if found else at

    def _fail(self, at: int, what: str) -> None:
        """Keeps the first damage."""
        what = what if at < len(self.text) else "the text ends too early"
        at = min(at, max(len(self.text.rstrip()) - 1, 0)) if at >= len(self.text) else at
        if self.damage is None:
            self.damage = Damage(what, self.line(at), self.column(at))

    def _value(self, at: int, depth: int) -> tuple[Any, int | None]:
        """The value and its end, which is None where it is damaged."""
        try:
            return self._decoder.raw_decode(self.text, at)
        except (ValueError, RecursionError):
            pass
        first = self.text[at:at + 1]
        if first not in ("{", "[") or depth > _DEEPEST:
            self._fail(at, "nested too deep" if depth > _DEEPEST else "no value can be read here")
            return None, None
        fields: dict[str, Any] = {}
        entries: list[Any] = []
        for part in self._parts(at, depth, first == "{"):
            fields[part.key] = part.value
            entries.append(part.value)
        return (fields if first == "{" else entries), None

    def _parts(self, at: int, depth: int, keyed: bool) -> Iterator[_Part]:
        """The members of an object, or the items of a list, up to a damage."""
        closing = "}" if keyed else "]"
        at = self._blank(at + 1)
        if self.text[at:at + 1] == closing:
            return
        while True:
            key = ""
            if keyed:
                found, end = self._key(at)
                if found is None or end is None:
                    return
                key, at = found, end
            value, after = self._value(at, depth + 1)
            yield _Part(key, at, value)
            if after is None:
                return
            at = self._blank(after)
            if self.text[at:at + 1] == closing:
                return
            if self.text[at:at + 1] != ",":
                self._fail(at, "a comma or '%s' is missing" % closing)
                return
            at = self._blank(at + 1)

    def _key(self, at: int) -> tuple[str | None, int | None]:
        """A member's key and the position of its value."""
        if self.text[at:at + 1] != '"':
            self._fail(at, "a name in quotation marks is missing")
            return None, None
        key, end = self._value(at, _DEEPEST)
        if end is None:
            return None, None
        end = self._blank(end)
        if self.text[end:end + 1] != ":":
            self._fail(end, "a colon is missing")
            return None, None
        return str(key), self._blank(end + 1)
