"""The examples of docs/PYTHON.md are run: what stands below each is what it prints."""
from __future__ import annotations

import contextlib
import io
import linecache
import re
from pathlib import Path

import pytest
from conftest import TOP

from scicos.errors import MissingError
from scicos.program import Program

PAGE = TOP / "docs" / "PYTHON.md"


def sections() -> dict[str, list[tuple[str, str]]]:
    """By the heading of each section its examples, with what they print."""
    found: dict[str, list[tuple[str, str]]] = {}
    for part in re.split(r"^## ", PAGE.read_text(), flags=re.M)[1:]:
        blocks = re.findall(r"^```(python|text)\n(.*?)^```$", part, re.M | re.S)
        pairs: list[tuple[str, str]] = []
        for word, text in blocks:
            if word == "python":
                pairs.append((text, ""))
            else:
                pairs[-1] = (pairs[-1][0], text)
        if pairs:
            found[part.splitlines()[0]] = pairs
    return found


@pytest.mark.parametrize("title", sections())
def test_examples(title: str, program: Program, tmp_path: Path, monkeypatch: pytest.MonkeyPatch) -> None:
    """The examples of a section run one after the other, as files `example.py`, in an empty folder."""
    monkeypatch.chdir(tmp_path)
    monkeypatch.setenv("SCICOS", program.path)
    space: dict[str, object] = {"__name__": "example"}
    exec("from scicos import *", space)
    for code, expected in sections()[title]:
        linecache.cache["example.py"] = (len(code), None, code.splitlines(keepends=True), "example.py")
        printed = io.StringIO()
        with contextlib.redirect_stdout(printed):
            try:
                exec(compile(code, "example.py", "exec"), space)
            except MissingError as error:
                pytest.skip(str(error))
        assert printed.getvalue() == expected


def test_every_kind_is_in_the_table() -> None:
    """The table of the page has each kind, and each function that the package says draws it."""
    from scicos.kinds import KINDS
    rows = {line.split("|")[1]: line for line in PAGE.read_text().splitlines() if line.startswith("| `")}
    for kind in KINDS.values():
        row = next(line for left, line in rows.items() if f"`{kind.name}`" in left)
        for function in kind.made_by:
            assert function + "(" in row, (kind.name, function)
