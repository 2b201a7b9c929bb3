"""Names and lines: from the variables of the source, without it from the bytecode, each once in a level."""
from __future__ import annotations

import json
import os
import subprocess
import sys
from pathlib import Path
from typing import Any

import pytest
from conftest import TOP

import scicos as s

HEAD = ("from scicos import *\nwith Diagram('names') as design:\n"
        "    tick = clock(5)\n    x = sensor(1, int32, on=tick)\n")


def drawn(body: str, folder: Path) -> list[dict[str, Any]]:
    """The blocks of a design whose `with` has this body after a clock `tick` and a sensor `x`, without these
    two.
    """
    file = folder / "design.py"
    file.write_text(HEAD + "".join(f"    {line}\n" for line in body.splitlines()))
    space: dict[str, Any] = {"__name__": "design"}
    exec(compile(file.read_text(), str(file), "exec"), space)
    objects: list[dict[str, Any]] = json.loads(space["design"].to_json())["objs"]
    return [one for one in objects if one["obj"] == "Block"][2:]


def names(body: str, folder: Path) -> list[str]:
    return [str(block["name"]) for block in drawn(body, folder)]


@pytest.mark.parametrize(("body", "expected"), [
    ("y = abs(x)", ["y"]),
    ("y: Signal = abs(x)", ["y"]),
    ("y = abs(x) + signum(x)", ["y_magnitude", "y_sign", "y"]),
    ("y = x + 1", ["y_constant", "y"]),
    ("y = x\ny += x", ["y"]),
    ("a, b = abs(x), signum(x)", ["a", "b"]),
    ("high, low = when(x)", ["high_low"]),
    ("with when(x) as taken:\n    n = counter(5)", ["taken", "n"]),
    ("y = delay(int32, on=tick)\ny.feed(x + y)", ["y", "y_next"]),
    ("y = later(int32)\nz = abs(y)\ny.feed(delay(x, on=tick))", ["z", "y"]),
    ("y = abs(x)\ny = abs(y)", ["y", "y_2"]),
    ("line = [delay(x, on=tick) for _ in range(3)]", ["line", "line_2", "line_3"]),
    ("d = {}\nfor key in ('a', 'b'):\n    d[key] = abs(x)\nd['c'] = signum(x)", ["d", "d_2", "d_c"]),
    ("class Box: pass\nbox = Box()\nbox.part = abs(x)", ["part"]),
    ("(y := abs(x)) + x", ["y", "sum"]),
    ("y = abs(x, ) if True else x", ["y"]),
    ("abs(x)\nabs(x)", ["magnitude", "magnitude_2"]),
    ("halt(on=tick)", ["halt"]),
    ("y = gain(x, 3, name='three times')", ["three times"]),
    ("y = gain(x, 3, name='y_2')\na = abs(x)\ny = abs(x)\ny = abs(y)", ["y_2", "a", "y", "y_3"]),
    ("y = saturation(\n    x - 5,\n    0, 9)", ["y_constant", "y_sum", "y"]),
    ("def helper(u):\n    inner = abs(u)\n    return inner\na = helper(x)\nb = helper(x)",
     ["inner", "inner_2"]),
    ("y = [abs(x), signum(x)]", ["y", "y_2"]),
    ("y = scaled(x, 0.5, bits=4, least=0, greatest=9)", ["y_gain", "y"]),
])
def test_names(body: str, expected: list[str], tmp_path: Path) -> None:
    assert names(body, tmp_path) == expected


def test_subsystem_names(tmp_path: Path) -> None:
    body = ("@subsystem\ndef low(u):\n    y = abs(u)\n    return y\n"
            "a = low(x)\nb = low(x, name='second')\nc, d = low(x), x\nlow(x)\ne = low(x) + x")
    assert names(body, tmp_path) == ["a", "second", "c", "low", "e_low", "e"]


def test_lines(tmp_path: Path) -> None:
    """The line is that of the call, also of a sub-expression, of a loop, and of a helper's body."""
    body = ("y = abs(x)\n\nz = saturation(\n    x - y,\n    0, 9)\n"
            "def helper(u):\n    return signum(u)\nw = helper(x)")
    assert [block["line"] for block in drawn(body, tmp_path)] == [f"design.py:{n}" for n in (5, 8, 7, 11)]


@pytest.mark.parametrize(("body", "signs"), [
    ("y = x + a - b", [1, 1, -1]),
    ("y = (x + a) - b", [1, 1, -1]),
    ("y = x - (a - b)", [1, -1, 1]),
    ("y = -x + a", [-1, 1]),
    ("t = x + a\ny = t - b", [1, -1]),
    ("y = x\ny += a\ny += b", [1, 1]),
    ("y = (t := x + a) - b", [1, -1]),
    ("def f(u): return u - b\ny = f(x + a)", [1, -1]),
    ("y = abs(x + a) - b", [1, -1]),
    ("def f(u):\n    hold(u)\n    return u\ny = f(x + a) - b", [1, -1]),
    ("for _ in range(2):\n    a = a + x", [1, 1]),
])
def test_sums(body: str, signs: list[int], tmp_path: Path) -> None:
    """A sum of one expression is one block; what has a name is a block of its own."""
    blocks = drawn("a, b = abs(x), signum(x)\n" + body, tmp_path)[2:]
    sums = [block["model"]["ipar"][1:] for block in blocks if block["gui"] == "SUMMATION"]
    assert sums[-1] == signs
    within = "abs(x +" in body
    assert len(sums) == (1 if len(signs) == 3 or "-x" in body or within else 2) + within


@pytest.mark.parametrize("flags", [[], ["-X", "no_debug_ranges"], ["-O"]])
def test_without_source(flags: list[str]) -> None:
    """With `python -c` there is no source: variables are known from the bytecode, the rest is called by what
    it is.
    """
    code = ("from scicos import *\nwith Diagram('c') as design:\n  tick = clock(5)\n  x = sensor(1, int32,"
            " on=tick)\n  y = abs(x) + x - signum(x)\n  halt(on=tick)\nimport sys;"
            " sys.stdout.write(design.to_json())")
    run = subprocess.run([sys.executable, *flags, "-c", code], capture_output=True, text=True,
                         env={**os.environ, "PYTHONPATH": str(TOP / "python")})
    assert run.returncode == 0, run.stderr
    blocks = [one for one in json.loads(run.stdout)["objs"] if one["obj"] == "Block"]
    assert [block["name"] for block in blocks] == ["tick", "x", "magnitude", "sign", "y", "halt"]
    assert blocks[4]["line"] == "<string>:5"


def test_given_twice() -> None:
    with pytest.raises(s.DesignError,
                       match=r'"here" is given twice at the top of the diagram: at test_names.py:\d+'):
        with s.Diagram("twice"):
            tick = s.clock(5)
            s.sensor(1, s.int8, on=tick, name="here")
            s.sensor(2, s.int8, on=tick, name="here")


def test_one_name_in_two_levels() -> None:
    """A name is for one level; the same name may stand in another."""
    @s.subsystem
    def inner(u: s.Signal) -> s.Signal:
        return s.gain(u, 2, name="here")

    with s.Diagram("levels") as design:
        inner(s.sensor(1, s.int8, on=s.clock(5), name="here"))
    assert design.to_json().count('"name": "here"') == 2


def test_same_bytes() -> None:
    """The same source gives the same bytes, in another process and with other hashes too."""
    code = ("from scicos import *\n@subsystem\ndef part(u, e):\n  return delay(u + g, on=e)\n"
            "with Diagram('c') as design:\n  tick = clock(5)\n  x = sensor(1, int32, on=tick)\n  g = abs(x)\n"
            "  y, z = part(x, tick), part(g, tick)\nimport sys; sys.stdout.write(design.to_json())")
    texts = {subprocess.run([sys.executable, "-c", code], capture_output=True, text=True, check=True,
                            env={**os.environ, "PYTHONPATH": str(TOP / "python"),
                                 "PYTHONHASHSEED": seed}).stdout for seed in ("0", "1", "2")}
    assert len(texts) == 1
