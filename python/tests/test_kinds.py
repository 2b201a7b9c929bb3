"""Each kind is drawn by its function and run: the values are those of the examples in docs/FORMAT.md."""
from __future__ import annotations

import json
import re
from collections.abc import Callable
from typing import Any

import pytest
from conftest import TOP
from drawing import trace as traced

import scicos as s
from scicos.integers import BY_CODE
from scicos.kinds import KINDS
from scicos.program import Program


def examples() -> list[tuple[dict[str, Any], str]]:
    """The blocks of the page with their lines of values."""
    page = (TOP / "docs" / "FORMAT.md").read_text()
    lines = re.findall(r"```block\n(.*?)```", page, re.S)[0].splitlines()
    return [(json.loads(lines[k]), lines[k + 1]) for k in range(0, len(lines), 2)]


EXAMPLES = {block["gui"]: (block["model"], values) for block, values in examples()}

# How each kind is drawn: from its inputs, a parameter list, and the event.
DRAWN: dict[str, Callable[..., Any]] = {
    "CONST_m": lambda u, m, e: s.constant(m["ipar"], BY_CODE[m["outtyp"][0]]),
    "SUMMATION": lambda u, m, e: u[0] - u[1],
    "GAINBLK": lambda u, m, e: s.gain(u[0], m["ipar"][1], mode="saturate"),
    "PRODUCT": lambda u, m, e: s.quotient(*u),
    "ABS_VALUE": lambda u, m, e: s.abs_value(u[0], mode=s.Mode.SATURATE),
    "SIGNUM": lambda u, m, e: s.signum(u[0]),
    "MAXMIN": lambda u, m, e: s.greatest(*u),
    "SATURATION": lambda u, m, e: s.saturation(u[0], *m["ipar"]),
    "DEADBAND": lambda u, m, e: s.deadband(u[0], low=-5, high=5),
    "CONVERT": lambda u, m, e: s.convert(u[0], s.uint8),
    "MUX": lambda u, m, e: s.mux(*u),
    "DEMUX": lambda u, m, e: s.demux(u[0], [2, 1]),
    "EXTRACTOR": lambda u, m, e: s.extractor(u[0], 3, 1),
    "LOGICAL_OP": lambda u, m, e: s.both(*u),
    "RELATIONALOP": lambda u, m, e: s.relation(u[0], "<", u[1], type=s.uint8),
    "SHIFT": lambda u, m, e: s.rotate(u[0], 1),
    "BITSET": lambda u, m, e: s.bitset(u[0], 3),
    "BITCLEAR": lambda u, m, e: s.bitclear(u[0], 0),
    "EXTRACTBITS": lambda u, m, e: s.extractbits(u[0], first=4, last=7),
    "SWITCH2_m": lambda u, m, e: s.switch(u[1], ">", 0, u[0], u[2]),
    "SELECT_m": lambda u, m, e: s.choose((e, u[0]), (e, u[1])),
    "LOGIC": lambda u, m, e: s.logic(*u, table=m["ipar"]),
    "ANDLOG_f": lambda u, m, e: s.andlog(e, e),
    "DOLLAR_m": lambda u, m, e: s.delay(u[0], initial=0, on=e),
    "SAMPHOLD_m": lambda u, m, e: s.hold(u[0], on=e),
    "REGISTER": lambda u, m, e: s.register(u[0], [1, 2], on=e),
    "Modulo_Count": lambda u, m, e: s.counter(3, first=1, on=e),
    "GATED_DELAY": lambda u, m, e: s.gated_delay(u[0], u[1], initial=5, on=e),
    "SENSOR": lambda u, m, e: s.sensor(1, s.int32, on=e),
    "EVTDLY_c": lambda u, m, e: s.timer(5, on=e),
    "EVTVARDLY": lambda u, m, e: s.variable_timer(u[0], on=e),
    "IFTHEL_f": lambda u, m, e: s.when(u[0], on=e),
    "ESELECT_f": lambda u, m, e: s.select(u[0], 3, on=e),
    "HALT_f": lambda u, m, e: s.halt(on=e),
}


def split(values: str) -> list[tuple[list[int], list[str]]]:
    """The steps of a line of values: inputs and outputs."""
    found = []
    for step in values.split(";"):
        left, right = step.split("->")
        found.append(([int(word) for word in left.split()], right.split()))
    return found


def drawn(kind: str, model: dict[str, Any], tick: s.Event) -> Any:
    """The block with a sensor, or several joined, before each of its inputs."""
    inputs: list[s.Signal] = []
    column = 1
    for rows, code in zip(model.get("in", []), model.get("intyp", [])):
        parts = [s.sensor(column + k, BY_CODE[code], on=tick) for k in range(rows)]
        column += rows
        inputs.append(parts[0] if rows == 1 else s.mux(*parts))
    return DRAWN[kind](inputs, model, tick)


def signals_of(made: Any) -> list[s.Signal]:
    return [made] if isinstance(made, s.Signal) else [one for one in made if isinstance(one, s.Signal)]


def test_every_kind_has_a_row_and_an_example() -> None:
    assert len(KINDS) == 34
    assert set(KINDS) == set(EXAMPLES) == set(DRAWN)


def counted(text: str) -> tuple[int, int]:
    """A number of ports of the page, as `2 to 64`, `0 or 1` or `1`."""
    found = [int(number) for number in re.findall(r"\d+", text)]
    return found[0], found[-1]


def test_rows_are_those_of_the_page() -> None:
    """Ports and feedthrough of each kind, as the table of docs/FORMAT.md has them."""
    page = (TOP / "docs" / "FORMAT.md").read_text()
    table = page[page.index("| kind | inputs, outputs, act."):page.index("```block")]
    seen = set()
    for line in table.splitlines()[2:]:
        if not line.startswith("| `"):
            continue
        names, ports, feedthrough = [cell.strip() for cell in line.split("|")[1:4]]
        ports, _, events = ports.partition(";")
        inputs, outputs, activations = ports.replace("n (2 to 8)", "2 to 8").split(", ")
        for name in re.findall(r"`(\w+)`", names):
            kind = KINDS[name]
            seen.add(name)
            assert kind.inputs == (counted(inputs) if inputs != "n" else kind.activations), name
            assert (kind.outputs, kind.activations) == (counted(outputs), counted(activations)), name
            words = {"": (0, 0), "one": (1, 1), "two": (2, 2), "2 to 64": (2, 64)}
            assert kind.events == words[events.strip().partition(" activation")[0]], name
            assert kind.feedthrough == {"yes": "all", "": "none", "u2": "second"}[feedthrough], name
    assert seen == set(KINDS)


@pytest.mark.parametrize("kind", sorted(EXAMPLES))
def test_block_is_as_the_page_has_it(kind: str) -> None:
    """The fields of the block that is drawn are those of the example."""
    model, _ = EXAMPLES[kind]
    with s.Diagram("one") as design:
        drawn(kind, model, s.clock(1))
    found = [block for block in json.loads(design.to_json())["objs"] if block.get("gui") == kind][-1]["model"]
    for key in ("in", "intyp", "out", "outtyp", "ipar", "dstate", "firing"):
        assert found.get(key, []) == model.get(key, []), key
    if KINDS[kind].activated:
        assert found["evtin"] == model["evtin"]


@pytest.mark.parametrize("kind", sorted(kind for kind in EXAMPLES if KINDS[kind].outputs[1] > 0))
def test_values(kind: str, program: Program) -> None:
    """The values of a run are those of the example."""
    model, line = EXAMPLES[kind]
    steps = split(line)
    with s.Diagram("values") as design:
        tick = s.clock(100)
        made = signals_of(drawn(kind, model, tick))
    block = made[0].block
    assert block is not None
    number = [one for one in design.all_blocks()].index(block) + 1
    columns = [list(column) for column in zip(*[inputs for inputs, _ in steps])]
    if kind == "SENSOR":
        columns = [[int(outputs[0]) for _, outputs in steps]]
    trace = traced(program, design, json.dumps(columns), 10000, len(steps))
    reactions: list[list[str]] = []
    for text in trace:
        if text.startswith(("start", "event")):
            reactions.append([])
        elif text.startswith(f"val {number} "):
            reactions[-1].append(text.split()[4])
    expected = [outputs for _, outputs in steps]
    assert (reactions[:1] if kind == "CONST_m" else reactions[1:]) == expected


@pytest.mark.parametrize("kind", ["EVTDLY_c", "EVTVARDLY", "IFTHEL_f", "ESELECT_f", "HALT_f"])
def test_events(kind: str, program: Program) -> None:
    """The events of a run are those of the example: delays, branches and the end."""
    model, line = EXAMPLES[kind]
    steps = split(line)
    with s.Diagram("events") as design:
        tick = s.clock(100)
        made = drawn(kind, model, tick)
        events = [made] if isinstance(made, s.Event) else [] if kind == "HALT_f" else list(made)
        counts = [s.counter(1000, first=1, on=event) for event in events]
    numbers = [one for one in design.all_blocks()]
    columns = [list(column) for column in zip(*[inputs for inputs, _ in steps])]
    trace = traced(program, design, json.dumps(columns), 100 * len(steps) - 1)
    if kind == "HALT_f":
        assert trace == ["start", "event 0 1 1", "end halt"]
        return
    seen: dict[int, str] = {}
    date = 0
    for text in trace:
        words = text.split()
        if words[0] == "event":
            date = int(words[1])
        if words[0] == "val" and int(words[1]) in [numbers.index(count.block) + 1 for count in counts]:
            branch = [numbers.index(count.block) + 1 for count in counts].index(int(words[1])) + 1
            seen[date // 100] = str(date % 100 if KINDS[kind].programs else branch)
    assert [seen.get(step, "none") for step in range(len(steps))] == [outputs[0] for _, outputs in steps]
