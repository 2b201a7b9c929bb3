"""Comparisons, truths, tables and choices by a value."""
from __future__ import annotations

from collections.abc import Callable, Sequence
from itertools import product
from typing import SupportsIndex, Union

from .arithmetic import operand, operands
from .integers import IntType, listed, whole
from .levels import On
from .making import checked_signal, checked_type, make, same, scalar
from .origin import wrong
from .signals import Event, Operand, Signal

RELATIONS = {"==": 0, "!=": 1, "<": 2, "<=": 3, ">": 4, ">=": 5}
OPERATIONS = {"AND": 0, "OR": 1, "NAND": 2, "NOR": 3, "XOR": 4, "NOT": 5}
SWITCHES = {">=": 0, ">": 1, "!=": 2}
TURNED = {"<": ">=", "<=": ">", "==": "!="}  # what a switch compares by where its inputs change places

Row = Union[int, Sequence[int]]
Table = Union[Sequence[Row], Callable[..., Row]]


def relation(u1: Signal, operation: str, u2: Operand, *, type: IntType | None = None, on: On = None,
             name: str | None = None) -> Signal:
    """RELATIONALOP: 1 where u1 compares so with u2, else 0, as `u1 < u2`; of the type of u1 or of another.

    The operation is one of == != < <= > >=. Example: `relation(phase, "<", duty, type=uint8)`.
    """
    if not isinstance(operation, str) or operation not in RELATIONS:
        raise wrong(f"The comparison {operation!r} is none: take one of {', '.join(RELATIONS)}.")
    left = checked_signal(u1, operation)
    right = operand(u2, left, operation)
    kind, size = same([left, right], f"The comparison {operation}")
    made = kind if type is None else checked_type(type, "relation")
    return make("RELATIONALOP", "compared", [left, right], outputs=[(made, size)],
                ipar=[RELATIONS[operation]], on=on, name=name).signals[0]


def compared(a: Signal, operation: str, b: object) -> Signal:
    """The comparison of an operator."""
    if isinstance(b, (bool, Event)) or not isinstance(b, (Signal, SupportsIndex)):
        raise wrong(f"`{a.name}` ({a.line}) is compared by {operation} with {b!r}, and a signal compares with"
                    " signals and whole numbers alone.")
    return relation(a, operation, b if isinstance(b, Signal) else int(b))


def logical_op(*inputs: Signal, operation: str = "AND", bits: bool = False, on: On = None,
               name: str | None = None) -> Signal:
    """LOGICAL_OP: AND, OR, NAND, NOR or XOR of two or more inputs, or NOT of one: of truths, or bit by bit.

    Of truths ('not 0' is true) the result is 1 or 0. Example: `logical_op(a, b, operation="NOR")`.
    """
    if not isinstance(operation, str) or operation not in OPERATIONS:
        raise wrong(f"The operation {operation!r} is none: take one of {', '.join(OPERATIONS)}.")
    signals = [checked_signal(one, operation) for one in inputs]
    if (len(signals) == 1) != (operation == "NOT") or not signals:
        raise wrong(f"{operation} has {len(signals)} inputs here: NOT takes one, and the others two or more.")
    shape = same(signals, operation)
    return make("LOGICAL_OP", operation.lower(), signals, outputs=[shape],
                ipar=[OPERATIONS[operation], int(bits)], on=on, name=name).signals[0]


def both(*inputs: Signal, on: On = None, name: str | None = None) -> Signal:
    """LOGICAL_OP AND of truths: 1 where all inputs are not 0. Example: `both(asked, a < b)`."""
    return logical_op(*inputs, operation="AND", on=on, name=name)


def either(*inputs: Signal, on: On = None, name: str | None = None) -> Signal:
    """LOGICAL_OP OR of truths: 1 where any input is not 0. Example: `either(kitchen, study)`."""
    return logical_op(*inputs, operation="OR", on=on, name=name)


def negation(u1: Signal, *, on: On = None, name: str | None = None) -> Signal:
    """LOGICAL_OP NOT of a truth: 1 where u1 is 0, else 0. Example: `negation(pressed)`."""
    return logical_op(u1, operation="NOT", on=on, name=name)


def bitwise(a: Signal, operation: str, b: Operand) -> Signal:
    """The bit by bit operation of an operator."""
    return logical_op(a, operand(b, a, operation), operation=operation, bits=True)


def inverted(a: Signal) -> Signal:
    """All bits of a signal the other way round; of a truth this is refused, since ~1 isn't 0."""
    block = a.block
    if block is not None and (block.kind == "RELATIONALOP"
                              or (block.kind == "LOGICAL_OP" and block.ipar[1] == 0)):
        raise wrong(f"~ turns all bits, and `{a.name}` ({a.line}) is a truth: ~1 isn't 0. Take"
                    f" negation({a.name}).")
    return logical_op(a, operation="NOT", bits=True)


def switch(u2: Signal, comparison: str, number: int, u1: Operand, u3: Operand, *, type: IntType | None = None,
           on: On = None, name: str | None = None) -> Signal:
    """SWITCH2_m: u1 where u2 compares so with the number, else u3.

    The block itself knows >=, > and !=; by <, <= and == its two inputs change places.
    Between two numbers `type=` says what they are: `hot = switch(temperature, ">=", 190, 1, 0, type=uint8)`.
    Example: `heat = switch(temperature, ">=", 190, before, 1)`.
    """
    if isinstance(comparison, str) and comparison in TURNED:
        comparison, u1, u3 = TURNED[comparison], u3, u1
    if not isinstance(comparison, str) or comparison not in SWITCHES:
        raise wrong(f"A switch compares by one of {', '.join([*SWITCHES, *TURNED])}, and not by"
                    f" {comparison!r}.")
    control = scalar(checked_signal(u2, "switch"), "The control of a switch")
    if isinstance(number, Signal):
        raise wrong(f"A switch compares with a number of the design, and `{number.name}` ({number.line}) is a"
                    " signal. Compare first, and ask the truth: switch(a > b, \">\", 0, u1, u3).")
    whole(number, "The number of a switch", -2147483648, 4294967295)
    pair = operands([u1, u3], type, "A switch")
    shape = same(pair, "The switch")
    return make("SWITCH2_m", "switch", [pair[0], control, pair[1]], outputs=[shape],
                ipar=[SWITCHES[comparison], int(number)], on=on, name=name).signals[0]


def choose(*cases: tuple[On, Operand], type: IntType | None = None, name: str | None = None) -> Signal:
    """SELECT_m: the signal of the event that comes, the first of them where several do; 2 to 8 pairs of both.

    Between numbers alone `type=` says what they are: `choose((life, 0), (timeout, 1), type=uint8)`.
    Example: `state = choose((life, 0), (timeout, alarm))`.
    """
    if any(not isinstance(case, tuple) or len(case) != 2 for case in cases):
        raise wrong("choose takes pairs of an event and a signal: choose((tick, a), (other, b)).")
    for first, _ in cases:
        given: object = first
        if isinstance(given, Signal):
            raise wrong(f"choose takes pairs of an event and a signal, in this order, and `{given.name}`"
                        f" ({given.line}) is a signal where an event is wanted.")
    if len(cases) < 2:
        raise wrong(f"choose has 2 to 8 pairs of an event and a signal, and here are {len(cases)}.")
    signals = operands([value for _, value in cases], type, "choose")
    shape = same(signals, "choose")
    return make("SELECT_m", "chosen", signals, outputs=[shape], acts=[event for event, _ in cases],
                name=name).signals[0]


def logic(*inputs: Signal, table: Table, type: IntType | None = None, on: On = None,
          name: str | None = None) -> tuple[Signal, ...]:
    """LOGIC: for each row of truths the outputs, each 0 or 1.

    u1 is the most significant truth of the row's number.

    In place of the rows a function may stand, which gives the row of the
    truths that it is called with, each 0 or 1. The result is a tuple of the
    outputs. Example: `(differ,) = logic(a, b, table=[0, 1, 1, 0])`, or
    `table=lambda a, b: a != b`.
    """
    signals = [scalar(checked_signal(one, "logic"), "logic") for one in inputs]
    if not 1 <= len(signals) <= 8:
        raise wrong(f"logic has 1 to 8 inputs, and here are {len(signals)}.")
    if callable(table):
        table = [_row_of(table(*truths)) for truths in product((0, 1), repeat=len(signals))]
    rows = [listed(row, "A row") if isinstance(row, Sequence) else [row] for row in listed(table, "A table")]
    rows = [[whole(value, "A value of a table") for value in row] for row in rows]
    if len(rows) != 2 ** len(signals):
        raise wrong(f"logic has {len(signals)} inputs, so its table has {2 ** len(signals)} rows; here are"
                    f" {len(rows)}.")
    count = len(rows[0])
    if any(len(row) != count for row in rows) or not 1 <= count <= 8:
        raise wrong("The rows of a table have one length, of 1 to 8 outputs.")
    if any(value not in (0, 1) for row in rows for value in row):
        raise wrong("A table of logic has 0 and 1 alone.")
    made = signals[0].type if type is None else checked_type(type, "logic")
    block = make("LOGIC", "logic", signals, outputs=[(made, (1, 1))] * count,
                 ipar=[int(value) for row in rows for value in row], on=on, name=name)
    return tuple(block.signals)


def _row_of(found: Row) -> list[int]:
    """What a function gives as a row; a truth of Python stands for 0 or 1 there."""
    values = found if isinstance(found, Sequence) else [found]
    return [int(value) if isinstance(value, bool) else value for value in values]
