"""What the kinds' rows in docs/FORMAT.md ask of parameters, types and sizes, in words."""
from __future__ import annotations

from .flat import ACTIVATION, REGULAR, Item
from .integers import BY_CODE
from .kinds import KINDS
from .message_parts import plural

ONE_TYPE, ONE_SIZE, SCALARS = ("all its ports have one type", "all its ports have one size",
                               "all its ports are scalars")
TYPES = {"ANDLOG_f": "its output is an int32",
         "SWITCH2_m": "its first and third input and its output have one type",
         "GATED_DELAY": "its first input and its output have one type"}
SIZES = {"MUX": "its output has the rows of all its inputs together, and each port one column",
         "DEMUX": "its outputs have together the rows of its input, and each port has one column",
         "EXTRACTOR": "its output has a row for each entry of ipar, and one column",
         "SWITCH2_m": "its second input is a scalar, and its other ports have one size",
         "GATED_DELAY": "its second input is a scalar, and its other ports have one size"}
SIZES |= dict.fromkeys(("LOGIC", "REGISTER", "SENSOR", "Modulo_Count", "ANDLOG_f", "IFTHEL_f", "ESELECT_f",
                        "EVTVARDLY"),
                       SCALARS)
PARAMETERS = {
    "mode": "0 (wrap around), 1 (saturate) or 2 (stop)", "signs": "1 or -1 for each input",
    "sign": "1 (times) or -1 (over)", "which": "1 (the least) or 2 (the greatest)", "operation": "0 to 5",
    "bits": "0 (truths) or 1 (bit by bit)", "low": "within the block's type and at most high",
    "high": "within the block's type and at least low", "turned": "0 (shifted) or 1 (turned)",
    "last": "from the first bit to {last}", "n": "from -{last} to {last}", "bit": "from 0 to {last}",
    "comparison": "0 (>=), 1 (>) or 2 (not equal)", "number": "from -2147483648 to 4294967295",
    "table": "0 or 1",
    "base": "from 1 to 2147483647", "column": "from 1 to 255", "delay": "-1 (none) or from 0 to 2147483647",
    "elements": "from 1 to the number of elements", "factor": "within the block's type",
    "values": "within the block's type", "initial": "within the block's type"}


def type_rule(kind: str) -> str:
    """What a kind asks of the types at its ports."""
    return TYPES.get(kind, ONE_TYPE)


def size_rule(kind: str) -> str:
    """What a kind asks of the sizes at its ports."""
    return SIZES.get(kind, ONE_SIZE)


def bounds(item: Item | None, name: str, which: str) -> str:
    """Within which bounds a parameter has to be: the one called `which`, of the list `name`."""
    kind = item.kind if item else ""
    if kind == "Modulo_Count" and name == "dstate":
        return "from 0 to the base less 1"
    codes = item.numbers("intyp") if item else []
    width = BY_CODE[codes[0]].bits if codes and codes[0] in BY_CODE else 0
    which = "bit" if kind == "EXTRACTBITS" and which == "first" else which
    return PARAMETERS.get(which, "within its range").replace("{last}", str(width - 1) if width
                                                             else "the type's width less 1")


def length(item: Item | None, name: str) -> str:
    """How many values a kind has in a list of parameters."""
    kind = KINDS.get(item.kind) if item else None
    if kind is None or item is None:
        return "another number"
    inputs, outputs = item.ports(REGULAR, 1), item.ports(REGULAR, 0)
    names = {"ipar": kind.ipar,
             "dstate": kind.state}.get(name, ("first date",) if item.ports(ACTIVATION, 0) else ())
    if kind.name == "SUMMATION":
        return (f"{plural(1 + inputs, 'value')}: the mode, and a sign for each of its "
                f"{plural(inputs, 'input')}")
    if kind.name == "LOGIC":
        return (f"{plural(2**min(inputs, 8) * outputs, 'value')}: a row of {plural(outputs, 'output')} for "
                f"each of the 2^{inputs} rows")
    if kind.name in ("EXTRACTOR", "REGISTER"):
        return "from 1 to 256 values"
    if names in (("values",), ("initial",)):
        return "one value, or one for each element"
    return f"{plural(len(names), 'value')}: {' and '.join(names)}" if names else "none"
