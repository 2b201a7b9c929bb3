"""Parameters and ports of blocks in words, for the report."""
from __future__ import annotations

from .flat import ACTIVATION, REGULAR, Block, Flat, Item
from .flat_wiring import End, Wiring
from .kinds import KINDS

MODES = {0: "0 (wrap around)", 1: "1 (saturate)", 2: "2 (stop the run)"}
RELATIONS = {0: "=", 1: "≠", 2: "<", 3: "≤", 4: ">", 5: "≥"}
OPERATIONS = {0: "AND", 1: "OR", 2: "NAND", 3: "NOR", 4: "XOR", 5: "NOT"}
COMPARISONS = {0: "≥", 1: ">", 2: "≠"}
WORDS: dict[tuple[str, str], dict[int, str]] = {
    ("", "mode"): MODES, ("", "signs"): {1: "+", -1: "−"}, ("", "bits"): {0: "of truths", 1: "bit by bit"},
    ("", "turned"): {0: "0 (shifted)", 1: "1 (turned)"}, ("", "comparison"): COMPARISONS,
    ("MAXMIN", "which"): {1: "1 (least)", 2: "2 (greatest)"},
    ("PRODUCT", "sign"): {1: "1 (u1 times u2)", -1: "-1 (u1 over u2)"},
    ("RELATIONALOP", "operation"): RELATIONS, ("LOGICAL_OP", "operation"): OPERATIONS}
SEVERAL = ("values", "signs", "elements", "table")
MOST_SHOWN = 64


def told(kind: str, name: str, value: object) -> str:
    """One value of a parameter."""
    words = WORDS.get((kind, name)) or WORDS.get(("", name)) or {}
    return words.get(value, str(value)) if isinstance(value, int) else str(value)


def listed(kind: str, name: str, values: list[object]) -> str:
    """The values of a parameter, the first of them where there are many."""
    text = " ".join(told(kind, name, value) for value in values[:MOST_SHOWN])
    return text + (f" .. ({len(values)} in all)" if len(values) > MOST_SHOWN else "")


def parameters(item: Item) -> list[tuple[str, str]]:
    """The parameters of a block by name, as docs/FORMAT.md has them; odd data as it stands.

    >>> from .flat import Item
    >>> parameters(Item((1,), {"obj": "Block", "gui": "GAINBLK", "model": {"ipar": [1, 3]}}, 1))
    [('mode', '1 (saturate)'), ('factor', '3')]
    """
    kind, row = item.kind, KINDS.get(item.kind)
    values, found = item.entries("ipar"), []
    if row is None:
        return [("ipar", listed(kind, "ipar", values))] if values else []
    for at, name in enumerate(row.ipar):
        part = values[at:] if name in SEVERAL else values[at:at + 1]
        if part:
            found.append((name, listed(kind, name, part)))
    over = [] if row.ipar and row.ipar[-1] in SEVERAL else values[len(row.ipar):]
    if over:
        found.append(("further", listed(kind, "", over)))
    for name in row.state:
        state = item.entries("firing" if row.programs else "dstate")
        if state:
            found.append(("first date" if row.programs else "first value" if name == "first" else name,
                          "none" if row.programs and _is_none(state[0]) else listed(kind, name, state)))
    return found


def _is_none(value: object) -> bool:
    return isinstance(value, int) and value < 0


def brief(item: Item) -> str:
    """The parameters in a few letters, for the drawing; '' where there are none that say much.

    >>> from .flat import Item
    >>> brief(Item((1,), {"obj": "Block", "gui": "SATURATION", "model": {"ipar": [0, 9]}}, 1))
    '0 .. 9'
    """
    kind, values = item.kind, item.numbers("ipar")
    state = item.numbers("dstate")
    if kind in ("DOLLAR_m", "REGISTER", "GATED_DELAY"):
        return _few("first ", state)
    if not values:
        return ""
    last = values[-1]
    words = {"CONST_m": _few("", values), "GAINBLK": f"× {last}", "SATURATION": f"{values[0]} .. {last}",
             "DEADBAND": f"{values[-2] if len(values) > 1 else 0} .. {last}", "SENSOR": f"column {last}",
             "PRODUCT": "u1 × u2" if last == 1 else "u1 / u2", "SHIFT": f"by {values[0]}",
             "MAXMIN": "least" if last == 1 else "greatest",
             "RELATIONALOP": f"u1 {RELATIONS.get(last, '?')} u2",
             "LOGICAL_OP": OPERATIONS.get(values[0], "?"),
             "SWITCH2_m": f"u2 {COMPARISONS.get(values[0], '?')} {last}", "Modulo_Count": f"modulo {last}",
             "EVTDLY_c": "no delay" if last < 0 else f"after {last}", "BITSET": f"bit {last}",
             "BITCLEAR": f"bit {last}",
             "EXTRACTBITS": f"bits {values[0]} .. {last}", "EXTRACTOR": _few("", values)}
    return words.get(kind, "")


def _few(word: str, values: list[int]) -> str:
    return word + " ".join(map(str, values[:4])) + (" .." if len(values) > 4 else "") if values else ""


def port_name(flat: Flat, end: End, kind: int, side: int) -> str:
    """A port of a block, as `boiler`, or `boiler, input 2` where the block has several."""
    block = flat.block(end.block)
    several = block is not None and block.item.ports(kind, side) > 1
    what = ("activation " if kind == ACTIVATION else "") + ("input" if side else "output")
    return flat.name(end.block) + (f", {what} {end.port}" if several else "")


PortRow = tuple[str, str, list[tuple[int, str]]]
"""A port, its type, and the ports at the other end by number of block and name."""


def ports(flat: Flat, wiring: Wiring, block: Block, types: list[str]) -> list[PortRow]:
    """Each port of a block with its type and what is at the other end."""
    rows: list[PortRow] = []
    for kind, side in ((REGULAR, 1), (ACTIVATION, 1), (REGULAR, 0), (ACTIVATION, 0)):
        for port in range(1, min(block.item.ports(kind, side), MOST_SHOWN) + 1):
            own = End(block.number, port)
            ends = (wiring.fed if side else wiring.feeds).get((kind, own), [])
            what = ("activation " if kind == ACTIVATION else "") + ("input" if side else "output")
            type_ = types[port - 1] if (kind, side) == (REGULAR, 0) and port <= len(types) else ""
            rows.append((f"{what} {port}", type_,
                         [(end.block, port_name(flat, end, kind, 1 - side)) for end in ends]))
    return rows
