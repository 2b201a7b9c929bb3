"""The 34 kinds of block: for each its ports, parameters and feedthrough, as docs/FORMAT.md has them."""
from __future__ import annotations

from dataclasses import dataclass

Range = tuple[int, int]


@dataclass(frozen=True)
class Kind:
    """One kind of block.

    The numbers of ports are ranges (least, most). `activated` says that the block has activation inputs
    always; else it may have one or none. `feedthrough` names the inputs on which the outputs depend at once:
    "all", "none", or "second" (the gate of GATED_DELAY). `made_by` names the functions of this package that
    draw it.
    Example: `KINDS["SUMMATION"].inputs` is (2, 64).
    """

    name: str
    inputs: Range
    outputs: Range
    activations: Range
    events: Range
    feedthrough: str
    ipar: tuple[str, ...]
    state: tuple[str, ...]
    made_by: tuple[str, ...]

    @property
    def activated(self) -> bool:
        """Whether the block has activation inputs always."""
        return self.activations[0] > 0

    @property
    def programs(self) -> bool:
        """Whether the block programs events: its activation output is a source of reactions."""
        return self.name in ("EVTDLY_c", "EVTVARDLY")

    @property
    def decides(self) -> bool:
        """Whether the block activates its outputs at once, as a condition does."""
        return self.name in ("IFTHEL_f", "ESELECT_f")


def _row(name: str, inputs: Range, outputs: Range, activations: Range, ft: str, made_by: str, ipar: str = "",
         state: str = "", events: Range = (0, 0)) -> Kind:
    return Kind(name, inputs, outputs, activations, events, ft, tuple(ipar.split()), tuple(state.split()),
                tuple(made_by.split()))


NONE, ONE, TWO, THREE = (0, 0), (1, 1), (2, 2), (3, 3)
MAYBE, SEVERAL, EIGHT = (0, 1), (2, 64), (1, 8)

_ROWS = (
    _row("CONST_m", NONE, ONE, NONE, "none", "constant", "values"),
    _row("SUMMATION", SEVERAL, ONE, MAYBE, "all", "summation", "mode signs"),
    _row("GAINBLK", ONE, ONE, MAYBE, "all", "gain", "mode factor"),
    _row("PRODUCT", TWO, ONE, MAYBE, "all", "product quotient", "mode sign"),
    _row("ABS_VALUE", ONE, ONE, MAYBE, "all", "abs_value", "mode"),
    _row("SIGNUM", ONE, ONE, MAYBE, "all", "signum"),
    _row("MAXMIN", SEVERAL, ONE, MAYBE, "all", "least greatest", "which"),
    _row("SATURATION", ONE, ONE, MAYBE, "all", "saturation", "low high"),
    _row("DEADBAND", ONE, ONE, MAYBE, "all", "deadband", "mode low high"),
    _row("CONVERT", ONE, ONE, MAYBE, "all", "convert", "mode"),
    _row("MUX", SEVERAL, ONE, MAYBE, "all", "mux"),
    _row("DEMUX", ONE, SEVERAL, MAYBE, "all", "demux"),
    _row("EXTRACTOR", ONE, ONE, MAYBE, "all", "extractor", "elements"),
    _row("LOGICAL_OP", (1, 64), ONE, MAYBE, "all", "logical_op both either negation", "operation bits"),
    _row("RELATIONALOP", TWO, ONE, MAYBE, "all", "relation", "operation"),
    _row("SHIFT", ONE, ONE, MAYBE, "all", "shift rotate", "n turned"),
    _row("BITSET", ONE, ONE, MAYBE, "all", "bitset", "bit"),
    _row("BITCLEAR", ONE, ONE, MAYBE, "all", "bitclear", "bit"),
    _row("EXTRACTBITS", ONE, ONE, MAYBE, "all", "extractbits", "first last"),
    _row("SWITCH2_m", THREE, ONE, MAYBE, "all", "switch", "comparison number"),
    _row("SELECT_m", (2, 8), ONE, (2, 8), "all", "choose"),
    _row("LOGIC", EIGHT, EIGHT, MAYBE, "all", "logic", "table"),
    _row("ANDLOG_f", NONE, ONE, TWO, "none", "andlog"),
    _row("DOLLAR_m", ONE, ONE, MAYBE, "none", "delay", "", "initial"),
    _row("SAMPHOLD_m", ONE, ONE, MAYBE, "all", "hold"),
    _row("REGISTER", ONE, ONE, MAYBE, "none", "register", "", "values"),
    _row("Modulo_Count", NONE, ONE, ONE, "none", "counter", "base", "first"),
    _row("GATED_DELAY", TWO, ONE, MAYBE, "second", "gated_delay", "", "initial"),
    _row("SENSOR", NONE, ONE, ONE, "none", "sensor", "column"),
    _row("EVTDLY_c", NONE, NONE, ONE, "none", "clock timer", "delay", "first", ONE),
    _row("EVTVARDLY", ONE, NONE, ONE, "none", "variable_timer", "", "first", ONE),
    _row("IFTHEL_f", ONE, NONE, MAYBE, "all", "when", "", "", TWO),
    _row("ESELECT_f", ONE, NONE, MAYBE, "all", "select", "", "", SEVERAL),
    _row("HALT_f", NONE, NONE, ONE, "none", "halt"),
)

KINDS = {row.name: row for row in _ROWS}

MOST_BLOCKS = 2048
MOST_LINKS = 16384
MOST_TAGS = 1024
MOST_LEVELS = 16
MOST_ELEMENTS = 256
MOST_ELEMENTS_IN_ALL = 65536
