#!/usr/bin/env python3
"""Writes crates/sci_rows/proofs/Refusals.antt: blocks with the rule and the numbers by which the check refuses them, or that pass
it, each proved by computing.

The expected answers are written here by hand, row by row, from the description of each kind. Run it at the top of the
repository.
"""

NAMES = """CONST_m Const, SUMMATION Summation, GAINBLK GainBlk, PRODUCT Product, ABS_VALUE AbsValue, SIGNUM Signum, MAXMIN MaxMin,
SATURATION Saturation, DEADBAND DeadBand, CONVERT Convert, MUX Mux, DEMUX Demux, EXTRACTOR Extractor, LOGICAL_OP LogicalOp,
RELATIONALOP RelationalOp, SHIFT Shift, BITSET BitSet, BITCLEAR BitClear, EXTRACTBITS ExtractBits, SWITCH2_m Switch2,
SELECT_m Select, LOGIC Logic, ANDLOG_f AndLog, DOLLAR_m Dollar, SAMPHOLD_m SampHold, REGISTER Register, Modulo_Count ModuloCount,
GATED_DELAY GatedDelay, SENSOR Sensor, EVTDLY_c EvtDly, EVTVARDLY EvtVarDly, IFTHEL_f IfThEl, ESELECT_f ESelect, HALT_f Halt"""
NAMES = dict(pair.split() for pair in NAMES.split(","))

# a block of each kind that passes: regular inputs and outputs, activation inputs and outputs, then its lists
BLOCKS = {
    "CONST_m": (0, 1, 0, 0, dict(ipar=[7])),
    "SUMMATION": (2, 1, 0, 0, dict(ipar=[0, 1, -1])),
    "GAINBLK": (1, 1, 0, 0, dict(ipar=[0, 3])),
    "PRODUCT": (2, 1, 0, 0, dict(ipar=[0, 1])),
    "ABS_VALUE": (1, 1, 0, 0, dict(ipar=[0])),
    "SIGNUM": (1, 1, 0, 0, {}),
    "MAXMIN": (2, 1, 0, 0, dict(ipar=[1])),
    "SATURATION": (1, 1, 0, 0, dict(ipar=[-5, 5])),
    "DEADBAND": (1, 1, 0, 0, dict(ipar=[0, -5, 5])),
    "CONVERT": (1, 1, 0, 0, dict(ipar=[0])),
    "MUX": (2, 1, 0, 0, {}),
    "DEMUX": (1, 2, 0, 0, {}),
    "EXTRACTOR": (1, 1, 0, 0, dict(ipar=[2, 1])),
    "LOGICAL_OP": (2, 1, 0, 0, dict(ipar=[0, 0])),
    "RELATIONALOP": (2, 1, 0, 0, dict(ipar=[0])),
    "SHIFT": (1, 1, 0, 0, dict(ipar=[3, 0])),
    "BITSET": (1, 1, 0, 0, dict(ipar=[3])),
    "BITCLEAR": (1, 1, 0, 0, dict(ipar=[3])),
    "EXTRACTBITS": (1, 1, 0, 0, dict(ipar=[1, 3])),
    "SWITCH2_m": (3, 1, 0, 0, dict(ipar=[0, 0])),
    "SELECT_m": (3, 1, 3, 0, {}),
    "LOGIC": (2, 1, 0, 0, dict(ipar=[0, 0, 0, 1])),
    "ANDLOG_f": (0, 1, 2, 0, {}),
    "DOLLAR_m": (1, 1, 1, 0, dict(dstate=[0])),
    "SAMPHOLD_m": (1, 1, 1, 0, {}),
    "REGISTER": (1, 1, 1, 0, dict(dstate=[0, 0])),
    "Modulo_Count": (0, 1, 1, 0, dict(ipar=[10], dstate=[0])),
    "GATED_DELAY": (2, 1, 1, 0, dict(dstate=[0])),
    "SENSOR": (0, 1, 1, 0, dict(ipar=[1])),
    "EVTDLY_c": (0, 0, 1, 1, dict(ipar=[5], firing=[0])),
    "EVTVARDLY": (1, 0, 1, 1, dict(firing=[-1])),
    "IFTHEL_f": (1, 0, 0, 2, {}),
    "ESELECT_f": (1, 0, 0, 3, {}),
    "HALT_f": (0, 0, 1, 0, {}),
}

PORTS, PARAMETER, TYPE, ACTIVE = "PortShape", "BadParameter", "NotInteger", "AlwaysActive"
ROWS, PASSING = [], []


def ports(n_in, n_out):
    """That many ports of each side, of unknown size and one type."""
    return dict(ins=[-1] * n_in, intyp=[5] * n_in, outs=[-1] * n_out, outtyp=[5] * n_out)


def fields(gui, changes):
    n_in, n_out, evtin, evtout, lists = BLOCKS[gui]
    f = dict(in2=[], out2=[], evtin=evtin, evtout=evtout, dstate=[], ipar=[], firing=[], dep=None)
    f.update(ports(n_in, n_out))
    f.update(lists)
    f.update(changes)
    return f


def refused(gui, rule, detail, **changes):
    ROWS.append((gui, fields(gui, changes), rule, detail))


def passes(gui, **changes):
    PASSING.append((gui, fields(gui, changes)))


def in_range(gui, field, index, least, most, around, **more):
    """The least and the most value pass, one beyond is refused."""
    for v, inside in ((least, True), (most, True), (least - 1, False), (most + 1, False)):
        values = around[:index - 1] + [v] + around[index:]
        if inside:
            passes(gui, **{field: values}, **more)
        else:
            refused(gui, PARAMETER, [{"ipar": 1, "dstate": 2, "firing": 3}[field], index, v], **{field: values}, **more)


def counts_of_ports():
    for gui in BLOCKS:
        n_in, n_out, evtin, evtout, _ = BLOCKS[gui]
        least, most = {"SUMMATION": (2, 64), "MAXMIN": (2, 64), "MUX": (2, 64), "LOGICAL_OP": (1, 64), "SELECT_m": (2, 8), "LOGIC": (1, 8)}.get(gui, (n_in, n_in))
        for n in (least - 1, most + 1):
            if n >= 0:
                refused(gui, PORTS, [1, n], **ports(n, n_out))
        least, most = {"DEMUX": (2, 64), "LOGIC": (1, 8)}.get(gui, (n_out, n_out))
        for n in (least - 1, most + 1):
            if n >= 0:
                refused(gui, PORTS, [2, n], **ports(n_in, n))
        fixed = {"CONST_m": 0, "ANDLOG_f": 2, "Modulo_Count": 1, "SENSOR": 1, "EVTDLY_c": 1, "EVTVARDLY": 1, "HALT_f": 1, "SELECT_m": 3}
        least, most = (fixed[gui], fixed[gui]) if gui in fixed else (0, 1)
        for n in {least, most}:
            passes(gui, evtin=n)
        for n in (least - 1, most + 1):
            if n >= 0:
                refused(gui, PORTS, [3, n], evtin=n)
        least, most = {"EVTDLY_c": (1, 1), "EVTVARDLY": (1, 1), "IFTHEL_f": (2, 2), "ESELECT_f": (2, 64)}.get(gui, (0, 0))
        for n in {least, most}:
            passes(gui, evtout=n)
        for n in (least - 1, most + 1):
            if n >= 0:
                refused(gui, PORTS, [4, n], evtout=n)
    passes("SUMMATION", **ports(64, 1), ipar=[2] + [1] * 64)
    passes("MAXMIN", **ports(64, 1))
    passes("MUX", **ports(64, 1))
    passes("DEMUX", **ports(1, 64))
    passes("LOGICAL_OP", **ports(64, 1))
    passes("SELECT_m", **ports(2, 1), evtin=2)
    passes("SELECT_m", **ports(8, 1), evtin=8)
    passes("LOGIC", **ports(1, 1), ipar=[0, 1])
    passes("LOGIC", **ports(3, 8), ipar=[0, 1] * 32)


def lengths():
    refused("SUMMATION", PORTS, [5, 1], in2=[1])
    refused("SUMMATION", PORTS, [5, 3], in2=[1, 1, 1])
    passes("SUMMATION", in2=[-1, -1])
    refused("CONST_m", PORTS, [5, 1], in2=[1])
    refused("SUMMATION", PORTS, [6, 1], intyp=[5])
    refused("SUMMATION", PORTS, [6, 0], intyp=[])
    refused("SUMMATION", PORTS, [6, 3], intyp=[5, 5, 5])
    passes("CONST_m", intyp=[0, 1, 2])
    refused("GAINBLK", PORTS, [7, 2], out2=[1, 1])
    passes("GAINBLK", out2=[4])
    refused("HALT_f", PORTS, [7, 1], out2=[1])
    refused("GAINBLK", PORTS, [8, 0], outtyp=[])
    refused("GAINBLK", PORTS, [8, 2], outtyp=[5, 5])
    passes("IFTHEL_f", outtyp=[0])
    refused("EVTDLY_c", PORTS, [9, 0], firing=[])
    refused("EVTDLY_c", PORTS, [9, 2], firing=[0, 0])
    refused("EVTVARDLY", PORTS, [9, 2], firing=[1, 1])
    passes("IFTHEL_f", firing=[])
    passes("IFTHEL_f", firing=[9, 9, 2147483648])
    passes("GAINBLK", firing=[2147483648])
    # each code before the next
    refused("SUMMATION", PORTS, [1, 1], ins=[1], outs=[], evtin=2, evtout=1, in2=[1, 1], intyp=[], out2=[1], outtyp=[5])
    refused("SUMMATION", PORTS, [2, 0], outs=[], evtin=2, evtout=1, in2=[1], intyp=[], out2=[1], outtyp=[5])
    refused("SUMMATION", PORTS, [3, 2], evtin=2, evtout=1, in2=[1], intyp=[], out2=[1, 1], outtyp=[])
    refused("SUMMATION", PORTS, [4, 1], evtout=1, in2=[1], intyp=[], out2=[1, 1], outtyp=[])
    refused("SUMMATION", PORTS, [5, 1], in2=[1], intyp=[], out2=[1, 1], outtyp=[])
    refused("SUMMATION", PORTS, [6, 0], intyp=[], out2=[1, 1], outtyp=[])
    refused("SUMMATION", PORTS, [7, 2], out2=[1, 1], outtyp=[])
    refused("EVTVARDLY", PORTS, [6, 0], intyp=[], firing=[])
    # the inputs' number of SELECT_m before the activation inputs, which are as many
    refused("SELECT_m", PORTS, [1, 9], **ports(9, 1), evtin=3)
    refused("SELECT_m", PORTS, [3, 2], evtin=2)
    refused("SELECT_m", PORTS, [3, 4], evtin=4)


def types():
    for ty in (0, 1, 2, 9, 100):
        refused("SUMMATION", TYPE, [1, 2, ty], intyp=[5, ty])
        refused("GAINBLK", TYPE, [2, 1, ty], outtyp=[ty])
    for ty in (3, 4, 5, 6, 7, 8, -1, -2147483648):
        passes("SUMMATION", intyp=[ty, ty])
    refused("DEMUX", TYPE, [2, 2, 9], outtyp=[3, 9])
    refused("SUMMATION", TYPE, [1, 1, 0], intyp=[0, 9], outtyp=[1])
    refused("SUMMATION", TYPE, [1, 2, 2], intyp=[3, 2], outtyp=[1])


def activity():
    refused("GAINBLK", ACTIVE, [], dep=(True, True))
    refused("DOLLAR_m", ACTIVE, [], dep=(False, True))
    refused("GATED_DELAY", ACTIVE, [], dep=([True], True))
    # a first part true gives each input feedthrough, also where the kind has none; false gives none, and isn't for a kind that
    # has an input with feedthrough
    for gui in BLOCKS:
        passes(gui, dep=(True, False))
        if gui in NO_FEEDTHROUGH:
            passes(gui, dep=(False, False))
        else:
            refused(gui, PARAMETER, [4, 1, 0], dep=(False, False))


def truths():
    """A list has one truth for each input, true where the kind's own input has feedthrough."""
    for gui in BLOCKS:
        n = BLOCKS[gui][0]
        passes(gui, dep=([True] * n, False))
        refused(gui, PARAMETER, [4, 0, n + 1], dep=([True] * (n + 1), False))
        if n > 0:
            refused(gui, PARAMETER, [4, 0, n - 1], dep=([True] * (n - 1), False))
            refused(gui, PARAMETER, [4, 0, 0], dep=([], False))
        if gui in NO_FEEDTHROUGH:
            passes(gui, dep=([False] * n, False))
            refused(gui, PARAMETER, [4, 0, n + 1], dep=([False] * (n + 1), False))
        elif gui != "GATED_DELAY":
            for k in range(n):
                refused(gui, PARAMETER, [4, k + 1, 0], dep=([True] * k + [False] + [True] * (n - k - 1), False))
            refused(gui, PARAMETER, [4, 1, 0], dep=([False] * n, False))
    # of GATED_DELAY the second input alone
    passes("GATED_DELAY", dep=([False, True], False))
    refused("GATED_DELAY", PARAMETER, [4, 2, 0], dep=([True, False], False))
    refused("GATED_DELAY", PARAMETER, [4, 2, 0], dep=([False, False], False))
    refused("GATED_DELAY", PARAMETER, [4, 0, 1], dep=([False], False))
    refused("GATED_DELAY", PARAMETER, [4, 0, 3], dep=([False, True, False], False))
    # the first that is false
    refused("SUMMATION", PARAMETER, [4, 2, 0], **ports(4, 1), ipar=[0, 1, 1, 1, 1], dep=([True, False, True, False], False))
    refused("SWITCH2_m", PARAMETER, [4, 2, 0], dep=([True, False, False], False))
    # the number of inputs is the block's own
    passes("LOGICAL_OP", **ports(3, 1), dep=([True, True, True], False))
    refused("LOGICAL_OP", PARAMETER, [4, 0, 2], **ports(3, 1), dep=([True, True], False))
    passes("SUMMATION", **ports(64, 1), ipar=[2] + [1] * 64, dep=([True] * 64, False))
    refused("SUMMATION", PARAMETER, [4, 64, 0], **ports(64, 1), ipar=[2] + [1] * 64, dep=([True] * 63 + [False], False))


def parameters():
    # lengths
    for gui in BLOCKS:
        if gui in ("CONST_m", "EXTRACTOR"):
            refused(gui, PARAMETER, [1, 0, 0], ipar=[])
            continue
        ipar = BLOCKS[gui][4].get("ipar", [])
        refused(gui, PARAMETER, [1, 0, len(ipar) + 1], ipar=ipar + [1])
        if ipar:
            refused(gui, PARAMETER, [1, 0, len(ipar) - 1], ipar=ipar[:-1])
    passes("CONST_m", ipar=[1, 2, 3])
    passes("EXTRACTOR", ipar=[1] * 256)
    refused("EXTRACTOR", PARAMETER, [1, 0, 257], ipar=[1] * 257)
    # entries
    in_range("SUMMATION", "ipar", 1, 0, 2, [0, 1, -1])
    for k in (2, 3):
        for s in (0, 2, -2):
            refused("SUMMATION", PARAMETER, [1, k, s], ipar=[0, 1, s] if k == 3 else [0, s, 1])
    in_range("GAINBLK", "ipar", 1, 0, 2, [0, 3])
    passes("GAINBLK", ipar=[0, 9223372036854775807])
    in_range("PRODUCT", "ipar", 1, 0, 2, [0, 1])
    for d in (0, 2, -2):
        refused("PRODUCT", PARAMETER, [1, 2, d], ipar=[0, d])
    passes("PRODUCT", ipar=[2, -1])
    in_range("ABS_VALUE", "ipar", 1, 0, 2, [0])
    in_range("MAXMIN", "ipar", 1, 1, 2, [1])
    passes("SATURATION", ipar=[5, 5])
    refused("SATURATION", PARAMETER, [1, 2, 4], ipar=[5, 4])
    in_range("DEADBAND", "ipar", 1, 0, 2, [0, -5, 5])
    passes("DEADBAND", ipar=[0, 5, 5])
    refused("DEADBAND", PARAMETER, [1, 3, 4], ipar=[0, 5, 4])
    refused("DEADBAND", PARAMETER, [1, 1, 3], ipar=[3, 5, 4])
    in_range("CONVERT", "ipar", 1, 0, 2, [0])
    refused("EXTRACTOR", PARAMETER, [1, 2, 0], ipar=[1, 0, -1])
    refused("EXTRACTOR", PARAMETER, [1, 1, -3], ipar=[-3])
    passes("EXTRACTOR", ipar=[1000000])
    in_range("LOGICAL_OP", "ipar", 1, 0, 4, [0, 0])
    refused("LOGICAL_OP", PARAMETER, [1, 1, 6], ipar=[6, 2])
    in_range("LOGICAL_OP", "ipar", 1, 5, 5, [5, 1], **ports(1, 1))
    in_range("LOGICAL_OP", "ipar", 2, 0, 1, [4, 0])
    in_range("RELATIONALOP", "ipar", 1, 0, 5, [0])
    in_range("SHIFT", "ipar", 1, -31, 31, [0, 0])
    in_range("SHIFT", "ipar", 2, 0, 1, [-31, 0])
    in_range("BITSET", "ipar", 1, 0, 31, [0])
    in_range("BITCLEAR", "ipar", 1, 0, 31, [0])
    refused("EXTRACTBITS", PARAMETER, [1, 1, -1], ipar=[-1, 0])
    refused("EXTRACTBITS", PARAMETER, [1, 1, 32], ipar=[32, 32])
    refused("EXTRACTBITS", PARAMETER, [1, 2, 32], ipar=[31, 32])
    refused("EXTRACTBITS", PARAMETER, [1, 2, 3], ipar=[4, 3])
    passes("EXTRACTBITS", ipar=[4, 4])
    passes("EXTRACTBITS", ipar=[0, 31])
    in_range("SWITCH2_m", "ipar", 1, 0, 2, [0, 0])
    in_range("SWITCH2_m", "ipar", 2, -2147483648, 4294967295, [0, 0])
    refused("LOGIC", PARAMETER, [1, 3, 2], ipar=[0, 1, 2, -1])
    refused("LOGIC", PARAMETER, [1, 1, -1], ipar=[-1, 1, 2, 1])
    refused("LOGIC", PARAMETER, [1, 0, 4], **ports(2, 2))
    in_range("Modulo_Count", "ipar", 1, 1, 2147483647, [10])
    in_range("SENSOR", "ipar", 1, 1, 255, [1])
    in_range("EVTDLY_c", "ipar", 1, -1, 2147483647, [5])


def states():
    for gui in ("DOLLAR_m", "GATED_DELAY", "REGISTER", "Modulo_Count"):
        refused(gui, PARAMETER, [2, 0, 0], dstate=[])
    passes("DOLLAR_m", dstate=[1000000, 2, 3])
    passes("GATED_DELAY", dstate=[1, 2])
    passes("REGISTER", dstate=[1] * 256)
    refused("REGISTER", PARAMETER, [2, 0, 257], dstate=[1] * 257)
    refused("Modulo_Count", PARAMETER, [2, 0, 2], dstate=[0, 0])
    in_range("Modulo_Count", "dstate", 1, 0, 9, [0])
    # a state that the kind doesn't have isn't looked at, and no part of the spec
    passes("GAINBLK", dstate=[9, 9, 9])


def first_dates():
    for gui in ("EVTDLY_c", "EVTVARDLY"):
        passes(gui, firing=[2147483647])
        passes(gui, firing=[-9223372036854775808])
        refused(gui, PARAMETER, [3, 1, 2147483648], firing=[2147483648])


def order_of_rules():
    all_wrong = dict(intyp=[5, 9], outtyp=[0], dep=(False, True), ipar=[3, 0, 2])
    refused("SUMMATION", PORTS, [2, 2], **{**all_wrong, "outs": [1, 1], "outtyp": [0, 0]})
    refused("SUMMATION", TYPE, [1, 2, 9], **all_wrong)
    refused("SUMMATION", TYPE, [2, 1, 0], **{**all_wrong, "intyp": [5, 5]})
    refused("SUMMATION", ACTIVE, [], **{**all_wrong, "intyp": [5, 5], "outtyp": [5]})
    refused("SUMMATION", PARAMETER, [1, 1, 3], ipar=[3, 0, 2], dep=(False, False))
    refused("SUMMATION", PARAMETER, [1, 2, 0], ipar=[2, 0, 2], dep=(False, False))
    refused("SUMMATION", PARAMETER, [1, 3, 2], ipar=[2, -1, 2], dep=(False, False))
    refused("SUMMATION", PARAMETER, [4, 1, 0], ipar=[2, -1, 1], dep=(False, False))
    refused("Modulo_Count", PARAMETER, [1, 0, 2], ipar=[0, 0], dstate=[])
    refused("Modulo_Count", PARAMETER, [1, 1, 0], ipar=[0], dstate=[])
    refused("Modulo_Count", PARAMETER, [2, 0, 0], ipar=[1], dstate=[])
    refused("Modulo_Count", PARAMETER, [2, 1, 1], ipar=[1], dstate=[1])
    refused("GATED_DELAY", PARAMETER, [1, 0, 1], ipar=[0], dstate=[], dep=(False, False))
    refused("GATED_DELAY", PARAMETER, [2, 0, 0], dstate=[], dep=(False, False))
    refused("GATED_DELAY", PARAMETER, [4, 1, 0], dep=(False, False))
    refused("GATED_DELAY", PARAMETER, [2, 0, 0], dstate=[], dep=([True], False))
    refused("EVTDLY_c", PARAMETER, [3, 1, 2147483648], firing=[2147483648], dep=([False], False))
    refused("EVTDLY_c", PARAMETER, [4, 0, 1], dep=([False], False))
    refused("EVTVARDLY", PARAMETER, [4, 0, 2], dep=([True, True], False))
    refused("EVTDLY_c", PARAMETER, [1, 1, -2], ipar=[-2], firing=[2147483648])
    refused("EVTDLY_c", PARAMETER, [3, 1, 2147483648], ipar=[-1], firing=[2147483648])


def integer(v):
    return f"pos {v}" if v >= 0 else f"negsuc {-v - 1}"


def integers(vs):
    if len(vs) > 8 and len(set(vs)) == 1:
        return f"(many {len(vs)} ({integer(vs[0])}))"
    return "(" + "".join(f"{integer(v)} ∷ " for v in vs) + "[])" if vs else "[]"


def truth_list(ts):
    if len(ts) > 8 and len(set(ts)) == 1:
        return f"(many {len(ts)} {str(ts[0]).lower()})"
    return "(" + "".join(f"{str(t).lower()} ∷ " for t in ts) + "[])" if ts else "[]"


def dependence(dep):
    if dep is None:
        return "None"
    part, always = dep
    if isinstance(part, list):
        return f"(each {truth_list(part)} {str(always).lower()})"
    return f"(all {str(part).lower()} {str(always).lower()})"


def record(f):
    dep = dependence(f["dep"])
    lists = " ".join(integers(f[n]) for n in ("ins", "in2", "intyp", "outs", "out2", "outtyp"))
    return f"({lists} {f['evtin']} {f['evtout']} {integers(f['dstate'])} {integers(f['ipar'])} {integers(f['firing'])} {dep})".replace("(", "(fields ", 1)


NO_FEEDTHROUGH = ("CONST_m", "ANDLOG_f", "DOLLAR_m", "REGISTER", "Modulo_Count", "SENSOR", "EVTDLY_c", "EVTVARDLY", "HALT_f")
WITH_STATE = ("DOLLAR_m", "REGISTER", "Modulo_Count", "GATED_DELAY")
WITH_DATE = ("EVTDLY_c", "EVTVARDLY")


def port_list(rows, cols, types):
    ports = [(r, cols[k] if cols else 1, types[k]) for k, r in enumerate(rows)]
    if not ports:
        return "[]"
    if len(ports) > 8 and len(set(ports)) == 1:
        return f"(many {len(ports)} {port(*ports[0])})"
    return "(" + "".join(port(*p) + " ∷ " for p in ports) + "[])"


def port(rows, cols, ty):
    return f"(port ({integer(rows)}) ({integer(cols)}) ({integer(ty)}))"


def feed(gui, f):
    """Of each input whether it has feedthrough: as it is declared, or the kind's own."""
    n = len(f["ins"])
    if f["dep"] is None:
        return [k == 1 for k in range(n)] if gui == "GATED_DELAY" else [gui not in NO_FEEDTHROUGH] * n
    part = f["dep"][0]
    return part if isinstance(part, list) else [part] * n


def spec(gui, f):
    """The spec of a block that passes."""
    state = f["dstate"] if gui in WITH_STATE else []
    firing = f["firing"] if gui in WITH_DATE else []
    sides = port_list(f["ins"], f["in2"], f["intyp"]) + " " + port_list(f["outs"], f["out2"], f["outtyp"])
    return f"(block {NAMES[gui]} {integers(f['ipar'])} {integers(state)} {integers(firing)} {sides} {f['evtin']} {f['evtout']} {truth_list(feed(gui, f))})"


HEAD = '''-- Blocks that the check refuses, with the rule and its numbers, and blocks that pass. Written by tools/refusal_rows.py.
use Rattle.std.proofs.Common.{◌≡◌, ℕ, zero, suc, ℤ, pos, negsuc, List, [], ◌∷◌, Bool, true, false, Option, Some, None, Ok, Err, refl}
use Rattle.std.specs.Prelude.{codes}
use Rattle.sci_base.specs.declared.refusal.Rule.{Rule}
use Rattle.sci_base.specs.declared.refusal.Rule.TheVariants.{UnknownBlock, BadParameter, PortShape, NotInteger, AlwaysActive}
use Rattle.sci_base.specs.Plain.{Fields, Dependence, all_inputs, each_input}
use Rattle.sci_forms.specs.declared.Kind.{Kind}
use Rattle.sci_forms.specs.declared.Kind.TheVariants.{%s}
use Rattle.sci_forms.specs.declared.ports.Port.{Port}
use Rattle.sci_forms.specs.declared.spec.Spec.{Spec}
use Rattle.sci_check.specs.Check.{checked}

abbrev fields : List ℤ → List ℤ → List ℤ → List ℤ → List ℤ → List ℤ → ℕ → ℕ → List ℤ → List ℤ → List ℤ → Option Dependence → Fields
fields a b c d e f g h i j k l =
    record { ins = a; in2 = b; intyp = c; outs = d; out2 = e; outtyp = f; evtin = g; evtout = h; dstate = i; ipar = j; firing = k; dep = l }

-- what is declared of all inputs, or of each, and whether the block is always active
abbrev all : Bool → Bool → Option Dependence
all b a = Some (record { part = all_inputs b; always = a })

abbrev each : List Bool → Bool → Option Dependence
each ts a = Some (record { part = each_input ts; always = a })

abbrev many : {A : Type 0} → ℕ → A → List A
many zero v = []
many (suc n) v = v ∷ many n v

abbrev place : List ℕ
place = 2 ∷ 1 ∷ []

-- the block of this name with these fields breaks this rule, with these numbers
abbrev Refuses : List ℕ → Fields → Rule → List ℤ → Type 0
Refuses gui f r d = checked place gui f ≡ Err (record { rule = r; place = place; detail = d })

abbrev port : ℤ → ℤ → ℤ → Port
port r c t = record { rows = r; cols = c; ty = t }

-- a spec by its kind, parameters, state, first dates, inputs, outputs, counts of activation ports and feedthrough
abbrev block : Kind → List ℤ → List ℤ → List ℤ → List Port → List Port → ℕ → ℕ → List Bool → Spec
block k ps xs fs is os a b d = record { kind = k; params = ps; state = xs; firing = fs; ins = is; outs = os; evtin = a; evtout = b; feed = d }

-- it passes, with this spec
abbrev Passes : List ℕ → Fields → Spec → Type 0
Passes gui f s = checked place gui f ≡ Ok s
'''


def main():
    for part in (counts_of_ports, lengths, types, activity, truths, parameters, states, first_dates, order_of_rules):
        part()
    out = [HEAD % ", ".join(NAMES[g] for g in BLOCKS)]
    gain = record(fields("GAINBLK", dict(dep=(True, True))))
    for i, name in enumerate(("", "GAINBLK ", "gainblk", "CONST", "SPLIT_f", "SUMMATIONS")):
        out.append(f'unknown{i + 1} : Refuses (codes "{name}") {gain} UnknownBlock []\nunknown{i + 1} = refl\n')
    for i, (gui, f, rule, detail) in enumerate(ROWS):
        out.append(f'refused{i + 1} : Refuses (codes "{gui}") {record(f)} {rule} {integers(detail)}\nrefused{i + 1} = refl\n')
    for i, (gui, f) in enumerate(PASSING):
        out.append(f'passes{i + 1} : Passes (codes "{gui}") {record(f)} {spec(gui, f)}\npasses{i + 1} = refl\n')
    with open("crates/sci_rows/proofs/Refusals.antt", "w") as f:
        f.write("\n".join(out))
    print(len(ROWS) + 6, "refusals,", len(PASSING), "that pass")


if __name__ == "__main__":
    main()
