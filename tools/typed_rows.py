#!/usr/bin/env python3
"""Writes crates/sci_rows/proofs/TypedRows.antt: specs of known ports with the rule on types or sizes that they break, typed specs
and others, and the length of their states, each proved by computing.

The expected answers are written here by hand, from the description of each kind. Run it at the top of the repository.
"""

from refusal_rows import NAMES, NO_FEEDTHROUGH, integer, integers

# a port is rows, columns and the code of its type
P, S = (2, 3, 5), (1, 1, 5)

# a typed spec of each kind: inputs, outputs, then what else it has
SPECS = {
    "CONST_m": ([], [P], dict(params=[7])),
    "SUMMATION": ([P, P], [P], dict(params=[0, 1, -1])),
    "GAINBLK": ([P], [P], dict(params=[0, 3])),
    "PRODUCT": ([P, P], [P], dict(params=[0, 1])),
    "ABS_VALUE": ([P], [P], dict(params=[0])),
    "SIGNUM": ([P], [P], {}),
    "MAXMIN": ([P, P], [P], dict(params=[1])),
    "SATURATION": ([P], [P], dict(params=[-5, 5])),
    "DEADBAND": ([P], [P], dict(params=[0, -5, 5])),
    "CONVERT": ([P], [(2, 3, 8)], dict(params=[0])),
    "MUX": ([(2, 1, 5), (1, 1, 5)], [(3, 1, 5)], {}),
    "DEMUX": ([(3, 1, 5)], [(2, 1, 5), (1, 1, 5)], {}),
    "EXTRACTOR": ([P], [(2, 1, 5)], dict(params=[6, 1])),
    "LOGICAL_OP": ([P, P], [P], dict(params=[0, 0])),
    "RELATIONALOP": ([P, P], [(2, 3, 4)], dict(params=[0])),
    "SHIFT": ([P], [P], dict(params=[7, 0])),
    "BITSET": ([P], [P], dict(params=[7])),
    "BITCLEAR": ([P], [P], dict(params=[7])),
    "EXTRACTBITS": ([P], [P], dict(params=[1, 7])),
    "SWITCH2_m": ([P, (1, 1, 8), P], [P], dict(params=[0, 0])),
    "SELECT_m": ([P, P, P], [P], dict(evtin=3)),
    "LOGIC": ([S, (1, 1, 3)], [(1, 1, 8)], dict(params=[0, 0, 0, 1])),
    "ANDLOG_f": ([], [(1, 1, 3)], dict(evtin=2)),
    "DOLLAR_m": ([P], [P], dict(state=[0])),
    "SAMPHOLD_m": ([P], [P], {}),
    "REGISTER": ([S], [S], dict(state=[0, 1, 2])),
    "Modulo_Count": ([], [S], dict(params=[10], state=[0], evtin=1)),
    "GATED_DELAY": ([P, (1, 1, 3)], [P], dict(state=[1, 2, 3, 4, 5, 6])),
    "SENSOR": ([], [S], dict(params=[1], evtin=1)),
    "EVTDLY_c": ([], [], dict(params=[5], firing=[0], evtin=1, evtout=1)),
    "EVTVARDLY": ([S], [], dict(firing=[-1], evtin=1, evtout=1)),
    "IFTHEL_f": ([S], [], dict(evtout=2)),
    "ESELECT_f": ([S], [], dict(evtout=3)),
    "HALT_f": ([], [], dict(evtin=1)),
}
LENGTHS = {"DOLLAR_m": 6, "REGISTER": 3, "Modulo_Count": 1, "GATED_DELAY": 6}
ROWS = []


def truths(ts):
    return "(" + "".join(f"{str(t).lower()} ∷ " for t in ts) + "[])" if ts else "[]"


def spec(gui, **changes):
    ins, outs, more = SPECS[gui]
    s = dict(ins=ins, outs=outs, params=[], state=[], firing=[], evtin=0, evtout=0)
    s.update(more)
    s.update(changes)
    s.setdefault("feed", [k == 1 if gui == "GATED_DELAY" else gui not in NO_FEEDTHROUGH for k in range(len(s["ins"]))])
    ports = lambda side: "(" + "".join(f"port ({integer(r)}) ({integer(c)}) ({integer(t)}) ∷ " for r, c, t in s[side]) + "[])"
    return (f"(block {NAMES[gui]} {integers(s['params'])} {integers(s['state'])} {integers(s['firing'])} {ports('ins')} {ports('outs')}"
            f" {s['evtin']} {s['evtout']} {truths(s['feed'])})")


def row(word, *arguments):
    ROWS.append(f"row{len(ROWS) + 1} : {word} {' '.join(map(str, arguments))}\nrow{len(ROWS) + 1} = refl\n")


def type_not_here(gui, a, b, c, **changes):
    row("TypesBroken", spec(gui, **changes), f"({integer(a)}) ({integer(b)}) ({integer(c)})")


def shape(gui, a, b, c, **changes):
    row("SizesBroken", spec(gui, **changes), f"({integer(a)}) ({integer(b)}) ({integer(c)})")


def typed(gui, **changes):
    row("IsTyped", spec(gui, **changes))


def not_typed(gui, **changes):
    row("IsNotTyped", spec(gui, **changes))


def of_types():
    other = (2, 3, 4)
    for gui in ("GAINBLK", "ABS_VALUE", "SIGNUM", "SATURATION", "DEADBAND", "SHIFT", "BITSET", "BITCLEAR", "EXTRACTBITS", "DOLLAR_m", "SAMPHOLD_m"):
        type_not_here(gui, 1, 2, 1, outs=[other])
    for gui in ("SUMMATION", "PRODUCT", "MAXMIN", "LOGICAL_OP"):
        type_not_here(gui, 1, 1, 2, ins=[P, other])
        type_not_here(gui, 1, 1, 2, ins=[P, other], outs=[other])
        type_not_here(gui, 1, 2, 1, outs=[other])
    type_not_here("RELATIONALOP", 1, 1, 2, ins=[P, other])
    type_not_here("MUX", 1, 1, 2, ins=[(2, 1, 5), (1, 1, 4)])
    type_not_here("MUX", 1, 2, 1, outs=[(3, 1, 4)])
    type_not_here("DEMUX", 1, 2, 1, outs=[(2, 1, 4), (1, 1, 4)])
    type_not_here("DEMUX", 1, 2, 2, outs=[(2, 1, 5), (1, 1, 4)])
    type_not_here("EXTRACTOR", 1, 2, 1, outs=[(2, 1, 4)])
    type_not_here("SWITCH2_m", 1, 1, 3, ins=[P, (1, 1, 4), other])
    type_not_here("SWITCH2_m", 1, 2, 1, outs=[other])
    type_not_here("SELECT_m", 1, 1, 3, ins=[P, P, other])
    type_not_here("GATED_DELAY", 1, 2, 1, outs=[other])
    type_not_here("REGISTER", 1, 2, 1, outs=[(1, 1, 4)])
    for ty in (4, 5, 6, 7, 8):
        type_not_here("ANDLOG_f", 1, 2, 1, outs=[(1, 1, ty)])
    # parameters and states; an int8 goes from -128 to 127
    type_not_here("CONST_m", 2, 1, 1, params=[128])
    type_not_here("CONST_m", 2, 1, 5, params=[1, 2, 3, 4, -129, 200])
    type_not_here("GAINBLK", 2, 1, 2, params=[0, 128])
    type_not_here("GAINBLK", 1, 2, 1, params=[0, 40000], outs=[other])
    type_not_here("SATURATION", 2, 1, 1, params=[-129, 128])
    type_not_here("SATURATION", 2, 1, 2, params=[-128, 128])
    type_not_here("DEADBAND", 2, 1, 2, params=[0, -129, 128])
    type_not_here("DEADBAND", 2, 1, 3, params=[0, -128, 128])
    for n in (8, -8, 31, -31):
        type_not_here("SHIFT", 2, 1, 1, params=[n, 0])
    for gui in ("BITSET", "BITCLEAR"):
        type_not_here(gui, 2, 1, 1, params=[8])
    type_not_here("EXTRACTBITS", 2, 1, 2, params=[8, 8])
    type_not_here("EXTRACTBITS", 2, 1, 2, params=[0, 31])
    type_not_here("Modulo_Count", 2, 1, 1, params=[129])
    type_not_here("Modulo_Count", 2, 1, 1, params=[257], outs=[(1, 1, 8)])
    type_not_here("DOLLAR_m", 2, 2, 1, state=[128])
    type_not_here("DOLLAR_m", 2, 2, 3, state=[1, 2, -129, 4, 5, 128])
    type_not_here("GATED_DELAY", 2, 2, 6, state=[1, 2, 3, 4, 5, 128])
    type_not_here("REGISTER", 2, 2, 2, state=[127, 128])


def of_sizes():
    for gui in ("GAINBLK", "ABS_VALUE", "SIGNUM", "SATURATION", "DEADBAND", "SHIFT", "BITSET", "BITCLEAR", "EXTRACTBITS", "DOLLAR_m", "SAMPHOLD_m"):
        shape(gui, 1, 2, 1, outs=[(3, 2, 5)])
    for gui in ("SUMMATION", "PRODUCT", "MAXMIN", "LOGICAL_OP", "RELATIONALOP"):
        shape(gui, 1, 1, 2, ins=[P, (2, 2, 5)])
        shape(gui, 1, 2, 1, outs=[(1, 3, 5)])
    shape("CONVERT", 1, 2, 1, outs=[(6, 1, 8)])
    shape("SELECT_m", 1, 1, 2, ins=[P, S, P])
    shape("MUX", 1, 1, 1, ins=[(2, 2, 5), (1, 2, 5)])
    shape("MUX", 1, 1, 2, ins=[(2, 1, 5), (1, 2, 5)])
    shape("MUX", 1, 2, 1, outs=[(4, 1, 5)])
    shape("MUX", 1, 2, 1, outs=[(3, 2, 5)])
    shape("DEMUX", 1, 1, 1, ins=[(4, 1, 5)])
    shape("DEMUX", 1, 1, 1, ins=[(3, 2, 5)])
    shape("DEMUX", 1, 1, 1, outs=[(2, 1, 5), (2, 2, 5)])
    shape("DEMUX", 1, 2, 2, outs=[(2, 1, 5), (1, 2, 5)])
    shape("EXTRACTOR", 1, 2, 1, outs=[(3, 1, 5)])
    shape("EXTRACTOR", 1, 2, 1, outs=[(2, 2, 5)])
    shape("EXTRACTOR", 2, 1, 1, params=[7, 8])
    shape("EXTRACTOR", 2, 1, 2, params=[6, 7])
    shape("SWITCH2_m", 1, 1, 2, ins=[P, P, P])
    shape("SWITCH2_m", 1, 1, 3, ins=[P, S, S])
    shape("SWITCH2_m", 1, 2, 1, outs=[S])
    shape("GATED_DELAY", 1, 1, 2, ins=[P, P])
    shape("GATED_DELAY", 1, 2, 1, outs=[S])
    shape("LOGIC", 1, 1, 2, ins=[S, P])
    shape("LOGIC", 1, 2, 1, outs=[P])
    shape("REGISTER", 1, 1, 1, ins=[P], outs=[P])
    shape("REGISTER", 1, 2, 1, outs=[P])
    for gui in ("ANDLOG_f", "Modulo_Count", "SENSOR"):
        shape(gui, 1, 2, 1, outs=[(1, 2, 3)])
    for gui in ("EVTVARDLY", "IFTHEL_f", "ESELECT_f"):
        shape(gui, 1, 1, 1, ins=[(2, 1, 5)])
    shape("CONST_m", 2, 1, 2, params=[1, 2])
    shape("CONST_m", 2, 1, 7, params=[1] * 7)
    shape("DOLLAR_m", 2, 2, 2, state=[1, 2])
    shape("DOLLAR_m", 1, 2, 1, state=[1, 2], outs=[S])
    shape("GATED_DELAY", 2, 2, 5, state=[1, 2, 3, 4, 5])


def of_specs():
    for gui in SPECS:
        typed(gui)
        row("HasStateLength", spec(gui), LENGTHS.get(gui, 0))
    typed("CONST_m", params=[1, 2, 3, 4, 5, 6])
    typed("GAINBLK", params=[2, -128], feed=[True], evtin=1)
    typed("SHIFT", params=[-7, 1])
    typed("Modulo_Count", params=[128])
    typed("Modulo_Count", params=[256], outs=[(1, 1, 8)])
    typed("SIGNUM", ins=[(16, 16, 5)], outs=[(16, 16, 5)])
    typed("EXTRACTOR", ins=[(600, 600, 5)], params=[360000, 1])
    typed("DOLLAR_m", feed=[True])
    typed("GATED_DELAY", feed=[False, True])
    typed("GATED_DELAY", feed=[True, True])
    not_typed("GATED_DELAY", feed=[True, False])
    not_typed("GATED_DELAY", feed=[False, False])
    not_typed("GATED_DELAY", feed=[True])
    not_typed("GATED_DELAY", feed=[False, True, True])
    not_typed("SWITCH2_m", feed=[True, True, False])
    not_typed("SWITCH2_m", feed=[True, True, True, True])
    not_typed("DOLLAR_m", feed=[])
    not_typed("CONST_m", feed=[False])
    not_typed("SIGNUM", feed=[])
    not_typed("SIGNUM", ins=[(257, 1, 5)], outs=[(257, 1, 5)])
    not_typed("SIGNUM", ins=[(0, 3, 5)], outs=[(0, 3, 5)])
    not_typed("SIGNUM", ins=[(2, -1, 5)], outs=[(2, -1, 5)])
    for ty in (2, 9, 0, -1):
        not_typed("SIGNUM", ins=[(2, 3, ty)], outs=[(2, 3, ty)])
    not_typed("SIGNUM", feed=[False])
    not_typed("SIGNUM", state=[0])
    not_typed("SIGNUM", firing=[0])
    not_typed("SIGNUM", params=[0])
    not_typed("SIGNUM", evtin=2)
    not_typed("SIGNUM", evtout=1)
    not_typed("GAINBLK", params=[3, 1])
    not_typed("GAINBLK", params=[0, 128])
    not_typed("EVTVARDLY", firing=[2147483648])
    not_typed("Modulo_Count", state=[10])
    not_typed("MUX", outs=[(4, 1, 5)])


HEAD = '''-- Specs of known ports: the rule on types or sizes that they break, whether they are typed, and the length of their states.
-- Written by tools/typed_rows.py.
use Rattle.std.proofs.Common.{◌≡◌, ℕ, ℤ, pos, negsuc, List, [], ◌∷◌, Bool, true, false, Some, refl}
use Rattle.sci_base.specs.declared.refusal.Rule.TheVariants.{TypeNotHere, ShapeRule}
use Rattle.sci_forms.specs.declared.broken.Detail.TheVariants.{Triple}
use Rattle.sci_forms.specs.declared.Kind.{Kind}
use Rattle.sci_forms.specs.declared.Kind.TheVariants.{%s}
use Rattle.sci_forms.specs.declared.ports.Port.{Port}
use Rattle.sci_forms.specs.declared.spec.Spec.{Spec}
use Rattle.sci_forms.specs.Typed.{types_broken_of, sizes_broken_of, typed}
use Rattle.sci_forms.specs.Words.{state_len_of}

abbrev port : ℤ → ℤ → ℤ → Port
port r c t = record { rows = r; cols = c; ty = t }

-- a spec by its kind, parameters, state, first dates, inputs, outputs, counts of activation ports and feedthrough
abbrev block : Kind → List ℤ → List ℤ → List ℤ → List Port → List Port → ℕ → ℕ → List Bool → Spec
block k ps xs fs is os a b d = record { kind = k; params = ps; state = xs; firing = fs; ins = is; outs = os; evtin = a; evtout = b; feed = d }

abbrev TypesBroken : Spec → ℤ → ℤ → ℤ → Type 0
TypesBroken s a b c = types_broken_of s.kind s ≡ Some (record { rule = TypeNotHere; detail = Triple a b c })

abbrev SizesBroken : Spec → ℤ → ℤ → ℤ → Type 0
SizesBroken s a b c = sizes_broken_of s.kind s ≡ Some (record { rule = ShapeRule; detail = Triple a b c })

abbrev IsTyped : Spec → Type 0
IsTyped s = typed s ≡ true

abbrev IsNotTyped : Spec → Type 0
IsNotTyped s = typed s ≡ false

abbrev HasStateLength : Spec → ℕ → Type 0
HasStateLength s n = state_len_of s.kind s ≡ n

'''


def main():
    for part in (of_types, of_sizes, of_specs):
        part()
    with open("crates/sci_rows/proofs/TypedRows.antt", "w") as f:
        f.write(HEAD % ", ".join(NAMES[g] for g in SPECS) + "\n".join(ROWS))
    print(len(ROWS), "rows")


if __name__ == "__main__":
    main()
