#!/usr/bin/env python3
"""Writes crates/sci_rows/proofs/MathRows.antt: rows of the arithmetic kinds, numbers 1 to 13, over several elements, in each mode.

What each kind gives is worked out in plain Python numbers, here and in corner_values.py, apart from the program's own definitions.
Each row is one that some wrong meaning of its kind breaks (`slips` tries such meanings). Run it at the top of the repository.
"""

from corner_values import TYPES, ends, meaning

WRAP, SATURATE, STOP = 0, 1, 2
INT32, INT16, INT8, UINT32, UINT16, UINT8 = 3, 4, 5, 6, 7, 8
ROWS = []


def integer(v):
    return f"pos {v}" if v >= 0 else f"negsuc {-v - 1}"


def integers(vs):
    return "(" + "".join(f"{integer(v)} ∷ " for v in vs) + "[])"


def ports(ps):
    return "(" + "".join(f"port {r} {c} {t} ∷ " for r, c, t in ps) + "[])"


def row(kind, ins, outs, params, inputs, values):
    """A row: ports are rows, columns and a type, inputs a list for each of them; where a value is none, the first such decides."""
    flat = [v for u in inputs for v in u]
    fault = next((v for v in values if isinstance(v, str)), None)
    words = {None: "Gives", "Overflow": "NeverFits", "Zero": "HasNoQuotient"}
    answer = "" if fault else " " + integers(values)
    spec = f"(block {kind} {integers(params)} {ports(ins)} {ports(outs)})"
    ROWS.append(f"row{len(ROWS) + 1} : {words[fault]} {spec} {integers(flat)}{answer}\nrow{len(ROWS) + 1} = (refl, refl)\n")


def each(kind, ty, params, *inputs, out=None, shape=None):
    """A kind that works element by element."""
    n = len(inputs[0])
    r, c = shape or (n, 1)
    values = [meaning(kind, out or ty, params, [u[e] for u in inputs]) for e in range(n)]
    row(kind, [(r, c, ty)] * len(inputs), [(r, c, out or ty)], params, inputs, values)


def const():
    row("Const", [], [(2, 2, INT16)], [7, -8, 9, -10], [], [7, -8, 9, -10])
    row("Const", [], [(3, 1, INT8)], [-5], [], [-5] * 3)
    row("Const", [], [(1, 1, UINT32)], [4294967295], [], [4294967295])


def summation():
    for mode in (WRAP, SATURATE):
        each("Summation", INT8, [mode, 1, -1, 1], [100, -100], [-50, 100], [-20, 7], shape=(1, 2))
        each("Summation", UINT8, [mode, 1, -1], [5, 200], [6, 1])
    # the exact sum is in range, but not the sum of the first two, and not the first term by itself
    for mode in (SATURATE, STOP):
        each("Summation", INT8, [mode, 1, 1, -1], [100], [100], [100])
        each("Summation", INT8, [mode, -1, -1], [-128], [1])
    each("Summation", INT8, [STOP, 1, 1], [1, 100], [2, 100])


def ends_of_types():
    """Sums at the ends of each type and one beyond."""
    for ty in TYPES:
        low, high = ends(ty)
        for mode in (WRAP, SATURATE):
            each("Summation", ty, [mode, 1, 1, -1], [high, high, low, low], [0, 1, 0, 0], [0, 0, 0, 1])


def gain():
    for mode in (WRAP, SATURATE):
        each("GainBlk", INT8, [mode, -3], [50, -50, 1], shape=(1, 3))
        each("GainBlk", UINT8, [mode, 2], [200, 3])
    each("GainBlk", INT8, [STOP, -2], [64, -63])
    each("GainBlk", INT8, [STOP, 2], [3, 64])


def product():
    for mode in (WRAP, SATURATE):
        each("Product", INT8, [mode, 1], [100, -100, 7], [2, 2, -3])
        each("Product", INT8, [mode, -1], [7, -7, 7, -7, -128, -128, 0], [2, 2, -2, -2, 3, -1, 4])
    each("Product", INT8, [STOP, 1], [5, 16], [0, 8])
    each("Product", INT8, [STOP, -1], [6, -128], [3, -1])
    # an element without a value; the first of two decides
    each("Product", INT8, [WRAP, -1], [6, 0], [3, 0])
    each("Product", INT8, [STOP, -1], [-128, 1], [-1, 0])
    each("Product", INT8, [STOP, -1], [1, -128], [0, -1])


def signs():
    for mode in (WRAP, SATURATE):
        each("AbsValue", INT8, [mode], [-128, -5, 0, 7], shape=(2, 2))
    each("AbsValue", INT8, [STOP], [-127, 7])
    each("AbsValue", INT8, [STOP], [7, -128])
    each("AbsValue", UINT8, [STOP], [200, 0])
    each("Signum", INT16, [], [-300, -1, 0, 1, 300])
    each("Signum", UINT8, [], [0, 1, 255])


def extremes():
    for m in (1, 2):
        each("MaxMin", INT8, [m], [3, -3, 9, -9, 1, 1], [5, -5, 1, -1, 2, 2], [4, -4, 2, -7, -7, 9], shape=(2, 3))
        each("MaxMin", UINT8, [m], [255, 0], [1, 255])


def limits():
    each("Saturation", INT8, [-5, 9], [-128, -6, -5, 0, 9, 10, 127])
    each("Saturation", UINT8, [10, 200], [0, 10, 201])
    each("DeadBand", INT8, [SATURATE, -5, 9], [-128, -6, -5, 0, 3, 9, 10, 127], shape=(2, 4))
    each("DeadBand", UINT8, [WRAP, 5, 10], [0, 5, 7, 10, 12])
    for mode in (WRAP, SATURATE, STOP):
        each("DeadBand", INT8, [mode, -100, -100], [127])
        each("DeadBand", INT8, [mode, 100, 100], [-128])


def convert():
    for mode in (WRAP, SATURATE):
        each("Convert", INT16, [mode], [300, -300, 127, -129], out=INT8, shape=(2, 2))
        each("Convert", INT8, [mode], [-1, 5], out=UINT8)
        each("Convert", UINT32, [mode], [4294967295], out=INT32)
    each("Convert", INT16, [STOP], [127, -128], out=INT8)
    each("Convert", INT16, [STOP], [-128, 128], out=INT8)


def rearranged():
    row("Mux", [(1, 1, INT16), (3, 1, INT16), (2, 1, INT16)], [(6, 1, INT16)], [], [[9], [1, -2, 3], [4, -5]], [9, 1, -2, 3, 4, -5])
    row("Demux", [(6, 1, INT16)], [(1, 1, INT16), (3, 1, INT16), (2, 1, INT16)], [], [[9, 1, -2, 3, 4, -5]], [9, 1, -2, 3, 4, -5])
    row("Extractor", [(2, 2, INT8)], [(5, 1, INT8)], [4, 1, 1, 3, 2], [[10, -20, 30, -40]], [-40, 10, 10, 30, -20])


HEAD = """-- Rows of the table of the arithmetic kinds, 1 to 13, each of a typed spec. Written by tools/math_rows.py.
use Rattle.std.proofs.Common.{◌≡◌, ℕ, ℤ, pos, negsuc, List, [], ◌∷◌, length, true, refl}
use Rattle.sci_forms.specs.declared.Kind.{Kind}
use Rattle.sci_forms.specs.declared.Kind.TheVariants.{Const, Summation, GainBlk, Product, AbsValue, Signum, MaxMin, Saturation, DeadBand, Convert, Mux, Demux, Extractor}
use Rattle.sci_forms.specs.declared.ports.Port.{Port}
use Rattle.sci_forms.specs.declared.spec.Spec.{Spec}
use Rattle.sci_forms.specs.Forms.{own_feed}
use Rattle.sci_forms.specs.Typed.{typed}
use Rattle.sci_kinds.specs.Table.{Values, NoFit, NoQuotient, out}

abbrev port : ℕ → ℕ → ℕ → Port
port r c ty = record { rows = pos r; cols = pos c; ty = pos ty }

-- a block by its kind, parameters, inputs and outputs
abbrev block : Kind → List ℤ → List Port → List Port → Spec
block k ps is os = record { kind = k; params = ps; state = []; firing = []; ins = is; outs = os; evtin = 0; evtout = 0; feed = own_feed k (length is) }

-- on inputs a block gives these values
abbrev Gives : Spec → List ℤ → List ℤ → Type 0
Gives s u vs = (typed s ≡ true) × (out s [] 0 u ≡ Values vs)

-- it stops, since the first value that can't be given doesn't fit
abbrev NeverFits : Spec → List ℤ → Type 0
NeverFits s u = (typed s ≡ true) × (out s [] 0 u ≡ NoFit)

-- it stops, since the first value that can't be given has the divisor 0
abbrev HasNoQuotient : Spec → List ℤ → Type 0
HasNoQuotient s u = (typed s ≡ true) × (out s [] 0 u ≡ NoQuotient)

-- ---- rows

"""


def main():
    for kinds in (const, summation, gain, product, signs, extremes, limits, convert, rearranged, ends_of_types):
        kinds()
    with open("crates/sci_rows/proofs/MathRows.antt", "w") as f:
        f.write(HEAD + "\n".join(ROWS))
    print(len(ROWS), "rows")


if __name__ == "__main__":
    main()
