#!/usr/bin/env python3
"""Writes crates/sci_rows/proofs/LogicRows.antt: rows of the logical kinds, numbers 14 to 22, away from the corners of the types.

What each kind gives is worked out here in plain Python numbers, apart from the program's own definitions. Each row is one that some
wrong meaning of its kind breaks. Run it at the top of the repository. `kind_rows.py` has the same kinds at the corners, and all masks of
ANDLOG_f.
"""

WIDTH = {3: 32, 4: 16, 5: 8, 6: 32, 7: 16, 8: 8}
SIGNED = {3, 4, 5}
ROWS = []


def signed(ty, pattern):
    """The number of the type that has these bits."""
    w = WIDTH[ty]
    return pattern - (1 << w) if ty in SIGNED and pattern >> (w - 1) & 1 else pattern


def bits(ty, v):
    """The digits of the pattern, the least first."""
    return [v >> b & 1 for b in range(WIDTH[ty])]


def number(ty, digits):
    return signed(ty, sum(d << b for b, d in enumerate(digits)))


def integer(v):
    return f"pos {v}" if v >= 0 else f"negsuc {-v - 1}"


def integers(vs):
    return "(" + "".join(f"{integer(v)} ∷ " for v in vs) + "[])"


def ports(ps):
    return "(" + "".join(f"port {r} {c} {t} ∷ " for r, c, t in ps) + "[])"


def row(kind, ins, outs, params, inputs, values, evtin=0, mask=0):
    """A row: ports are rows, columns and a type, inputs a list for each of them."""
    flat = [v for u in inputs for v in u]
    spec = f"(block {kind} {integers(params)} {ports(ins)} {ports(outs)} {evtin})"
    ROWS.append(f"row{len(ROWS) + 1} : Gives {spec} {mask} {integers(flat)} {integers(values)}\nrow{len(ROWS) + 1} = (refl, refl)\n")


def each(kind, ty, params, inputs, f, shape=None, out=None):
    """A kind that works element by element."""
    n = len(inputs[0])
    r, c = shape or (n, 1)
    row(kind, [(r, c, ty)] * len(inputs), [(r, c, out or ty)], params, inputs, [f(*[u[e] for u in inputs]) for e in range(n)])


def says(op, truths):
    """AND, OR, NAND, NOR, exclusive OR, NOT, as each is said in words."""
    if op == 4:
        odd = False
        for t in truths:
            odd = odd != bool(t)
        return odd
    return [all(truths), any(truths), not all(truths), not any(truths), None, not truths[0]][op]


def logical_op():
    u1 = [0, 0, 0, 0, 5, -1, 127, -128]
    u2 = [0, 0, 3, -7, 0, 0, 64, 1]
    u3 = [0, 9, 0, 2, 0, -2, 0, 100]
    for op in range(5):
        each("LogicalOp", 5, [op, 0], [u1, u2, u3], lambda *u: int(says(op, [v != 0 for v in u])), shape=(4, 2))
        each("LogicalOp", 5, [op, 1], [[-16, 58], [-52, -115], [-86, 7]],
             lambda *u: number(5, [int(says(op, d)) for d in zip(*[bits(5, v) for v in u])]), shape=(1, 2))
    each("LogicalOp", 7, [5, 0], [[0, 1, 4660]], lambda v: int(v == 0))
    each("LogicalOp", 7, [5, 1], [[0, 1, 4660]], lambda v: number(7, [1 - d for d in bits(7, v)]))
    each("LogicalOp", 6, [4, 1], [[305419896, 4042322160], [2596069104, 252645135]],
         lambda *u: number(6, [int(says(4, d)) for d in zip(*[bits(6, v) for v in u])]))


def relational_op():
    words = [lambda a, b: not (a < b or b < a), lambda a, b: a < b or b < a, lambda a, b: a < b, lambda a, b: not b < a,
             lambda a, b: b < a, lambda a, b: not a < b]
    for op, holds in enumerate(words):
        each("RelationalOp", 4, [op], [[-5, 4, 7, -9], [3, 4, -2, -9]], lambda a, b: int(holds(a, b)), shape=(2, 2), out=8)
        if op in (2, 4):
            each("RelationalOp", 6, [op], [[4294967295, 1], [1, 4294967295]], lambda a, b: int(holds(a, b)), out=5)


def shift():
    def moved(ty, n, v):
        digits = bits(ty, v)
        if n >= 0:
            return number(ty, ([0] * n + digits)[:WIDTH[ty]])
        return number(ty, digits[-n:] + [digits[-1] if ty in SIGNED else 0] * -n)

    def turned(ty, n, v):
        digits = bits(ty, v)
        return number(ty, [digits[(b - n) % WIDTH[ty]] for b in range(WIDTH[ty])])

    for n in (-3, -2, 0, 3, 4):
        each("Shift", 5, [n, 0], [[1, 5, -7, 100, -100, 6]], lambda v: moved(5, n, v), shape=(3, 2))
        each("Shift", 8, [n, 1], [[150, 1, 211]], lambda v: turned(8, n, v))
    for ty, n, us in ((4, 5, [1234, -1235]), (6, -9, [3735928559, 77]), (3, 13, [305419896, -559038737])):
        each("Shift", ty, [n, 0], [us], lambda v: moved(ty, n, v))
        each("Shift", ty, [n, 1], [us], lambda v: turned(ty, n, v))


def one_bit():
    def put(ty, k, v, d):
        digits = bits(ty, v)
        digits[k] = d
        return number(ty, digits)

    places = [(8, k, [0, 165, 90, 255]) for k in range(8)] + [(5, 7, [0, 90, -91]), (4, 9, [21845, -21846]), (6, 17, [2863311530, 1431655765]),
                                                             (3, 31, [5, -6]), (3, 20, [-1048577, 1048576])]
    for ty, k, us in places:
        each("BitSet", ty, [k], [us], lambda v: put(ty, k, v, 1))
        each("BitClear", ty, [k], [us], lambda v: put(ty, k, v, 0))


def extract_bits():
    for ty, a, b, us in ((8, 2, 4, [182, 255, 0, 89]), (8, 0, 3, [182, 89]), (8, 5, 5, [182, 89]), (8, 4, 7, [182, 89]), (5, 1, 6, [-74, 89]),
                         (5, 0, 7, [-74, 89]), (7, 4, 11, [46260, 19275]), (3, 8, 23, [-559038737, 305419896])):
        each("ExtractBits", ty, [a, b], [us], lambda v: number(ty, bits(ty, v)[a:b + 1]))


def switch2():
    u1, u3 = [1, 2, 3, 4], [-1, -2, -3, -4]
    for c in range(3):
        for a, v in ((5, 4), (5, 5), (5, 6), (-3, -3)):
            first = [not v < a, a < v, v < a or a < v][c]
            row("Switch2", [(2, 2, 4), (1, 1, 5), (2, 2, 4)], [(2, 2, 4)], [c, a], [u1, [v], u3], u1 if first else u3)
    row("Switch2", [(1, 1, 8), (1, 1, 6), (1, 1, 8)], [(1, 1, 8)], [0, 4294967295], [[7], [4294967295], [9]], [7])
    row("Switch2", [(1, 1, 8), (1, 1, 6), (1, 1, 8)], [(1, 1, 8)], [0, 4294967295], [[7], [4294967294], [9]], [9])


def select():
    us = [[11, 12], [21, 22], [31, 32]]
    for mask in range(1, 8):
        chosen = [k for k in range(3) if mask >> k & 1][0]
        row("Select", [(1, 2, 7)] * 3, [(1, 2, 7)], [], us, us[chosen], evtin=3, mask=mask)
    eight = [[10 * k, -k] for k in range(8)]
    for mask, chosen in ((128, 7), (176, 4), (254, 1)):
        row("Select", [(2, 1, 4)] * 8, [(2, 1, 4)], [], eight, eight[chosen], evtin=8, mask=mask)


def logic():
    table = [[0, 1], [1, 1], [1, 0], [0, 0], [0, 1], [1, 1], [1, 0], [0, 1]]
    for n in range(8):
        first, second, third = n // 4, n // 2 % 2, n % 2
        row("Logic", [(1, 1, 5), (1, 1, 3), (1, 1, 8)], [(1, 1, 4), (1, 1, 8)], sum(table, []), [[-3 * first], [70000 * second], [255 * third]], table[n])
    for v, want in ((0, [1, 0, 0]), (2, [0, 1, 1])):
        row("Logic", [(1, 1, 7)], [(1, 1, 3)] * 3, [1, 0, 0, 0, 1, 1], [[v]], want)


HEAD = """-- Rows of the table of the logical kinds, 14 to 22, away from the corners of the types. Written by tools/logic_rows.py.
use Rattle.std.proofs.Common.{◌≡◌, ℕ, ℤ, pos, negsuc, List, [], ◌∷◌, length, true, refl}
use Rattle.sci_forms.specs.declared.Kind.{Kind}
use Rattle.sci_forms.specs.declared.Kind.TheVariants.{LogicalOp, RelationalOp, Shift, BitSet, BitClear, ExtractBits, Switch2, Select, Logic}
use Rattle.sci_forms.specs.declared.ports.Port.{Port}
use Rattle.sci_forms.specs.declared.spec.Spec.{Spec}
use Rattle.sci_forms.specs.Forms.{own_feed}
use Rattle.sci_forms.specs.Typed.{typed}
use Rattle.sci_kinds.specs.Table.{Values, out}

abbrev port : ℕ → ℕ → ℕ → Port
port r c ty = record { rows = pos r; cols = pos c; ty = pos ty }

-- a block by its kind, parameters, inputs, outputs and number of activation inputs
abbrev block : Kind → List ℤ → List Port → List Port → ℕ → Spec
block k ps is os a = record { kind = k; params = ps; state = []; firing = []; ins = is; outs = os; evtin = a; evtout = 0; feed = own_feed k (length is) }

-- from a mask and inputs a block gives these values
abbrev Gives : Spec → ℕ → List ℤ → List ℤ → Type 0
Gives s m u vs = (typed s ≡ true) × (out s [] m u ≡ Values vs)

-- ---- rows

"""


def main():
    for kind in (logical_op, relational_op, shift, one_bit, extract_bits, switch2, select, logic):
        kind()
    with open("crates/sci_rows/proofs/LogicRows.antt", "w") as f:
        f.write(HEAD + "\n".join(ROWS))
    print(len(ROWS), "rows")


if __name__ == "__main__":
    main()
