#!/usr/bin/env python3
"""Writes crates/sci_rows/proofs/Rows.antt: rows of the table of kinds 14 to 34, each proved by computing.

What each kind gives is worked out here in plain Python numbers, apart from the program's own definitions. Run it at the top of
the repository. `math_rows.py` has rows of kinds 1 to 13, and `corner_table.py` those that run through their banks.
"""

WIDTH = {3: 32, 4: 16, 5: 8, 6: 32, 7: 16, 8: 8}
SIGNED = {3, 4, 5}
TYPES = (3, 4, 5, 6, 7, 8)
ROWS = []


def ends(ty):
    span = 1 << WIDTH[ty]
    return (-span // 2, span // 2 - 1) if ty in SIGNED else (0, span - 1)


def wrap(ty, v):
    low, high = ends(ty)
    return (v - low) % (high - low + 1) + low


def pattern(ty, v):
    return v & ((1 << WIDTH[ty]) - 1)


def integer(v):
    return f"pos {v}" if v >= 0 else f"negsuc {-v - 1}"


def integers(vs):
    return "(" + "".join(f"{integer(v)} ∷ " for v in vs) + "[])"


def ports(types):
    return "(" + "".join(f"scalar {t} ∷ " for t in types) + "[])"


def spec(kind, ins, outs, params=(), state=(), firing=(), evtin=0, evtout=0):
    return f"(block {kind} {integers(params)} {integers(state)} {integers(firing)} {ports(ins)} {ports(outs)} {evtin} {evtout})"


def add(word, s, arguments, answer):
    ROWS.append(f"row{len(ROWS) + 1} : {word} {s} {arguments} {answer}\nrow{len(ROWS) + 1} = (refl, refl)\n")


def gives(kind, ins, outs, u, values, mask=0, x=(), **k):
    add("Gives", spec(kind, ins, outs, **k), f"{integers(x)} {mask} {integers(u)}", integers(values))


def steps(kind, ins, outs, u, values, x, **k):
    add("Steps", spec(kind, ins, outs, **k), f"{integers(x)} 1 {integers(u)}", integers(values))


def logical(op, bits):
    n = sum(bits)
    return [n == len(bits), n > 0, n < len(bits), n == 0, n % 2 == 1, n == 0][op]


def main():
    for ty in TYPES:
        low, high = ends(ty)
        for op in range(6):
            u = [low] if op == 5 else [low, high]
            if (op + ty) % 2:
                gives("LogicalOp", [ty] * len(u), [ty], u, [int(logical(op, [v != 0 for v in u]))], params=[op, 0])
            else:
                got = sum(logical(op, [pattern(ty, v) >> b & 1 for v in u]) << b for b in range(WIDTH[ty]))
                gives("LogicalOp", [ty] * len(u), [ty], u, [wrap(ty, got)], params=[op, 1])
            if (op + ty) % 3 == 0:
                pairs = [low, high] if op < 3 else [high, high]
                a, b = pairs
                gives("RelationalOp", [ty, ty], [3], pairs, [int([a == b, a != b, a < b, a <= b, a > b, a >= b][op])], params=[op])
        w = WIDTH[ty]
        for n in (-(w - 1), -1, 1):
            gives("Shift", [ty], [ty], [low + 1], [wrap(ty, (low + 1) * 2 ** n if n >= 0 else (low + 1) // 2 ** -n)], params=[n, 0])
            p, k = pattern(ty, high - 1), n % w
            gives("Shift", [ty], [ty], [high - 1], [wrap(ty, (p << k) % (1 << w) | p >> (w - k))], params=[n, 1])
        gives("BitSet", [ty], [ty], [0], [wrap(ty, 1 << (w - 1))], params=[w - 1])
        gives("BitClear", [ty], [ty], [high], [wrap(ty, pattern(ty, high) & ~1)], params=[0])
        gives("BitClear", [ty], [ty], [low], [wrap(ty, pattern(ty, low) & ~(1 << (w - 1)))], params=[w - 1])
        gives("ExtractBits", [ty], [ty], [low + 5], [wrap(ty, pattern(ty, low + 5) >> 1 & ((1 << (w - 1)) - 1))], params=[1, w - 1])
        gives("ExtractBits", [ty], [ty], [high], [wrap(ty, pattern(ty, high))], params=[0, w - 1])
        for c in range(3):
            for v in (low, high) if (c + ty) % 2 else (0,):
                gives("Switch2", [ty, 3, ty], [ty], [low, max(min(v, 2**31 - 1), -2**31), high],
                      [low if [v >= 0, v > 0, v != 0][c] else high], params=[c, 0])
        gives("Select", [ty] * 3, [ty], [low, 0, high], [[low, 0, high][ty % 3]], mask=1 << ty % 3 | 4, evtin=3)
        gives("Dollar", [ty], [ty], [high], [low], x=[low], state=[low])
        steps("Dollar", [ty], [ty], [high], [high], x=[low], state=[low], evtin=1)
        gives("SampHold", [ty], [ty], [high], [high])
        gives("Register", [ty], [ty], [high], [low], x=[low, 0, high], state=[low, 0, high])
        steps("Register", [ty], [ty], [low], [0, high, low], x=[low, 0, high], state=[low, 0, high], evtin=1)
        base = min(high + 1, 2**31 - 1)
        gives("ModuloCount", [], [ty], [], [base - 1], mask=1, x=[base - 1], params=[base], state=[0], evtin=1)
        steps("ModuloCount", [], [ty], [], [0], x=[base - 1], params=[base], state=[0], evtin=1)
        gives("GatedDelay", [ty, 5], [ty], [low, 1], [high], x=[high], state=[0])
        gives("GatedDelay", [ty, 5], [ty], [low, 0], [0], x=[high], state=[0])
        steps("GatedDelay", [ty, 5], [ty], [low, 0], [low], x=[high], state=[0], evtin=1)
        gives("Sensor", [], [ty], [high], [high], mask=1, params=[255], evtin=1)
        s = spec("EvtVarDly", [ty], [], firing=[-1], evtin=1, evtout=1)
        add("Delays", s, integers([low]), "(" + integer(-1 if low < 0 else low) + ")")
        add("Delays", s, integers([high]), "(" + integer(min(high, 2**31 - 1)) + ")")
        for v in (low, 0, high):
            add("Takes", spec("IfThEl", [ty], [], evtout=2), integers([v]), 1 if v > 0 else 2)
            add("Takes", spec("ESelect", [ty], [], evtout=5), integers([v]), max(1, min(5, v)))
    table = [1, 0, 0, 1, 1, 1, 0, 1]
    for u in ([0, 0], [0, -1], [127, 0], [5, 9]):
        row = 2 * (u[0] != 0) + (u[1] != 0)
        gives("Logic", [5, 3], [8, 4], u, table[2 * row:2 * row + 2], params=table)
    for mask in range(4):
        gives("AndLog", [], [3], [], [1 if mask == 3 else -1], mask=mask, evtin=2)
    for d in (-1, 0, 2**31 - 1):
        add("Delays", spec("EvtDly", [], [], params=[d], firing=[0], evtin=1, evtout=1), "[]", "(" + integer(d) + ")")
    gives("Halt", [], [], [], [], mask=1, evtin=1)
    head = open("crates/sci_rows/proofs/Rows.antt").read().split("-- ---- rows\n")[0]
    with open("crates/sci_rows/proofs/Rows.antt", "w") as f:
        f.write(head + "-- ---- rows\n\n" + "".join(ROWS))
    print(len(ROWS), "rows")


if __name__ == "__main__":
    main()
