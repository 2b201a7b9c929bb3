"""What the arithmetic kinds give at the corners of each type, worked out in plain Python numbers, here and nowhere else. `corner_table.py` and
`math_rows.py` take it."""

WIDTH = {3: 32, 4: 16, 5: 8, 6: 32, 7: 16, 8: 8}
SIGNED = {3, 4, 5}
TYPES = (3, 4, 5, 6, 7, 8)


def ends(ty):
    span = 1 << WIDTH[ty]
    return (-span // 2, span // 2 - 1) if ty in SIGNED else (0, span - 1)


def fit(ty, mode, v):
    low, high = ends(ty)
    if low <= v <= high:
        return v
    if mode == 0:
        return (v - low) % (high - low + 1) + low
    if mode == 1:
        return low if v < low else high
    return "Overflow"


def quotient(a, b):
    q = abs(a) // abs(b)
    return q if (a < 0) == (b < 0) else -q


def meaning(kind, ty, p, u):
    low, high = ends(ty)
    if kind == "Const":
        return p[0]
    if kind == "Summation":
        return fit(ty, p[0], sum(s * v for s, v in zip(p[1:], u)))
    if kind == "GainBlk":
        return fit(ty, p[0], p[1] * u[0])
    if kind == "Product":
        if p[1] == 1:
            return fit(ty, p[0], u[0] * u[1])
        return "Zero" if u[1] == 0 else fit(ty, p[0], quotient(u[0], u[1]))
    if kind == "AbsValue":
        return fit(ty, p[0], abs(u[0]))
    if kind == "Signum":
        return (u[0] > 0) - (u[0] < 0)
    if kind == "MaxMin":
        return min(u) if p[0] == 1 else max(u)
    if kind == "Saturation":
        return min(max(u[0], p[0]), p[1])
    if kind == "DeadBand":
        return fit(ty, p[0], u[0] - p[2] if u[0] > p[2] else u[0] - p[1] if u[0] < p[1] else 0)
    if kind == "Convert":
        return fit(ty, p[0], u[0])
    raise KeyError(kind)
