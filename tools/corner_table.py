#!/usr/bin/env python3
"""Writes the last rows of crates/sci_bank_table, in stdin and stdout: the arithmetic kinds at the corners of their types, and what each gives.

The values come from plain Python numbers, worked out here and in corner_values.py, apart from the program. The rows above the line
that names this file were worked out by hand, and stay. Run it at the top of the repository.
"""

from corner_values import SIGNED, TYPES, ends, meaning

# the kinds that work element by element
NAMES = {
    "CONST_m": "Const", "SUMMATION": "Summation", "GAINBLK": "GainBlk", "PRODUCT": "Product", "ABS_VALUE": "AbsValue",
    "SIGNUM": "Signum", "MAXMIN": "MaxMin", "SATURATION": "Saturation", "DEADBAND": "DeadBand", "CONVERT": "Convert",
}
MODES = (0, 1, 2)
LINE = "# at_the_corners: by tools/corner_table.py\n"
ROWS = []


def words(numbers):
    return ",".join(str(v) for v in numbers) or "-"


def add(gui, ins, outs, params, inputs, values):
    """A row: ports are rows and a type, inputs a list for each of them."""
    sides = [[rows for rows, _ in ins], [ty for _, ty in ins], [rows for rows, _ in outs], [ty for _, ty in outs]]
    flat = [v for u in inputs for v in u]
    fault = next((v for v in values if isinstance(v, str)), None)
    gives = fault.lower() if fault else " ".join(str(v) for v in values)
    ROWS.append((" ".join([gui] + [words(side) for side in sides] + [words(params), words(flat)]), gives))


def each(gui, ty, params, *inputs, out=None, size=None):
    """A kind that works element by element: inputs are numbers, or lists of one size."""
    inputs = [u if isinstance(u, list) else [u] for u in inputs]
    n = size or len(inputs[0])
    values = []
    for e in range(n):
        p = [params[e] if len(params) == n else params[0]] if gui == "CONST_m" else params
        values.append(meaning(NAMES[gui], out or ty, p, [u[e] for u in inputs]))
    add(gui, [(n, ty)] * len(inputs), [(n, out or ty)], params, inputs, values)


def corners(ty):
    low, high = ends(ty)
    return [low, -1, 0, 1, high] if ty in SIGNED else [0, 1, high]


def sums(ty, mode):
    low, high = ends(ty)
    each("SUMMATION", ty, [mode, 1, 1], high, 1)
    each("SUMMATION", ty, [mode, 1, -1], low, 1)
    each("SUMMATION", ty, [mode, -1, -1], low, high)
    each("SUMMATION", ty, [mode, 1, 1, -1], high, high, high)
    each("SUMMATION", ty, [mode, -1, 1], low, low)


def products(ty, mode):
    low, high = ends(ty)
    one = -1 if ty in SIGNED else 1
    for g, u in ((low, low), (high, high), (one, low), (low, high)):
        each("GAINBLK", ty, [mode, g], u)
    for a, b in ((low, low), (high, high), (low, one)):
        each("PRODUCT", ty, [mode, 1], a, b)
    for a, b in ((low, one), (one, high), (high, 2), (0, 0)):
        each("PRODUCT", ty, [mode, -1], a, b)
    each("PRODUCT", ty, [mode, -1], [1, low, high], [0, one, 1])
    if ty in SIGNED:
        each("PRODUCT", ty, [mode, -1], [low, 1, low + 1], [-1, 0, 2])


def fitted(ty, mode):
    low, high = ends(ty)
    for u in corners(ty)[:4]:
        each("ABS_VALUE", ty, [mode], u)
    for a, b, u in ((low, low, high), (high, high, low), (0, 1, high), (0, 1, 1)):
        each("DEADBAND", ty, [mode, a, b], u)
    for out in TYPES:
        each("CONVERT", ty, [mode], low if (ty + out + mode) % 2 else high, out=out)


def plain(ty):
    low, high = ends(ty)
    for u in corners(ty):
        each("CONST_m", ty, [u], size=1)
        each("SIGNUM", ty, [], u)
    each("CONST_m", ty, [high], size=3)
    each("CONST_m", ty, [low, 0, high], size=3)
    for m in (1, 2):
        each("MAXMIN", ty, [m], low, high)
        each("MAXMIN", ty, [m], high, 0, low)
        each("MAXMIN", ty, [m], [0, high, 1], [1, low, 1])
    for a, b in ((low, high), (0, 1), (high, high)):
        each("SATURATION", ty, [a, b], corners(ty))
    each("SUMMATION", ty, [ty % 3] + [1, -1] * 32, *[high, low] * 32)
    each("GAINBLK", ty, [ty % 2, high], corners(ty))


def rearranged(ty):
    low, high = ends(ty)
    add("MUX", [(1, ty), (2, ty)], [(3, ty)], [], [[high], [low, 1]], [high, low, 1])
    add("DEMUX", [(3, ty)], [(2, ty), (1, ty)], [], [[low, 1, high]], [low, 1, high])
    add("EXTRACTOR", [(3, ty)], [(4, ty)], [3, 1, 1, 2], [[low, 1, high]], [high, low, low, 1])


def rewrite(path, rows):
    """Writes these rows below the line that names this file."""
    with open(path) as f:
        by_hand, line, _ = f.read().partition(LINE)
    with open(path, "w") as f:
        f.writelines([by_hand, line] + [row + "\n" for row in rows])


def main():
    for ty in TYPES:
        for mode in MODES:
            sums(ty, mode)
            products(ty, mode)
            fitted(ty, mode)
        plain(ty)
        rearranged(ty)
    rewrite("crates/sci_bank_table/stdin", [row for row, _ in ROWS])
    rewrite("crates/sci_bank_table/stdout", [f"{row} -> {gives}" for row, gives in ROWS])
    print(len(ROWS), "rows")


if __name__ == "__main__":
    main()
