#!/usr/bin/env python3
"""Writes crates/sci_rows/proofs/TimeRows.antt: rows of the kinds with states, sensors, delays and branches, over ports of several
rows and columns, with first states, first held outputs and runs of several steps, each proved by computing.

What each kind gives is worked out here on plain Python lists, apart from the program's own definitions. Run it at the top of the
repository. `kind_rows.py` writes the rows of single scalars at the corners of their types.
"""

LONGEST = 2**31 - 1
ROWS = []


# ---- a model of each kind: what is given, what the next state is, what is held before the first activation


def over(values, n):
    """One value stands for all n elements."""
    return list(values) * n if len(values) == 1 else list(values)


class Delay:
    def __init__(self, dstate, n):
        self.x = over(dstate, n)
        self.held = list(self.x)

    def step(self, u):
        self.x = list(u)

    def give(self, u):
        return list(self.x)


class GatedDelay(Delay):
    """u is the elements of the first input, and then the gate."""

    def __init__(self, dstate, n):
        super().__init__(dstate, n)
        self.held = [0] * n

    def step(self, u):
        self.x = list(u[:-1])

    def give(self, u):
        return list(self.x) if u[-1] > 0 else [0 for _ in self.x]


class Queue:
    def __init__(self, dstate):
        self.x = list(dstate)
        self.held = self.x[:1]

    def step(self, u):
        self.x.pop(0)
        self.x.append(u[0])

    def give(self, u):
        return self.x[:1]


class Counter:
    def __init__(self, base, start):
        self.base = base
        self.x = [start]
        self.held = [start]

    def step(self, u):
        self.x = [(self.x[0] + 1) % self.base]

    def give(self, u):
        return list(self.x)


def delay_of(v):
    return -1 if v < 0 else v if v < LONGEST else LONGEST


def branch_of(v, n):
    return sorted([1, v, n])[1]


# ---- the rows


def integer(v):
    return f"pos {v}" if v >= 0 else f"negsuc {-v - 1}"


def listed(texts):
    return "(" + "".join(f"{t} ∷ " for t in texts) + "[])"


def integers(vs):
    return listed([integer(v) for v in vs])


def ports(ps):
    return listed([f"port {rows} {cols} {ty}" for rows, cols, ty in ps])


def spec(kind, ins, outs, params=(), state=(), firing=(), evtin=0, evtout=0):
    return f"(block {kind} {integers(params)} {integers(state)} {integers(firing)} {ports(ins)} {ports(outs)} {evtin} {evtout})"


def add(word, s, *arguments):
    n = len(ROWS) + 1
    ROWS.append(f"row{n} : {word} {s} {' '.join(arguments)}\nrow{n} = (refl, refl)\n")


def run(s, model, us, mask=0):
    """The first state and the first held outputs, then what each step gives and leaves."""
    add("Starts", s, integers(model.x))
    add("Holds", s, integers(model.held))
    for k, u in enumerate(us):
        add("Gives", s, integers(model.x), str(mask), integers(u), integers(model.give(u)))
        model.step(u)
        before = listed([integers(v) for v in us[: k + 1]])
        add("Reaches", s, str(mask), before, integers(model.x))


def main():
    square, pair = (2, 2, 4), (1, 2, 3)
    first = [[5, -6, 7, -8], [32767, -32768, 0, 1], [-1, -2, -3, -4]]
    for dstate in ([1, -2, 3, -4], [9]):
        run(spec("Dollar", [square], [square], state=dstate), Delay(dstate, 4), first)
        gated = [first[0] + [-1], first[1] + [0], first[2] + [1]]
        run(spec("GatedDelay", [square, (1, 1, 5)], [square], state=dstate), GatedDelay(dstate, 4), gated)
    # the gate by itself: the least and the greatest of its type, and a type without negative numbers
    for ty, gates in ((3, (-(2**31), -1, 0, 1, LONGEST)), (8, (0, 1, 255))):
        s = spec("GatedDelay", [pair, (1, 1, ty)], [pair], state=[6, -7])
        for gate in gates:
            model = GatedDelay([6, -7], 2)
            add("Gives", s, integers(model.x), "0", integers([40, 50, gate]), integers(model.give([40, 50, gate])))
    s = spec("SampHold", [square], [square])
    add("Starts", s, integers([]))
    add("Holds", s, integers([0] * 4))
    for u in first:
        add("Gives", s, integers([]), "0", integers(u), integers(u))
    scalar = (1, 1, 5)
    for dstate in ([1, -2, 3], [7]):
        run(spec("Register", [scalar], [scalar], state=dstate), Queue(dstate), [[4], [-5], [6], [127]])
    for base, start in ((3, 1), (1, 0), (128, 126)):
        run(spec("ModuloCount", [], [scalar], params=[base], state=[start], evtin=1), Counter(base, start), [[], [], []], 1)
    for ty, values in ((5, (-128, -3, 0, 9, 127)), (8, (0, 200))):
        s = spec("Sensor", [], [(1, 1, ty)], params=[7], evtin=1)
        add("Holds", s, integers([0]))
        for v in values:
            add("Gives", s, integers([]), "1", integers([v]), integers([v]))
    for d in (-1, 0, 7, LONGEST):
        add("Delays", spec("EvtDly", [], [], params=[d], firing=[3], evtin=1, evtout=1), integers([]), f"({integer(d)})")
    for ty, values in ((3, (-(2**31), -2, -1, 0, 1, LONGEST)), (6, (0, LONGEST - 1, LONGEST, LONGEST + 1, 2**32 - 1))):
        s = spec("EvtVarDly", [(1, 1, ty)], [], firing=[3], evtin=1, evtout=1)
        for v in values:
            add("Delays", s, integers([v]), f"({integer(delay_of(v))})")
    for v in (-1, 0, 1):
        add("Takes", spec("IfThEl", [scalar], [], evtout=2), integers([v]), str(1 if v > 0 else 2))
    for n, values in ((2, (0, 1, 2, 3)), (4, (-1, 0, 1, 2, 3, 4, 5)), (64, (63, 64, 65))):
        for v in values:
            add("Takes", spec("ESelect", [scalar], [], evtout=n), integers([v]), str(branch_of(v, n)))
    # a gate by its own type: 256 is no number of the outputs' type
    add("Gives", spec("GatedDelay", [(1, 2, 5), (1, 1, 3)], [(1, 2, 5)], state=[6, -7]), integers([6, -7]), "0", integers([40, 50, 256]), integers([6, -7]))
    # HALT_f has no state and no outputs
    s = spec("Halt", [], [], evtin=1)
    add("Starts", s, integers([]))
    add("Holds", s, integers([]))
    add("Reaches", s, "1", listed([integers([])]), integers([]))
    head = open("crates/sci_rows/proofs/TimeRows.antt").read().split("-- ---- rows\n")[0]
    with open("crates/sci_rows/proofs/TimeRows.antt", "w") as f:
        f.write(head + "-- ---- rows\n\n" + "\n".join(ROWS))
    print(len(ROWS), "rows")


if __name__ == "__main__":
    main()
