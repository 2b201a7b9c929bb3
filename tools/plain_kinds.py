"""What each kind of block means, in plain Python numbers: no part of the program, and worked out apart from it.

Inputs and outputs are a list of elements for each port.
"""

WIDTH = {3: 32, 4: 16, 5: 8, 6: 32, 7: 16, 8: 8}
SIGNED = {3, 4, 5}
LONGEST = 2**31 - 1
SYNCHRONOUS = {'IFTHEL_f', 'ESELECT_f'}
WITHOUT_FEEDTHROUGH = {'CONST_m', 'ANDLOG_f', 'DOLLAR_m', 'REGISTER', 'Modulo_Count', 'SENSOR', 'EVTDLY_c', 'EVTVARDLY', 'HALT_f'}


class NoValue(Exception):
    """A block without a value, with the word of the stop."""


def ends(kind):
    """The least and the greatest number of a type."""
    span = 1 << WIDTH[kind]
    return (-span // 2, span // 2 - 1) if kind in SIGNED else (0, span - 1)


def wrap(kind, number):
    low, high = ends(kind)
    return (number - low) % (high - low + 1) + low


def fit(kind, mode, number):
    low, high = ends(kind)
    if low <= number <= high:
        return number
    if mode == 2:
        raise NoValue('overflow')
    return wrap(kind, number) if mode == 0 else min(max(number, low), high)


def pattern(kind, number):
    return number % (1 << WIDTH[kind])


def over(values, count):
    """One value stands for all elements."""
    return list(values) * count if len(values) == 1 else list(values)


def quotient(first, second):
    if second == 0:
        raise NoValue('zero')
    size = abs(first) // abs(second)
    return size if (first < 0) == (second < 0) else -size


def logical(op, bitwise, kind, numbers):
    if not bitwise:
        numbers = [int(number != 0) for number in numbers]
    ones = (1 << WIDTH[kind]) - 1 if bitwise else 1
    numbers = [number & ones for number in numbers]
    result = numbers[0]
    for number in numbers[1:]:
        result = result & number if op in (0, 2) else result | number if op in (1, 3) else result ^ number
    return wrap(kind, result ^ ones if op in (2, 3, 5) else result)


def shifted(kind, places, turning, number):
    if turning:
        width, bits = WIDTH[kind], pattern(kind, number)
        left = places % width
        return wrap(kind, (bits << left) % (1 << width) + (bits << left >> width))
    return wrap(kind, number << places) if places >= 0 else number >> -places


def one_bit(kind, bit, number, on):
    bits = pattern(kind, number)
    return wrap(kind, bits | 1 << bit if on else bits & ~(1 << bit))


def compared(op, first, second):
    return int([first == second, first != second, first < second, first <= second, first > second, first >= second][op])


def scalar_rule(block, kind):
    """What a kind that goes element by element makes of one element of each input."""
    gui, par = block.gui, block.ipar
    if gui == 'SUMMATION':
        return lambda *u: fit(kind, par[0], sum(sign * v for sign, v in zip(par[1:], u)))
    return {
        'GAINBLK': lambda u: fit(kind, par[0], par[1] * u),
        'PRODUCT': lambda u, v: fit(kind, par[0], u * v if par[1] == 1 else quotient(u, v)),
        'ABS_VALUE': lambda u: fit(kind, par[0], abs(u)),
        'SIGNUM': lambda u: (u > 0) - (u < 0),
        'MAXMIN': lambda *u: min(u) if par[0] == 1 else max(u),
        'SATURATION': lambda u: min(max(u, par[0]), par[1]),
        'DEADBAND': lambda u: fit(kind, par[0], u - par[2] if u > par[2] else u - par[1] if u < par[1] else 0),
        'CONVERT': lambda u: fit(kind, par[0], u),
        'LOGICAL_OP': lambda *u: logical(par[0], par[1], kind, u),
        'RELATIONALOP': lambda u, v: compared(par[0], u, v),
        'SHIFT': lambda u: shifted(kind, par[0], par[1], u),
        'BITSET': lambda u: one_bit(kind, par[0], u, True),
        'BITCLEAR': lambda u: one_bit(kind, par[0], u, False),
        'EXTRACTBITS': lambda u: wrap(kind, (pattern(kind, u) >> par[0]) % (1 << par[1] - par[0] + 1)),
        'SAMPHOLD_m': lambda u: u,
    }[gui]


def cut(values, sizes):
    parts, at = [], 0
    for size in sizes:
        parts.append(values[at:at + size])
        at += size
    return parts


def logic(block, ins):
    row, outs = 0, len(block.outs)
    for port in ins:
        row = 2 * row + (port[0] != 0)
    return [[block.ipar[row * outs + k]] for k in range(outs)]


def chosen(block, mask, ins):
    """What a block gives that hands on one of its inputs, or a part of them."""
    gui, par = block.gui, block.ipar
    if gui == 'MUX':
        return [sum(ins, [])]
    if gui == 'DEMUX':
        return cut(ins[0], [rows * cols for _, rows, cols in block.outs])
    if gui == 'EXTRACTOR':
        return [[ins[0][k - 1] for k in par]]
    if gui == 'SWITCH2_m':
        gate = ins[1][0]
        return [ins[0] if [gate >= par[1], gate > par[1], gate != par[1]][par[0]] else ins[2]]
    return [ins[(mask & -mask).bit_length() - 1]]


def out(block, state, mask, ins, reading=None):
    """The values of all outputs; NoValue where there are none. A sensor is handed its reading."""
    gui = block.gui
    if not block.outs:
        return []
    kind, rows, cols = block.outs[0]
    if gui == 'CONST_m':
        return [over(block.ipar, rows * cols)]
    if gui in ('DOLLAR_m', 'Modulo_Count'):
        return [list(state)]
    if gui == 'REGISTER':
        return [state[:1]]
    if gui == 'GATED_DELAY':
        return [list(state) if ins[1][0] > 0 else [0] * len(state)]
    if gui == 'SENSOR':
        return [[reading]]
    if gui == 'ANDLOG_f':
        return [[1 if mask == 3 else -1]]
    if gui == 'LOGIC':
        return logic(block, ins)
    if gui in ('MUX', 'DEMUX', 'EXTRACTOR', 'SWITCH2_m', 'SELECT_m'):
        return chosen(block, mask, ins)
    rule = scalar_rule(block, kind)
    return [[rule(*elements) for elements in zip(*ins)]]


def first_state(block):
    if block.gui in ('DOLLAR_m', 'GATED_DELAY'):
        return over(block.dstate, block.outs[0][1] * block.outs[0][2])
    return list(block.dstate) if block.gui in ('REGISTER', 'Modulo_Count') else []


def first_held(block):
    """What is held before the first activation."""
    if block.gui in ('DOLLAR_m', 'Modulo_Count', 'REGISTER'):
        return [first_state(block)[:1] if block.gui == 'REGISTER' else first_state(block)]
    return [[0] * (rows * cols) for _, rows, cols in block.outs]


def following(block, state, ins):
    """The next state."""
    if block.gui in ('DOLLAR_m', 'GATED_DELAY'):
        return list(ins[0])
    if block.gui == 'REGISTER':
        return state[1:] + ins[0]
    return [(state[0] + 1) % block.ipar[0]] if block.gui == 'Modulo_Count' else state


def delay(block, ins):
    if block.gui == 'EVTDLY_c':
        return block.ipar[0]
    return -1 if ins[0][0] < 0 else min(ins[0][0], LONGEST)


def branch(block, ins):
    if block.gui == 'IFTHEL_f':
        return 1 if ins[0][0] > 0 else 2
    return min(max(ins[0][0], 1), block.evtout)


def feedthrough(block, entry):
    """Whether the outputs depend at once on this input, counted from 1."""
    if block.dep_ut is not None:
        part = block.dep_ut[0]
        return part[entry - 1] if isinstance(part, list) else part
    return block.gui not in WITHOUT_FEEDTHROUGH and (block.gui != 'GATED_DELAY' or entry == 2)
