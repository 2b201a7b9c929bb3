"""The text of a run's memory, in plain Python: `save` writes it, and `resume` reads it."""
import re

import plain_kinds as kinds
import plain_run

MOST_EVENTS, LAST_DATE, LONGEST = 1000000, 2**62, 2**31 - 1
NUMBER = r'(-?[1-9][0-9]*|0)'


class WrongLine(Exception):
    """The first wrong line of a text, counted from 1."""


def written(run):
    """The text of a run's memory behind a reaction."""
    lines = ['save 1', 'at %d %d' % (run.fired, run.now)]
    for number, state in sorted(run.states.items()):
        lines += ['state ' + ' '.join(map(str, [number] + state))] if state else []
    for number, ports in sorted(run.held.items()):
        lines += ['held ' + ' '.join(map(str, [number] + sum(ports, [])))] if ports else []
    lines += ['cursor %d %d' % (b.number, run.cursors[b.number]) for b in run.net.blocks.values() if b.gui == 'SENSOR']
    lines += ['pend %d %d %d' % ((date,) + source) for date, _, source in sorted(run.pending)]
    return ''.join(line + '\n' for line in lines + ['done'])


def saved(net, columns, until, limit, reaction):
    """What `save` prints on standard output and on standard error, and its status."""
    run, count = plain_run.Run(net, columns), 0
    for _, end in run.reactions(until, limit):
        count += 1
        if count == reaction and not end:
            return written(run), '', 0
    return '', 'refused 35 RunEnded at - %d %d\n' % (reaction, count), 1


def rows(net, columns):
    """The lines of blocks that have to come: the words that each begins with, and the bounds of its numbers."""
    blocks = sorted(net.blocks.values(), key=lambda b: b.number)
    for b in blocks:
        bounds = (0, b.ipar[0] - 1) if b.gui == 'Modulo_Count' else kinds.ends(b.outs[0][0]) if b.outs else None
        if kinds.first_state(b):
            yield 'state %d' % b.number, [bounds] * len(kinds.first_state(b))
    for b in blocks:
        if b.outs:
            yield 'held %d' % b.number, [kinds.ends(kind) for kind, rows, cols in b.outs for _ in range(rows * cols)]
    for b in blocks:
        if b.gui == 'SENSOR':
            yield 'cursor %d' % b.number, [(0, len(columns[b.ipar[0] - 1]))]


def numbers_of(line, begin, bounds):
    """The numbers of a line that begins so; None where the line isn't as it has to be."""
    found = re.fullmatch(re.escape(begin) + (' ' + NUMBER) * len(bounds), line)
    values = [int(value) for value in found.groups()] if found else []
    return values if found and all(low <= value <= high for value, (low, high) in zip(values, bounds)) else None


def pended(run, line):
    """Takes a line of a pending event; whether it is one."""
    values = numbers_of(line, 'pend', [(run.now, run.now + LONGEST), (1, 2**32), (1, 2**32)])
    if values is None or (values[1], values[2]) not in run.net.sources[1:] or (values[1], values[2]) in [source for _, _, source in run.pending]:
        return False
    if run.pending and values[0] < run.pending[-1][0]:
        return False
    run.pending.append((values[0], len(run.pending) + 1, (values[1], values[2])))
    run.programmed = len(run.pending)
    return True


def read(net, columns, content):
    """The run that stands where a text says, or WrongLine."""
    run = plain_run.Run(net, columns)
    run.pending = []
    *lines, last = content.decode('latin-1').split('\n')
    found, at = [], 0
    for begin, bounds in [('save 1', []), ('at', [(0, MOST_EVENTS), (0, LAST_DATE)])] + list(rows(net, columns)):
        values = numbers_of(lines[at], begin, bounds) if at < len(lines) else None
        at += 1
        if values is None:
            raise WrongLine(at)
        found.append((begin, values))
    run.fired, run.now = found[1][1]
    for begin, values in found[2:]:
        word, number = begin.split()
        if word == 'state':
            run.states[int(number)] = values
        elif word == 'held':
            run.held[int(number)] = kinds.cut(values, [rows * cols for _, rows, cols in net.blocks[int(number)].outs])
        else:
            run.cursors[int(number)] = values[0]
    while at < len(lines) and pended(run, lines[at]):
        at += 1
    if lines[at:at + 1] != ['done']:
        raise WrongLine(at + 1)
    if lines[at + 1:] or last:
        raise WrongLine(at + 2)
    return run


def resumed(net, columns, content, until, limit):
    """What `resume` prints on standard output and on standard error, and its status."""
    try:
        run = read(net, columns, content)
    except WrongLine as wrong:
        return '', 'refused 36 NotSave at - %s\n' % wrong, 1
    text, status = plain_run.trace_of(run.reactions(until, limit, True))
    return text, '', status
