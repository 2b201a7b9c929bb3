"""Hosts that return from sci_stop: the C goes on, nothing that it does is undefined, and each value that it tells is one of its type. Hosts that return
from sci_end: no event fires behind an end, which is told again for each event that is left."""
import json
import os
import subprocess
import tempfile

from lacking import lacks
from streams import text

HERE = os.path.dirname(os.path.abspath(__file__))
FLAGS = ['-std=c99', '-O1', '-g', '-fsanitize=undefined,address', '-fno-sanitize-recover=all']
RANGES = {'int32': (-2**31, 2**31 - 1), 'int16': (-2**15, 2**15 - 1), 'int8': (-2**7, 2**7 - 1),
          'uint32': (0, 2**32 - 1), 'uint16': (0, 2**16 - 1), 'uint8': (0, 2**8 - 1)}


def block(gui, **model):
    return {'obj': 'Block', 'gui': gui, 'model': model}


def links(ct, *pairs):
    return [{'obj': 'Link', 'from': list(start), 'to': list(end), 'ct': [ct, 1 if ct == 1 else -1]} for start, end in pairs]


def accounts():
    """A clock, and a sum of what a sensor measures that stops where it doesn't fit. What is made of the sum would leave 64 bits, were it out of its type:
    its square, a delay, a quotient by the last sum, which is 0 at first. The same of vectors, in loops."""
    blocks = [
        block('EVTDLY_c', evtin=[1], evtout=[1], ipar=[1], firing=[0]),
        block('SENSOR', out=[1], outtyp=[3], evtin=[1], ipar=[1]),
        block('SUMMATION', **{'in': [1, 1], 'intyp': [3, 3]}, out=[1], outtyp=[3], evtin=[1], ipar=[2, 1, 1]),
        block('DOLLAR_m', **{'in': [1], 'intyp': [3]}, out=[1], outtyp=[3], evtin=[1], dstate=[0]),
        block('PRODUCT', **{'in': [1, 1], 'intyp': [3, 3]}, out=[1], outtyp=[3], ipar=[0, 1]),
        block('PRODUCT', **{'in': [1, 1], 'intyp': [3, 3]}, out=[1], outtyp=[3], ipar=[2, -1]),
        block('EVTVARDLY', **{'in': [1], 'intyp': [3]}, evtin=[1], evtout=[1], firing=[-1]),
        block('MUX', **{'in': [1, 1, 1], 'intyp': [3, 3, 3]}, out=[3], outtyp=[3]),
        block('PRODUCT', **{'in': [3, 3], 'intyp': [3, 3]}, out=[3], outtyp=[3], ipar=[2, 1]),
        block('PRODUCT', **{'in': [3, 3], 'intyp': [3, 3]}, out=[3], outtyp=[3], ipar=[0, 1]),
        block('PRODUCT', **{'in': [3, 3], 'intyp': [3, 3]}, out=[3], outtyp=[3], ipar=[1, -1]),
    ]
    values = [((2, 1), (3, 1)), ((4, 1), (3, 2)), ((3, 1), (4, 1)), ((3, 1), (5, 1)), ((3, 1), (5, 2)), ((3, 1), (6, 1)), ((4, 1), (6, 2)), ((3, 1), (7, 1)),
              ((2, 1), (8, 1)), ((3, 1), (8, 2)), ((4, 1), (8, 3)), ((8, 1), (9, 1)), ((8, 1), (9, 2)), ((9, 1), (10, 1)), ((9, 1), (10, 2)), ((8, 1), (11, 1)),
              ((9, 1), (11, 2))]
    events = [((1, 1), (number, 1)) for number in (1, 2, 3, 4, 7)]
    return json.dumps({'objs': blocks + links(1, *values) + links(5, *events)}).encode(), json.dumps([[2**31 - 1, 1, -1, 0, 46340, -7] * 10]).encode()


def stopping():
    """Runs that stop: of each a name, the diagram's and the input file's bytes, and the bounds."""
    yield ('a sum that is made use of', *accounts(), '1000', '100')
    for name in sorted(os.listdir(HERE)):
        folder = os.path.join(HERE, name)
        words = text(folder, 'words').decode().split('\n')[:-1] if os.path.exists(os.path.join(folder, 'words')) else []
        if words[:1] == ['simulate'] and text(folder, 'status') == b'6\n':
            yield (name, text(folder, words[1]), text(folder, words[2]), words[3], words[4])


def is_typed(line, types):
    """Whether a line of a trace tells no value, or one of its output's type."""
    if not line.startswith('val '):
        return True
    number, port, _, value = map(int, line.split()[1:])
    low, high = RANGES[types[number][port - 1]]
    return low <= value <= high


def wrong_run(program, diagram, inputs, until, limit):
    """What is wrong with the C of a diagram whose host returns from sci_stop."""
    with tempfile.TemporaryDirectory() as work:
        for name, content in (('d', diagram), ('i', inputs)):
            with open(os.path.join(work, name), 'wb') as file:
                file.write(content)
        trace, made, host, blocks = (subprocess.run([program, *words], cwd=work, capture_output=True, text=True, timeout=120)
                                     for words in (['simulate', 'd', 'i', until, limit], ['ccode', 'd'], ['host'], ['map', 'd']))
        if (trace.returncode, made.returncode) != (6, 0):
            return repr((trace.returncode, trace.stderr, made.stderr))
        for name, content in (('c.c', made.stdout), ('host.c', host.stdout.replace('  exit(6);\n', ''))):
            with open(os.path.join(work, name), 'w') as file:
                file.write(content)
        built = subprocess.run(['gcc', *FLAGS, '-o', 'returning', 'c.c', 'host.c'], cwd=work, capture_output=True, text=True, timeout=120)
        if built.returncode:
            return built.stderr
        run = subprocess.run([os.path.join(work, 'returning'), 'i', until, limit], cwd=work, capture_output=True, text=True, timeout=120)
    lines, rows = run.stdout.splitlines(), [line.split() for line in blocks.stdout.splitlines()]
    types = {int(row[0]): [shape.split('[')[0] for shape in row[3:]] for row in rows}
    if (run.returncode, run.stderr) != (0, '') or not lines[-1].startswith('end '):
        return repr((run.returncode, run.stderr[:2000], lines[-3:]))
    if not run.stdout.startswith(trace.stdout):
        return '%r in place of %r' % (run.stdout[:800], trace.stdout[:800])
    return ', '.join(line for line in lines if not is_typed(line, types))[:800]


def ending():
    """Runs that end before their last event: by a HALT_f, for want of events, and by the last date."""
    for name in ('simulate-halt', 'simulate-delays-alone', 'simulate-clock-tag'):
        words = text(HERE, name, 'words').decode().split('\n')[:-1]
        yield (name, text(HERE, name, words[1]), text(HERE, name, words[2]), words[3], '20')


def told_again(trace, limit):
    """What a host is told that returns from each end: the trace, its end for each event more, and that of the bound on events, or of the halt."""
    lines = trace.splitlines()
    left = int(limit) - sum(line.startswith('event ') for line in lines)
    return lines + [lines[-1]] * (left - 1) + ['end halt' if lines[-1] == 'end halt' else 'end events']


def wrong_end(program, diagram, inputs, until, limit):
    """What is wrong with the C of a diagram whose host returns from sci_end."""
    with tempfile.TemporaryDirectory() as work:
        for name, content in (('d', diagram), ('i', inputs)):
            with open(os.path.join(work, name), 'wb') as file:
                file.write(content)
        trace, made, host = (subprocess.run([program, *words], cwd=work, capture_output=True, text=True, timeout=120)
                             for words in (['simulate', 'd', 'i', until, limit], ['ccode', 'd'], ['host']))
        for name, content in (('c.c', made.stdout), ('host.c', host.stdout.replace('  exit(0);\n', ''))):
            with open(os.path.join(work, name), 'w') as file:
                file.write(content)
        built = subprocess.run(['gcc', *FLAGS, '-o', 'returning', 'c.c', 'host.c'], cwd=work, capture_output=True, text=True, timeout=120)
        if built.returncode:
            return built.stderr
        run = subprocess.run([os.path.join(work, 'returning'), 'i', until, limit], cwd=work, capture_output=True, text=True, timeout=120)
    due = told_again(trace.stdout, limit)
    same = run.stdout.splitlines() == due and run.stderr == ''
    return '' if same else '%r in place of %r' % ((run.stdout.splitlines()[-30:], run.stderr[:2000]), due[-30:])


def returning(program):
    """The C of runs that stop, with hosts that return from sci_stop, and of some that end, with hosts that return from sci_end."""
    if lacks('hosts that return from sci_stop or sci_end', 'gcc'):
        return ''
    found = [(name, wrong_run(program, *run)) for name, *run in stopping()] + [(name, wrong_end(program, *run)) for name, *run in ending()]
    return '; '.join('%s: %s' % it for it in found if it[1])
