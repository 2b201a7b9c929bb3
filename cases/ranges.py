"""The program `ranges`: what it tells of diagrams whose ranges were worked out by hand, its words, its refusals, which are those of `simulate`, and files and
streams of the machine that fail. It lies beside the program that is given, or where the gate builds it."""
import json
import os
import re
import resource
import subprocess
import sys
import tempfile

from limits import INPUT_MOST, ROOM, chain, content_of as diagram_of, deepest_text, guarded, most_tags, sensed
from readers import longest, most_elements, most_links, one_union
from refusals import CLOCK, REFUSALS, TEXTS, block, constant, event, wire
from streams import HERE, READ_FAULT, WRITE_FAULT, in_superblocks, run, text, without

TOP = os.path.join(HERE, '..')
EXAMPLES = os.path.join(TOP, 'examples')
USAGE = (b'', b'usage: ranges D I\n', 2)
MOST = 16777216


def beside(program):
    """The program `ranges` that belongs to a program `scicos`."""
    near = os.path.join(os.path.dirname(os.path.abspath(program)), 'ranges')
    return near if os.path.exists(near) else os.path.abspath(os.path.join(TOP, 'crates', 'ranges', 'out', 'ranges'))


def sensor(column, types=3):
    return block('SENSOR', outs=[1], evtin=1, types=types, ipar=[column])


def condition():
    return block('IFTHEL_f', [1], evtin=1, evtout=2)


def hold():
    return block('SAMPHOLD_m', [1], [1], evtin=1)


def total(mode, types):
    """A sum of two sensors in a mode."""
    return [CLOCK, sensor(1, types), sensor(2, types), block('SUMMATION', [1, 1], [1], types=types, ipar=[mode, 1, 1]), event((1, 1), (1, 1)),
            event((1, 1), (2, 1)), event((1, 1), (3, 1)), wire((2, 1), (4, 1)), wire((3, 1), (4, 2))]


def quotient(branch):
    """A quotient of two sensors, which acts at each event, or under the branch on which its divisor is above 0."""
    objs = [CLOCK, sensor(1), sensor(2), block('PRODUCT', [1, 1], [1], evtin=1, ipar=[2, -1]), event((1, 1), (1, 1)), event((1, 1), (2, 1)),
            event((1, 1), (3, 1)), wire((2, 1), (4, 1)), wire((3, 1), (4, 2))]
    if not branch:
        return objs + [event((1, 1), (4, 1))]
    return objs + [condition(), event((1, 1), (10, 1)), event((10, 1), (4, 1)), wire((3, 1), (10, 1))]


# A hold under one branch of a condition, and one under both that reads it: where the other branch is taken, that shows what is held, which is 0 at first.
BOTH = [CLOCK, sensor(1), condition(), hold(), hold(), constant(7), event((1, 1), (1, 1)), event((1, 1), (2, 1)), event((1, 1), (3, 1)),
        event((3, 1), (4, 1)), event((3, 1), (5, 1)), event((3, 2), (5, 1)), wire((2, 1), (3, 1)), wire((6, 1), (4, 1)), wire((4, 1), (5, 1))]
# A condition at start, whose branch programs an event before the first one of the clock: the hold reads the sensor before that has acted.
AT_START = [block('EVTDLY_c', evtin=1, evtout=1, ipar=5, firing=5), sensor(1), constant(1), block('IFTHEL_f', [1], evtout=2),
            block('EVTDLY_c', evtin=1, evtout=1, ipar=2, firing=-1), hold(), event((1, 1), (1, 1)), event((1, 1), (2, 1)), event((4, 1), (5, 1)),
            event((5, 1), (6, 1)), wire((3, 1), (4, 1)), wire((2, 1), (6, 1))]
# Two holds, each under a branch, and a choice of the one that has acted.
MERGED = [CLOCK, sensor(1), condition(), hold(), hold(), constant(5), constant(9), block('SELECT_m', [1, 1], [1], evtin=2), event((1, 1), (1, 1)),
          event((1, 1), (2, 1)), event((1, 1), (3, 1)), event((3, 1), (4, 1)), event((3, 2), (5, 1)), event((3, 1), (8, 1)), event((3, 2), (8, 2)),
          wire((2, 1), (3, 1)), wire((6, 1), (4, 1)), wire((7, 1), (5, 1)), wire((4, 1), (8, 1)), wire((5, 1), (8, 2))]
# A counter under a branch that is never taken.
DEAD = [constant(0), block('IFTHEL_f', [1], evtout=2), block('Modulo_Count', outs=[1], evtin=1, ipar=10, dstate=0), wire((1, 1), (2, 1)),
        event((2, 1), (3, 1))]
# A count by a switch: of x + 1 below 10, or 0, where a comparison of x + 1 says so; and of 0 where x is at least 9, or x + 1.
COUNT = [CLOCK, constant(1), block('DOLLAR_m', [1], [1], evtin=1, dstate=[0]), block('SUMMATION', [1, 1], [1], ipar=[2, 1, 1]), event((1, 1), (1, 1)),
         event((1, 1), (3, 1)), wire((3, 1), (4, 1)), wire((2, 1), (4, 2))]
COMPARED = [*COUNT[:4], block('RELATIONALOP', [1, 1], [1], ipar=[2]), constant(10), block('SWITCH2_m', [1, 1, 1], [1], ipar=[0, 1]), constant(0), *COUNT[4:],
            wire((4, 1), (5, 1)), wire((6, 1), (5, 2)), wire((4, 1), (7, 1)), wire((5, 1), (7, 2)), wire((8, 1), (7, 3)), wire((7, 1), (3, 1))]
SET_BACK = [*COUNT[:4], block('SWITCH2_m', [1, 1, 1], [1], ipar=[0, 9]), constant(0), *COUNT[4:], wire((6, 1), (5, 1)), wire((3, 1), (5, 2)),
            wire((4, 1), (5, 3)), wire((5, 1), (3, 1))]
# A quotient whose divisor is a sensor's value, or 1 where that is 0.
DIVIDED = [CLOCK, sensor(1), constant(1), block('SWITCH2_m', [1, 1, 1], [1], ipar=[2, 0]), block('PRODUCT', [1, 1], [1], ipar=[2, -1]),
           event((1, 1), (1, 1)), event((1, 1), (2, 1)), wire((2, 1), (4, 1)), wire((2, 1), (4, 2)), wire((3, 1), (4, 3)), wire((2, 1), (5, 1)),
           wire((4, 1), (5, 2))]
# A switch that takes a hold by a comparison of it, where the comparison acts at another event and may be old: nothing is known of what is taken.
APART = [CLOCK, block('EVTDLY_c', evtin=1, evtout=1, ipar=3, firing=0), sensor(1), constant(5), block('RELATIONALOP', [1, 1], [1], evtin=1, ipar=[2]),
         block('SWITCH2_m', [1, 1, 1], [1], evtin=1, ipar=[0, 1]), constant(0), event((1, 1), (1, 1)), event((2, 1), (2, 1)), event((1, 1), (3, 1)),
         event((2, 1), (5, 1)), event((1, 1), (6, 1)), wire((3, 1), (5, 1)), wire((4, 1), (5, 2)), wire((3, 1), (6, 1)), wire((5, 1), (6, 2)),
         wire((7, 1), (6, 3))]
# Two delays, each of which the other one's event activates, and neither has a first date: neither ever acts.
UNSTARTED = [block('EVTDLY_c', evtin=1, evtout=1, ipar=2, firing=-1) for _ in range(2)] + [event((1, 1), (2, 1)), event((2, 1), (1, 1))]
SENSED = [CLOCK, sensor(1, 8), event((1, 1), (1, 1)), event((1, 1), (2, 1))]

# By its name a diagram, the columns of its input file, and what is due, worked out by hand: an output holds 0 before its block acts.
TOLD = [
    ('no blocks', [], [], 'safe\n'),
    ('two elements', [constant(3, -4, rows=2)], [],
     'range 1 1 1 3 3\nheld 1 1 1 0 3\nrange 1 1 2 -4 -4\nheld 1 1 2 -4 0\nsafe\n'),
    ('a column', SENSED, [[200, 30, 90]], 'range 2 1 1 30 200\nheld 2 1 1 0 200\nstop input 2\nsafe\n'),
    ('a column without values', SENSED, [[]], 'range 2 1 1 0 255\nstop input 2\nsafe\n'),
    ('a sum that stops', total(2, 5), [[100], [20, 30]],
     'range 2 1 1 100 100\nheld 2 1 1 0 100\nrange 3 1 1 20 30\nheld 3 1 1 0 30\nrange 4 1 1 120 127\nheld 4 1 1 0 127\n'
     'stop input 2\nstop input 3\nstop overflow 4\nopen\n'),
    ('a sum that saturates', total(1, 5), [[100], [20, 30]],
     'range 2 1 1 100 100\nheld 2 1 1 0 100\nrange 3 1 1 20 30\nheld 3 1 1 0 30\nrange 4 1 1 120 127\nheld 4 1 1 0 127\nstop input 2\nstop input 3\nsafe\n'),
    ('a sum that wraps', total(0, 5), [[100], [28, 30]],
     'range 2 1 1 100 100\nheld 2 1 1 0 100\nrange 3 1 1 28 30\nheld 3 1 1 0 30\nrange 4 1 1 -128 -126\nheld 4 1 1 -128 0\nstop input 2\nstop input 3\nsafe\n'),
    ('a divisor that may be 0', quotient(False), [[-1000, 1000], [-20, 20]],
     'range 2 1 1 -1000 1000\nrange 3 1 1 -20 20\nrange 4 1 1 -1000 1000\nstop input 2\nstop input 3\nstop zero 4\nopen\n'),
    ('a divisor under its condition', quotient(True), [[-1000, 1000], [-20, 20]],
     'range 2 1 1 -1000 1000\nrange 3 1 1 -20 20\nrange 4 1 1 -1000 1000\nstop input 2\nstop input 3\nsafe\n'),
    ('both branches', BOTH, [[-3, 4]],
     'range 2 1 1 -3 4\nrange 4 1 1 7 7\nheld 4 1 1 0 7\nrange 5 1 1 0 7\nrange 6 1 1 7 7\nheld 6 1 1 0 7\nstop input 2\nsafe\n'),
    ('a branch at start', AT_START, [[5, 9]],
     'range 2 1 1 5 9\nheld 2 1 1 0 9\nrange 3 1 1 1 1\nheld 3 1 1 0 1\nrange 6 1 1 0 9\nstop input 2\nsafe\n'),
    ('branches merged', MERGED, [[-3, 4]],
     'range 2 1 1 -3 4\nrange 4 1 1 5 5\nheld 4 1 1 0 5\nrange 5 1 1 9 9\nheld 5 1 1 0 9\nrange 6 1 1 5 5\nheld 6 1 1 0 5\nrange 7 1 1 9 9\nheld 7 1 1 0 9\n'
     'range 8 1 1 5 9\nheld 8 1 1 0 9\nstop input 2\nsafe\n'),
    ('a dead branch', DEAD, [], 'range 1 1 1 0 0\nheld 3 1 1 0 0\nstate 3 0 0\nidle 3\nsafe\n'),
    ('delays that nothing starts', UNSTARTED, [], 'idle 1\nidle 2\nsafe\n'),
    ('a counter', json.loads(text(EXAMPLES, 'first.json'))['objs'], [], 'range 2 1 1 0 9\nstate 2 0 9\nsafe\n'),
    ('a count that wraps', json.loads(text(EXAMPLES, 'counter.json'))['objs'], [],
     'range 2 1 1 1 1\nheld 2 1 1 0 1\nrange 3 1 1 -2147483648 2147483647\nrange 4 1 1 -2147483648 2147483647\nstate 4 -2147483648 2147483647\nsafe\n'),
    ('a count by a comparison', COMPARED, [],
     'range 2 1 1 1 1\nheld 2 1 1 0 1\nrange 3 1 1 0 9\nrange 4 1 1 1 10\nheld 4 1 1 0 10\nrange 5 1 1 0 1\nrange 6 1 1 10 10\nheld 6 1 1 0 10\n'
     'range 7 1 1 0 9\nrange 8 1 1 0 0\nstate 3 0 9\nsafe\n'),
    ('a count that is set back', SET_BACK, [],
     'range 2 1 1 1 1\nheld 2 1 1 0 1\nrange 3 1 1 0 9\nrange 4 1 1 1 10\nheld 4 1 1 0 10\nrange 5 1 1 0 9\nrange 6 1 1 0 0\nstate 3 0 9\nsafe\n'),
    ('a divisor that is 1 in place of 0', DIVIDED, [[0, 20]],
     'range 2 1 1 0 20\nrange 3 1 1 1 1\nheld 3 1 1 0 1\nrange 4 1 1 1 20\nheld 4 1 1 0 20\nrange 5 1 1 0 20\nstop input 2\nsafe\n'),
    ('a comparison at another event', APART, [[-3, 8]],
     'range 3 1 1 -3 8\nrange 4 1 1 5 5\nheld 4 1 1 0 5\nrange 5 1 1 0 1\nrange 6 1 1 -3 8\nrange 7 1 1 0 0\nstop input 3\nsafe\n'),
    ('counters under branches', json.loads(text(EXAMPLES, 'branches.json'))['objs'], [[5, -1, 10]],
     'range 2 1 1 -1 10\nrange 4 1 1 0 9\nrange 5 1 1 0 9\nrange 6 1 1 -9 9\nstate 4 0 9\nstate 5 0 9\nstop input 2\nsafe\n'),
]


# By its name a diagram of those, its columns, and what a block shows in a run, in its order: a reader that were told to read only what its feeder shows
# would leave the range.
SHOWN = [('both branches', BOTH, [[-3, 4]], 5, [0, 7]), ('a branch at start', AT_START, [[5, 9]], 6, [0]),
         ('a comparison at another event', APART, [[-3, 8]], 6, [0, 8])]
# By the example's name what of it was worked out by hand, from its page: by block and element of output 1 the least and the greatest value.
BY_HAND = {
    'debouncer': {(6, 1): (-1, 4), (7, 1): (0, 3), (14, 1): (1, 3), (28, 1): (0, 1)},
    'fir8': {(8, 4): (0, 1000), (10, 1): (0, 4000)},
    'motor-pi': {(7, 1): (0, 3000), (22, 1): (-17170301, 20445432), (24, 1): (0, 30000), (25, 1): (-2147483648, 2147483647), (26, 1): (-131072, 131071),
                 (27, 1): (-134071, 161072), (28, 1): (-21987644, 26415808)},
    'pi-controller': {(8, 1): (12, 1000), (11, 1): (0, 1000)},
    'pulse-width': {(2, 1): (0, 7), (4, 1): (0, 8), (5, 1): (0, 1)},
    'push-button': {(3, 1): (0, 1), (5, 1): (0, 1), (6, 1): (0, 1)},
    'rate-limiter': {(4, 1): (-10, 30), (6, 1): (-8, 5), (9, 1): (0, 1)},
    'stepper': {(10, 1): (10, 40), (12, 1): (-1, 40)},
    'thermostat': {(2, 1): (189, 211), (7, 1): (0, 1), (12, 1): (0, 1), (14, 1): (0, 1)},
    'traffic-light': {(11, 1): (1, 4), (11, 2): (0, 1), (11, 3): (0, 1), (11, 4): (0, 1), (12, 1): (1, 4)},
    'watchdog': {(2, 1): (-1, 120), (6, 1): (0, 1)},
}
# The stops that are told of an example that is open, as its page says why.
OPEN = {'motor-pi': ['stop overflow 23', 'stop overflow 29']}


def answer(program, diagram, inputs, before=(), behind=(), **more):
    """What is answered on files with this content; None is a file that is missing. The files stand between these words; `more` is for the run."""
    with tempfile.TemporaryDirectory() as work:
        for name, content in (('d', diagram), ('i', inputs)):
            if content is not None:
                with open(os.path.join(work, name), 'wb') as file:
                    file.write(content)
        return run(program, [*before, 'd', 'i', *behind], cwd=work, **more)


def content_of(objs, columns):
    return json.dumps({'objs': objs}).encode(), json.dumps(columns).encode()


def ranges_told(program):
    """The ranges that were worked out by hand."""
    given = [(name, answer(beside(program), *content_of(objs, columns)), (due.encode(), b'', 0)) for name, objs, columns, due in TOLD]
    return '; '.join('%s: %r in place of %r' % (name, found, due) for name, found, due in given if found != due)


def ranges_shown(program):
    """What runs show where a feeder doesn't act with its reader."""
    wrong = []
    for name, objs, columns, block, due in SHOWN:
        out, err, _ = answer(program, *content_of(objs, columns), ['simulate'], ['100', '100'])
        lines = [line.split() for line in out.decode().splitlines()]
        shown = [int(line[4]) for line in lines if line[:2] == ['val', str(block)]]
        wrong += [] if shown == due else ['%s: %r in place of %r, %r' % (name, shown, due, err)]
    return '; '.join(wrong)


def ranges_of_examples(program):
    """Which examples are safe, and ranges of them that were worked out by hand."""
    wrong = []
    for name in sorted(os.listdir(EXAMPLES)):
        files = [os.path.join(EXAMPLES, name, file) for file in ('diagram.json', 'inputs.json')]
        if not all(map(os.path.exists, files)):
            continue
        out, err, status = run(beside(program), files)
        lines = out.decode().splitlines()
        stops = [line for line in lines if line.startswith(('stop overflow', 'stop zero'))]
        due = ['range %d 1 %d %d %d' % (*key, *ends) for key, ends in BY_HAND.get(name, {}).items()]
        due += OPEN.get(name, []) + ['open' if name in OPEN else 'safe']
        missing = [line for line in due if line not in lines]
        wrong += [] if (err, status, missing, stops) == (b'', 0, [], OPEN.get(name, [])) else ['%s: %s, %s, %r' % (name, missing, stops, err)]
    return '; '.join(wrong)


def at_the_limits():
    """By name a diagram with the most blocks, entries or guards, and what is due of it, worked out by hand."""
    counters, chained = range(258, 599), range(2, 2048)
    counts = ''.join('range %d 1 1 0 99\n' % k for k in counters) + 'held 599 1 1 0 0\n'
    states = ''.join('state %d 0 99\n' % k for k in counters) + 'state 599 0 0\n'
    return [('2,048 clocks', diagram_of([CLOCK] * 2048), ''.join('idle %d\n' % k for k in range(1, 2049)) + 'safe\n'),
            ('262,144 entries', diagram_of(one_union(512)), 'safe\n'),
            ('174,592 guards', guarded(0), counts + states + ''.join('idle %d\n' % k for k in [*range(1, 257), 599]) + 'safe\n'),
            ('a chain of 2,047 blocks', chain(False), 'range 1 1 1 9 9\nheld 1 1 1 0 9\n'
             + ''.join('range %d 1 1 18 18\nheld %d 1 1 0 18\n' % (k, k) for k in chained) + 'idle 2048\nsafe\n')]


def ringed():
    """A clock and 2,047 delays in a ring, which hand a number on."""
    numbers = range(2, 2049)
    objs = [CLOCK] + [block('DOLLAR_m', [1], [1], evtin=1, dstate=k % 1000) for k in numbers] + [event((1, 1), (k, 1)) for k in range(1, 2049)]
    return diagram_of(objs + [wire((k, 1), (k + 1 if k < 2048 else 2, 1)) for k in numbers])


def ranges_at_the_limits(program):
    """The largest diagrams are told in 200 MiB of memory; and of a ring each number that goes round."""
    def in_room():
        resource.setrlimit(resource.RLIMIT_AS, (200 << 20, 200 << 20))
    wrong = []
    for name, diagram, due in at_the_limits():
        found = answer(beside(program), diagram, b'[]', preexec_fn=in_room)
        wrong += [] if found == (due.encode(), b'', 0) else ['%s: %r, %d bytes, %r' % (name, found[1:], len(found[0]), found[0][-60:])]
    out, err, status = answer(beside(program), ringed(), b'[]', preexec_fn=in_room)
    lines = [line.split() for line in out.decode().splitlines()]
    told = [line[1] for line in lines if line[0] == 'range' and int(line[4]) <= 0 and int(line[5]) >= 999]
    wrong += [] if (err, status, len(told), lines[-1:]) == (b'', 0, 2047, [['safe']]) else ['ring: %r, %d, %d, %r' % (err, status, len(told), lines[-1:])]
    return '; '.join(wrong)


def further_limits():
    """By name a diagram and an input file at a limit of the files, and what is due of them."""
    seven = 'range 1 1 1 7 7\nheld 1 1 1 0 7\n'
    elements = ''.join('range {0} 1 {1} {0} {0}\nheld {0} 1 {1} 0 {0}\n'.format(k, e) for k in range(1, 257) for e in range(1, 257))
    column = b'[[7,8,9' + b',1' * ((INPUT_MOST - 9) // 2) + b']]'
    return [('1,024 tags', most_tags()[0], b'[]', seven + 'range 2 1 1 21 21\nheld 2 1 1 0 21\nrange 4 1 1 0 99\nstate 4 0 99\nsafe\n'),
            ('16,384 links', diagram_of(most_links()[0]), b'[]', 'safe\n'), ('JSON 127 deep', deepest_text()[0], b'[]', 'safe\n'),
            ('16 levels', in_superblocks([constant(7), CLOCK]).encode(), b'[]', seven + 'idle 2\nsafe\n'),
            ('65,536 elements', diagram_of(most_elements()[0]), b'[]', elements + 'idle 257\nsafe\n'), ('a long diagram', longest()[0], b'[]', 'safe\n'),
            ('a long input file', sensed(), column.ljust(INPUT_MOST), 'range 2 1 1 1 9\nheld 2 1 1 0 9\nstop input 2\nsafe\n')]


def ranges_of_long_files(program):
    """Files at the limits that the largest diagrams leave out: none wants memory, of which there are 2 GiB."""
    def in_room():
        resource.setrlimit(resource.RLIMIT_AS, (ROOM, ROOM))
    wrong = []
    for name, diagram, inputs, due in further_limits():
        found = answer(beside(program), diagram, inputs, preexec_fn=in_room)
        wrong += [] if found == (due.encode(), b'', 0) else ['%s: %r, %d bytes, %r' % (name, found[1:], len(found[0]), found[0][-60:])]
    return '; '.join(wrong)


def ranges_words(program):
    """Words that aren't two files."""
    called = beside(program)
    lines = [[], ['d'], ['d', 'i', 'x'], ['ranges', 'd', 'i'], ['simulate', 'd', 'i', '1', '1'], [b'\xff', 'i']]
    return without(USAGE, *((repr(words), run(called, words)) for words in lines))


def ranges_refused(program):
    """Each refusal of a diagram, and of an input file as the cases of `simulate` have it."""
    wrong, tried = [], 0
    for name, given, due in REFUSALS + TEXTS:
        content = given if isinstance(given, bytes) else json.dumps({} if given is None else {'objs': given}).encode()
        found = answer(beside(program), content, b'[]')
        wrong += [] if found == (b'', ('refused %s\n' % due).encode(), 1) else ['%s: %r' % (name, found)]
    for name in sorted(os.listdir(HERE)):
        folder = os.path.join(HERE, name)
        words = text(folder, 'words').decode().split('\n')[:-1] if os.path.exists(os.path.join(folder, 'words')) else []
        if words[:1] == ['simulate'] and len(words) == 5 and text(folder, 'status') in (b'1\n', b'3\n'):
            found, tried = run(beside(program), words[1:3], cwd=folder), tried + 1
            wrong += [] if found == (b'', text(folder, 'err'), int(text(folder, 'status'))) else ['%s: %r' % (name, found)]
    return '; '.join(wrong) if tried > 5 else 'only %d cases of simulate were tried' % tried


def ranges_files(program):
    """Files that are missing, no files, or too long: the diagram is told first."""
    called = beside(program)
    good = content_of(*TOLD[2][1:3])
    given = [('no diagram', answer(called, None, good[1]), READ_FAULT), ('no input file', answer(called, good[0], None), READ_FAULT),
             ('neither', answer(called, None, None), READ_FAULT), ('folders', run(called, [HERE, HERE]), READ_FAULT),
             ('a long diagram', answer(called, b' ' * (MOST + 1), None), (b'', b'refused 29 FileTooLong at - 1 16777216\n', 1)),
             ('a long input file', answer(called, good[0], b' ' * (MOST + 1)), (b'', b'refused 29 FileTooLong at - 2 16777216\n', 1))]
    return '; '.join('%s: %r' % (name, found) for name, found, due in given if found != due)


def ranges_unheard(program):
    """Standard output or error takes nothing: a write fault, with status 4."""
    called, wrong = beside(program), []
    words = [os.path.join(EXAMPLES, 'first.json'), os.path.join(EXAMPLES, 'no-inputs.json')]
    with open('/dev/full', 'wb') as full:
        given = run_with(called, words, stdout=full)
        wrong += [] if given == (None, WRITE_FAULT, 4) else ['out: %r' % (given,)]
        given = run_with(called, [], stderr=full)
        wrong += [] if given == (b'', None, 4) else ['err: %r' % (given,)]
    return '; '.join(wrong)


def run_with(program, words, **streams):
    """The streams that are read and the status of a run, of which others are given."""
    given = dict(dict(stdin=subprocess.DEVNULL, stdout=subprocess.PIPE, stderr=subprocess.PIPE), **streams)
    ended = subprocess.run([program] + words, timeout=60, **given)
    return ended.stdout, ended.stderr, ended.returncode


# A program that stands in for `ranges` and changes what it tells, by the word that is given.
DOCTORED = '''#!%s
import subprocess, sys
ended = subprocess.run([%r] + sys.argv[1:], capture_output=True, text=True)
lines = [line.split() for line in ended.stdout.splitlines()]
sys.stderr.write(ended.stderr)
for words in [] if ended.returncode else %s:
    print(*words)
sys.exit(ended.returncode)
'''
# By what is wrong what is printed of the lines.
MADE_WRONG = [
    ('a greatest value is too small', "[w[:5] + [max(int(w[4]), int(w[5]) - 1)] if w[0] == 'range' else w for w in lines]"),
    ('a least value is too great', "[w[:4] + [min(int(w[4]) + 1, int(w[5])), w[5]] if w[0] == 'range' else w for w in lines]"),
    ('first values are forgotten', "[w for w in lines if w[0] != 'held' or ['range', *w[1:4]] not in [v[:4] for v in lines]]"),
    ('states stay as they begin', "[w[:3] + [w[2]] if w[0] == 'state' else w for w in lines]"),
    ('stops are forgotten', "[w for w in lines[:-1] if w[:2] not in (['stop', 'overflow'], ['stop', 'zero'])] + [['safe']]"),
    ('ends of columns are forgotten', "[w for w in lines if w[:2] != ['stop', 'input']]"),
    ('what is open is told as safe', "lines[:-1] + [['safe']]"),
    ('all blocks are told as idle', "lines[:-1] + [['idle', w[1]] for w in lines if w[0] == 'range'] + lines[-1:]"),
    ('a line is missing', "lines[1:]"),
]


def random_runs(program, told, count, runs):
    """What `tools/random_ranges` says of so many runs of so many random diagrams, where this program tells the ranges."""
    script = os.path.join(TOP, 'tools', 'random_ranges')
    return subprocess.run([sys.executable, script, program, told, '--count', str(count), '--runs', str(runs)], capture_output=True, text=True, timeout=120)


def random_ranges(program):
    """No run of random diagrams leaves its ranges, of which most are narrower than their types."""
    ended = random_runs(program, beside(program), 18, 4)
    narrower = re.search(r' (\d+)\.\d% narrower ', ended.stdout)
    passed = ended.stdout.endswith(' 18 passed, 0 failed\n') and ended.stdout.count('\n') == 1
    return '' if passed and narrower and int(narrower[1]) >= 70 else ended.stdout + ended.stderr


def doctored_ranges(program):
    """Of tables that are made wrong some run of random diagrams tells it."""
    wrong = []
    for name, lines in MADE_WRONG:
        with tempfile.TemporaryDirectory() as work:
            path = os.path.join(work, 'ranges')
            with open(path, 'w') as file:
                file.write(DOCTORED % (sys.executable, beside(program), lines))
            os.chmod(path, 0o755)
            ended = random_runs(program, path, 9, 4)
        wrong += [] if ended.returncode == 1 and 'Traceback' not in ended.stderr else ['%s: %s' % (name, ended.stdout[-200:] + ended.stderr)]
    return '; '.join(wrong)


RANGES = [random_ranges, doctored_ranges, ranges_told, ranges_shown, ranges_of_examples, ranges_at_the_limits, ranges_of_long_files, ranges_words,
          ranges_refused, ranges_files, ranges_unheard]
