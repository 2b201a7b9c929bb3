"""Each command at the limits of its files, its words and its runs: there it must not tell want of memory, and just past a limit it tells its refusal.

What is due is worked out here from the page on the files. The runs on long files may take 2 GiB of memory and no more. docs/MISTAKES.md says which case
stands at which limit of which command; some of them are in readers.py, refusals.py, saves.py, waves.py, verdicts.py, streams.py and run.
"""
import json
import os
import resource
import subprocess
import tempfile

from cuts import refused
from readers import no_signals, put, wrong_accepted, wrong_answers
from refusals import block, constant, event, wire
from streams import HERE, USAGE, text

ROOM = 2 << 30
INPUT_MOST, TEXT_MOST = 16777216, 67108864
EVENTS, LONGEST, LAST = 10**6, 2**31 - 1, 2**62


def in_room():
    """What begins now may take 2 GiB of memory."""
    resource.setrlimit(resource.RLIMIT_AS, (ROOM, ROOM))


def answer(program, words, work):
    """The two streams and the status of a run that may take 2 GiB of memory."""
    ended = subprocess.run([program] + words, cwd=work, stdin=subprocess.DEVNULL, capture_output=True, timeout=900, preexec_fn=in_room)
    return ended.stdout, ended.stderr, ended.returncode


def whole(out):
    """The answer of a command that did what it was asked."""
    return out if isinstance(out, bytes) else out.encode(), b'', 0


def wrong_lines(program, work, *dues):
    """What is wrong with the answers to these command lines: by each what is due."""
    given = [(line, answer(program, line.split(), work), due) for line, due in dues]
    return ['%s: %d bytes, %r, %d' % (line, len(out), err, status) for line, (out, err, status), due in given if (out, err, status) != due]


def wrong_in_folder(program, files, *dues):
    """The same in a folder of these files, to which the C of the diagram `d` is added, where there is one."""
    with tempfile.TemporaryDirectory() as work:
        put(work, **files)
        if 'd' in files:
            put(work, c=answer(program, ['ccode', 'd'], work)[0])
        return wrong_lines(program, work, *dues)


def content_of(objs):
    return json.dumps({'objs': objs}).encode()


def clock(period, first):
    return block('EVTDLY_c', evtin=1, evtout=1, ipar=period, firing=first)


def digits(value, width=32):
    """A value as it stands in a dump."""
    return format(value % (1 << width), '0%db' % width)


def dump_of(signals, first, changes):
    """The dump of so many signals: `signals` has of each its kind, its width and its place, and `changes` has of each tick the text of its changes."""
    head, begun = no_signals().split('$upscope')
    declared = ''.join('$var %s %d v%d b%s $end\n' % (kind, width, k, place) for k, (kind, width, place) in enumerate(signals, 1))
    values = ''.join('b%s v%d\n' % (digits(value, width), k) for k, (value, (_, width, _)) in enumerate(zip(first, signals), 1))
    return head + declared + '$upscope' + begun.replace('$dumpvars\n', '$dumpvars\n' + values) + ''.join('#%d\n%s' % change for change in changes)


# ---- diagrams


def most_tags():
    """1,024 tags, each of which hands on what the one before it gives: half of them a value, and half an event."""
    numbers = range(1, 257)
    objs = [constant(7), block('GAINBLK', [1], [1], ipar=[0, 3]), clock(1, 1), block('Modulo_Count', outs=[1], evtin=1, ipar=100, dstate=5)]
    objs += [thing for k in numbers for thing in (block('GOTO', [1], ipar=[k, 1]), block('FROM', outs=[1], ipar=k))]
    objs += [thing for k in numbers for thing in (block('CLKGOTO', evtin=1, ipar=[k, 3]), block('CLKFROM', evtout=1, ipar=k))]
    ends = [1] + list(range(5, 517)) + [2]
    objs += [wire((start, 1), (end, 1)) for start, end in zip(ends[::2], ends[1::2])]
    ends = [3] + list(range(517, 1029)) + [4]
    objs += [event((start, 1), (end, 1)) for start, end in zip(ends[::2], ends[1::2])] + [event((3, 1), (3, 1))]
    dump = dump_of([('integer', 32, '%d_1_1' % k) for k in (1, 2, 4)], (7, 21, 5), [(tick, 'b%s v3\n' % digits(4 + tick)) for tick in range(2, 11)])
    reactions = ''.join('event %d 3 1\nval 4 1 1 %d\n' % (date, 4 + date) for date in range(1, 11))
    return (content_of(objs), '4 2 4 0', '1 1 CONST_m int32[1x1]\n2 2 GAINBLK int32[1x1]\n3 3 EVTDLY_c\n4 4 Modulo_Count int32[1x1]\n',
            'source start\n1 always\n2 always\nsource 3.1\n3 always\n4 always\n', 'start\nval 1 1 1 7\nval 2 1 1 21\n' + reactions + 'end until\n',
            'save 1\nat 0 0\nstate 4 5\nheld 1 7\nheld 2 21\nheld 4 5\npend 1 3 1\ndone\n', dump)


def guarded(more):
    """256 clocks that fire once, each of which activates a condition whose two branches lead to each of 341 counters: 87,552 entries of schedules with
    174,592 guards. So many of the clocks activate themselves too, and are entries more."""
    objs = [clock(1, k) for k in range(1, 257)] + [block('IFTHEL_f', [1], evtin=1, evtout=2)]
    objs += [block('Modulo_Count', outs=[1], evtin=1, ipar=100, dstate=0)] * 342
    objs += [event((k, 1), (257, 1)) for k in range(1, 257)] + [wire((599, 1), (257, 1))]
    objs += [event((257, branch), (k, 1)) for k in range(258, 599) for branch in (1, 2)]
    return content_of(objs + [event((k, 1), (k, 1)) for k in range(256, 256 - more, -1)])


def most_guards():
    """Schedules of 262,144 entries and guards together. The condition's value is 0, as nothing activates block 599."""
    clocks, counters, with_states = range(1, 257), range(258, 599), range(258, 600)
    row = '257 always\n' + ''.join('%d 257.1 257.2\n' % k for k in counters)
    kinds = [(k, 'EVTDLY_c') for k in clocks] + [(257, 'IFTHEL_f')] + [(k, 'Modulo_Count int32[1x1]') for k in with_states]
    reactions = ['event %d %d 1\n' % (date, date) + ''.join('val %d 1 1 %d\n' % (k, date - 1) for k in counters) for date in range(1, 11)]
    image = ''.join('%s %d 0\n' % (word, k) for word in ('state', 'held') for k in with_states) + ''.join('pend %d %d 1\n' % (k, k) for k in clocks)
    changes = [(tick, ''.join('b%s v%d\n' % (digits(tick - 1), v) for v in range(1, 342))) for tick in range(2, 11)]
    return (guarded(0), '599 257 87552 174592', ''.join('%d %d %s\n' % (k, k, kind) for k, kind in kinds),
            'source start\n' + ''.join('source %d.1\n%s' % (k, row) for k in clocks), 'start\n' + ''.join(reactions) + 'end until\n',
            'save 1\nat 0 0\n' + image + 'done\n', dump_of([('integer', 32, '%d_1_1' % k) for k in with_states], [0] * 342, changes))


def chain(closed):
    """A constant, a sum of it and of another block, and 2,045 gains behind it, each fed by the one before; with a clock 2,048 blocks. The other block is
    the constant again, or, where the chain is closed, the last gain."""
    objs = [constant(9), block('SUMMATION', [1, 1], [1], ipar=[0, 1, 1])] + [block('GAINBLK', [1], [1], ipar=[0, 1])] * 2045 + [clock(1, 7)]
    return content_of(objs + [wire((1, 1), (2, 1)), wire((2047, 1) if closed else (1, 1), (2, 2))] + [wire((k, 1), (k + 1, 1)) for k in range(2, 2047)])


def longest_chain():
    """Each value is needed for the next one: 18, as it is the sum that is handed on."""
    numbers = range(1, 2048)
    values = [9] + [18] * 2046
    kinds = ['CONST_m', 'SUMMATION'] + ['GAINBLK'] * 2045
    return (chain(False), '2048 2 2047 0', ''.join('%d %d %s int32[1x1]\n' % (k, k, kind) for k, kind in zip(numbers, kinds)) + '2048 2048 EVTDLY_c\n',
            'source start\n' + ''.join('%d always\n' % k for k in numbers) + 'source 2048.1\n',
            'start\n' + ''.join('val %d 1 1 %d\n' % pair for pair in zip(numbers, values)) + 'event 7 2048 1\nend empty\n',
            'save 1\nat 0 0\n' + ''.join('held %d %d\n' % pair for pair in zip(numbers, values)) + 'pend 7 2048 1\ndone\n',
            dump_of([('integer', 32, '%d_1_1' % k) for k in numbers], values, []))


def deepest_text():
    """A clock in a text that is nested 127 deep, in a field that isn't read."""
    content = text(HERE, '..', 'examples', 'clock.json').strip()
    return (b'{"unread":' + b'[' * 126 + b']' * 126 + b',' + content[1:], '1 2 1 0', '1 1 EVTDLY_c\n', 'source start\nsource 1.1\n1 always\n',
            'start\nevent 2 1 1\nevent 5 1 1\nevent 8 1 1\nend until\n', 'save 1\nat 0 0\npend 2 1 1\ndone\n', no_signals())


def further_diagrams(program):
    """Diagrams with the most tags, guards and needs, and in the deepest text: each command says what is due."""
    return '; '.join('%s, %s' % (limit.__name__, told) for limit in (most_tags, most_guards, longest_chain, deepest_text)
                     for told in wrong_accepted(program, *limit()))


def past_the_diagrams(program):
    """One entry more is refused; so is a loop of 2,046 blocks, each of which is told, and an output whose size has 19 digits."""
    loop = '24 AlgebraicLoop at 2 0 0 ' + ' '.join(map(str, range(2, 2048)))
    large = content_of([block('CONST_m', outs=[LONGEST], out2=[LONGEST], ipar=1)])
    dues = ((guarded(1), '25 ScheduleTooLong at - 262145'), (chain(True), loop), (large, '23 SignalTooLarge at 1 1 %d' % LONGEST**2))
    return '; '.join(filter(None, (wrong_answers(program, content, refused(due)) for content, due in dues)))


def dense_diagrams(program):
    """Files of the greatest length without a space that may be left out: of as many objects as fit in, and of as many numbers."""
    head, thing, tail = '{"objs":[', '{"obj":"Text"}', ']}'
    count = (INPUT_MOST - len(head + thing + tail)) // (len(thing) + 1)
    objects = head + (thing + ',') * count + thing + tail
    head, tail = '{"objs":[{"obj":"Block","gui":"CONST_m","model":{"out":1,"outtyp":3,"ipar":[', ']}}]}'
    more = (INPUT_MOST - len(head + '1' + tail)) // 2
    numbers = head + '1,' * more + '1' + tail
    files = {'t': objects.ljust(INPUT_MOST).encode(), 'n': numbers.ljust(INPUT_MOST).encode()}
    return '; '.join(wrong_in_folder(program, files, ('check t', whole('ok 0 1 0 0\n')), ('check n', refused('22 ShapeRule at 1 2 1 %d' % (more + 1)))))


def kinds_at_the_limits():
    """Kinds with as many ports, elements and parameters as they may have, behind a clock."""
    many, few = range(1, 65), range(1, 9)
    table = [row >> port & 1 for row in range(256) for port in range(8)]
    objs = [clock(3, 0), constant(*range(1, 257), rows=256), block('DEMUX', [256], [4] * 64), block('MUX', [4] * 64, [256]),
            block('SUMMATION', [4] * 64, [4], ipar=[0] + [1, -1] * 32), block('MAXMIN', [4] * 64, [4], ipar=[2]),
            block('LOGICAL_OP', [4] * 64, [4], ipar=[1, 1]), block('EXTRACTOR', [256], [256], ipar=list(range(256, 0, -1))),
            block('REGISTER', [1], [1], evtin=1, dstate=list(range(-128, 128)), types=5), constant(1, types=5),
            block('LOGIC', [1] * 8, [1] * 8, types=([5] * 8, [8] * 8), ipar=table), block('SENSOR', outs=[1], evtin=1, ipar=[255], types=6),
            block('ESELECT_f', [1], evtout=64, types=6), block('SELECT_m', [1] * 8, [1], evtin=8, types=8),
            block('Modulo_Count', outs=[1], evtin=1, ipar=LONGEST, dstate=LONGEST - 1), block('HALT_f', evtin=1)]
    objs += [event((1, 1), (number, 1)) for number in (1, 9, 12, 15)] + [event((13, 64), (14, 8)), event((13, 63), (16, 1))]
    objs += [wire((start, 1), (end, 1)) for start, end in ((2, 3), (2, 8), (10, 9), (12, 13))]
    objs += [wire((3, port), (number, port)) for number in (4, 5, 6, 7) for port in many]
    return objs + [wire((10, 1), (11, port)) for port in few] + [wire((11, port), (14, port)) for port in few]


def values(number, port, elements):
    return ''.join('val %d %d %d %d\n' % (number, port, at, value) for at, value in enumerate(elements, 1))


def kinds_due():
    """The trace up to date 6, worked out by hand; the column has 64, the greatest number of its type, and 63, at which the run halts."""
    parts, numbers, ored = [range(4 * k + 1, 4 * k + 5) for k in range(64)], range(1, 257), [0] * 4
    for part in parts:
        ored = [one | other for one, other in zip(ored, part)]
    start = values(2, 1, numbers) + ''.join(values(3, port, part) for port, part in enumerate(parts, 1)) + values(4, 1, numbers) + values(5, 1, [-128] * 4)
    start += values(6, 1, parts[63]) + values(7, 1, ored) + values(8, 1, numbers[::-1]) + values(10, 1, [1])
    start += ''.join(values(11, port, [1]) for port in range(1, 9))
    reaction = 'event %d 1 1\nval 9 1 1 %d\nval 12 1 1 %d\nval 14 1 1 1\nval 15 1 1 %d\n'
    last = 'event 6 1 1\nval 9 1 1 -126\nval 12 1 1 63\nval 15 1 1 1\nend halt\n'
    return 'start\n' + start + reaction % (0, -128, 64, LONGEST - 1) + reaction % (3, -127, 2**32 - 1, 0) + last


def kinds_mapped():
    """The map of these kinds, and their schedules: what constants reach at start, and what the clock activates, by depth."""
    types = {3: 'int32', 5: 'int8', 6: 'uint32', 8: 'uint8'}
    kinds = ''
    for number, (gui, model) in enumerate(((thing['gui'], thing['model']) for thing in kinds_at_the_limits() if thing['obj'] == 'Block'), 1):
        ports = zip(model.get('outtyp', []), model.get('out', []))
        kinds += '%d %d %s%s\n' % (number, number, gui, ''.join(' %s[%dx1]' % (types[code], rows) for code, rows in ports))
    always = '%d always\n'
    return kinds, ('source start\n' + ''.join(always % k for k in (2, 10, 3, 8, 11, 4, 5, 6, 7)) + 'source 1.1\n'
                   + ''.join(always % k for k in (1, 9, 12, 15, 13)) + '14 13.64\n16 13.63\n')


def widest_kinds(program):
    """As many ports, elements, parameters and columns as kinds may have: each command that reads a diagram says what is due, and so do its C and its dump."""
    trace, inputs = kinds_due(), json.dumps([[]] * 254 + [[64, 2**32 - 1, 63]]).encode()
    kinds, schedule = kinds_mapped()
    with tempfile.TemporaryDirectory() as work:
        put(work, d=content_of(kinds_at_the_limits()), i=inputs, t=trace.encode())
        put(work, c=answer(program, ['ccode', 'd'], work)[0], s=answer(program, ['save', 'd', 'i', '100', '100', '3'], work)[0],
            w=answer(program, ['vcd', 'd', 'i', '100', '100'], work)[0])
        out, *told = answer(program, ['vcdat', 'w', '4'], work)
        wrong = wrong_lines(program, work, ('check d', whole('ok 16 2 16 2\n')), ('map d', whole(kinds)), ('schedule d', whole(schedule)),
                            ('simulate d i 100 100', whole(trace)), ('crun c i 100 100', whole(trace)),
                            ('judge d i t 100 100', whole('yes %d\n' % trace.count('\n'))),
                            ('resume d i s 100 100', whole(trace[trace.index('event 6'):])))
    held = dict(line.split() for line in out.decode().splitlines())
    due = {'b2_1_256': '256', 'b3_64_4': '256', 'b4_1_255': '255', 'b8_1_256': '1', 'b9_1_1': '-127', 'b11_8_1': '1', 'b12_1_1': '4294967295', 'b15_1_1': '0'}
    return '; '.join(wrong + ([] if {name: held.get(name) for name in due} == due and len(held) == 1049 else ['vcdat w 4: %r' % told]))


def with_fields(number, changes):
    """One of the kinds above with changed fields, alone."""
    thing = json.loads(json.dumps(kinds_at_the_limits()[number - 1]))
    thing['model'].update(changes)
    return content_of([thing])


def ins(count, **more):
    return dict({'in': [1] * count, 'intyp': [3] * count}, **more)


def outs(count):
    return {'out': [1] * count, 'outtyp': [3] * count}


# one port or parameter more than a kind may have: the kind by its number above, what is due, and the fields
PAST_KINDS = [(3, '9 PortShape at 1 2 65', outs(65)), (4, '9 PortShape at 1 1 65', ins(65)), (5, '9 PortShape at 1 1 65', ins(65, ipar=[0] + [1] * 65)),
              (6, '9 PortShape at 1 1 65', ins(65)), (7, '9 PortShape at 1 1 65', ins(65)), (8, '8 BadParameter at 1 1 0 257', {'ipar': [1] * 257}),
              (9, '8 BadParameter at 1 2 0 257', {'dstate': [1] * 257}), (11, '9 PortShape at 1 1 9', ins(9)), (11, '9 PortShape at 1 2 9', outs(9)),
              (12, '8 BadParameter at 1 1 1 256', {'ipar': [256]}), (13, '9 PortShape at 1 4 65', {'evtout': [1] * 65}),
              (14, '9 PortShape at 1 1 9', ins(9, evtin=[1] * 9)), (15, '8 BadParameter at 1 1 1 2147483648', {'ipar': [2**31]}),
              (1, '8 BadParameter at 1 1 1 2147483648', {'ipar': [2**31]})]


def wider_kinds(program):
    """One more port, element, parameter or column, or a greater base or delay, is refused by each command."""
    return '; '.join(filter(None, (wrong_answers(program, with_fields(number, changes), refused(due)) for number, due, changes in PAST_KINDS)))


# ---- runs


def most_events(program):
    """A run of as many events as there may be, each of which takes a value, whose trace is as long as a file may be: by `simulate`, by its C, judged, saved
    before its last event and gone on with, and as a dump. One reaction later there is nothing to save, and a trace of one byte more is refused."""
    lines = 'event %d 1 1\nval 2 1 1 %d\nval 3 1 1 1\nval 4 1 1 1\nval 5 1 1 1\n'
    short = len('start\nend events\n') + sum(len(str(k)) for k in range(1, EVENTS + 1)) + EVENTS * (len(lines % (1, 100)) - 1)
    readings = [1000 + k % 9000 if k < TEXT_MOST - short else 100 + k % 900 for k in range(EVENTS)]
    trace = 'start\n' + ''.join([lines % pair for pair in enumerate(readings, 1)]) + 'end events\n'
    objs = [clock(1, 1), block('SENSOR', outs=[1], evtin=1, ipar=1), *[block('SIGNUM', [1], [1])] * 3]
    objs += [event((1, 1), (k, 1)) for k in (1, 2)] + [wire((2, 1), (k, 1)) for k in (3, 4, 5)]
    image = 'save 1\nat {0} {0}\nheld 2 {1}\nheld 3 1\nheld 4 1\nheld 5 1\ncursor 2 {0}\npend {2} 1 1\ndone\n'
    image = image.format(EVENTS - 1, readings[-2], EVENTS)
    changes = [(1, 'b%s v1\n' % digits(readings[0]) + ''.join('b%s v%d\n' % (digits(1), v) for v in (2, 3, 4)))]
    changes += [(k, 'b%s v1\n' % digits(readings[k - 1])) for k in range(2, EVENTS + 1)]
    dump = dump_of([('integer', 32, '%d_1_1' % k) for k in (2, 3, 4, 5)], [0] * 4, changes)
    files = {'d': content_of(objs), 'i': json.dumps([readings]).encode(), 't': trace.encode(), 's': image.encode(),
             'l': trace.encode() + b'\n', 'n': trace[:-len('end events\n')].encode() + b'end until\n', 'w': dump.encode()}
    bounds, count = ' %d %d' % (LAST, EVENTS), 5 * EVENTS + 2
    wrong = [] if len(files['t']) == TEXT_MOST else ['a trace of %d bytes' % len(files['t'])]
    told = 'b2_1_1 %d\nb3_1_1 1\nb4_1_1 1\nb5_1_1 1\n'
    return '; '.join(wrong + wrong_in_folder(
        program, files, ('simulate d i' + bounds, whole(files['t'])), ('crun c i' + bounds, whole(files['t'])),
        ('judge d i t' + bounds, whole('yes %d\n' % count)),
        ('judge d i n' + bounds, (b'no %d\n' % count, b'', 8)), ('judge d i l' + bounds, refused('29 FileTooLong at - 3 67108864')),
        ('save d i%s %d' % (bounds, EVENTS), whole(image)), ('save d i%s %d' % (bounds, EVENTS + 1), refused('35 RunEnded at - {0} {0}'.format(EVENTS + 1))),
        ('resume d i s' + bounds, whole(lines % (EVENTS, readings[-1]) + 'end events\n')), ('vcd d i' + bounds, whole(files['w'])),
        ('vcdat w %d' % EVENTS, whole(told % readings[-1])), ('vcdat w %d' % (EVENTS - 1), whole(told % readings[-2]))))


def farthest_dates(program):
    """Delays and first dates of the greatest length: a clock's, and those of a delay by a value that is longer. Each command that runs has each event."""
    objs = [clock(LONGEST, LONGEST), constant(2**32 - 1, types=6), block('EVTVARDLY', [1], evtin=1, evtout=1, firing=LONGEST, types=6)]
    objs += [block('Modulo_Count', outs=[1], evtin=1, ipar=LONGEST, dstate=0)]
    objs += [event((1, 1), (1, 1)), event((1, 1), (4, 1)), event((3, 1), (3, 1)), wire((2, 1), (3, 1))]
    lines = ['event %d 1 1\nval 4 1 1 %d\nevent %d 3 1\n' % (k * LONGEST, k - 1, k * LONGEST) for k in range(1, 51)]
    trace = 'start\nval 2 1 1 4294967295\n' + ''.join(lines) + 'end events\n'
    image = 'save 1\nat 100 %d\nstate 4 50\nheld 2 4294967295\nheld 4 49\npend %d 1 1\npend %d 3 1\ndone\n' % (50 * LONGEST, 51 * LONGEST, 51 * LONGEST)
    changes = [(k * LONGEST, 'b%s v2\n' % digits(k - 1)) for k in range(2, 51)]
    dump = dump_of([('wire', 32, '2_1_1'), ('integer', 32, '4_1_1')], (2**32 - 1, 0), changes)
    bounds = ' %d 100' % LAST
    files = {'d': content_of(objs), 'i': b'[]', 't': trace.encode(), 's': image.encode(), 'w': dump.encode()}
    rest = 'event {0} 1 1\nval 4 1 1 50\nevent {0} 3 1\nend events\n'.format(51 * LONGEST)
    return '; '.join(wrong_in_folder(
        program, files, ('simulate d i' + bounds, whole(trace)), ('crun c i' + bounds, whole(trace)), ('judge d i t' + bounds, whole('yes 153\n')),
        ('save d i %d 101 101' % LAST, whole(image)), ('resume d i s %d 102' % LAST, whole(rest)), ('vcd d i' + bounds, whole(dump)),
        ('vcdat w %d' % (50 * LONGEST - 1), whole('b2_1_1 4294967295\nb4_1_1 48\n')), ('vcdat w %d' % LAST, whole('b2_1_1 4294967295\nb4_1_1 49\n'))))


def most_states(program):
    """An image of 524,032 states, those of 2,047 registers in a ring, is written, and the run goes on from it."""
    numbers = range(2, 2049)
    objs = [clock(5, 0)] + [block('REGISTER', [1], [1], evtin=1, dstate=[k] * 255 + [-k]) for k in numbers] + [event((1, 1), (k, 1)) for k in range(1, 2049)]
    objs += [wire((k, 1), (k + 1 if k < 2048 else 2, 1)) for k in numbers]

    def image(fired):
        before = {k: k - 1 if k > 2 else 2048 for k in numbers}
        states = ''.join('state %d%s%s%s\n' % (k, (' %d' % k) * (255 - fired), ' %d' % -k, (' %d' % before[k]) * fired) for k in numbers)
        return 'save 1\nat %d %d\n' % (fired, 5 * fired - 5) + states + ''.join('held %d %d\n' % (k, k) for k in numbers) + 'pend %d 1 1\ndone\n' % (5 * fired)
    rest = 'event %d 1 1\n' + ''.join('val %d 1 1 %d\n' % (k, k) for k in numbers)
    return '; '.join(wrong_in_folder(program, {'d': content_of(objs), 'i': b'[]', 's': image(2).encode()}, ('save d i 100 9 3', whole(image(2))),
                                     ('save d i 2000 300 201', whole(image(200))), ('resume d i s 100 4', whole(rest % 10 + rest % 15 + 'end events\n'))))


# ---- input files


def sensed():
    """A clock and a sensor."""
    return content_of([clock(1, 1), block('SENSOR', outs=[1], evtin=1, ipar=[1], types=5), event((1, 1), (1, 1)), event((1, 1), (2, 1))])


RUN_BY = ['simulate d i 3 9', 'crun c i 3 9', 'judge d i t 3 9', 'save d i 3 9 3', 'resume d i s 3 9', 'vcd d i 3 9']


def wrong_inputs(program, inputs, count, dues):
    """What is wrong with the answers of the first so many of the commands that read this input file."""
    trace = 'start\n' + ''.join('event %d 1 1\nval 2 1 1 %d\n' % (k, 6 + k) for k in (1, 2, 3)) + 'end until\n'
    image = 'save 1\nat 2 2\nheld 2 8\ncursor 2 2\npend 3 1 1\ndone\n'
    dump = dump_of([('integer', 8, '2_1_1')], [0], [(k, 'b%s v1\n' % digits(6 + k, 8)) for k in (1, 2, 3)])
    answers = [whole(trace), whole(trace), whole('yes 8\n'), whole(image), whole('event 3 1 1\nval 2 1 1 9\nend until\n'), whole(dump)]
    return wrong_in_folder(program, {'d': sensed(), 'i': inputs, 't': trace.encode(), 's': image.encode()}, *zip(RUN_BY[:count], dues or answers))


def longest_inputs(program):
    """Input files of the greatest length, without a space that may be left out: one column of 8,388,606 values, and as many columns as fit in; the last of
    the values is looked at too. One byte more is refused by each command."""
    begin, end = '[[7,8,9', ']]'
    count = (INPUT_MOST - len(begin + end)) // 2
    column = begin + ',1' * count + end
    columns = begin + ']' + ',[]' * ((INPUT_MOST - len(begin + end)) // 3) + ']'
    outside = [refused('28 InputRange at 2 1 %d 999' % (count + 2))]
    wrong = []
    for what, inputs, commands, dues in (('values', column, 6, None), ('columns', columns, 6, None),
                                         ('a value', begin + ',1' * (count - 2) + ',999' + end, 1, outside),
                                         ('a byte', column.ljust(INPUT_MOST + 1), 6, [refused('29 FileTooLong at - 2 16777216')] * 6)):
        wrong += ['%s, %s' % (what, told) for told in wrong_inputs(program, inputs.ljust(INPUT_MOST).encode(), commands, dues)]
    return '; '.join(wrong)


# ---- C, dumps, words, and the bulk diagram

HEAD = text(HERE, 'crun-primes', 'c').decode().split('static')[0]


def c_text(declared, statements, functions=()):
    return (HEAD + ''.join(line + '\n' for line in [*declared, *functions, 'void sci_main(void) {', *statements, '}'])).encode()


def c_set(number):
    return '  v1 = INT64_C(%d);' % number


def c_val(value):
    return '  sci_val(INT64_C(1), INT64_C(1), INT64_C(1), %s);' % value


def in_ifs(depth):
    """A number given under so many conditions."""
    begin, end = ['  ' * k + 'if (INT64_C(1)) {' for k in range(1, depth + 1)], ['  ' * k + '}' for k in range(depth, 0, -1)]
    return begin + ['  ' * (depth + 1) + 'v1 = INT64_C(5);'] + end + [c_val('v1')]


def calls(depth):
    """Functions, each of which calls the one before it, so that calls are so deep."""
    return [line for k in range(1, depth + 1) for line in ('static void f%d(void) {' % k, '  f%d();' % (k - 1) if k > 1 else '  v1 = INT64_C(5);', '}')]


def array_of(number, elements=1048576):
    return 'static int64_t a%d[%d];' % (number, elements)


VARIABLE = 'static int64_t v1;'
LAST_OF_16 = ['  a1[INT64_C(1048575)] = INT64_C(4);', '  a16[INT64_C(1048575)] = (a1[INT64_C(1048575)] + INT64_C(1));', c_val('a16[INT64_C(1048575)]')]
# C at a limit of the subset; C past it, with the part of it that is blamed
PROGRAMS = [
    (c_text(map(array_of, range(1, 17)), LAST_OF_16), c_text([*map(array_of, range(1, 17)), array_of(17, 1)], LAST_OF_16), b'a17'),
    (c_text(map(array_of, range(1, 17)), LAST_OF_16), c_text([*map(array_of, range(1, 16)), array_of(16, 1048577)], LAST_OF_16), b'static int64_t a16'),
    (c_text([VARIABLE], in_ifs(15)), c_text([VARIABLE], in_ifs(16)), b'  ' * 17 + b'v1'),
    (c_text([VARIABLE], ['  f64();', c_val('v1')], calls(64)), c_text([VARIABLE], ['  f65();', c_val('v1')], calls(65)), b'f65'),
    (c_text(['static int64_t v4294967295;'], ['  v4294967295 = INT64_C(5);', c_val('v4294967295')]), c_text(['static int64_t v4294967296;'], []),
     b'static int64_t v'),
    (c_text([VARIABLE], [c_val('(INT64_C(9223372036854775807) - INT64_C(9223372036854775802))')]), c_text([VARIABLE], [c_set(2**63)]), b'  v1'),
]


def programs_at_the_limits(program):
    """C with as many elements of arrays, as deep and with as great names and numbers as there may be runs; with one more it is refused, at its byte."""
    wrong = []
    for number, (good, bad, blamed) in enumerate(PROGRAMS, 1):
        told = wrong_in_folder(program, {'c': good, 'b': bad, 'i': b'[]'}, ('crun c i 1 1', whole('val 1 1 1 5\n')),
                               ('crun b i 1 1', refused('26 NotC at - %d' % bad.index(blamed))))
        wrong += ['%d, %s' % (number, line) for line in told]
    return '; '.join(wrong)


def longest_program(program):
    """C of the greatest length, of as many statements as fit in, is read and run; that of one byte more is refused."""
    functions, call = ['static void f1(void) {', '  v1 = (v1 + INT64_C(1));', '}'], '  f1();'
    first = next(10**zeros for zeros in range(8) if (TEXT_MOST - len(c_text([VARIABLE], [c_set(10**zeros), c_val('v1')], functions))) % (len(call) + 1) == 0)
    count = (TEXT_MOST - len(c_text([VARIABLE], [c_set(first), c_val('v1')], functions))) // (len(call) + 1)
    content = c_text([VARIABLE], [c_set(first)] + [call] * count + [c_val('v1')], functions)
    wrong = [] if len(content) == TEXT_MOST else ['C of %d bytes' % len(content)]
    dues = ('crun c i 1 1', whole('val 1 1 1 %d\n' % (first + count))), ('crun b i 1 1', refused('29 FileTooLong at - 1 67108864'))
    return '; '.join(wrong + wrong_in_folder(program, {'c': content, 'b': content + b'\n', 'i': b'[]'}, *dues))


def largest_code(program):
    """2,047 blocks of 2,048 truths each, with nearly all links that there may be: `ccode` writes the C of all of them, with a call for each block, and no
    `crun` reads as much."""
    table = [row >> port & 1 for row in range(256) for port in range(8)]
    objs = [constant(5)] + [block('LOGIC', [1] * 8, [1] * 8, ipar=table)] * 2047 + [wire((1, 1), (k, port)) for k in range(2, 2049) for port in range(1, 9)]
    with tempfile.TemporaryDirectory() as work:
        put(work, d=content_of(objs), i=b'[]')
        with open(os.path.join(work, 'c'), 'wb') as out:
            streams = dict(stdin=subprocess.DEVNULL, stdout=out, stderr=subprocess.PIPE)
            ended = subprocess.run([program, 'ccode', 'd'], cwd=work, timeout=900, preexec_fn=in_room, **streams)
        with open(os.path.join(work, 'c'), 'rb') as file:
            calls = sum(line.lstrip(b' ').startswith(b'f') and line.endswith(b'();\n') for line in file)
        wrong = [] if (ended.stderr, ended.returncode, calls) == (b'', 0, 2048) else ['ccode d: %r, %d, %d calls' % (ended.stderr, ended.returncode, calls)]
        dues = ('check d', whole('ok 2048 1 2048 0\n')), ('crun c i 1 1', refused('29 FileTooLong at - 1 67108864'))
        return '; '.join(wrong + wrong_lines(program, work, *dues))


def longest_dump(program):
    """A dump of the greatest length is read up to its last tick; that of one byte more is refused."""
    head = dump_of([('wire', 8, '1_1_1')], [0], [])
    count, more = divmod(TEXT_MOST - len(head), len('#100000000000\nb00000010 v1\n'))
    ticks = [10**11 + k for k in range(count - more)] + [10**12 + k for k in range(more)]  # the last ones have a digit more
    dump = (head + ''.join(['#%d\nb%s v1\n' % (tick, ('00000010', '00000001')[k % 2]) for k, tick in enumerate(ticks)])).encode()
    last, odd = ticks[-1], (count - 1) % 2
    wrong = [] if len(dump) == TEXT_MOST and more else ['a dump of %d bytes' % len(dump)]
    dues = [('vcdat w %d' % tick, whole('b1_1_1 %d\n' % value)) for tick, value in ((LAST, 2 - odd), (last - 1, 1 + odd))]
    return '; '.join(wrong + wrong_in_folder(program, {'w': dump, 'l': dump + b'\n'}, *dues, ('vcdat l 1', refused('29 FileTooLong at - 1 67108864'))))


def greatest_words(program):
    """Each command takes the greatest number for each of its words, and none that is 1 greater."""
    trace, image = 'start\nevent 7 1 1\nend empty\n', 'save 1\nat 0 0\npend 7 1 1\ndone\n'
    files = {'d': content_of([clock(1, 7)]), 'i': b'[]', 't': trace.encode(), 's': image.encode(), 'w': no_signals().encode()}
    dues = []
    for line, due in (('simulate d i', whole(trace)), ('crun c i', whole(trace)), ('judge d i t', whole('yes 3\n')),
                      ('resume d i s', whole(trace[len('start\n'):])), ('vcd d i', whole(no_signals()))):
        dues += [('%s %d %d' % (line, LAST, EVENTS), due), ('%s %d %d' % (line, LAST + 1, EVENTS), USAGE), ('%s %d %d' % (line, LAST, EVENTS + 1), USAGE)]
    for numbers, due in (((LAST, EVENTS, 1), whole(image)), ((LAST, EVENTS, EVENTS + 1), refused('35 RunEnded at - 1000001 2')),
                         ((LAST + 1, EVENTS, 1), USAGE), ((LAST, EVENTS + 1, 1), USAGE), ((LAST, EVENTS, EVENTS + 2), USAGE)):
        dues.append(('save d i %d %d %d' % numbers, due))
    dues += [('vcdat w %d' % LAST, whole('')), ('vcdat w %d' % (LAST + 1), USAGE), ('bulk 4294967296 1', USAGE), ('bulk 4294967295 2001', USAGE)]
    return '; '.join(wrong_in_folder(program, files, *dues))


def drawn_blocks(seed, size):
    """The data blocks of the bulk diagram: of each its kind and what it draws; a number stands for each drawn from it, and a draw is its upper half."""
    def draw(below):
        nonlocal seed
        seed = (1664525 * seed + 1013904223) % 2**32
        return seed // 65536 % below
    yield 'one', 0, 0
    for number in range(2, size + 1):
        yield ('delay', 'sum', 'triple')[draw(3)], 1 + draw(number - 1), 1 + draw(number - 1)


def bulk_line(seed, size):
    """What `bulk` prints, by a run of the diagram in plain Python. A clock's activations don't depend on values, as there are no conditions."""
    blocks = dict(enumerate(drawn_blocks(seed, size), 1))
    acting = {}
    for source in range(9):  # 0 is start
        acts = set()
        for number, (kind, a, b) in blocks.items():
            inherits = kind != 'delay' and (a in acts or kind == 'sum' and b in acts)
            if kind == 'one' and source == 0 or inherits or kind == 'delay' and source == 1 + (a + b) % 8:
                acts.add(number)
        acting[source] = sorted(acts)
    value, state = dict.fromkeys(blocks, 0), dict.fromkeys(blocks, 0)
    lines, total, events, order = 0, 0, [(clock, clock, clock) for clock in range(1, 9)], 8
    for step in range(1001):
        date, _, source = min(events) if step else (0, 0, 0)
        for number in acting[source]:
            kind, a, b = blocks[number]
            new = 1 if kind == 'one' else state[number] if kind == 'delay' else value[a] + value[b] if kind == 'sum' else 3 * value[a]
            value[number] = (new + 2**31) % 2**32 - 2**31
            total += value[number]
        for number in acting[source]:
            state[number] = value[blocks[number][1]] if blocks[number][0] == 'delay' else 0
        lines += 1 + len(acting[source])
        if step:
            order += 1
            events = [event for event in events if event[2] != source] + [(date + source, order, source)]
    return 'bulk %d 9 %d 0 %d %d\n' % (size + 8, sum(map(len, acting.values())) + 8, lines + 1, total % 2**32)


def bulk_at_the_limits(program):
    """The greatest seed with the greatest size, and the least ones, beside a run in plain Python."""
    shown = 'bulk 2008 9 3995 0 425653 193831096\n', 'bulk 10 9 10 0 1126 123\n'  # by a program of another make
    wrong = [] if (bulk_line(1, 2000), bulk_line(5, 2)) == shown else ['another run in plain Python']
    # drawn by hand: a delay of block 1 on clock 3, three times block 1, three times block 2, the sum of blocks 4 and 1
    drawn = [('one', 0, 0), ('delay', 1, 1), ('triple', 1, 1), ('triple', 2, 3), ('sum', 4, 1)]
    wrong += [] if list(drawn_blocks(5, 5)) == drawn else ['another diagram in plain Python']
    dues = [('bulk %d %d' % pair, whole(bulk_line(*pair))) for pair in ((2**32 - 1, 2000), (2**32 - 1, 1), (0, 1), (0, 2000), (5, 5))]
    return '; '.join(wrong + wrong_in_folder(program, {}, *dues))


AT_LIMITS = [further_diagrams, past_the_diagrams, dense_diagrams, widest_kinds, wider_kinds, most_events, farthest_dates, most_states, longest_inputs,
             programs_at_the_limits, longest_program, largest_code, longest_dump, greatest_words, bulk_at_the_limits]
