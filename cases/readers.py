"""The nine commands that read a diagram, each on what is refused of one and on diagrams at the limits, what is due of which is written here by hand."""
import json
import os
import tempfile

from refusals import CLOCK, block, constant, event
from streams import HERE, run, text, without

# a command line of each, where the diagram is `d`, the input file `i`, the trace `t` and the image `s`
READERS = [['check', 'd'], ['map', 'd'], ['schedule', 'd'], ['ccode', 'd'], ['simulate', 'd', 'i', '10', '100'], ['judge', 'd', 'i', 't', '10', '100'],
           ['save', 'd', 'i', '10', '100', '1'], ['resume', 'd', 'i', 's', '10', '100'], ['vcd', 'd', 'i', '10', '100']]
OTHERS = {'i': b'[]', 't': b'start\nend empty\n', 's': b'save 1\nat 0 0\ndone\n'}
MOST = 16777216


def put(work, **files):
    for name, content in files.items():
        with open(os.path.join(work, name), 'wb') as file:
            file.write(content)


def wrong_answers(program, content, due):
    """What is wrong with what each of the commands says of a diagram of which all have to say the same."""
    with tempfile.TemporaryDirectory() as work:
        put(work, d=content, **OTHERS)
        return without(due, *((words[0], run(program, words, cwd=work)) for words in READERS))


def refusal_case(program, case):
    """What is wrong with a refusal of a diagram, which is given by its objects or by its bytes."""
    _, given, due = case
    content = given if isinstance(given, bytes) else json.dumps({} if given is None else {'objs': given}).encode()
    return wrong_answers(program, content, (b'', ('refused %s\n' % due).encode(), 1))


def blank_files(program):
    """Files of spaces alone, of the greatest length and one byte more."""
    return '; '.join(filter(None, [wrong_answers(program, b' ' * MOST, (b'', b'refused 1 NotJson at -\n', 1)),
                                   wrong_answers(program, b' ' * (MOST + 1), (b'', b'refused 29 FileTooLong at - 1 16777216\n', 1))]))


def run_of_code(program, work):
    """What the run of the diagram's C gives, or what `ccode` gives where it gives none."""
    code, err, status = run(program, ['ccode', 'd'], cwd=work)
    put(work, c=code)
    return run(program, ['crun', 'c', 'i', '10', '100'], cwd=work) if (err, status) == (b'', 0) else (b'', err, status)


def wrong_accepted(program, diagram, counts, kinds, schedule, trace, image, dump):
    """What is wrong with what each command says of a diagram at a limit, with the C of `ccode` run by `crun`; the image is that behind start."""
    lines = trace.splitlines(True)
    later = [line.startswith('event') for line in lines].index(True)
    due = {'check': 'ok %s\n' % counts, 'map': kinds, 'schedule': schedule, 'ccode': trace, 'simulate': trace, 'judge': 'yes %d\n' % len(lines), 'save': image,
           'resume': ''.join(lines[later:]), 'vcd': dump}
    wrong = []
    with tempfile.TemporaryDirectory() as work:
        put(work, d=diagram, i=b'[]', t=trace.encode(), s=image.encode())
        for words in READERS:
            out, err, status = run_of_code(program, work) if words[0] == 'ccode' else run(program, words, cwd=work)
            wrong += [] if (out, err, status) == (due[words[0]].encode(), b'', 0) else ['%s: %d bytes, %r, %d' % (words[0], len(out), err, status)]
    return wrong


def no_signals():
    return text(HERE, 'vcd-no-signals', 'out').decode()


def most_blocks():
    """2,048 clocks that fire once, all at date 0."""
    numbers = range(1, 2049)
    return ([CLOCK] * 2048, '2048 2049 0 0', ''.join('%d %d EVTDLY_c\n' % (k, k) for k in numbers), 'source start\n' + ''.join('source %d.1\n' % k for k in numbers),
            'start\n' + ''.join('event 0 %d 1\n' % k for k in numbers[:100]) + 'end events\n',
            'save 1\nat 0 0\n' + ''.join('pend 0 %d 1\n' % k for k in numbers) + 'done\n', no_signals())


def most_links():
    """A clock that 16,384 links lead back to itself."""
    return ([CLOCK] + [event((1, 1), (1, 1))] * 16384, '1 2 1 0', '1 1 EVTDLY_c\n', 'source start\nsource 1.1\n1 always\n',
            'start\n' + ''.join('event %d 1 1\n' % date for date in range(11)) + 'end until\n', 'save 1\nat 0 0\npend 0 1 1\ndone\n', no_signals())


def most_elements():
    """256 constants of 256 elements, each with the number of its block, and a clock that fires once."""
    numbers = range(1, 257)
    places = [(k, element) for k in numbers for element in numbers]
    head, begun = no_signals().split('$upscope')
    signals = ''.join('$var integer 32 v%d b%d_1_%d $end\n' % (signal, *place) for signal, place in enumerate(places, 1))
    dump = head + signals + '$upscope' + begun.replace('$dumpvars\n', '$dumpvars\n' + ''.join('b%s v%d\n' % (format(k, '032b'), v) for v, (k, _) in enumerate(places, 1)))
    return ([constant(k, rows=256) for k in numbers] + [block('EVTDLY_c', evtin=1, evtout=1, ipar=1, firing=7)], '257 2 256 0',
            ''.join('%d %d CONST_m int32[256x1]\n' % (k, k) for k in numbers) + '257 257 EVTDLY_c\n',
            'source start\n' + ''.join('%d always\n' % k for k in numbers) + 'source 257.1\n',
            'start\n' + ''.join('val %d 1 %d %d\n' % (k, element, k) for k, element in places) + 'event 7 257 1\nend empty\n',
            'save 1\nat 0 0\n' + ''.join('held %d%s\n' % (k, (' %d' % k) * 256) for k in numbers) + 'pend 7 257 1\ndone\n', dump)


def one_union(timers):
    """So many timers, each of which activates all of them through one union; the first fires at date 7."""
    objs = [block('EVTDLY_c', evtin=1, evtout=1, ipar=1, firing=-1 if k else 7) for k in range(timers)] + [block('CLKSOM_f', evtin=1, evtout=1)]
    return objs + [event((k, 1), (timers + 1, 1)) for k in range(1, timers + 1)] + [event((timers + 1, 1), (k, 1)) for k in range(1, timers + 1)]


def most_entries():
    """512 timers make 262,144 entries of schedules. Each event moves the pending ones of the others."""
    numbers = range(1, 513)
    rows = ''.join('%d always\n' % k for k in numbers)
    return (one_union(512), '512 513 262144 0', ''.join('%d %d EVTDLY_c\n' % (k, k) for k in numbers), 'source start\n' + ''.join('source %d.1\n%s' % (k, rows) for k in numbers),
            'start\n' + ''.join('event %d 1 1\n' % date for date in range(7, 11)) + 'end until\n', 'save 1\nat 0 0\npend 7 1 1\ndone\n', no_signals())


def longest():
    """A clock, in a text of the greatest length."""
    content = text(HERE, '..', 'examples', 'clock.json')
    return (content + b' ' * (MOST - len(content)), '1 2 1 0', '1 1 EVTDLY_c\n', 'source start\nsource 1.1\n1 always\n',
            'start\n' + ''.join('event %d 1 1\n' % date for date in (2, 5, 8)) + 'end until\n', 'save 1\nat 0 0\npend 2 1 1\ndone\n', no_signals())


def accepted_limits(program):
    """As many blocks, links, elements and entries of schedules as there may be, and as many bytes: each command says what is due."""
    wrong = []
    for limit in (most_blocks, most_links, most_elements, most_entries, longest):
        diagram, *due = limit()
        content = diagram if isinstance(diagram, bytes) else json.dumps({'objs': diagram}).encode()
        wrong += ['%s, %s' % (limit.__name__, told) for told in wrong_accepted(program, content, *due)]
    return '; '.join(wrong)


def too_long_diagram(program):
    """A diagram of one byte more is refused."""
    content = text(HERE, '..', 'examples', 'clock.json')
    return wrong_answers(program, content + b' ' * (MOST + 1 - len(content)), (b'', b'refused 29 FileTooLong at - 1 16777216\n', 1))


def too_long_schedule(program):
    """One timer more is refused."""
    return wrong_answers(program, json.dumps({'objs': one_union(513)}).encode(), (b'', b'refused 25 ScheduleTooLong at - 263169\n', 1))


LIMITED = [blank_files, accepted_limits, too_long_diagram, too_long_schedule]
