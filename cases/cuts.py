"""Files cut off behind each of their bytes or behind some of them, and an expression at its greatest depth and one deeper."""
import os
import tempfile

from readers import OTHERS, READERS
from streams import HERE, run, text

HEAD = 'static int64_t v1;\nvoid sci_main(void) {\n  v1 = '


def refused(line):
    """The answer of a refusal."""
    return b'', ('refused %s\n' % line).encode(), 1


def wrong_cuts(program, content, words, due, others=(), sizes=None):
    """What is wrong with the answers on the proper fronts of a file, or on those of some sizes; `due` says what is due of a front."""
    wrong = []
    with tempfile.TemporaryDirectory() as work:
        for name, other in others:
            with open(os.path.join(work, name), 'wb') as file:
                file.write(other)
        with open(os.path.join(work, 'cut'), 'wb') as file:
            file.write(content)
        for size in sorted(range(len(content)) if sizes is None else sizes, reverse=True):
            os.truncate(os.path.join(work, 'cut'), size)
            given = run(program, words, cwd=work)
            wrong += [] if given == due(content[:size]) else ['%s, %d bytes: %r' % (words[0], size, given)]
    return '; '.join(wrong[:3])


def cut_diagrams(program):
    """No front of a diagram is JSON, if its last byte is its last brace: for one command of each front of two, for all of some of the fronts of a longer
    one. A front that lacks the last line end alone is the diagram."""
    short, other, long = (text(HERE, name, 'd') for name in ('simulate-counter', 'simulate-counter-without-lists', 'simulate-meter'))
    long, counts = long.rstrip(), text(HERE, 'check-counter', 'out')
    if not (short[-1:] + long[-1:] == b'}}' and other[-2:] == b'}\n'):
        return 'another last byte'
    some = {0, 1, len(long) - 1, *range(2, len(long), 89)}
    wrong = [wrong_cuts(program, short, ['check', 'cut'], lambda front: refused('1 NotJson at -')),
             wrong_cuts(program, other, ['check', 'cut'], lambda front: (counts, b'', 0) if front == other[:-1] else refused('1 NotJson at -'))]
    wrong += [wrong_cuts(program, long, [words[0], 'cut'] + words[2:], lambda front: refused('1 NotJson at -'), OTHERS.items(), some) for words in READERS]
    return '; '.join(filter(None, wrong))


def cut_inputs(program):
    """No front of an input file is one."""
    folder = os.path.join(HERE, 'simulate-meter')
    return wrong_cuts(program, text(folder, 'i').rstrip(), ['simulate', 'd', 'cut', '30', '100'], lambda front: refused('27 InputShape at -'), [('d', text(folder, 'd'))])


def blamed(front):
    """The refusal of a front of a C program: the first byte of its last line is blamed, or that behind a last line which is whole."""
    return refused('26 NotC at - %d' % (front.rfind(b'\n') + 1))


def cut_programs(program):
    """No front of a C program is one."""
    return '; '.join(filter(None, (wrong_cuts(program, text(HERE, name, 'c'), ['crun', 'cut', 'i', '10', '10'], blamed, [('i', b'[]')])
                                   for name in ('crun-stop', 'crun-quotient'))))


def cut_code(program):
    """The same of the C of the meter, behind each of its lines and behind some other bytes."""
    folder = os.path.join(HERE, 'simulate-meter')
    code, err, status = run(program, ['ccode', 'd'], cwd=folder)
    ends = [size for size in range(1, len(code)) if code[size - 1:size] == b'\n']
    if (err, status) != (b'', 0) or len(ends) < 200:
        return 'ccode: %r' % ((code, err, status),)
    some = {*ends, len(code) - 1, *range(0, len(code), 31)}
    return wrong_cuts(program, code, ['crun', 'cut', 'i', '30', '100'], blamed, [('i', text(folder, 'i'))], some)


def cut_traces(program):
    """No front of a trace is one: the first line that isn't whole is told."""
    folder = os.path.join(HERE, 'simulate-meter')
    files = [(name, text(folder, name)) for name in 'di']
    return wrong_cuts(program, text(folder, 'out'), ['judge', 'd', 'i', 'cut', '30', '100'], lambda front: (b'no %d\n' % (front.count(b'\n') + 1), b'', 8), files)


def negations(program):
    """63 negations of a number are 64 deep and pass; one more is blamed at its line."""
    head = text(HERE, 'crun-primes', 'c').decode().split('static')[0] + HEAD
    with tempfile.TemporaryDirectory() as work:
        for count in (63, 64):
            with open(os.path.join(work, str(count)), 'w') as file:
                file.write(head + '(-' * count + 'INT64_C(0)' + ')' * count + ';\n}\n')
        with open(os.path.join(work, 'i'), 'w') as file:
            file.write('[]')
        given = [run(program, ['crun', name, 'i', '10', '10'], cwd=work) for name in ('63', '64')]
    return '' if given == [(b'', b'', 0), refused('26 NotC at - %d' % (len(head) - len('  v1 = ')))] else repr(given)


CUTS = [cut_diagrams, cut_inputs, cut_programs, cut_code, cut_traces, negations]
