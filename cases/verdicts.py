"""Traces that are judged: a run's own, by `simulate` of the slow program, and changed ones, of which the first wrong line is due.

What is due comes from tools/plain_run.py and tools/plain_judge.py.
"""
import json
import os
import subprocess
import tempfile

from plain import in_folder, simulations, trace
from streams import HERE, READ_FAULT, run, text, without
import plain_judge
import text_changes

# runs whose traces are changed in every way, lines of each kind among them, and stops of each word
CHANGED = ('simulate-counter', 'simulate-meter', 'simulate-halt', 'simulate-zero-divisor-mode-0', 'simulate-input-ends', 'simulate-sum-overflow-mode-2',
           'simulate-two-events-of-one-date', 'simulate-nest')
MOST = 67108864


def kinds_of_lines(content):
    """The numbers of a first and a last line of each kind, and those beside the last line."""
    places = {}
    for k, line in enumerate(content.split(b'\n')[:-1]):
        kind = tuple(line.split()[:2] if line.startswith((b'end', b'stop')) else line.split()[:1])
        places.setdefault(kind, []).append(k)
    last = content.count(b'\n') - 1
    return sorted({place for found in places.values() for place in (found[0], found[-1])} | {max(last - 1, 0)})


def wrong_verdicts(program, files, due, texts, bounds):
    """What is wrong with the verdicts on these texts beside the trace that is due."""
    wrong = []
    with tempfile.TemporaryDirectory() as work:
        for name, content in files.items():
            with open(os.path.join(work, name), 'wb') as file:
                file.write(content)
        for content in texts:
            with open(os.path.join(work, 'v'), 'wb') as file:
                file.write(content)
            given, (out, status) = run(program, ['judge', 'd', 'i', 'v'] + bounds, cwd=work), plain_judge.verdict(due, content)
            wrong += [] if given == (out, b'', status) else ['%r: %r in place of %r' % (content[-300:], given, (out, status))]
    return wrong


def judged_traces(program):
    """A run's own trace is one, those of stopped runs too; a changed one is told by its first line that is wrong, missing or too much."""
    wrong = []
    for name, diagram, inputs, until, limit in simulations():
        due = trace(diagram, inputs, until, limit)[0]
        texts = [due] + list(text_changes.changed_texts(due, kinds_of_lines(due) if name in CHANGED else ()))
        wrong += ['%s: %s' % (name, line) for line in wrong_verdicts(program, {'d': diagram, 'i': inputs}, due, texts, [until, limit])]
    return '; '.join(wrong)[:800]


def judged_bounds(program):
    """The trace of other bounds and of another diagram is told by the first line in which they differ, also where no event is asked for, or date 0."""
    runs, wrong = {name: given for name, *given in simulations()}, []
    for name, (diagram, inputs, until, limit) in runs.items():
        bounds = [(until, str(number)) for number in (0, 1, 2, int(limit), int(limit) + 1)] + [(str(date), limit) for date in (0, 1, int(until) // 2)] + [('0', '0')]
        texts = [trace(diagram, inputs, *given)[0] for given in bounds] + [trace(*runs[other])[0] for other in ('simulate-counter', 'simulate-meter')]
        for asked in ((until, limit), (until, '0'), ('0', limit)):
            due = trace(diagram, inputs, *asked)[0]
            wrong += ['%s: %s' % (name, line) for line in wrong_verdicts(program, {'d': diagram, 'i': inputs}, due, texts, list(asked))]
    return '; '.join(wrong)[:800]


def other_readings(inputs):
    """Input files for the same sensors: each column backwards, with a value less, and with its first value in the place of all."""
    columns = json.loads(inputs)
    for other in ([column[::-1] for column in columns], [column[:-1] for column in columns], [column[:1] * len(column) for column in columns]):
        yield json.dumps(other).encode()


def judged_readings(program):
    """The trace of other readings of a diagram's sensors, and its own one beside these, are told by the first line in which they differ."""
    wrong, differing = [], set()
    for name, diagram, inputs, *bounds in simulations():
        due = trace(diagram, inputs, *bounds)[0]
        for other in other_readings(inputs) if b'SENSOR' in diagram else ():
            text_of_other = trace(diagram, other, *bounds)[0]
            differing |= {name} if text_of_other != due else set()
            wrong += ['%s: %s' % (name, line) for line in wrong_verdicts(program, {'d': diagram, 'i': inputs}, due, [text_of_other], bounds)
                      + wrong_verdicts(program, {'d': diagram, 'i': other}, text_of_other, [due], bounds)]
    return '; '.join(wrong)[:800] or ('' if len(differing) > 10 else 'of too few diagrams the readings matter: %r' % differing)


def judged_long(program):
    """Traces of the greatest length, and one byte more."""
    folder = os.path.join(HERE, 'simulate-counter')
    files, due = {name: text(folder, name) for name in ('d', 'i')}, text(folder, 'out')
    wrong = []
    for content, size, answer in ((b'', MOST, (b'no 1\n', b'', 8)), (due, MOST, (b'no %d\n' % (due.count(b'\n') + 1), b'', 8)),
                                  (due + b'\n' * 1000, MOST, (b'no %d\n' % (due.count(b'\n') + 1), b'', 8)),
                                  (due, MOST + 1, (b'', b'refused 29 FileTooLong at - 3 67108864\n', 1))):
        with tempfile.TemporaryDirectory() as work:
            for name, other in dict(files, v=content).items():
                with open(os.path.join(work, name), 'wb') as file:
                    file.write(other)
            os.truncate(os.path.join(work, 'v'), size)
            given = run(program, ['judge', 'd', 'i', 'v', '100', '3'], cwd=work)
            wrong += [] if given == answer else ['%d bytes: %r in place of %r' % (size, given, answer)]
    return '; '.join(wrong)


def judged_in_order(program):
    """The diagram is looked at first, then the input file, and the trace last; each word has its form."""
    folder = os.path.join(HERE, 'simulate-input-ends')
    files = {'d': text(folder, 'd'), 'i': text(folder, 'i'), 'v': text(folder, 'out'), 'l': text(HERE, 'loop-in-simulate', 'd'), 'e': b'[]'}
    usage = (b'', text(HERE, 'no-words', 'err'), 2)
    loop = (b'', text(HERE, 'loop-in-simulate', 'err'), 1)
    lacking = (b'', b'refused 27 InputShape at - 1 0\n', 1)
    wrong = [without(due, *((line, in_folder(program, line.split(), **files)) for line in lines)) for due, lines in (
        (usage, ('judge', 'judge d i v 10', 'judge d i v 10 5 1', 'judge d i v 010 5', 'judge d i v 10 1000001', 'judge d i v 4611686018427387905 5', 'judge d i v -1 5',
                 'judge d i v 10 +5', 'judge d i 10 5')),
        (loop, ('judge l e v 10 5', 'judge l n n 10 5')),
        (lacking, ('judge d e v 10 5', 'judge d e n 10 5')),
        (READ_FAULT, ('judge n i v 10 5', 'judge d n v 10 5', 'judge d i n 10 5', 'judge d i . 10 5')))]
    return '; '.join(filter(None, wrong))


def judged_on_full_disk(program):
    """A verdict that can't be written is none, whichever it is."""
    wrong = []
    for case in ('judge-own', 'judge-line-8'):
        with open('/dev/full', 'wb') as full:
            ended = subprocess.run([program, 'judge', 'd', 'i', 'v', '100', '3'], cwd=os.path.join(HERE, case), stdin=subprocess.DEVNULL, stdout=full,
                                   stderr=subprocess.PIPE, timeout=60)
        wrong += [] if (ended.stderr, ended.returncode) == (b'write fault\n', 4) else ['%s: %r' % (case, ended)]
    return '; '.join(wrong)


VERDICTS = [judged_traces, judged_bounds, judged_readings, judged_long, judged_in_order, judged_on_full_disk]
