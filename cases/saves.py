"""Runs that are saved and go on: images of each reaction, images with a mistake, and those of other diagrams.

What is due comes from tools/plain_save.py; the first wrong line of the image of the meter is also written here by hand.
"""
import itertools
import json
import os
import tempfile

from cuts import refused, wrong_cuts
from plain import in_folder, plain, ring_of_delays, simulations, trace
from streams import HERE, READ_FAULT, run, text, without
import plain_run
import plain_save
import text_changes

MOST = 67108864
# of the image of the meter: what is changed into what, and the first wrong line; or the lines behind which the run then goes on otherwise
MISTAKES = [
    ('save 1\n', 'save 2\n', 1), ('save 1\n', '', 1), ('save 1\n', 'save 1\nsave 1\n', 2), ('save 1\n', 'Save 1\n', 1), ('save 1\n', '\nsave 1\n', 1),
    ('at 2 10', 'at 1000001 10', 2), ('at 2 10', 'at 2 4611686018427387905', 2), ('at 2 10', 'at -1 10', 2), ('at 2 10', 'at 2 15', 15), ('at 2 10', 'at 02 10', 2),
    ('at 2 10', 'at 2 1e1', 2), ('at 2 10', 'at +2 10', 2), ('at 2 10\n', '', 2), ('at 2 10', 'at 2', 2), ('at 2 10', 'at 2 10 0', 2),
    ('at 2 10', 'at 99999999999999999999999999 10', 2), ('at 2 10', 'at 2 18446744073709551626', 2),
    ('state 3 0\n', '', 3), ('state 3 0', 'state 3 32768', 3), ('state 3 0', 'state 3 -32769', 3), ('state 3 0', 'state 3 -0', 3), ('state 3 0', 'state 3', 3),
    ('state 3 0', 'state 3 0 0', 3), ('state 3 0', 'state 4 0', 3), ('state 3 0\nstate 12 0\n', 'state 12 0\nstate 3 0\n', 3), ('state 3 0', 'state 3 18446744073709551616', 3),
    ('state 12 0', 'state 12 4', 4), ('state 12 0', 'state 12 -1', 4), ('state 12 0\n', 'state 12 0\nstate 12 0\n', 5), ('state 12 0\n', 'state 12 0 \n', 4),
    ('held 2 4\n', '', 5), ('held 2 4', 'held 2 4 4', 5), ('held 2 4', 'held 2 4.0', 5), ('held 5 100', 'held 5 0100', 8), ('held 5 100', 'held 5  100', 8),
    ('held 5 100', 'held 5\t100', 8), ('held 5 100\n', 'held 5 100\r\n', 8), ('held 5 100', ' held 5 100', 8), ('held 6 1', 'held 6 2147483648', 9),
    ('held 6 1\n', 'held 6 1\nheld 7 1\n', 10), ('held 11 0', 'held 11 256', 12), ('held 11 0', 'held 11 -1', 12), ('held 12 0\n', '', 13), ('held 12 0', 'held 12 256', 13),
    ('cursor 2 2\n', '', 14), ('cursor 2 2', 'cursor 2 5', 14), ('cursor 2 2', 'cursor 2 -1', 14), ('cursor 2 2', 'cursor 1 2', 14), ('cursor 2 2\n', 'cursor 2 2\ncursor 2 2\n', 15),
    ('cursor 2 2', 'cursor 2 18446744073709551618', 14), ('cursor 2 2\npend 14 10 1\n', 'pend 14 10 1\ncursor 2 2\n', 14),
    ('pend 14 10 1', 'pend 9 10 1', 15), ('pend 14 10 1', 'pend 2147483658 10 1', 15), ('pend 14 10 1', 'pend 2147483657 10 1', 16), ('pend 14 10 1', 'pend 14 10 0', 15),
    ('pend 14 10 1', 'pend 14 10 2', 15), ('pend 14 10 1', 'pend 14 0 1', 15), ('pend 14 10 1', 'pend 14 7 1', 15), ('pend 14 10 1', 'pend 14 13 1', 15),
    ('pend 14 10 1', 'pend 14 4294967306 1', 15), ('pend 20 1 1', 'pend 13 1 1', 16), ('pend 20 1 1', 'pend 20 10 1', 16), ('pend 20 1 1', 'pend 020 1 1', 16),
    ('pend 20 1 1\n', 'pend 20 1 1\npend 20 1 1\n', 17), ('pend 14 10 1\npend 20 1 1\n', 'pend 20 1 1\npend 14 10 1\n', 16), ('pend 20 1 1\n', 'pend 20 1\n', 16),
    ('done\n', '', 17), ('done\n', 'done', 17), ('done\n', 'done\n\n', 18), ('done\n', 'done\nx', 18), ('done\n', 'done\ndone\n', 18), ('done\n', 'done \n', 17),
    ('done\n', 'done\r\n', 17), ('pend 20 1 1\ndone\n', 'done\npend 20 1 1\n', 17), ('\n', '\r\n', 1),
    ('at 2 10', 'at 1000000 10', b'end events\n'), ('state 12 0', 'state 12 3', b'event 14 10 1\nval 12 1 1 3\n'), ('held 12 0', 'held 12 255', b'event 14 10 1\nval 12 1 1 0\n'),
    ('state 3 0', 'state 3 -32768', b'event 14 10 1\nval 12 1 1 0\nevent 20 1 1\nval 2 1 1 3\nval 3 1 1 -32768\n'), ('cursor 2 2', 'cursor 2 4', b'event 14 10 1\nval 12 1 1 0\nevent 20 1 1\nstop input 2\n'),
    ('pend 20 1 1', 'pend 14 1 1', b'event 14 10 1\nval 12 1 1 0\nevent 14 1 1\n'), ('pend 14 10 1\npend 20 1 1', 'pend 14 1 1\npend 14 10 1', b'event 14 1 1\n'),
    ('pend 14 10 1\n', '', b'event 20 1 1\n'), ('pend 14 10 1\npend 20 1 1\n', '', b'end empty\n'), ('pend 14 10 1\npend 20 1 1', 'pend 2147483657 10 1', b'end until\n'),
    ('at 2 10', 'at 2 14', b'event 14 10 1\n'), ('at 2 10', 'at 0 0', b'event 14 10 1\n'),
]
CHANGED = [('simulate-counter', 2), ('simulate-meter', 3), ('simulate-two-events-of-one-date', 2), ('simulate-shift-register', 3), ('simulate-nest', 2)]


def heads(content):
    """Where each reaction of a trace begins, and the end of the trace's reactions."""
    at, begins = 0, []
    for line in content.splitlines(True):
        if line.startswith((b'start', b'event')) or line.startswith(b'end'):
            begins.append(at)
        at += len(line)
    return begins


def resumed_after(due, reaction):
    """What is left of a trace behind so many reactions."""
    return due[heads(due)[reaction]:]


def saved_and_resumed(program):
    """Behind each reaction the image says what the slow program has there, and the run that goes on from it writes the rest of the trace, with its
    status; behind the last one there is none."""
    wrong = []
    for name, diagram, inputs, until, limit in simulations():
        due, status = trace(diagram, inputs, until, limit)
        net, columns = plain(diagram, inputs)
        count = sum(1 for _ in plain_run.Run(net, columns).reactions(int(until), int(limit)))
        with tempfile.TemporaryDirectory() as work:
            for file, content in (('d', diagram), ('i', inputs)):
                with open(os.path.join(work, file), 'wb') as to:
                    to.write(content)
            for reaction in sorted({*range(1, min(count, 9)), count - 1, count, count + 1, 1000001} - {0}):
                image, err, code = (part.encode() if isinstance(part, str) else part for part in plain_save.saved(net, columns, int(until), int(limit), reaction))
                given = run(program, ['save', 'd', 'i', until, limit, str(reaction)], cwd=work)
                wrong += [] if given == (image, err, code) else ['%s, save %d: %r in place of %r' % (name, reaction, given, (image, err, code))]
                if code:
                    continue
                with open(os.path.join(work, 's'), 'wb') as to:
                    to.write(image)
                given = run(program, ['resume', 'd', 'i', 's', until, limit], cwd=work)
                wrong += [] if given == (resumed_after(due, reaction), b'', status) else ['%s, resume %d: %r' % (name, reaction, given)]
    return '; '.join(wrong)[:800]


def mistakes(program):
    """Each mistake in the image of the meter is told by its line, and what is none is read as what it says."""
    folder, wrong = os.path.join(HERE, 'resume-meter'), []
    files = {name: text(folder, name) for name in 'di'}
    image = text(folder, 's').decode()
    net, columns = plain(files['d'], files['i'])
    for old, new, due in MISTAKES:
        changed = image.replace(old, new)
        given = in_folder(program, ['resume', 'd', 'i', 's', '30', '100'], s=changed.encode(), **files)
        if isinstance(due, int):
            same = given == (b'', b'refused 36 NotSave at - %d\n' % due, 1)
        else:
            same = given[0].startswith(due) and given[1:] == (b'', 6 if b'stop' in given[0] else 0)
        slow = plain_save.resumed(net, columns, changed.encode(), 30, 100)
        same = same and slow == (given[0].decode(), given[1].decode(), given[2])
        wrong += [] if same and image != changed else ['%r: %r in place of %r' % (new, given, due)]
    return '; '.join(wrong)[:800]


def changed_images(program):
    """Images with one change, in each line: the first wrong line, or the run that goes on from there."""
    runs, wrong = {name: given for name, *given in simulations()}, []
    for name, reaction in CHANGED:
        diagram, inputs, until, limit = runs[name]
        net, columns = plain(diagram, inputs)
        image = plain_save.saved(net, columns, int(until), int(limit), reaction)[0].encode()
        with tempfile.TemporaryDirectory() as work:
            for file, content in (('d', diagram), ('i', inputs)):
                with open(os.path.join(work, file), 'wb') as to:
                    to.write(content)
            lines = range(image.count(b'\n'))
            for content in text_changes.changed_texts(image, lines if len(lines) < 12 else itertools.chain(range(0, 5), range(len(lines) - 4, len(lines)))):
                with open(os.path.join(work, 's'), 'wb') as to:
                    to.write(content)
                out, err, status = plain_save.resumed(net, columns, content, int(until), int(limit))
                given = run(program, ['resume', 'd', 'i', 's', until, limit], cwd=work)
                wrong += [] if given == (out.encode(), err.encode(), status) else ['%s, %r: %r in place of %r' % (name, content, given, (out, err))]
    return '; '.join(wrong)[:800]


def images_of_others(program):
    """The image of another diagram is told by the first line in which a block isn't as it has to be, or goes on where none is."""
    images, wrong = [], []
    for name, diagram, inputs, until, limit in simulations():
        net, columns = plain(diagram, inputs)
        images.append((name, {'d': diagram, 'i': inputs}, net, columns, plain_save.saved(net, columns, 2**62, 1000, 1)[0].encode()))
    for (name, files, net, columns, _), (other, _, _, _, image) in zip(images, images[1:] + images[:1]):
        out, err, status = plain_save.resumed(net, columns, image, 100, 5)
        given = in_folder(program, ['resume', 'd', 'i', 's', '100', '5'], s=image, **files)
        wrong += [] if given == (out.encode(), err.encode(), status) else ['%s with that of %s: %r in place of %r' % (name, other, given, (out, err))]
    return '; '.join(wrong)[:800]


def long_images(program):
    """Images of the greatest length, and one byte more."""
    folder, wrong = os.path.join(HERE, 'resume-meter'), []
    image = text(folder, 's')
    for content, size, due in ((b'', MOST, b'36 NotSave at - 1'), (image, MOST, b'36 NotSave at - 18'), (image[:-5], MOST, b'36 NotSave at - 17'),
                               (image, MOST + 1, b'29 FileTooLong at - 3 67108864')):
        with tempfile.TemporaryDirectory() as work:
            for name, other in (('d', text(folder, 'd')), ('i', text(folder, 'i')), ('s', content)):
                with open(os.path.join(work, name), 'wb') as file:
                    file.write(other)
            os.truncate(os.path.join(work, 's'), size)
            wrong.append(without((b'', b'refused %s\n' % due, 1), ('%d bytes' % size, run(program, ['resume', 'd', 'i', 's', '30', '100'], cwd=work))))
    return '; '.join(filter(None, wrong))


def largest_image(program):
    """65,536 states and as many values that are held are saved, and the run goes on from there."""
    diagram, bounds = ring_of_delays(), ['100', '4']
    net, columns = plain(diagram, b'[]')
    image, due = plain_save.saved(net, columns, 100, 4, 3)[0].encode(), trace(diagram, b'[]', *bounds)[0]
    files = {'d': diagram, 'i': b'[]', 's': image}
    saved, resumed = in_folder(program, ['save', 'd', 'i'] + bounds + ['3'], **files), in_folder(program, ['resume', 'd', 'i', 's'] + bounds, **files)
    other = in_folder(program, ['resume', 'd', 'i', 's'] + bounds, **dict(files, s=image[:-20]))
    same = saved == (image, b'', 0) and resumed == (resumed_after(due, 3), b'', 0) and len(image.split()) > 131072
    return '' if same and other == (b'', b'refused 36 NotSave at - %d\n' % (image[:-20].count(b'\n') + 1), 1) else 'saved %r, resumed %r' % (saved[1:], resumed[1:])


def far_dates(program):
    """Images at the last dates: a run goes on there at once, with events up to the last date."""
    clock = {'obj': 'Block', 'gui': 'EVTDLY_c', 'model': {'evtin': [1], 'evtout': [1], 'ipar': [2147483647], 'firing': [0]}}
    diagram = json.dumps({'objs': [clock, {'obj': 'Link', 'from': [1, 1], 'to': [1, 1], 'ct': [5, -1]}]}).encode()
    wrong = []
    for now, pending, due in ((2**62, 2**62, b'event 4611686018427387904 1 1\nend until\n'), (2**62, 2**62 + 2**31 - 1, b'end until\n'), (2**62, 2**62 + 2**31, 3),
                              (2**62 - 1, 2**62 - 2, 3), (2**62 - 2**31 + 1, 2**62, b'event 4611686018427387904 1 1\nend until\n'), (2**62 + 1, 2**62 + 1, 2),
                              (2**62 - 2**33, 2**62 - 2**33, b''.join(b'event %d 1 1\n' % (2**62 - 2**33 + k * (2**31 - 1)) for k in range(5)) + b'end until\n')):
        image = b'save 1\nat 7 %d\npend %d 1 1\ndone\n' % (now, pending)
        given = in_folder(program, ['resume', 'd', 'i', 's', str(2**62), '100'], d=diagram, i=b'[]', s=image)
        due = (due, b'', 0) if isinstance(due, bytes) else (b'', b'refused 36 NotSave at - %d\n' % due, 1)
        wrong += [] if given == due else ['%d, %d: %r' % (now, pending, given)]
    return '; '.join(wrong)


def saved_in_order(program):
    """The diagram is looked at first, then the input file, then the image, and then the run; each word has its form."""
    folder = os.path.join(HERE, 'resume-meter')
    files = {name: text(folder, name) for name in 'dis'}
    files.update(l=text(HERE, 'loop-in-simulate', 'd'), e=b'[]', w=b'save 2\n')
    usage = (b'', text(HERE, 'no-words', 'err'), 2)
    wrong = [without(due, *((line, in_folder(program, line.split(), **files)) for line in lines)) for due, lines in (
        (usage, ('save', 'save d i 30 100', 'save d i 30 100 0', 'save d i 30 100 1000002', 'save d i 30 100 01', 'save d i 30 100 +1', 'save d i 30 100 -1', 'save d i 030 100 1',
                 'save d i 30 1000001 1', 'save d i 30 100 1 1', 'save d i 4611686018427387905 100 1', 'save d i 30 100 9999999999999999999999', 'resume', 'resume d i s 30',
                 'resume d i s 30 100 3', 'resume d i s 30 0100', 'resume d i s 4611686018427387905 100', 'resume d i s 30 1000001', 'resume d i 30 100')),
        ((b'', text(HERE, 'loop-in-simulate', 'err'), 1), ('save l e 30 100 1', 'save l n 30 100 9', 'resume l e w 30 100', 'resume l n n 30 100')),
        ((b'', b'refused 27 InputShape at - 1 0\n', 1), ('save d e 30 100 1', 'save d e 30 100 1000001', 'resume d e w 30 100', 'resume d e n 30 100')),
        (READ_FAULT, ('save n i 30 100 1', 'save d n 30 100 9', 'resume n i s 30 100', 'resume d n s 30 100', 'resume d i n 30 100', 'resume d i . 30 100')),
        ((b'', b'refused 36 NotSave at - 1\n', 1), ('resume d i w 30 100', 'resume d i d 30 100', 'resume d i /dev/null 30 100', 'resume d i i 0 0')),
        ((b'', b'refused 35 RunEnded at - 6 6\n', 1), ('save d i 30 100 6',)), ((b'', b'refused 35 RunEnded at - 1000001 6\n', 1), ('save d i 30 100 1000001',)),
        ((b'', b'refused 35 RunEnded at - 1 1\n', 1), ('save d i 30 0 1',)), ((b'', b'refused 35 RunEnded at - 9 7\n', 1), ('save d i 1000 100 9',)),
        ((text(HERE, 'save-meter', 'out'), b'', 0), ('save d i 30 100 3', 'save d i 14 3 3', 'save d i 4611686018427387904 1000000 3')),
        ((b'end events\n', b'', 0), ('resume d i s 30 2', 'resume d i s 0 0')), ((b'end until\n', b'', 0), ('resume d i s 13 100', 'resume d i s 0 3')))]
    return '; '.join(filter(None, wrong))[:800]


def cut_images(program):
    """No front of an image is one."""
    folder = os.path.join(HERE, 'resume-meter')
    files = [(name, text(folder, name)) for name in 'di']
    return wrong_cuts(program, text(folder, 's'), ['resume', 'd', 'i', 'cut', '30', '100'], lambda front: refused('36 NotSave at - %d' % (front.count(b'\n') + 1)), files)


SAVES = [saved_and_resumed, mistakes, changed_images, images_of_others, long_images, largest_image, far_dates, saved_in_order, cut_images]
