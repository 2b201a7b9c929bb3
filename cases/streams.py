"""The program against real files, streams and limits of the machine.

What is due is said in the README: the whole answer with its status; or a line on standard error with status 3, 4 or 5, and then standard output has
nothing, but with status 4 a front of the answer. A run that the machine ends by a signal, or doesn't begin, has no status of these.
"""
import errno
import json
import os
import pty
import resource
import shutil
import signal
import subprocess
import tempfile
import time
import tty

HERE = os.path.dirname(os.path.abspath(__file__))
EXAMPLES = os.path.join(HERE, '..', 'examples')
LONG = ['simulate', os.path.join(EXAMPLES, 'clock.json'), os.path.join(EXAMPLES, 'no-inputs.json'), '1000000', '100000']
LONG_TRACE = ('start\n' + ''.join('event %d 1 1\n' % (2 + 3 * k) for k in range(100000)) + 'end events\n').encode()
LOOP = (b'', b'refused 24 AlgebraicLoop at 3 1 1 3 4\n', 1)
READ_FAULT = (b'', b'read fault\n', 3)
WRITE_FAULT = b'write fault\n'


def text(*path):
    with open(os.path.join(*path), 'rb') as file:
        return file.read()


USAGE = (b'', text(HERE, 'no-words', 'err'), 2)


def run(program, words, **more):
    """The two streams and the status of a run."""
    given = dict(stdin=subprocess.DEVNULL, stdout=subprocess.PIPE, stderr=subprocess.PIPE, timeout=60, **more)
    ended = subprocess.run([program] + words, **given)
    return ended.stdout, ended.stderr, ended.returncode


def without(given, *cases):
    """What is wrong: the names of the cases whose answer isn't the one given, with that answer."""
    return '; '.join('%s: %r' % (name, answer)[:400] for name, answer in cases if answer != given)


def meter(program, work):
    """The meter, its readings, its C, its trace, an image and a dump of it in a folder; each command on them, with what it prints."""
    for name in ('d', 'i'):
        shutil.copy(os.path.join(HERE, 'simulate-meter', name), work)
    code, _, status = run(program, ['ccode', 'd'], cwd=work)
    trace = text(HERE, 'simulate-meter', 'out')
    for name, content in (('c', code), ('t', trace), ('s', text(HERE, 'resume-meter', 's')), ('w', text(HERE, 'vcd-meter', 'out'))):
        with open(os.path.join(work, name), 'wb') as file:
            file.write(content)
    return [(['check', 'd'], text(HERE, 'check-meter', 'out')),
            (['map', 'd'], text(HERE, 'map-meter', 'out')),
            (['schedule', 'd'], text(HERE, 'schedule-meter', 'out')),
            (['simulate', 'd', 'i', '30', '100'], trace),
            (['ccode', 'd'], code if status == 0 else b'no code'),
            (['crun', 'c', 'i', '30', '100'], trace),
            (['host'], run(program, ['host'])[0]),
            (['bulk', '5', '2'], b'bulk 10 9 10 0 1126 123\n'),
            (['judge', 'd', 'i', 't', '30', '100'], b'yes %d\n' % trace.count(b'\n')),
            (['save', 'd', 'i', '30', '100', '3'], text(HERE, 'save-meter', 'out')),
            (['resume', 'd', 'i', 's', '30', '100'], text(HERE, 'resume-meter', 'out')),
            (['vcd', 'd', 'i', '30', '100'], text(HERE, 'vcd-meter', 'out')),
            (['vcdat', 'w', '14'], text(HERE, 'vcdat-meter', 'out'))]


def full_disk(program):
    """Standard output takes nothing: each command tells a write fault, though all that it prints waits for the last flush; a refusal is told as ever."""
    wrong = []
    with tempfile.TemporaryDirectory() as work, open('/dev/full', 'wb') as full:
        for words, _ in meter(program, work):
            ended = subprocess.run([program] + words, cwd=work, stdin=subprocess.DEVNULL, stdout=full, stderr=subprocess.PIPE, timeout=60)
            if (ended.stderr, ended.returncode) != (WRITE_FAULT, 4):
                wrong.append('%s: %r' % (words[0], ended))
        refused = subprocess.run([program, 'check', 'loop.json'], cwd=EXAMPLES, stdout=full, stderr=subprocess.PIPE, timeout=60)
        unheard = subprocess.run([program, 'check', 'loop.json'], cwd=EXAMPLES, stdout=subprocess.PIPE, stderr=full, timeout=60)
    if (b'', refused.stderr, refused.returncode) != LOOP:
        wrong.append('refused: %r' % refused)
    if (unheard.stdout, unheard.returncode) != (b'', 4):
        wrong.append('unheard: %r' % unheard)
    return '; '.join(wrong)


def with_room(room):
    """For a run of which each file that it writes may have so many bytes: more is a fault, and no signal."""
    def limit():
        signal.signal(signal.SIGXFSZ, signal.SIG_IGN)
        resource.setrlimit(resource.RLIMIT_FSIZE, (room, room))
    return {'restore_signals': False, 'preexec_fn': limit}


def a_file_with_room(program, steps=40):
    """Standard output is a file that may have so many bytes and no more: it gets a front of what is due, and the fault is told. So many rooms are tried
    of each answer, or with None every one."""
    wrong = []
    with tempfile.TemporaryDirectory() as work:
        for words, due in meter(program, work):
            for room in sorted({0, 1, len(due) - 1, len(due), *range(2, len(due), 1 + len(due) // steps if steps else 1)}):
                with open(os.path.join(work, 'out'), 'wb') as out:
                    ended = subprocess.run([program] + words, cwd=work, stdout=out, stderr=subprocess.PIPE, timeout=60, **with_room(room))
                took = text(work, 'out')
                whole = (took, ended.stderr, ended.returncode) == (due, b'', 0)
                cut = due.startswith(took) and len(took) <= room and (ended.stderr, ended.returncode) == (WRITE_FAULT, 4)
                if not (whole if room >= len(due) else cut):
                    wrong.append('%s, %d bytes: %r with %r' % (words[0], room, ended, took[:80]))
    return '; '.join(wrong[:3])


def folder_cases():
    """The cases of files: the words, the names of the files that they name, and what is due on out, on err, and as status."""
    for name in sorted(os.listdir(HERE)):
        folder = os.path.join(HERE, name)
        if os.path.exists(os.path.join(folder, 'words')):
            words, status = text(folder, 'words').decode().split('\n')[:-1], int(text(folder, 'status'))
            err = text(HERE, 'no-words', 'err') if status == 2 else text(folder, 'err')
            yield folder, words, [word for word in words[1:] if os.path.exists(os.path.join(folder, word))], (text(folder, 'out'), err, status)


def wrong_on_faults(program, folder, words, names, due):
    """What is wrong with a case where out or err takes nothing, where out takes a half of what is due, or all but its last byte, and where a file is
    missing that the case reads whole."""
    (out, err, status), wrong = due, []
    with tempfile.TemporaryDirectory() as work, open('/dev/full', 'wb') as full:
        for name in names:
            shutil.copy(os.path.join(folder, name), work)
        told = subprocess.run([program] + words, cwd=work, stdin=subprocess.DEVNULL, stdout=full, stderr=subprocess.PIPE, timeout=60)
        wrong += [] if (told.stderr, told.returncode) == ((WRITE_FAULT, 4) if out else (err, status)) else ['full out: %r' % told]
        shown = subprocess.run([program] + words, cwd=work, stdin=subprocess.DEVNULL, stdout=subprocess.PIPE, stderr=full, timeout=60)
        wrong += [] if (shown.stdout, shown.returncode) == (out, 4 if err else status) else ['full err: %r' % shown]
        for room in sorted({len(out) // 2, len(out) - 1}) if out else ():
            with open(os.path.join(work, '.out'), 'wb') as to:
                cut = subprocess.run([program] + words, cwd=work, stdin=subprocess.DEVNULL, stdout=to, stderr=subprocess.PIPE, timeout=60, **with_room(room))
            took = text(work, '.out')
            wrong += [] if out.startswith(took) and len(took) <= room and (cut.stderr, cut.returncode) == (WRITE_FAULT, 4) else ['%d bytes: %r' % (room, cut)]
        for name in names if status in (0, 6, 7, 8) else ():
            os.rename(os.path.join(work, name), os.path.join(work, '.away'))
            given = run(program, words, cwd=work)
            wrong += [] if given == READ_FAULT else ['no %s: %r' % (name, given)]
            os.rename(os.path.join(work, '.away'), os.path.join(work, name))
    return ['%s, %s' % (os.path.basename(folder), told)[:400] for told in wrong]


def faults_of_cases(program):
    """Each case of files where a stream or a file fails: nothing but a front of what is due stands on out, and the fault is told."""
    wrong, tried = [], 0
    for case in folder_cases():
        wrong += wrong_on_faults(program, *case)
        tried += 1
    return '; '.join(wrong[:5]) if tried > 140 else 'only %d cases were tried' % tried


def closed_streams(program):
    """Standard output is closed, or standard error, or both, or all three: what is due there can't be written, and no file is written in its place."""
    wrong = []
    with tempfile.TemporaryDirectory() as work:
        meter(program, work)
        before = {name: text(work, name) for name in sorted(os.listdir(work))}
        for closed, words, due in (('>&-', 'simulate d i 30 100', (b'', WRITE_FAULT, 4)),
                                   ('>&- <&-', 'simulate d i 30 100', (b'', WRITE_FAULT, 4)),
                                   ('2>&-', 'simulate d j 30 100', (b'', b'', 4)),
                                   ('2>&-', 'check', (b'', b'', 4)),
                                   ('2>&-', 'bulk 5 2', (b'bulk 10 9 10 0 1126 123\n', b'', 0)),
                                   ('>&- 2>&-', 'simulate d i 30 100', (b'', b'', 4)),
                                   ('<&- >&- 2>&-', 'ccode d', (b'', b'', 4)),
                                   ('<&- >&- 2>&-', 'check c', (b'', b'', 4))):
            given = run('sh', ['-c', '"$0" %s %s' % (words, closed), program], cwd=work)
            if given != due:
                wrong.append('%s %s: %r' % (words, closed, given))
        if before != {name: text(work, name) for name in sorted(os.listdir(work))}:
            wrong.append('a file was written')
    return '; '.join(wrong)


def many_events(program, work):
    """Command lines with a long answer, of each kind of it, and what is due."""
    first = text(EXAMPLES, 'first.json')
    constants = {'objs': [{'obj': 'Block', 'gui': 'CONST_m', 'model': {'out': [256], 'outtyp': [3], 'ipar': [*range(k, k + 256)]}} for k in range(60)]}
    for name, content in (('f', first), ('n', b'[]'), ('d', text(EXAMPLES, 'clock.json')), ('s', b'save 1\nat 0 0\npend 2 1 1\ndone\n'), ('k', json.dumps(constants).encode())):
        with open(os.path.join(work, name), 'wb') as file:
            file.write(content)
    changes = ''.join('#%d\nb%s v1\n' % (5 * k, format(k % 10, '032b')) for k in range(1, 10000))
    dump = LEVELS_DUMP.replace('b1_1_1', 'b2_1_1').replace('0111 v1', '0000 v1') + changes
    return [(LONG, LONG_TRACE), (['resume', 'd', 'n', 's', '1000000', '100000'], LONG_TRACE[len('start\n'):]), (['vcd', 'f', 'n', '1000000', '10000'], dump.encode()),
            (['ccode', 'k'], run(program, ['ccode', 'k'], cwd=work)[0])]


def reader_leaves(program):
    """Standard output is a pipe whose reader goes away behind so many bytes: it had a front of the answer, and the fault is told."""
    wrong = []
    with tempfile.TemporaryDirectory() as work:
        for words, due in many_events(program, work):
            wrong += [] if len(due) > 400000 else ['%s: %d bytes are too few' % (words[0], len(due))]
            for count in (0, 1, 100, 4096, 65535, 65536, 65537, 300000):
                begun = subprocess.Popen([program] + words, cwd=work, stdin=subprocess.DEVNULL, stdout=subprocess.PIPE, stderr=subprocess.PIPE)
                took = begun.stdout.read(count) if count else b''
                begun.stdout.close()
                told = begun.stderr.read()
                begun.stderr.close()
                status = begun.wait(timeout=60)
                wrong += [] if (took, told, status) == (due[:count], WRITE_FAULT, 4) else ['%s behind %d bytes: %r, %d' % (words[0], count, told, status)]
    return '; '.join(wrong)


def no_reader(program):
    """Standard output is a pipe that nobody reads any more: each command tells the fault, and is not ended by a signal."""
    wrong = []
    with tempfile.TemporaryDirectory() as work:
        for words, _ in meter(program, work):
            out, into = os.pipe()
            os.close(out)
            ended = subprocess.run([program] + words, cwd=work, stdin=subprocess.DEVNULL, stdout=into, stderr=subprocess.PIPE, timeout=60)
            os.close(into)
            if (ended.stderr, ended.returncode) != (WRITE_FAULT, 4):
                wrong.append('%s: %r' % (words[0], ended))
    return '; '.join(wrong)


def slow_reader(program):
    """A pipe whose reader takes few bytes at a time gets the whole trace."""
    begun = subprocess.Popen([program] + LONG, stdin=subprocess.DEVNULL, stdout=subprocess.PIPE, stderr=subprocess.PIPE, bufsize=0)
    pieces = []
    while True:
        piece = os.read(begun.stdout.fileno(), 997)
        if not piece:
            break
        pieces.append(piece)
    told, status = begun.stderr.read(), begun.wait(timeout=60)
    begun.stdout.close()
    begun.stderr.close()
    return '' if (b''.join(pieces), told, status) == (LONG_TRACE, b'', 0) else '%d bytes, %r, %d' % (sum(map(len, pieces)), told, status)


def on_terminal(program, words, work):
    """What a terminal shows of a run's output, and its status."""
    master, slave = pty.openpty()
    tty.setraw(slave)
    begun = subprocess.Popen([program] + words, cwd=work, stdin=slave, stdout=slave, stderr=slave)
    os.close(slave)
    shown = []
    while True:
        try:
            piece = os.read(master, 4096)
        except OSError as error:  # the other end is closed
            if error.errno != errno.EIO:
                raise
            break
        if not piece:
            break
        shown.append(piece)
    os.close(master)
    return b''.join(shown), begun.wait(timeout=60)


def terminal(program):
    """All three streams are a terminal."""
    wrong = []
    with tempfile.TemporaryDirectory() as work:
        for words, due in meter(program, work):
            given = on_terminal(program, words, work)
            if given != (due, 0):
                wrong.append('%s: %r' % (words[0], given))
        for words, due in ((['check', 'no-such-file'], READ_FAULT), ([], USAGE)):
            given = on_terminal(program, words, work)
            if given != (due[1], due[2]):
                wrong.append('%s: %r' % (words, given))
    return '; '.join(wrong)[:800]


def no_files(program):
    """A folder, or nothing, in the place of each file."""
    with tempfile.TemporaryDirectory() as work:
        meter(program, work)
        os.mkdir(os.path.join(work, 'f'))
        os.symlink('nowhere', os.path.join(work, 'l'))
        os.symlink('m', os.path.join(work, 'm'))
        lines = ['%s %s' % (word, name) for word in ('check', 'map', 'schedule', 'ccode') for name in ('f', 'l', 'm', 'n', 'd/d', 'f/n')]
        lines += ['%s %s 30 100' % (word, names) for word, good in (('simulate', 'd'), ('crun', 'c'), ('vcd', 'd')) for bad in 'flmn'
                  for names in (bad + ' i', good + ' ' + bad)]
        lines += ['vcdat %s 14' % bad for bad in ('f', 'l', 'm', 'n', 'w/w')]
        lines += ['%s %s %s30 100' % (word, names, '' if word != 'save' else '1 ') for word, third in (('judge', ' t'), ('resume', ' s'), ('save', '')) for bad in 'flmn'
                  for names in (bad + ' i' + third, 'd ' + bad + third) + (('d i ' + bad,) if third else ())]
        return without(READ_FAULT, *((line, run(program, line.split(), cwd=work)) for line in lines))


def begun_through_fifo(program, words, work, name, pieces):
    """A run whose file of this name is a FIFO into which these pieces are written."""
    path = os.path.join(work, name)
    os.mkfifo(path)
    begun = subprocess.Popen([program] + words, cwd=work, stdin=subprocess.DEVNULL, stdout=subprocess.PIPE, stderr=subprocess.PIPE)
    into = None
    for _ in range(6000):
        try:
            into = os.open(path, os.O_WRONLY | os.O_NONBLOCK)
            break
        except OSError:  # not opened yet
            if begun.poll() is not None:
                break
            time.sleep(0.001)
    if into is not None:
        os.set_blocking(into, True)
        for piece in pieces:
            os.write(into, piece)
            time.sleep(0.002)
        os.close(into)
    out, err = begun.communicate(timeout=60)
    os.remove(path)
    return out, err, begun.returncode


# by the name of a file, what is due where a front of it is read
CUT = {'d': lambda front: (b'', b'refused 1 NotJson at -\n', 1),
       'i': lambda front: (b'', b'refused 27 InputShape at -\n', 1),
       'c': lambda front: (b'', b'refused 26 NotC at - %d\n' % (front.rfind(b'\n') + 1), 1),
       't': lambda front: (b'no %d\n' % (front.count(b'\n') + 1), b'', 8),
       's': lambda front: (b'', b'refused 36 NotSave at - %d\n' % (front.count(b'\n') + 1), 1),
       'w': lambda front: (b'', b'refused 37 NotVcd at - %d\n' % (front.count(b'\n') + 1), 1)}


def fifo(program):
    """A FIFO in the place of each file of each command gives what comes through it, whole or cut off."""
    wrong, tried = [], set()
    with tempfile.TemporaryDirectory() as work:
        for words, due in meter(program, work):
            for name in [word for word in words[1:] if word in CUT]:
                content = text(work, name)
                middle = len(content) // 2
                os.remove(os.path.join(work, name))
                whole = begun_through_fifo(program, words, work, name, [content[:1], content[1:middle], content[middle:]])
                cut = begun_through_fifo(program, words, work, name, [content[:middle]])
                wrong += [] if (whole, cut) == ((due, b'', 0), CUT[name](content[:middle])) else ['%s, %s: %r, %r' % (words[0], name, whole, cut)]
                with open(os.path.join(work, name), 'wb') as file:
                    file.write(content)
                tried.add(words[0])
    return '; '.join(wrong)[:800] or ('' if len(tried) == 11 else 'not all: %r' % tried)


def unreadable(program):
    """Files and folders that the user may not read."""
    nobody = 65534
    as_nobody = {'preexec_fn': lambda: os.setuid(nobody)} if os.geteuid() == 0 else {}
    with tempfile.TemporaryDirectory() as work:
        copy = os.path.join(work, 'program')  # the program may lie where nobody else reads
        shutil.copy(program, copy)
        os.chmod(copy, 0o755)
        os.chmod(work, 0o755)
        given = meter(program, work)
        for name in 'dictsw':
            os.chmod(os.path.join(work, name), 0o644)
        wrong = ['%s: %r' % (words[0], answer) for words, due in given for answer in [run(copy, words, cwd=work, **as_nobody)] if answer != (due, b'', 0)]
        os.mkdir(os.path.join(work, 'f'))
        shutil.copy(os.path.join(work, 'd'), os.path.join(work, 'f', 'd'))
        for name in ('d', 'i', 'c', 't', 's', 'w', 'f'):
            shutil.copy(os.path.join(work, name), os.path.join(work, 'open-' + name)) if name != 'f' else None
            os.chmod(os.path.join(work, name), 0)
        lines = ('check d', 'check f/d', 'map d', 'map f/d', 'schedule d', 'simulate d i 30 100', 'simulate open-d i 30 100', 'crun c i 30 100', 'crun open-c i 30 100', 'ccode d', 'judge d i t 30 100',
                 'judge open-d i t 30 100', 'judge open-d open-i t 30 100', 'save d i 30 100 1', 'save open-d i 30 100 1', 'resume d i s 30 100', 'resume open-d i s 30 100',
                 'resume open-d open-i s 30 100', 'vcd d i 30 100', 'vcd open-d i 30 100', 'vcdat w 14')
        wrong.append(without(READ_FAULT, *((line, run(copy, line.split(), cwd=work, **as_nobody)) for line in lines)))
        os.chmod(os.path.join(work, 'f'), 0o755)
    return '; '.join(filter(None, wrong))


def place_in(pid, path):
    """How many bytes of a file a process has read, or None where it hasn't the file open."""
    try:
        for number in os.listdir('/proc/%d/fd' % pid):
            if os.readlink('/proc/%d/fd/%s' % (pid, number)) == path:
                return int(text('/proc/%d/fdinfo/%s' % (pid, number)).split()[1])
    except OSError:  # it has ended, or closed the file
        pass
    return None


def met_while_read(program, words, work, name, where):
    """Whether a run was met behind some of a file's bytes and before the last one, and its answer. Where it was met, it stood still while the file was
    cut to the length that `where` gives, by how many bytes were read."""
    path, met, late = os.path.realpath(os.path.join(work, name)), False, time.monotonic() + 60
    begun = subprocess.Popen([program] + words, cwd=work, stdin=subprocess.DEVNULL, stdout=subprocess.PIPE, stderr=subprocess.PIPE)
    while begun.poll() is None and not place_in(begun.pid, path) and time.monotonic() < late:
        pass
    begun.send_signal(signal.SIGSTOP)
    if begun.returncode is None:
        os.waitid(os.P_PID, begun.pid, os.WSTOPPED | os.WEXITED | os.WNOWAIT)
        place = place_in(begun.pid, path)
        if place and place < os.path.getsize(path):
            os.truncate(path, where(place))
            met = True
        begun.send_signal(signal.SIGCONT)
    out, err = begun.communicate(timeout=60)
    return met, (out, err, begun.returncode)


def wrong_while_read(program, words, name, content, due, **files):
    """What is wrong where a file of 16 MiB, whose last bytes are its content, is cut while it is read: before, at or behind the place of the reader. The
    front that is read then is refused."""
    wrong = []
    with tempfile.TemporaryDirectory() as work:
        for other, bytes_of_other in files.items():
            with open(os.path.join(work, other), 'wb') as file:
                file.write(bytes_of_other)
        for where in (lambda at: 0, lambda at: at // 2, lambda at: at, lambda at: at + 1, lambda at: (at + 16777216) // 2, lambda at: 16777215):
            with open(os.path.join(work, name), 'wb') as file:
                file.write(b' ' * (16777216 - len(content)) + content)
            for _ in range(50):
                met, given = met_while_read(program, words, work, name, where)
                if met or given != (due, b'', 0):
                    break
            length = os.path.getsize(os.path.join(work, name))
            wrong += [] if met and given == CUT[name](b'') else ['%s, %s: %r' % (words[0], 'cut to %d bytes' % length if met else 'not met while it read', given)]
    return wrong


def cut_while_read(program):
    """A diagram, and an input file behind it, that are cut while they are read."""
    trace, counter = text(HERE, 'simulate-counter', 'out'), text(HERE, 'simulate-counter', 'd')
    bounds = text(HERE, 'simulate-counter', 'words').decode().split()[3:]
    return '; '.join(wrong_while_read(program, ['check', 'd'], 'd', b'{"objs":[]}', b'ok 0 1 0 0\n')
                     + wrong_while_read(program, ['simulate', 'd', 'i'] + bounds, 'i', b'[]', trace, d=counter)
                     + wrong_while_read(program, ['judge', 'd', 'i', 't'] + bounds, 'i', b'[]', b'yes %d\n' % trace.count(b'\n'), d=counter, t=trace))


def endless_files(program):
    """Files without an end are refused by their length, each by its own limit; an empty one is read."""
    with tempfile.TemporaryDirectory() as work:
        meter(program, work)
        wrong = [without((b'', ('refused %s\n' % due).encode(), 1), (line, run(program, line.split(), cwd=work)))
                 for line, due in (('check /dev/zero', '29 FileTooLong at - 1 16777216'),
                                   ('simulate d /dev/zero 30 100', '29 FileTooLong at - 2 16777216'),
                                   ('crun /dev/zero i 30 100', '29 FileTooLong at - 1 67108864'),
                                   ('crun c /dev/zero 30 100', '29 FileTooLong at - 2 16777216'),
                                   ('judge /dev/zero i t 30 100', '29 FileTooLong at - 1 16777216'),
                                   ('judge d /dev/zero t 30 100', '29 FileTooLong at - 2 16777216'),
                                   ('judge d i /dev/zero 30 100', '29 FileTooLong at - 3 67108864'),
                                   ('save /dev/zero i 30 100 1', '29 FileTooLong at - 1 16777216'),
                                   ('save d /dev/zero 30 100 1', '29 FileTooLong at - 2 16777216'),
                                   ('resume d /dev/zero s 30 100', '29 FileTooLong at - 2 16777216'),
                                   ('resume d i /dev/zero 30 100', '29 FileTooLong at - 3 67108864'),
                                   ('vcd d /dev/zero 30 100', '29 FileTooLong at - 2 16777216'),
                                   ('vcdat /dev/zero 1', '29 FileTooLong at - 1 67108864'),
                                   ('check /dev/null', '1 NotJson at -'),
                                   ('simulate d /dev/null 30 100', '27 InputShape at -'),
                                   ('crun /dev/null i 30 100', '26 NotC at - 0'), ('resume d i /dev/null 30 100', '36 NotSave at - 1'),
                                   ('vcdat /dev/null 1', '37 NotVcd at - 1'))]
    return '; '.join(filter(None, wrong))


NAMES = ('a b', ' ', "a'b\"c", '-', '--help', '--', '*', 'a\nb', 'größe', '名.json', 'a' * 255, '%s%n')
NO_NAMES = ('', 'a' * 256, 'a' * 5000, 'a/' * 2500, '-h', 'd/', 'd ')
NO_TEXTS = (b'\xff', b'd\xc3', b'\x80d', b'\xed\xa0\x80')


def wrong_names(program, work, words, due):
    """What is wrong with a command line where each of its files has other names, one after the other."""
    wrong = []

    def with_name(at, name):
        given = list(map(os.fsencode, words[:at] + [name] + words[at + 1:]))
        return '%s, word %d, %r' % (words[0], at, name[:20]), run(program, given, cwd=work)

    for at in [k for k, word in enumerate(words) if k and word in CUT]:
        for name in NAMES:
            shutil.copy(os.path.join(work, words[at]), os.path.join(work, name))
            wrong.append(without((due, b'', 0), with_name(at, name)))
            os.remove(os.path.join(work, name))
        paths = ('./' + words[at], '../%s/%s' % (os.path.basename(work), words[at]))
        for answer, others in (((due, b'', 0), paths), (READ_FAULT, NO_NAMES), (USAGE, NO_TEXTS)):
            wrong.append(without(answer, *(with_name(at, name) for name in others)))
    return wrong


def names(program):
    """Names of files, of each file of some commands: any text that the machine takes for a name is one, and a word that is no UTF-8 is no word of a
    command."""
    with tempfile.TemporaryDirectory() as work:
        wrong = sum((wrong_names(program, work, words, due) for words, due in meter(program, work) if words[0] in ('check', 'map', 'simulate', 'judge')), [])
        for words in ([b'\xffcheck', b'd'], [b'simulate', b'd', b'i', b'30', b'1\x80'], [b'judge', b'd', b'i', b't', b'3\xff', b'100']):
            wrong.append(without(USAGE, (repr(words), run(program, words, cwd=work))))
    return '; '.join(filter(None, wrong))[:800]


def words(program):
    """No word, each word alone, one word too many, 200 words and long ones: none is a command, but the one of a word alone."""
    with tempfile.TemporaryDirectory() as work:
        due = {words[0]: (words, out) for words, out in meter(program, work)}
        lines = [[], [''], ['help'], ['--help'], ['--version'], ['x' * 100000], ['check'] * 200, [''] * 200, ['simulate', 'd', 'i', '30', '100'] * 40, ['d', 'check'],
                 ['Check', 'd'], ['check ', 'd'], ['host', ''], ['simulate', 'd', 'i', '+30', '100'], ['simulate', 'd', 'i', '30', '1e2'], ['simulate', 'd', 'i', '', '100'],
                 ['simulate', 'd', 'i', '4611686018427387905', '1'], ['simulate', 'd', 'i', '9' * 5000, '1'], ['crun', 'c', 'i', '-0', '1'], ['bulk', '4294967296', '1']]
        lines += [['vcdat', 'w', '07'], ['save', 'd', 'i', '30', '100', '0'], ['bulk', '5', '0']] + [[word] for word in due if word != 'host']
        lines += [given[0] + ['x'] for given in due.values()]
        wrong = without(USAGE, *((repr(line)[:60], run(program, line, cwd=work)) for line in lines))
        return wrong or without((due['host'][1], b'', 0), ('host', run(program, ['host'], cwd=work)))


LEVELS_DUMP = ('$timescale 1 ns $end\n$scope module scicos $end\n$var integer 32 v1 b1_1_1 $end\n$upscope $end\n$enddefinitions $end\n#0\n$dumpvars\n'
               'b00000000000000000000000000000111 v1\n$end\n')


def in_superblocks(objs):
    """The text of a diagram with these objects in its sixteenth level."""
    for _ in range(15):
        objs = [{'obj': 'Block', 'gui': 'SUPER_f', 'model': {'sim': 'super', 'rpar': {'objs': objs}}}]
    return json.dumps({'objs': objs})


def deep_code():
    """C where calls are 64 deep, each below 16 statements, with an expression that is 64 deep in the deepest."""
    head = text(HERE, 'crun-primes', 'c').decode().split('static')[0] + 'static int64_t v1;\n'
    left, right = 'INT64_C(0)', 'INT64_C(0)'
    for _ in range(63):
        left, right = '(%s + INT64_C(1))' % left, '(INT64_C(1) + %s)' % right
    begin, end = ['  ' * k + 'if (INT64_C(1)) {' for k in range(1, 16)], ['  ' * k + '}' for k in range(15, 0, -1)]
    lines = []
    for k in range(1, 65):
        inside = 'v1 = %s;' % left if k == 1 else 'f%d();' % (k - 1)
        lines += ['static void f%d(void) {' % k] + begin + ['  ' * 16 + inside] + end + ['}']
    lines += ['void sci_main(void) {'] + begin + ['  ' * 16 + 'f64();'] + end
    lines += ['  sci_val(INT64_C(1), INT64_C(1), INT64_C(1), v1);', '  v1 = %s;' % right, '  sci_val(INT64_C(1), INT64_C(1), INT64_C(2), v1);', '}']
    return head + '\n'.join(lines) + '\n'


def deepest(program, work):
    """Writes files as deep as the rules allow: superblocks in 16 levels, a text of 127 levels, C, and beside them a long list of objects, which takes
    memory by its length; command lines on them, with what each prints."""
    constant = {'obj': 'Block', 'gui': 'CONST_m', 'model': {'out': [1], 'outtyp': [3], 'ipar': [7]}}
    clock = {'obj': 'Block', 'gui': 'EVTDLY_c', 'model': {'evtin': [1], 'evtout': [1], 'ipar': [1], 'firing': [5]}}
    trace, image = 'start\nval 1 1 1 7\nend empty\n', 'save 1\nat 0 0\nheld 1 7\ndone\n'
    files = {'levels': in_superblocks([constant]), 'clocked': in_superblocks([constant, clock]), 'brackets': '{"unread":%s%s,"objs":[]}' % ('[' * 126, ']' * 126),
             'texts': json.dumps({'objs': [{'obj': 'Text'}] * 10000}), 'calls': deep_code(), 'i': '[]', 't': trace, 's': image, 'w': LEVELS_DUMP}
    for name, content in files.items():
        with open(os.path.join(work, name), 'w') as file:
            file.write(content)
    code = run(program, ['ccode', 'levels'], cwd=work)[0]
    with open(os.path.join(work, 'code'), 'wb') as file:
        file.write(code)
    lines = {'check levels': 'ok 1 1 1 0\n', 'map levels': '1 %s CONST_m int32[1x1]\n' % '/'.join(['1'] * 16), 'schedule levels': 'source start\n1 always\n',
             'simulate levels i 1 1': trace, 'check brackets': 'ok 0 1 0 0\n', 'check texts': 'ok 0 1 0 0\n', 'crun calls i 1 1': 'val 1 1 1 63\nval 1 1 2 63\n',
             'ccode levels': code.decode(), 'crun code i 1 1': trace, 'judge levels i t 1 1': 'yes 3\n', 'resume levels i s 1 1': 'end empty\n',
             'save clocked i 9 9 1': image.replace('done', 'pend 5 2 1\ndone'), 'vcd levels i 1 1': LEVELS_DUMP, 'vcdat w 1': 'b1_1_1 7\n'}
    return [(line.split(), due.encode()) for line, due in lines.items()]


def limited(program, limits, due_at_last):
    """What is wrong with the deepest files under each of these limits, which the shell sets: the whole answer, want of memory, or no run."""
    wrong, wants = [], 0
    with tempfile.TemporaryDirectory() as work:
        for words, due in deepest(program, work):
            for limit in limits:
                given = run('sh', ['-c', 'ulimit %s; exec "$0" "$@"' % limit, program] + words, cwd=work, env={'PATH': os.environ['PATH']})
                want = given == (b'', b'out of memory\n', 5)
                wants += want
                no_run = given[2] not in range(9) and given[0] == b''
                if given != (due, b'', 0) and (limit in due_at_last or not (want or no_run)):
                    wrong.append('%s, %s: %r' % (words[0] + ' ' + words[1], limit, given))
    return wrong, wants


def little_memory(program):
    """The deepest files in little memory: each answer is whole, or tells want of memory, which comes; with 64 MiB it is whole."""
    wrong, wants = limited(program, ['-v %d' % size for size in range(512, 16384, 256)] + ['-v 65536', '-v unlimited'], ('-v 65536', '-v unlimited'))
    return '; '.join(wrong[:3]) or ('' if wants else 'memory never lacked')


def little_stack(program):
    """The deepest files on small stacks: no answer is cut; with 1 MiB, an eighth of what is usual, each is whole."""
    sizes = [16, 32, 48, 64, 96, 128, 192, 256, 384, 512, 768]
    return '; '.join(limited(program, ['-s %d' % size for size in sizes] + ['-s 1024', '-s 8192'], ('-s 1024', '-s 8192'))[0][:3])


STREAMS = [full_disk, a_file_with_room, faults_of_cases, closed_streams, reader_leaves, no_reader, slow_reader, terminal, no_files, fifo, unreadable,
           cut_while_read, endless_files, names, words, little_memory, little_stack]
