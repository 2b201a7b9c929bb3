"""The first run: what `./scicos` does where release/ has the program of these sources, and where it hasn't; and what ./prove does, beside a stand-in
for `rt` that takes its time and proves nothing. The stand-in notes what it begins and ends, so that order, going on, failure and Ctrl-C are seen."""
import contextlib
import hashlib
import io
import os
import re
import shutil
import signal
import subprocess
import sys
import tempfile
import time

from plain import plain_run

TOP = os.path.join(os.path.dirname(os.path.abspath(__file__)), '..')
CRATES = '# crates\nlow: smallvec\nleft: low  # a comment\nright: low smallvec\naside: low\nscicos: left right itoa\nranges: left\n'
NAMES = ['low', 'left', 'right', 'scicos', 'ranges']
BUILT = ['built scicos', 'built ranges']
COMMANDS = 'sh env readlink find echo sed sort xargs sha256sum cut uname date mkdir mktemp mv rm dirname stat perl'.split()
PROGRAM = '#!/bin/sh\n[ $# -eq 0 ] && { echo usage >&2; exit 2; }\necho "%s $*"\n'
RT = r'''#!/usr/bin/env python3
import os, sys, time
HERE, NAME, TOP = os.getcwd(), os.path.basename(os.getcwd()), '@TOP@'

def note(*words):
    with open(TOP + '/notes', 'a') as file:
        file.write(' '.join(words) + '\n')

def uses():
    rows = [line.partition('#')[0].split(':') for line in open('../../crates.txt')]
    return {words[0].strip(): words[1].split() for words in rows if len(words) == 2}

if sys.argv[1] == 'version':
    print('a stand-in')
    sys.exit()
note('rt', str(os.getpid()), *sys.argv[1:])
lacking = [it for it in uses()[NAME] if it in uses() and not os.path.exists('../%s/out/rlib/stamp' % it)]
if lacking:
    sys.exit('%s lacks %r' % (NAME, lacking))
if sys.argv[1] == 'run':
    os.makedirs('out', exist_ok=True)
    with open('out/' + NAME, 'w') as file:
        file.write(open(TOP + '/program').read())
    os.chmod('out/' + NAME, 0o755)
    note('built', NAME)
elif not os.path.exists('out/rlib/stamp'):
    note('begin', NAME)
    os.makedirs('out/incremental', exist_ok=True)
    open('out/incremental/half', 'w').close()
    time.sleep(60 if os.path.exists('src/slow') else 1)
    if os.path.exists('src/wrong'):
        print('fn %s::f: not proved' % NAME)
        sys.exit(1)
    os.makedirs('out/rlib')
    open('out/rlib/stamp', 'w').close()
    note('end', NAME)
'''


def write(text, *path):
    with open(os.path.join(*path), 'w') as file:
        file.write(text)


def text(*path):
    with open(os.path.join(*path)) as file:
        return file.read()


def command(text, *path):
    write(text, *path)
    os.chmod(os.path.join(*path), 0o755)


def furnish(top):
    """A repository with the scripts, a few crates without a text, and the commands that the scripts call; as on two processors with memory enough."""
    for name in ('bin', 'tools', 'release', 'home'):
        os.makedirs(os.path.join(top, name))
    for name in ('scicos', 'prove', os.path.join('tools', 'sources')):
        shutil.copy(os.path.join(TOP, name), os.path.join(top, name))
    os.symlink('scicos', os.path.join(top, 'ranges'))
    script = re.sub(r'^EACH = .*$', 'EACH = 1', text(TOP, 'tools', 'prove'), flags=re.M).replace('len(os.sched_getaffinity(0))', '2')
    command(script, top, 'tools', 'prove')
    write(CRATES, top, 'crates.txt')
    for name in NAMES + ['aside']:
        for part in ('src', 'specs', 'proofs'):
            os.makedirs(os.path.join(top, 'crates', name, part))
        write('', top, 'crates', name, 'src', 'lib.rt')
    write(PROGRAM % 'built', top, 'program')
    for name, path in [(name, shutil.which(name)) for name in COMMANDS] + [('python3', sys.executable)]:
        os.symlink(path, os.path.join(top, 'bin', name))
    command(RT.replace('@TOP@', top), top, 'bin', 'rt')
    release(top)


def sources(top):
    """The checksum of the sources, worked out here as the page on the release tells it: of a line for each file, in the order of their paths."""
    paths = ['crates.txt'] + ['crates/%s/%s' % (name, part) for name in NAMES for part in ('src', 'specs', 'proofs')]
    found = [os.path.join(at, name) for path in paths for at, _, names in os.walk(os.path.join(top, path)) for name in names]
    files = sorted(['crates.txt'] + [os.path.relpath(path, top) for path in found])
    lines = ['%s  %s\n' % (hashlib.sha256(text(top, path).encode()).hexdigest(), path) for path in files]
    return hashlib.sha256(''.join(lines).encode()).hexdigest()


def release(top, program=PROGRAM % 'released'):
    """Puts a program of the sources as they are into release/, by both names."""
    for name in ('scicos', 'ranges'):
        command(program, top, 'release', name)
    write('kit a stand-in\ncrates %s\nsources %s\nprogram %s\nranges %s\n' % (' '.join(NAMES), sources(top), *2 * [hashlib.sha256(program.encode()).hexdigest()]),
          top, 'release', 'manifest')


def begin(top, *words, script='scicos', under=()):
    """A script, begun in a group of its own that Ctrl-C ends, as a terminal does."""
    environment = {'PATH': os.path.join(top, 'bin'), 'HOME': os.path.join(top, 'home')}
    return subprocess.Popen(list(under) + [os.path.join(top, script)] + list(words), cwd='/', env=environment, stdin=subprocess.DEVNULL,
                            stdout=subprocess.PIPE, stderr=subprocess.PIPE, text=True, start_new_session=True,
                            preexec_fn=lambda: signal.signal(signal.SIGINT, signal.SIG_DFL))


def answer(run):
    out, err = run.communicate(timeout=100)
    return out, err, run.returncode


def asked(top, *words, **how):
    return answer(begin(top, *words, **how))


def refused(given, *words):
    """Whether one line that has these words is all that was said, with 70."""
    out, err, status = given
    return out == '' and err.count('\n') == 1 and err.startswith(('scicos: ', 'ranges: ')) and all(word in err for word in words) and status == 70


@contextlib.contextmanager
def without(top, *names):
    """As long as these commands aren't there."""
    for name in names:
        os.rename(os.path.join(top, 'bin', name), os.path.join(top, name))
    yield
    for name in names:
        os.rename(os.path.join(top, name), os.path.join(top, 'bin', name))


def wrong_release(top):
    """With neither rt nor Python the released program answers, on the first call and later; without words README.md is named."""
    with without(top, 'rt', 'python3'):
        given = [asked(top, 'two', 'words'), asked(top, 'again')]
        bare = asked(top)
    wrong = [] if given == [('released two words\n', '', 0), ('released again\n', '', 0)] else ['the released program: %r' % (given,)]
    if not os.path.exists(os.path.join(top, '.checked')):
        wrong.append('what was found is not kept')
    same = bare[0] == '' and bare[1].startswith('usage\n') and 'README.md' in bare[1] and bare[2] == 2
    wrong += [] if same else ['without words: %r' % (bare,)]
    given = [asked(top, 'two', 'words', script='ranges'), asked(top, 'again', script='ranges')]
    wrong += [] if given == [('released two words\n', '', 0), ('released again\n', '', 0)] else ['the other program: %r' % (given,)]
    os.remove(os.path.join(top, 'release', 'ranges'))
    given = asked(top, 'x', script='ranges'), asked(top, 'x')
    told = refused(given[0], 'release/ranges', 'git checkout release') and given[1] == ('released x\n', '', 0)
    return wrong + ([] if told else ['without the other program: %r' % (given,)])


def wrong_sources(top):
    """A byte more in a source, also one whose time is set back, a source that is gone and one that is new: each is told. Of a crate that the program
    doesn't stand on nothing is told."""
    asked(top, 'x')
    path, other, wrong = os.path.join(top, 'crates', 'low', 'src', 'lib.rt'), os.path.join(top, 'crates', 'left', 'proofs', 'Lib.antt'), []
    changes = [('a changed source', lambda: write('x', path), lambda: write('', path)),
               ('one whose time is set back', lambda: (write('x', path), os.utime(path, (1, 1))), lambda: write('', path)),
               ('a source that is gone', lambda: os.remove(path), lambda: write('', path)),
               ('a new source', lambda: write('', other), lambda: os.remove(other)),
               ('another list of crates', lambda: write(CRATES + '# x\n', top, 'crates.txt'), lambda: write(CRATES, top, 'crates.txt'))]
    for what, change, back in changes:
        change()
        given = asked(top, 'x')
        wrong += [] if refused(given, 'other sources', './prove', 'minutes') else ['%s: %r' % (what, given)]
        back()
        given = asked(top, 'x')
        wrong += [] if given == ('released x\n', '', 0) else ['%s, taken back: %r' % (what, given)]
    write('x', top, 'crates', 'aside', 'src', 'lib.rt')
    given = asked(top, 'x')
    return wrong + ([] if given == ('released x\n', '', 0) else ['a source of another crate: %r' % (given,)])


def wrong_without_perl(top):
    """The same where perl isn't there, with which files are looked at in less time."""
    with without(top, 'perl'):
        return wrong_sources(top)


def wrong_damage(top):
    """A byte more in the released program, one that is missing, one that may not be run, and a manifest that is missing: one line each."""
    program, manifest = os.path.join(top, 'release', 'scicos'), os.path.join(top, 'release', 'manifest')
    asked(top, 'x')
    wrong = []
    for what, change in (('a longer program', lambda: command(PROGRAM % 'released' + '\n', program)), ('no program', lambda: os.remove(program)),
                         ('one that may not be run', lambda: os.chmod(program, 0o644))):
        change()
        given = asked(top, 'x')
        wrong += [] if refused(given, 'release/scicos', 'git checkout release', './prove') else ['%s: %r' % (what, given)]
        release(top)
    os.remove(manifest)
    given = asked(top, 'x')
    wrong += [] if refused(given, './prove') else ['no manifest: %r' % (given,)]
    release(top)
    given = asked(top, 'x')
    return wrong + ([] if given == ('released x\n', '', 0) else ['mended: %r' % (given,)])


def wrong_place(top):
    """Called by a link, in a folder that can't be written, on another machine, twice at once, and ended while the checksum is worked out."""
    os.symlink(os.path.join(top, 'scicos'), os.path.join(top, 'home', 'linked'))
    given = asked(top, 'x', script=os.path.join('home', 'linked'))
    wrong = [] if given == ('released x\n', '', 0) else ['by a link: %r' % (given,)]
    release(top)
    both = [begin(top, 'x') for _ in range(4)]
    given = [answer(run) for run in both]
    wrong += [] if given == 4 * [('released x\n', '', 0)] else ['at once: %r' % (given,)]
    os.remove(os.path.join(top, '.checked'))
    if os.geteuid() == 0 and shutil.which('setpriv'):
        os.chmod(top, 0o755)
        given = asked(top, 'x', under=[shutil.which('setpriv'), '--reuid=65534', '--regid=65534', '--clear-groups'])
        same = given == ('released x\n', '', 0) and not os.path.exists(os.path.join(top, '.checked'))
        wrong += [] if same else ['a folder that can not be written: %r' % (given,)]
    with without(top, 'sha256sum'):
        command('#!%s\nimport time\nopen(%r, "w").close()\ntime.sleep(60)\n' % (sys.executable, os.path.join(top, 'slow')), top, 'bin', 'sha256sum')
        run = begin(top, 'x')
        until(os.path.join(top, 'slow'))
        os.killpg(run.pid, signal.SIGINT)
        given = answer(run)
        wrong += [] if given[:2] == ('', '') and given[2] in (130, -signal.SIGINT) else ['ended: %r' % (given,)]
        os.remove(os.path.join(top, 'bin', 'sha256sum'))
    given = asked(top, 'x')
    wrong += [] if given == ('released x\n', '', 0) else ['after it was ended: %r' % (given,)]
    with without(top, 'uname'):
        command('#!/bin/sh\necho Linux aarch64\n', top, 'bin', 'uname')
        given = asked(top, 'x')
        os.remove(os.path.join(top, 'bin', 'uname'))
    return wrong + ([] if refused(given, 'x86-64', 'Linux aarch64') else ['another machine: %r' % (given,)])


def noted(top):
    """What the stand-in has noted since this was asked last."""
    path = os.path.join(top, 'notes')
    if not os.path.exists(path):
        return []
    with open(path) as file:
        lines = file.read().splitlines()
    os.remove(path)
    return lines


def left_over(lines):
    """Which calls of the stand-in still run."""
    def runs(number):
        try:
            with open('/proc/%s/stat' % number) as file:
                return file.read().rsplit(')', 1)[1].split()[0] != 'Z'
        except OSError:
            return False
    return [line for line in lines if line.startswith('rt ') and runs(line.split()[1])]


def steps(lines):
    """What was begun and ended, without the calls themselves."""
    return [line for line in lines if not line.startswith('rt ')]


def wrong_order(lines):
    """Each crate that the program stands on is begun once, those below it being proved; two that don't wait for each other go on at one time."""
    given = steps(lines)
    due = ['begin low', 'end low', 'begin left', 'begin right', 'end left', 'end right', *BUILT]
    wrong = [] if sorted(given) == sorted(due) and given[:2] == due[:2] and given[-2:] == due[-2:] else ['the order: %r' % lines]
    return wrong + ([] if {line.split()[0] for line in given[2:4]} == {'begin'} else ['one at a time: %r' % lines])


def wrong_told(said):
    """What is wrong with what is said from nothing: how many crates there are and what the README says of the time, how many jobs there are at a time,
    then how many crates are proved, each time that it has changed, with the minutes gone and the crates at work, and last whose bytes it has."""
    minutes = re.search(r'takes some\s+(\d+)\s+minutes on four processors', text(TOP, 'README.md')).group(1)
    lines = said.splitlines()
    at_work = r'(; at work: \w+ \(\d+ parts\)(, \w+ \(\d+ parts\))*)?'
    found = [re.fullmatch(r'scicos: (\d) of 5 crates are proved, 0 minutes gone' + at_work, line) for line in lines[2:-2]]
    counts = [int(line.group(1)) if line else None for line in found]
    head = ['scicos: proving and building the programs, 5 crates; from nothing this takes some %s minutes on four processors' % minutes,
            'scicos: 2 jobs at a time, by the processors and the free memory']
    same = lines[:2] == head and lines[-2:] == ['scicos: %s is proved and built; its bytes are not those of release/%s' % (name, name) for name in NAMES[-2:]]
    return [] if same and counts in ([0, 1, 2, 3, 4], [0, 1, 3, 4]) else ['it is said: %r' % said]


def wrong_minutes():
    """What is wrong with what is said as time goes on: a line where the crates or the minutes have changed, and no other, with the parts at work."""
    progress, heard = plain_run.script('prove').Progress(7), io.StringIO()
    with contextlib.redirect_stderr(heard), tempfile.TemporaryDirectory() as out:
        os.makedirs(os.path.join(out, 'incremental', 'kept'))
        for minutes, proved in ((0, 0), (0.4, 0), (2.1, 0), (2.1, 3), (2.8, 3), (75.5, 6)):
            write('', out, 'incremental', 'kept', '%s.oantt' % minutes)
            progress.begun = time.time() - 60 * minutes
            progress.tell(proved, [('one', out)])
    lines = ((0, 0, 1), (0, 2, 3), (3, 2, 3), (6, 75, 5))
    due = ''.join('scicos: %d of 7 crates are proved, %d minutes gone; at work: one (%d parts)\n' % line for line in lines)
    return [] if heard.getvalue() == due else ['%r in place of %r' % (heard.getvalue(), due)]


def until(path, line=''):
    """Waits until this file has a line."""
    deadline = time.monotonic() + 20
    while time.monotonic() < deadline and not (os.path.exists(path) and line in text(path)):
        time.sleep(0.1)


def wrong_build(top):
    """Of changed sources ./prove proves the libraries and then builds the program, which ./scicos runs then, until a source changes again. Where the
    program is the one in release/, that is told."""
    write('changed', top, 'crates', 'low', 'src', 'lib.rt')
    given, lines = asked(top, script='prove'), noted(top)
    same = (given[0], given[2]) == ('', 0) and not left_over(lines)
    wrong = wrong_order(lines) + wrong_told(given[1]) + ([] if same else ['the first run: %r, %r' % (given, lines)])
    given = [asked(top, 'two', 'words'), asked(top, 'again')]
    wrong += [] if given == [('built two words\n', '', 0), ('built again\n', '', 0)] and noted(top) == [] else ['what was built: %r' % (given,)]
    write('changed again', top, 'crates', 'low', 'src', 'lib.rt')
    given = asked(top, 'x')
    wrong += [] if refused(given, 'other sources', './prove') else ['a source that changed again: %r' % (given,)]
    given, lines = asked(top, script='prove'), noted(top)
    both = [asked(top, 'x', script=name)[0] for name in ('scicos', 'ranges')]
    wrong += [] if steps(lines) == BUILT and both == 2 * ['built x\n'] else ['built again: %r, %r' % (given, lines)]
    release(top, text(top, 'program'))
    given, lines = asked(top, script='prove'), noted(top)
    same = all('its bytes are those of release/%s\n' % name in given[1] for name in ('scicos', 'ranges'))
    return wrong + ([] if same else ['the same bytes: %r' % (given,)])


def wrong_end(top):
    """Ctrl-C ends all that was begun, and the next run goes on, with what was half done too; a source that changes meanwhile is told."""
    write('changed', top, 'crates', 'low', 'src', 'lib.rt')
    write('', top, 'crates', 'right', 'src', 'slow')
    run = begin(top, script='prove')
    until(os.path.join(top, 'notes'), 'end left')
    os.killpg(run.pid, signal.SIGINT)
    given, lines = answer(run), noted(top)
    same = given[1].endswith('ended; the next run goes on from here\n') and given[2] in (130, -signal.SIGINT) and not left_over(lines)
    wrong = [] if same and given[0] == '' and 'begin right' in lines else ['Ctrl-C: %r, %r, %r' % (given, lines, left_over(lines))]
    out = os.path.join(top, 'crates', 'right', 'out')
    there = os.path.exists(os.path.join(out, 'incremental', 'half')) and not os.path.exists(os.path.join(top, 'crates', 'scicos', 'out', 'prove'))
    wrong += [] if there else ['what was half done is lost']
    given = asked(top, 'x')
    wrong += [] if refused(given, './prove') else ['half proved: %r' % (given,)]
    os.remove(os.path.join(top, 'crates', 'right', 'src', 'slow'))
    run = begin(top, script='prove')
    until(os.path.join(top, 'notes'), 'begin right')
    write('changed twice', top, 'crates', 'low', 'src', 'lib.rt')
    given, lines = answer(run), noted(top)
    same = steps(lines) == ['begin right', 'end right', *BUILT] and 'has changed meanwhile' in given[1] and given[2] == 70
    wrong += [] if same and refused(asked(top, 'x'), './prove') else ['a source that changed meanwhile: %r, %r' % (given, lines)]
    given = asked(top, script='prove'), asked(top, 'x')
    return wrong + ([] if given[1] == ('built x\n', '', 0) else ['after it: %r' % (given,)])


def wrong_failure(top):
    """A crate that isn't proved ends the run, what was said of it is shown, and nothing is built."""
    write('', top, 'crates', 'left', 'src', 'wrong')
    write('', top, 'crates', 'right', 'src', 'slow')
    given, lines = asked(top, script='prove'), noted(top)
    same = given[0] == '' and '== left\nfn left::f: not proved\n' in given[1] and given[2] == 70 and not set(BUILT) & set(lines) and not left_over(lines)
    return [] if same else ['a crate that is not proved: %r, %r, %r' % (given, lines, left_over(lines))]


def wrong_machine(top):
    """Without rt, without Python and without room on the disk ./prove says one line, and nothing is begun."""
    whole = text(top, 'tools', 'prove')
    write(re.sub(r'^ROOM = .*$', 'ROOM = 1 << 60', whole, flags=re.M), top, 'tools', 'prove')
    full = asked(top, script='prove')
    wrong = [] if refused(full, 'make room') else ['without room: %r' % (full,)]
    write(whole, top, 'tools', 'prove')
    for name, word in (('rt', 'README.md'), ('python3', 'install Python 3')):
        with without(top, name):
            bare = asked(top, script='prove')
        wrong += [] if refused(bare, "%s isn't on the path" % name, word) else ['without %s: %r' % (name, bare)]
    return wrong + ['%r' % noted(top)] * bool(noted(top))


def first_run(program):
    """The scripts `scicos` and `prove`, from nothing and beside each trouble; and the gate says what it takes."""
    wrong = wrong_minutes()
    for case in (wrong_release, wrong_sources, wrong_without_perl, wrong_damage, wrong_place, wrong_build, wrong_end, wrong_failure, wrong_machine):
        with tempfile.TemporaryDirectory() as top:
            furnish(top)
            wrong += case(top)
    told = subprocess.run([os.path.join(TOP, 'test'), '--help'], capture_output=True, text=True, timeout=30)
    return '; '.join(wrong + ([] if told.returncode == 0 and 'GB of disk' in told.stdout and told.stderr == '' else [repr(told)]))
