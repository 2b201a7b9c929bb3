"""Mistakes that no other case would tell: in lists of pending events, in what a C text may have for a space, in which files are asked for, and in how often
something is written behind a fault.

docs/MISTAKES.md names them, and what is due is written here by hand.
"""
import glob
import json
import os
import re
import subprocess
import tempfile

from cuts import refused
from lacking import lacks, untried
from plain import in_folder
from refusals import block, event
from streams import HERE, meter, run, text

TOP = os.path.join(HERE, '..')


def timer(delay, first):
    return block('EVTDLY_c', evtin=1, evtout=1, ipar=delay, firing=first)


def wrong_events(program, objs, due):
    """What is wrong with a run of timers alone, of which the dates and blocks of the events are due, and with its C."""
    diagram = json.dumps({'objs': objs}).encode()
    trace = 'start\n' + ''.join('event %d %d 1\n' % pair for pair in due) + 'end empty\n'
    given = in_folder(program, ['simulate', 'd', 'i', '1000000', '100'], d=diagram, i=b'[]')
    code = in_folder(program, ['ccode', 'd'], d=diagram)[0]
    by_code = in_folder(program, ['crun', 'c', 'i', '1000000', '100'], c=code, i=b'[]')
    return '; '.join('%r' % (answer,) for answer in (given, by_code) if answer != (trace.encode(), b'', 0))


def removed_between_neighbours(program):
    """Three events are pending at one date. The one in the middle and then the last one are moved to a later date, and a further one comes to the first."""
    objs = [timer(-1, 1), timer(-1, 2), timer(-1, 3), timer(-1, 10), timer(14, 10), timer(13, 10), timer(7, -1)]
    objs += [event((1, 1), (5, 1)), event((2, 1), (6, 1)), event((3, 1), (7, 1))]
    return wrong_events(program, objs, [(1, 1), (2, 2), (3, 3), (10, 4), (10, 7), (15, 5), (15, 6)])


def far_events_in_order(program):
    """Events of one date that wait long come before one of that date that is programmed late, and among each other in their order. They are so far away
    that a wheel moves them twice."""
    late = 300
    objs = [timer(-1, 70000), timer(-1, 70000), timer(-1, late), timer(-1, 70000), timer(70000 - late, -1), timer(-1, 70001), event((3, 1), (5, 1))]
    return wrong_events(program, objs, [(late, 3), (70000, 1), (70000, 2), (70000, 4), (70000, 5), (70001, 6)])


def instructions(program, work, events):
    """How many instructions a run of so many events takes, by valgrind."""
    words = ['valgrind', '--tool=cachegrind', '--cache-sim=no', '--cachegrind-out-file=/dev/null', program, 'simulate', 'd', 'i', '1000000', str(events)]
    told = subprocess.run(words, cwd=work, stdin=subprocess.DEVNULL, capture_output=True, text=True, timeout=600)
    found = re.search(r'I\s+refs:\s+([\d,]+)', told.stderr)
    return int(found.group(1).replace(',', '')) if found and told.stdout.count('\nevent ') == events else None


def events_in_many_chains(program):
    """Where 512 clocks wait, an event takes some 900 instructions. A look at each of the clocks, of four instructions, would take 2,000 more."""
    if lacks('how many instructions an event takes', 'valgrind'):
        return ''
    with tempfile.TemporaryDirectory() as work:
        with open(os.path.join(work, 'd'), 'w') as file:
            json.dump({'objs': [timer(300 + k, k) for k in range(512)] + [event((k, 1), (k, 1)) for k in range(1, 513)]}, file)
        with open(os.path.join(work, 'i'), 'w') as file:
            file.write('[]')
        few, many = (instructions(program, work, events) for events in (10, 2010))
    if few is None or many is None:
        untried('how many instructions an event takes', "a valgrind that runs the program")
        return ''
    each = (many - few) / 2000
    return '' if each < 2000 else '%d instructions for an event' % each


def spaces_of_code(program):
    """In C no other character stands for a space: the line in which one does is blamed."""
    content, wrong = text(HERE, 'crun-stop', 'c'), []
    with tempfile.TemporaryDirectory() as work:
        with open(os.path.join(work, 'i'), 'w') as file:
            file.write('[]')
        for other in (b'\t', b'\x0b', b'\xa0', b'_', b''):
            for place in [found.start() for found in re.finditer(b' ', content)][::1 if other == b'\t' else 7]:
                with open(os.path.join(work, 'c'), 'wb') as file:
                    file.write(content[:place] + other + content[place + 1:])
                given = run(program, ['crun', 'c', 'i', '10', '10'], cwd=work)
                due = refused('26 NotC at - %d' % (content.rfind(b'\n', 0, place) + 1))
                wrong += [] if given == due else ['%r at %d: %r' % (other, place, given)]
    return '; '.join(wrong)[:800]


HEAD_OF_C = text(HERE, 'crun-primes', 'c').decode().split('static')[0]
V1, MAIN = 'static int64_t v1;\n', 'void sci_main(void) {\n'
LOOP_OF_V1 = MAIN + '  for (v1 = INT64_C(0); v1 < INT64_C(3); v1 = v1 + INT64_C(1)) {\n    %s\n  }\n}\n'
SIXTEEN_IFS = MAIN + ''.join('  ' * k + 'if (INT64_C(1)) {\n' for k in range(1, 17))
# C behind its declarations of outer functions that is none, by the byte that is blamed: a line is missing, or one is too many; a second list whose statements
# would stand 17 deep, an empty one; a name that is declared twice, one that isn't, an array in place of a number; and a loop's counter that is assigned in a
# function that is called, in one that this one calls behind another that does nothing
WRONG_C = [(MAIN, 416), (MAIN + '}\n\n', 418), (SIXTEEN_IFS + '  ' * 16 + '} else {\n', 976), (MAIN + '  if (INT64_C(1)) {\n  } else {\n  }\n}\n', 447),
           (V1 + V1 + MAIN + '}\n', 428), (V1 + MAIN + '  v2 = INT64_C(0);\n}\n', 437),
           (V1 + 'static int64_t v2[16];\n' + MAIN + '  if ((v1 + v2[v3])) {\n    v1 = v2;\n  }\n}\n', 473),
           (V1 + 'static void f1(void) {\n  v1 = INT64_C(1);\n}\n' + LOOP_OF_V1 % 'f1();', 548),
           (V1 + 'static void f0(void) {\n  v1 = INT64_C(1);\n}\nstatic void g0(void) {\n  f0();\n}\nstatic void h0(void) {\n}\n'
            + LOOP_OF_V1 % 'h0();\n    g0();', 616)]
# C that comes to a statement without meaning, by its number: the list of an If that is passed over counts, and so does a loop's first turn alone
SKIPPED = '    if (INT64_C(0)) {\n%s%s    } else {\n%s      v1 = (INT64_C(1) / INT64_C(0));\n    }\n' % (('      v1 = INT64_C(0);\n',) * 3)
UNDEFINED_C = [(V1 + MAIN + '  v1 = INT64_C(9223372036854775807);\n  v1 = (v1 + INT64_C(1));\n}\n', 2),
               (V1 + 'static int64_t k1;\n' + MAIN + '  for (k1 = INT64_C(0); k1 < INT64_C(3); k1 = k1 + INT64_C(1)) {\n' + SKIPPED + '  }\n}\n', 6)]


def wrong_programs(program):
    """The first byte of a text that is no C of the subset is blamed, and the first statement without meaning is told by its number."""
    wrong = []
    for content, due in [(HEAD_OF_C + behind, refused('26 NotC at - %d' % byte)) for behind, byte in WRONG_C] \
            + [('#include <stdint.h>\nextern  void sci_start(void);\n', refused('26 NotC at - 20'))] \
            + [(HEAD_OF_C + behind, (b'', b'undefined at %d\n' % number, 7)) for behind, number in UNDEFINED_C]:
        given = in_folder(program, ['crun', 'c', 'i', '10', '10'], c=content.encode(), i=b'[]')
        wrong += [] if given == due else ['%r: %r in place of %r' % (content[-120:], given, due)]
    return '; '.join(wrong)[:800]


def opened(program, words, work):
    """The names of the files that a run opens, in order; None where strace can't tell."""
    log = os.path.join(work, 'log')
    subprocess.run(['strace', '-f', '-qq', '-e', 'trace=open,openat,openat2,creat', '-o', log, program] + words, cwd=work, stdin=subprocess.DEVNULL,
                   capture_output=True, timeout=120)
    told = text(log).decode() if os.path.exists(log) else ''
    return re.findall(r'(?:open|openat2?|creat)\((?:AT_FDCWD, )?"([^"]*)"', told) or None


OF_THE_MACHINE = ('/etc/ld.so', '/lib', '/usr/lib', '/proc/', '/sys/', '/dev/null')


def files_asked(program):
    """Each command opens the files that its words name, in their order, and none of its own; a later one only where those before it break no rule."""
    what = 'which files the program opens'
    if lacks(what, 'strace'):
        return ''
    with tempfile.TemporaryDirectory() as work:
        lines = [words for words, _ in meter(program, work)]
        own = opened(program, ['host'], work)
        if own is None:
            untried(what, 'a strace that may trace')
            return ''
        wrong = ['host: %r' % own] if any(not name.startswith(OF_THE_MACHINE) for name in own) else []
        dues = [(words, [word for word in words[1:] if word in 'dictsw']) for words in lines]
        dues += [(['simulate', 'c', 'i', '30', '100'], ['c']), (['resume', 'd', 'c', 's', '30', '100'], ['d', 'c']),
                 (['judge', 'd', 'x', 't', '30', '100'], ['d', 'x']), (['simulate', 'd', 'i', '030', '100'], []), (['check', 'd', 'i'], [])]
        for words, names in dues:
            found = opened(program, words, work) or []
            wrong += [] if found == own + names else ['%s: %r' % (' '.join(words), found[len(own):])]
    return '; '.join(wrong)[:800]


def written(program, words, work, **streams):
    """Each call that a run makes to write something: on which stream, and how many bytes that took, or -1; and the status. None where strace can't tell."""
    log = os.path.join(work, 'log')
    ended = subprocess.run(['strace', '-f', '-qq', '-e', 'trace=write,writev,pwrite64,sendto', '-o', log, program] + words, cwd=work,
                           stdin=subprocess.DEVNULL, timeout=120, **streams)
    told = text(log).decode(errors='replace') if os.path.exists(log) else ''
    return [(int(stream), int(count)) for stream, count in re.findall(r'\b(?:p?write\w*|sendto)\((\d+), .* = (-?\d+)', told)] or None, ended.returncode


def nothing_behind_a_fault(program):
    """Where a write to standard output fails, no other is tried there, and the fault is told by one write to standard error, which is not tried again
    either; so it is where standard error fails first."""
    what = 'how often the program writes'
    if lacks(what, 'strace'):
        return ''
    undefined = HEAD_OF_C + UNDEFINED_C[0][0]
    with tempfile.TemporaryDirectory() as work, open('/dev/full', 'wb') as full, open(os.devnull, 'wb') as null:
        lines = [words for words, _ in meter(program, work)]
        with open(os.path.join(work, 'u'), 'w') as file:
            file.write(undefined)
        if written(program, ['host'], work, stdout=null, stderr=null)[0] is None:
            untried(what, 'a strace that may trace')
            return ''
        dues = [(words, streams, due) for words in lines for streams, due in (({'stdout': full, 'stderr': null}, [(1, -1), (2, len(b'write fault\n'))]),
                                                                             ({'stdout': full, 'stderr': full}, [(1, -1), (2, -1)]))]
        dues += [(words, {'stdout': null, 'stderr': full}, [(2, -1)])
                 for words in (['check'], ['check', 'c'], ['check', 'x'], ['crun', 'u', 'i', '10', '10'], ['simulate', 'd', 'd', '30', '100'])]
        given = [(words, due, written(program, words, work, **streams)) for words, streams, due in dues]
    return '; '.join('%s: %r' % (' '.join(words), found) for words, due, found in given if found != (due, 4))[:800]


def joined(*patterns):
    """The text of all files of these names."""
    return ''.join(text(path).decode() for pattern in patterns for path in sorted(glob.glob(os.path.join(TOP, *pattern))))


def page_of_mistakes(program):
    """Each edit that docs/MISTAKES.md names is there, in a crate of its row, and so is each case and the rows of each name; of refusals the names begin so."""
    page, scripts, tables = joined(('docs', 'MISTAKES.md')), joined(('cases', 'run'), ('cases', '*.py')), joined(('crates', '*_table', 'stdin'))
    mistakes, limits = page.split('## Want of memory')
    wrong = []
    for row in [row for row in mistakes.splitlines() if '.edit`' in row and row.startswith('|')]:
        crates = re.findall(r'`([a-z_]+)`', row.split('|')[2])
        paths = {name: [os.path.join(TOP, 'crates', crate, 'must-fail', name) for crate in crates] for name in re.findall(r'`(\w+\.edit)`', row)}
        wrong += [name for name, places in paths.items() if not any(map(os.path.exists, places))]
    named = re.findall(r'\b(case|row)s? ((?:`[\w-]+`(?:, | and )?)+)', mistakes)
    named += [('case', cell) for row in re.findall(r'^\|.*\|$', limits, re.M)[2:] for cell in row.split('|')[3:5]]
    for kind, cell in named:
        for name in set(re.findall(r'`([^`]+)`', cell)) - {'check'}:
            ways = ('# %s\n' % name, '# %s: ' % name) if kind == 'row' else ('def %s(' % name, "('%s" % name)
            found = any(way in (tables if kind == 'row' else scripts) for way in ways) or os.path.exists(os.path.join(HERE, name, 'words'))
            wrong += [] if found else ['%s %s' % (kind, name)]
    return ', '.join(wrong) or ('' if len(named) > 40 else 'too few names: %d' % len(named))


OF_MISTAKES = [page_of_mistakes, removed_between_neighbours, far_events_in_order, events_in_many_chains, spaces_of_code, wrong_programs, files_asked,
               nothing_behind_a_fault]
