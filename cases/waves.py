"""Value change dumps: of runs, with a mistake, at the limits, and read by GTKWave's own readers and by simavr's where these are installed.

What is due comes from tools/plain_vcd.py; the first wrong line of the dump of the counter is also written here by hand.
"""
import json
import os
import re
import string
import subprocess
import tempfile

from lacking import lacks, untried
from plain import EXAMPLES, in_folder, plain, ring_of_delays, simulations
from streams import HERE, READ_FAULT, run, text, without
import plain_kinds as kinds
import plain_vcd
import text_changes

MOST = 67108864
NO_DUMP = b'scicos-kit waves: %s: line 1 is no line of a dump of `scicos vcd`\n'
ONE, TWO = 'b00000000000000000000000000000001', 'b00000000000000000000000000000010'
# of the dump of the counter: what is changed into what, and the first wrong line; or what `vcdat` then says at tick 7
MISTAKES = [
    ('$timescale 1 ns $end\n', '', 1), ('1 ns', '1 ps', 1), ('$timescale 1 ns $end', '$timescale 1ns $end', 1), ('$scope module scicos $end\n', '', 2),
    ('scicos', 'other', 2), ('$scope', '\n$scope', 2), ('$var integer 32 v1 b2_1_1 $end\n', '', 3), ('v1 b2_1_1 $end\n', 'v1 b2_1_1 $end\n' * 2, 4),
    ('integer 32 v1', 'integer 33 v1', 3), ('integer 32 v1', 'integer 16 v1', 10), ('integer 32 v1', 'reg 32 v1', 3), ('integer 32 v1', 'wire 32 v1', 'b2_1_1 1\nb3_1_1 2\nb4_1_1 1\n'),
    ('integer 32 v1', 'wire 1 v1', 3), ('v1 b2', 'v2 b2', 3), ('v1 b2', 'v01 b2', 3), ('v1 b2', '! b2', 3), ('b2_1_1 $end', 'b0_1_1 $end', 3), ('b2_1_1 $end', 'b2049_1_1 $end', 3),
    ('b2_1_1 $end', 'b2_65_1 $end', 3), ('b2_1_1 $end', 'b2_1_257 $end', 3), ('b2_1_1 $end', 'b2_1 $end', 3), ('b2_1_1 $end', 'b3_1_1 $end', 4), ('b2_1_1 $end', 'b3_1_2 $end', 4),
    ('b2_1_1 $end', 'b2_0_1 $end', 3), ('b2_1_1 $end', 'b2_1_1 [31:0] $end', 3), ('b4_1_1 $end', 'b2048_64_256 $end', 'b2_1_1 1\nb3_1_1 2\nb2048_64_256 1\n'),
    ('b2_1_1 $end', 'b2_64_256 $end', 'b2_64_256 1\nb3_1_1 2\nb4_1_1 1\n'), ('$upscope $end\n', '', 6), ('$enddefinitions $end\n', '', 7), ('#0\n', '', 8), ('#0\n', '#1\n', 8), ('#0\n', '#00\n', 8),
    ('$dumpvars\n', '', 9), (ONE + ' v1\n', '', 10), (ONE + ' v1', 'b1 v1', 10), (ONE + ' v1', 'b0' + ONE[1:] + ' v1', 10), (ONE + ' v1', 'bx' + ONE[2:] + ' v1', 10),
    (ONE + ' v1', 'bz' + ONE[2:] + ' v1', 10), (ONE + ' v1', 'B' + ONE[1:] + ' v1', 10), (ONE + ' v1', 'r1 v1', 10), (ONE + ' v1', ONE + ' v2', 10), (ONE + ' v1', ONE + ' v4', 10),
    (ONE + ' v1\n', ONE + ' v1\n' * 2, 11), (ONE + ' v1', ONE[:-1] + '2 v1', 10), (ONE + ' v1\n' + ONE + ' v2\n', ONE + ' v2\n' + ONE + ' v1\n', 10), (ONE + ' v1', ONE + 'v1', 10),
    (ONE + ' v1', ONE + '  v1', 10), (ONE + ' v1', ONE + ' v01', 10), ('b' + '0' * 32 + ' v3\n', '', 12), ('v3\n$end\n', 'v3\n', 13), ('v3\n$end\n', 'v3\n$end\n$end\n', 14),
    ('v3\n$end\n', 'v3\n$end\n' + TWO + ' v1\n', 14), ('#5\n', '', 14), ('#5\n', '#0\n', 14), ('#5\n', '#05\n', 14), ('#5\n', '#-5\n', 14), ('#5\n', '#5 \n', 14), ('#5\n', '# 5\n', 14),
    ('#5\n', '#10\n', 17), ('#5\n', '#5\n#6\n', 15), ('#5\n', '#4611686018427387905\n', 14), ('#5\n', '#18446744073709551621\n', 14), ('#5\n', '#4611686018427387904\n', 17),
    ('#5\n', '#5\n' + ONE + ' v1\n', 15), (TWO + ' v2\n', ONE + ' v2\n', 15), (TWO + ' v2\n', '', 'b2_1_1 1\nb3_1_1 1\nb4_1_1 1\n'), (TWO + ' v2\n' + ONE + ' v3\n', ONE + ' v3\n' + TWO + ' v2\n', 16),
    (TWO + ' v2\n', TWO + ' v2\n' + ONE + ' v2\n', 16), (TWO + ' v2\n', '$comment x $end\n', 15), (TWO + ' v2\n' + ONE + ' v3\n', '', 15), (TWO + ' v2', TWO + ' v5', 15), (TWO + ' v2', TWO + ' v0', 15),
    ('#10\n', '#5\n', 17), ('#10\n', '#4\n', 17), ('#10\n', '', 17), ('#10\n', '#4611686018427387904\n', 'b2_1_1 1\nb3_1_1 2\nb4_1_1 1\n'), ('#10\n', '#7\n', 'b2_1_1 1\nb3_1_1 3\nb4_1_1 2\n'),
    ('\n', '\r\n', 1),
]
# what comes behind the dump of the counter, and the first wrong line
BEHIND = [('#11\n', 21), ('x', 20), ('\n', 20), ('#11\n' + ONE + ' v1\n', 21), ('#11\n' + TWO + ' v1', 21), ('#10\n' + TWO + ' v1\n', 20), (TWO + ' v3\n', 20), ('$end\n', 20), ('#11\n#12\n', 21)]


def answered(program, content, tick=7):
    return in_folder(program, ['vcdat', 'v', str(tick)], v=content)


def dumps_of_runs(program):
    """The dump of each run, also of one that stops, is what the slow program writes, and at its ticks and between them it has the values of the run."""
    wrong = []
    for name, diagram, inputs, until, limit in simulations():
        dump, status = plain_vcd.of_run(*plain(diagram, inputs), int(until), int(limit))
        given = in_folder(program, ['vcd', 'd', 'i', until, limit], d=diagram, i=inputs)
        wrong += [] if given == (dump.written().encode(), b'', status) else ['%s: %r' % (name, given)]
        ticks = [tick for tick, _ in dump.ticks][:4] + [tick for tick, _ in dump.ticks][-2:]
        for tick in sorted({0, 2**62, *ticks, *(tick - 1 for tick in ticks), *(min(tick + 1, 2**62) for tick in ticks)}):
            due = (dump.told(tick).encode(), b'', 0)
            wrong += [] if answered(program, dump.written().encode(), tick) == due else ['%s at %d: %r' % (name, tick, due)]
    return '; '.join(wrong)[:800]


def wrong_dumps(program):
    """Each mistake in the dump of the counter is told by its line, and what is none is read as what it says."""
    dump, wrong = text(HERE, 'vcdat-counter', 'v').decode(), []
    tried = [(dump.replace(old, new, 1 if old != '\n' else -1), due) for old, new, due in MISTAKES] + [(dump + more, due) for more, due in BEHIND]
    tried += [(dump[:-1], 19), ('', 1), (dump[:-1] + '\r\n', 19), (dump + dump, 20), ('\ufeff' + dump, 1)]
    for content, due in tried:
        answer = (b'', b'refused 37 NotVcd at - %d\n' % due, 1) if isinstance(due, int) else (due.encode(), b'', 0)
        given, slow = answered(program, content.encode()), plain_vcd.told(content.encode(), 7)
        if not given == answer == (slow[0].encode(), slow[1].encode(), slow[2]) or content == dump:
            wrong.append('%r: %r, %r in place of %r' % (content[-200:], given, slow, due))
    return '; '.join(wrong)[:800]


def changed_dumps(program):
    """Dumps with one change, in each line: the first wrong line, or the values that it then has."""
    wrong = []
    for case, places in (('vcd-counter', None), ('vcd-types', range(2, 24, 3)), ('vcd-within-a-tick', None), ('vcd-no-signals', None), ('vcd-meter', range(30, 36))):
        content = text(HERE, case, 'out')
        for changed in text_changes.changed_texts(content, places):
            out, err, status = plain_vcd.told(changed, 9)
            given = answered(program, changed, 9)
            wrong += [] if given == (out.encode(), err.encode(), status) else ['%s, %r: %r in place of %r' % (case, changed[-200:], given, (out, err))]
    return '; '.join(wrong)[:800]


def cut_dumps(program):
    """Of the fronts of a dump those are dumps that end behind the first values or behind a change; of another the line that is cut is told."""
    content, wrong = text(HERE, 'vcdat-counter', 'v'), []
    for size in range(len(content)):
        out, err, status = plain_vcd.told(content[:size], 7)
        given = answered(program, content[:size])
        wrong += [] if given == (out.encode(), err.encode(), status) else ['%d bytes: %r' % (size, given)]
    return '; '.join(wrong)[:800]


def long_dumps(program):
    """Dumps of nearly the greatest length, of the greatest and of one byte more."""
    head = '$timescale 1 ns $end\n$scope module scicos $end\n$var wire 8 v1 b1_1_1 $end\n$upscope $end\n$enddefinitions $end\n#0\n$dumpvars\nb00000000 v1\n$end\n'
    first, count = 10**11, (MOST - len(head)) // len('#100000000000\nb00000010 v1\n')
    dump = (head + ''.join('#%d\nb%s v1\n' % (first + k, '00000001' if k % 2 else '00000010') for k in range(count))).encode()
    last, wrong = count - 1, []

    def value(k):
        return b'b1_1_1 %d\n' % (1 if k % 2 else 2), b'', 0

    def refused(line):
        return b'', b'refused 37 NotVcd at - %d\n' % line, 1
    for content, size, tick, due in ((dump, 0, first + last - 1, value(last - 1)), (dump, 0, first - 1, (b'b1_1_1 0\n', b'', 0)), (dump, 0, 2**62, value(last)),
                                     (dump[:-27] + b'\n', 0, 0, refused(8 + 2 * count)), (b'', MOST, 0, refused(1)), (dump[:len(head) + 27], MOST, 0, refused(12)),
                                     (dump, MOST + 1, 0, (b'', b'refused 29 FileTooLong at - 1 67108864\n', 1))):
        with tempfile.TemporaryDirectory() as work:
            with open(os.path.join(work, 'v'), 'wb') as file:
                file.write(content)
            os.truncate(os.path.join(work, 'v'), size or len(content))
            given = run(program, ['vcdat', 'v', str(tick)], cwd=work)
            wrong += [] if given == due else ['%d bytes at %d: %r in place of %r' % (size or len(content), tick, given, due)]
    return '; '.join(wrong)


def dumps_at_the_limits(program):
    """65,536 signals are a dump, and one more is none; so are a last tick, and one behind it."""
    wrong = []
    for count in (65536, 65537):
        places = ['b%d_%d_%d' % (1 + k // 64 // 256, 1 + k // 256 % 64, 1 + k % 256) for k in range(count)]
        lines = ['$timescale 1 ns $end', '$scope module scicos $end'] + ['$var wire 8 v%d %s $end' % (k + 1, place) for k, place in enumerate(places)]
        lines += ['$upscope $end', '$enddefinitions $end', '#0', '$dumpvars'] + ['b%s v%d' % (format(k % 256, '08b'), k + 1) for k in range(count)] + ['$end', '#4611686018427387904']
        lines += ['b%s v%d' % (format((k + 1) % 256, '08b'), k + 1) for k in range(count)]
        content = ''.join(line + '\n' for line in lines).encode()
        for tick, more in ((2**62, 1), (2**62 - 1, 0)):
            due = (''.join('%s %d\n' % (place, (k + more) % 256) for k, place in enumerate(places)).encode(), b'', 0)
            given = answered(program, content, tick)
            wrong += [] if given == (due if count == 65536 else (b'', b'refused 37 NotVcd at - 65539\n', 1)) else ['%d signals: %r' % (count, given)[:200]]
    return '; '.join(wrong)


def largest_dump(program):
    """A run of 65,536 signals, all of which change at each tick."""
    diagram = ring_of_delays()
    dump, _ = plain_vcd.of_run(*plain(diagram, b'[]'), 100, 4)
    given = in_folder(program, ['vcd', 'd', 'i', '100', '4'], d=diagram, i=b'[]')
    read = answered(program, dump.written().encode(), 5)
    wrong = [] if given == (dump.written().encode(), b'', 0) else ['%d bytes, %r' % (len(given[0]), given[1:])]
    return '; '.join(wrong + ([] if read == (dump.told(5).encode(), b'', 0) and len(dump.ticks) == 3 else ['at 5: %r' % (read[1:],)]))


def dumped_in_order(program):
    """The diagram is looked at first, and then the input file; each word has its form."""
    folder = os.path.join(HERE, 'vcd-meter')
    files = {'d': text(folder, 'd'), 'i': text(folder, 'i'), 'v': text(folder, 'out'), 'l': text(HERE, 'loop-in-simulate', 'd'), 'e': b'[]'}
    usage = (b'', text(HERE, 'no-words', 'err'), 2)
    wrong = [without(due, *((line, in_folder(program, line.split(), **files)) for line in lines)) for due, lines in (
        (usage, ('vcd', 'vcd d i 30', 'vcd d i 30 100 1', 'vcd d i 030 100', 'vcd d i 30 1000001', 'vcd d i 4611686018427387905 1', 'vcdat', 'vcdat v', 'vcdat v 1 1', 'vcdat v 01',
                 'vcdat v +1', 'vcdat v -0', 'vcdat v 4611686018427387905', 'vcdat v 99999999999999999999', 'vcdat v 1e3')),
        ((b'', text(HERE, 'loop-in-simulate', 'err'), 1), ('vcd l e 30 100', 'vcd l n 30 100')), ((b'', b'refused 27 InputShape at - 1 0\n', 1), ('vcd d e 30 100',)),
        (READ_FAULT, ('vcd n i 30 100', 'vcd d n 30 100', 'vcdat n 1', 'vcdat . 1')), ((text(folder, 'out'), b'', 0), ('vcd d i 30 100', 'vcd d i 39 1000000')),
        ((b'', b'refused 37 NotVcd at - 1\n', 1), ('vcdat d 1', 'vcdat /dev/null 0')),
        ((text(HERE, 'vcdat-meter', 'out'), b'', 0), ('vcdat v 10', 'vcdat v 14', 'vcdat v 19')))]
    return '; '.join(filter(None, wrong))[:800]


def number_of(bits):
    return int(bits, 2) if set(bits) <= {'0', '1'} else bits


def values_of(content):
    """What a dump in any spelling says, as readers of the field take it: of each name the ticks with its values, as numbers of its bits."""
    names, found, now, words = {}, {}, 0, iter(content.split())
    for word in words:
        if word == '$var':
            _, _, code, name = (next(words) for _ in range(4))
            names[code], found[name] = name, {}
        elif word in ('$date', '$version', '$timescale', '$scope', '$comment'):
            while next(words) != '$end':
                pass
        elif word[0] == '#':
            now = int(word[1:])
        elif word[0] == 'b':
            found.setdefault(names.get(next(words)), {})[now] = number_of(word[1:])
        elif word[0] in '01xz':
            found.setdefault(names.get(word[1:]), {})[now] = number_of(word[0])
    return found


def changes_of(values):
    """Of each name the ticks with a value that is another than before."""
    changes = {name: [] for name in values}
    for name, ticks in values.items():
        for tick, value in sorted(ticks.items()):
            changes[name] += [(tick, value)] if not changes[name] or changes[name][-1][1] != value else []
    return changes


def changes_due(dump):
    """The same of the signals of a dump as they are meant."""
    due = [[(0, value)] for value in dump.first]
    for tick, changes in dump.ticks:
        for signal, value in changes:
            due[signal - 1].append((tick, value))
    return {'b%d_%d_%d' % place: [(tick, kinds.pattern(kind, value)) for tick, value in changes] for (kind, place), changes in zip(dump.signals, due)}


def far_events():
    """The README's first diagram with the longest period, so that ticks are past 2^32."""
    diagram = json.loads(text(EXAMPLES, 'first.json'))
    diagram['objs'][0]['model']['ipar'] = [2**31 - 1]
    return json.dumps(diagram).encode()


def runs_with_signals(program, *more):
    """Of each run that has signals, and of further ones, its name, the dump that the program writes, and the dump as it is meant."""
    for name, diagram, inputs, until, limit in [*simulations(), ('far events', far_events(), b'[]', str(2**62), '20'), *more]:
        dump, _ = plain_vcd.of_run(*plain(diagram, inputs), int(until), int(limit))
        if dump.signals:
            yield name, in_folder(program, ['vcd', 'd', 'i', until, limit], d=diagram, i=inputs)[0], dump


def there_and_back(content, there, back):
    """What a reader makes of a dump, written again as a dump, and what both say."""
    with tempfile.TemporaryDirectory() as work:
        with open(os.path.join(work, 'v.vcd'), 'wb') as file:
            file.write(content)
        ran = [subprocess.run(words, cwd=work, capture_output=True, timeout=60) for words in ([there, 'v.vcd', 'v.other'], [back, 'v.other'])]
        return ran[1].stdout.decode(), [(run.stderr[-200:], run.returncode) for run in ran]


def gtkwave(program):
    """The readers of GTKWave's three formats take each dump that has signals, and give it back with the same values, where they are installed. Two of them
    don't take one without a later tick than 0."""
    wrong, runs = [], list(runs_with_signals(program, ('65,536 signals', ring_of_delays(), b'[]', '100', '4')))
    for there, back in (('vcd2fst', 'fst2vcd'), ('vcd2lxt2', 'lxt2vcd'), ('vcd2vzt', 'vzt2vcd')):
        if lacks('dumps read by ' + there, there, back):
            continue
        for name, content, dump in runs:
            if dump.ticks or there == 'vcd2fst':
                again, told = there_and_back(content, there, back)
                wrong += [] if changes_of(values_of(again)) == changes_due(dump) else ['%s, %s: %r, %r' % (there, name, told, again[-300:])]
    return '; '.join(wrong)[:800] or ('' if len(runs) > 30 else 'too few runs: %d' % len(runs))


LETTERS = string.ascii_letters.encode()


def with_letters(content):
    """A dump with letters for the codes of its signals."""
    return re.sub(rb' v([0-9]+)(?= |$)', lambda code: b' ' + LETTERS[int(code.group(1)) - 1:][:1], content, flags=re.M)


def simavr_reader(work):
    """The command that has simavr read a dump, or None where its library isn't installed, which is told, and what is wrong."""
    what, command = 'dumps read by simavr', os.path.join(work, 'reader')
    if lacks(what, 'gcc'):
        return None, ''
    if subprocess.run(['gcc', '-E', '-xc', '-'], input=b'#include <simavr/sim_vcd_file.h>\n', capture_output=True).returncode:
        untried(what, 'libsimavr-dev')
        return None, ''
    made = subprocess.run(['gcc', '-std=c99', '-Wall', '-Wextra', '-o', command, os.path.join(HERE, 'read_by_simavr.c'), '-lsimavr'], capture_output=True)
    return (None, repr(made.stderr)) if made.returncode else (command, '')


def simavr(program):
    """The reader of simavr, a simulator of microcontrollers, takes each dump of at most 52 signals, with letters for their codes, which are single
    characters there, and tells the names, sizes and values that are meant."""
    with tempfile.TemporaryDirectory() as work:
        command, told = simavr_reader(work)
        if command is None:
            return told
        wrong, count = [], 0
        for name, content, dump in runs_with_signals(program):
            if len(dump.signals) > len(LETTERS):
                continue
            out, _, status = run(command, [text_file(work, with_letters(content))])
            lines = [line.split() for line in out.decode().splitlines()]
            values = {words[1]: {} for words in lines if words[0] == 'signal'}
            for _, signal, tick, value in (words for words in lines if words[0] == 'value'):
                values[signal][int(tick)] = int(value)
            sizes = [int(words[2]) for words in lines if words[0] == 'signal']
            same = changes_of(values) == changes_due(dump) and sizes == [kinds.WIDTH[kind] for kind, _ in dump.signals] and status == 0
            wrong, count = wrong + ([] if same else ['%s: %r, %d' % (name, out[-300:], status)]), count + 1
    return '; '.join(wrong)[:800] or ('' if count > 30 else 'too few runs: %d' % count)


def waveforms(program):
    """The waveforms in the pages of the designs are those of the dumps of their runs; what is no dump isn't drawn."""
    wrong, tool = [], [os.path.join(HERE, '..', 'scicos-kit'), 'waves']
    with tempfile.TemporaryDirectory() as work:
        for name, diagram, inputs, until, limit in simulations():
            folder = os.path.join(EXAMPLES, name)
            if not os.path.exists(os.path.join(folder, 'diagram.json')):
                continue
            with open(os.path.join(work, 'v'), 'wb') as file:
                file.write(in_folder(program, ['vcd', 'd', 'i', until, limit], d=diagram, i=inputs)[0])
            drawn = subprocess.run([*tool, '--diagram', os.path.join(folder, 'diagram.json'), 'v'], cwd=work, capture_output=True, timeout=60)
            same = (drawn.stdout, drawn.stderr, drawn.returncode) == (text(folder, 'waves.svg'), b'', 0) and '](waves.svg)' in text(folder, 'README.md').decode()
            wrong += [] if same else ['%s: %r' % (name, drawn.stderr)]
        one = subprocess.run([*tool, '--until', '40', '--only', 'b3_1_1', text_file(work, text(HERE, 'vcd-counter', 'out'))], capture_output=True, timeout=60)
        none = subprocess.run([*tool, text_file(work, b'x\n')], cwd=work, capture_output=True, timeout=60)
        dump = text_file(work, text(HERE, 'vcd-counter', 'out'))
        unknown = subprocess.run([*tool, '--only', 'b9_1_1', dump], capture_output=True, timeout=60)
    wrong += [] if one.stdout.count(b'class="line"') == 1 and one.returncode == 0 else [repr(one)]
    wrong += [] if (none.stdout, none.stderr, none.returncode) == (b'', NO_DUMP % none.args[-1].encode(), 1) else [repr(none)]
    is_told = (unknown.stdout, unknown.returncode) == (b'', 2) and b'b9_1_1' in unknown.stderr
    wrong += [] if is_told else [repr(unknown)]
    return '; '.join(wrong)[:800]


def text_file(work, content):
    """The name of a file of this content."""
    with open(os.path.join(work, 'text'), 'wb') as file:
        file.write(content)
    return file.name


WAVES = [dumps_of_runs, wrong_dumps, changed_dumps, cut_dumps, long_dumps, dumps_at_the_limits, largest_dump, dumped_in_order, gtkwave, simavr, waveforms]
