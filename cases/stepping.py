"""examples/step-host.h steps programs from outside: two designs in one program, or one twice, each stepped in portions of time of its own, tell the values of
their traces, also of several events at one date, the date of the next event behind each step, and how the run ends; sanitizers find nothing."""
import json
import os
import random
import re
import subprocess
import tempfile

from lacking import lacks

HERE = os.path.dirname(os.path.abspath(__file__))
EXAMPLES = os.path.join(HERE, '..', 'examples')
FLAGS = ['-std=c99', '-Wall', '-Wextra', '-pedantic', '-Werror', '-Wno-unused-function', '-O1', '-g']
SANITIZERS = ['-fsanitize=undefined,address', '-fno-sanitize-recover=all']
PAIRS = [[(EXAMPLES, 'thermostat', 'diagram.json', 'inputs.json'), (EXAMPLES, 'traffic-light', 'diagram.json', 'inputs.json')],
         [(EXAMPLES, 'watchdog', 'diagram.json', 'inputs.json'), (EXAMPLES, '', 'superblocks.json', 'no-inputs.json')],
         [(HERE, 'simulate-halt', 'd', 'i'), (HERE, 'simulate-quotient-int8-mode-2', 'd', 'i')],
         [(HERE, 'simulate-product-uint32-mode-0', 'd', 'i'), (EXAMPLES, 'quadrature', 'diagram.json', 'inputs.json')],
         [(HERE, 'simulate-two-events-of-one-date', 'd', 'i'), (HERE, 'simulate-40-sources', 'd', 'i')],
         [(EXAMPLES, 'traffic-light', 'diagram.json', 'inputs.json')] * 2]
HOST = '''#include <stdint.h>
#include <stdio.h>
#define STEP(name) %(name)s_##name
#define STEP_FILE "%(name)s.c"
static const int64_t columns[][%(length)d] = {%(columns)s};
static int taken[sizeof columns / sizeof columns[0]];
static int64_t STEP(input)(int64_t column) { return columns[column - 1][taken[column - 1]++]; }
static void STEP(value)(int64_t block, int64_t port, int64_t element, int64_t value) {
  printf("%(name)s val %%lld %%lld %%lld %%lld\\n", (long long)block, (long long)port, (long long)element, (long long)value);
}
#include "step-host.h"
void %(name)s_told(void) {
  int how = STEP(how) == STEP(goes_on) ? 0 : STEP(how) == STEP(over) ? 1 : 2;
  printf("%(name)s next %%lld how %%d word %%lld block %%lld\\n", (long long)STEP(next_date)(), how, (long long)STEP(word)(), (long long)STEP(block)());
}
'''
MAIN = '''#include <stdint.h>
int64_t one_init(void), one_step(int64_t now), two_init(void), two_step(int64_t now);
void one_told(void), two_told(void);
int main(void) {
  one_init(), one_told(), two_init(), two_told();
%s
  return 0;
}
'''


def reactions(trace):
    """The reactions of a trace, each with its date, -1 for start, and its lines of values, and the line that ends it."""
    *lines, last = trace.splitlines()
    found = []
    for line in lines:
        if line.startswith('val '):
            found[-1][1].append(line)
        else:
            found.append((-1 if line == 'start' else int(line.split()[1]), []))
    return found, last


def due(name, found, last, times):
    """What a design tells that is stepped at these times, line by line; a line in None's place is any. A reaction that stops tells no value."""
    words, lines, at = last.split(), [], 0
    whole = len(found) - (words[0] == 'stop')
    for time in [-1] + times:
        while at < whole and found[at][0] <= time:
            lines += [f'{name} {line}' for line in found[at][1]]
            at += 1
        following = found[at][0] if at < len(found) else None
        if following is not None and following > time:
            lines.append(f'{name} next {following} how 0 word 0 block 0')
        elif words[:2] == ['end', 'halt'] and time < times[-1]:
            lines.append(None)
        elif words == ['end', 'empty'] and time == -1:
            lines.append(f'{name} next -1 how 0 word 0 block 0')
        else:
            number = {'halt': 0, 'empty': 2, 'overflow': 0, 'zero': 1}[words[1]]
            lines.append(f'{name} next -1 how {1 + (words[0] == "stop")} word {number} block {words[2] if words[0] == "stop" else 0}')
    return lines


def design(program, work, name, found):
    """Writes the C of a design and its host to a folder; answers the reactions of its trace and the end, and up to which date it can be stepped."""
    *folder, diagram, inputs = found
    diagram, inputs = (os.path.join(*folder, file) for file in (diagram, inputs))
    with open(os.path.join(work, name + '.c'), 'wb') as file:
        file.write(subprocess.run([program, 'ccode', diagram], capture_output=True, timeout=120).stdout)
    with open(inputs) as file:
        columns = json.load(file) or [[]]
    length = max([1] + [len(column) for column in columns])
    values = ', '.join('{%s}' % ', '.join(map(str, column or [0])) for column in columns)
    with open(os.path.join(work, name + '_host.c'), 'w') as file:
        file.write(HOST % {'name': name, 'length': length, 'columns': values})
    trace = subprocess.run([program, 'simulate', diagram, inputs, '100000', '400'], capture_output=True, text=True, timeout=120).stdout
    told, last = reactions(trace)
    return told, last, told[-1][0] - (re.match(r'end (until|events)|stop input', last) is not None)


def portions(chance, last, most):
    """Times up to this date; behind it where the run is over by then."""
    times = sorted(chance.randrange(most + 1) for _ in range(40)) if most > 0 else []
    return times + [max(most, 0), max(most, 0) + (100000 if last in ('end halt', 'end empty') else 0)]


def wrong_steps(program, pair, seed):
    """What is wrong with two designs in one program."""
    with tempfile.TemporaryDirectory() as work:
        designs = {name: design(program, work, name, found) for name, found in zip(('one', 'two'), pair)}
        chance, steps = random.Random(seed), []
        times = {name: portions(chance, last, most) for name, (_, last, most) in designs.items()}
        for name in designs:
            steps += [(place + chance.random(), name, time) for place, time in enumerate(times[name])]
        with open(os.path.join(work, 'main.c'), 'w') as file:
            file.write(MAIN % '\n'.join('  %s_step(INT64_C(%d)), %s_told();' % (name, time, name) for _, name, time in sorted(steps)))
        words = ['gcc', *FLAGS, *SANITIZERS, '-I', '.', '-I', EXAMPLES, '-o', 'stepped', 'main.c', 'one_host.c', 'two_host.c']
        made = subprocess.run(words, cwd=work, capture_output=True, text=True, timeout=120)
        if made.returncode:
            return made.stderr
        run = subprocess.run([os.path.join(work, 'stepped')], cwd=work, capture_output=True, text=True, timeout=120)
    wrong = [] if (run.returncode, run.stderr) == (0, '') else [repr((run.returncode, run.stderr[-2000:]))]
    for name, (found, last, _) in designs.items():
        given, wanted = [line for line in run.stdout.splitlines() if line.startswith(name)], due(name, found, last, times[name])
        if len(given) != len(wanted) or any(line not in (None, told) for told, line in zip(given, wanted)):
            wrong.append('%s: %r in place of %r' % (name, given[:40], wanted[:40]))
    return '; '.join(wrong)


def stepped(program):
    """Two designs in one program, stepped in random portions of time."""
    if lacks('programs that are stepped from outside', 'gcc'):
        return ''
    return '; '.join(wrong for wrong in (wrong_steps(program, pair, seed) for seed, pair in enumerate(PAIRS)) if wrong)
