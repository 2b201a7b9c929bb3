"""The page on targets: its host and examples/paced-host.c are C without a warning, a paced run has the trace, takes its time and reads its sensors'
values, sizes are told, and what is said of the names and warnings of generated programs, and of what a checker tells, holds of all designs."""
import concurrent.futures
import glob
import json
import os
import re
import shutil
import subprocess
import tempfile
import time

from lacking import lacks, untried

HERE = os.path.dirname(os.path.abspath(__file__))
TOP = os.path.join(HERE, '..')
EXAMPLES = os.path.join(TOP, 'examples')
FLAGS = ['-std=c99', '-Wall', '-Wextra', '-pedantic', '-Werror', '-O2']
SPARE = ['-Wno-unused-function']
FROM_LOOPS = {'memcpy', 'memmove', 'memset'}  # what gcc makes of a loop that copies, moves or clears elements
QUADRATURE = os.path.join(EXAMPLES, 'quadrature', 'diagram.json')  # which has two sensors
PROGRAMS = sorted(glob.glob(os.path.join(EXAMPLES, '*', 'program.c')))
DIAGRAMS = sorted(glob.glob(os.path.join(EXAMPLES, '*', 'diagram.json')))


def text(*path):
    with open(os.path.join(*path)) as file:
        return file.read()


def compiled(words, work):
    """What the compiler says of these words."""
    run = subprocess.run(['gcc'] + words, cwd=work, capture_output=True, timeout=120)
    return '' if run.returncode == 0 else run.stderr.decode()


def wrong_run(program, work):
    """What is wrong with a run of twenty-one events in a tenth of a second."""
    diagram, bounds = os.path.join(EXAMPLES, 'counter.json'), ['100', '1000']
    due = subprocess.run([program, 'simulate', diagram, os.path.join(EXAMPLES, 'no-inputs.json')] + bounds, capture_output=True, timeout=120)
    begun = time.monotonic()
    run = subprocess.run([os.path.join(work, 'paced'), '1000000'] + bounds, stdin=subprocess.DEVNULL, capture_output=True, timeout=120)
    taken = time.monotonic() - begun
    same = (run.stdout, run.returncode) == (due.stdout, 0) and due.returncode == 0 and re.fullmatch(rb'at most \d+ ns late\n', run.stderr)
    return '' if same and taken >= 0.1 else '%r after %f seconds in place of %r' % (run, taken, due)


def paced(program):
    """A generated program with the paced host: each event waits for its date."""
    if lacks('a paced run', 'gcc'):
        return ''
    with tempfile.TemporaryDirectory() as work:
        with open(os.path.join(work, 'd.c'), 'wb') as file:
            file.write(subprocess.run([program, 'ccode', os.path.join(EXAMPLES, 'counter.json')], capture_output=True, timeout=120).stdout)
        host = os.path.join(EXAMPLES, 'paced-host.c')
        return (compiled(FLAGS + ['-D_POSIX_C_SOURCE=200809L', '-c', '-o', 'host.o', host], work)
                or compiled(FLAGS + SPARE + ['-o', 'paced', 'd.c', 'host.o'], work)
                or wrong_run(program, work))


def wrong_input(program, work, columns):
    """What is wrong with a paced run whose sensors, of columns 1 and 2 by turns, take these values from standard input."""
    with open(os.path.join(work, 'i'), 'w') as file:
        json.dump(columns, file)
    due = subprocess.run([program, 'simulate', QUADRATURE, 'i', '10', '100'], cwd=work, capture_output=True, timeout=120)
    asked = [column[at] for at in range(len(columns[0])) for column in columns if at < len(column)]
    run = subprocess.run([os.path.join(work, 'paced'), '1000', '10', '100'], input=' '.join(map(str, asked)).encode(), capture_output=True, timeout=120)
    same = (run.stdout, run.returncode) == (due.stdout, due.returncode) and re.fullmatch(rb'at most \d+ ns late\n', run.stderr)
    return [] if same else ['%r in place of %r' % (run, due)]


def paced_inputs(program):
    """Sensors of the paced host take what standard input has, in the order in which they ask; where that ends, the run stops."""
    if lacks('a paced run with sensors', 'gcc'):
        return ''
    with open(os.path.join(os.path.dirname(QUADRATURE), 'inputs.json')) as file:
        columns = json.load(file)
    words = [os.path.join(EXAMPLES, 'paced-host.c'), os.path.join(os.path.dirname(QUADRATURE), 'program.c')]
    with tempfile.TemporaryDirectory() as work:
        told = compiled(FLAGS + SPARE + ['-D_POSIX_C_SOURCE=200809L', '-o', 'paced'] + words, work)
        return told or '; '.join(wrong_input(program, work, columns) + wrong_input(program, work, [columns[0], columns[1][:-1]]))


def outside(content):
    """The functions that a generated program declares."""
    return re.findall(r'^extern .*?(sci_\w+)\(', content, re.M)


def names_for(program, work):
    """Writes the header of names and the program that the page's hosts take; tells what is wrong with that."""
    with open(os.path.join(work, 'average.c'), 'wb') as file:
        words = [program, 'ccode', os.path.join(EXAMPLES, 'moving-average', 'diagram.json')]
        file.write(subprocess.run(words, capture_output=True, timeout=120).stdout)
    words = [os.path.join(TOP, 'scicos-kit'), 'header', os.path.join(EXAMPLES, 'moving-average', 'diagram.json'), '-o', os.path.join(work, 'average.h')]
    run = subprocess.run(words, capture_output=True, timeout=120, env=dict(os.environ, SCICOS=os.path.abspath(program)))
    return [] if run.returncode == 0 and run.stderr == b'' else [repr(run)]


def targets(program):
    """The hosts on the page are C, as is the board beside them, and the page tells of each function that a generated program declares."""
    page = text(TOP, 'docs', 'SHIPPING.md')
    named = outside(text(EXAMPLES, 'primes.c'))
    wrong = ['%s is not on the page' % name for name in named if '| `%s(' % name not in page]
    if not lacks('the hosts of docs/SHIPPING.md', 'gcc'):
        with tempfile.TemporaryDirectory() as work:
            wrong += names_for(program, work)
            for number, part in enumerate(re.findall(r'^```c\n(.*?)^```$', page, re.M | re.S)):
                with open(os.path.join(work, '%d.c' % number), 'w') as file:
                    file.write(part)
                wrong.append(compiled(FLAGS + SPARE + ['-I', '.', '-I', EXAMPLES, '-c', '%d.c' % number], work))
    return '; '.join(told for told in wrong + ([] if len(named) == 9 else ['not nine functions']) if told)


def wrong_object(path, declared):
    """What is wrong with what the compiler makes of a program: there is no warning, it calls none but the functions that it declares (and those that gcc
    makes of loops over elements), and defines for others `sci_main` alone, which has no declaration."""
    with tempfile.TemporaryDirectory() as work:
        told = compiled(FLAGS + SPARE + ['-c', '-o', 'o', path], work)
        bare = re.findall(r': error: (.*)', compiled(['-std=c99', '-Werror', '-Wmissing-prototypes', '-fsyntax-only', path], work))
        names = [line.split() for line in subprocess.run(['nm', '-g', 'o'], cwd=work, capture_output=True, text=True, timeout=120).stdout.splitlines()]
    called, defined = ({name for *_, kind, name in names if (kind == 'U') == is_called} for is_called in (True, False))
    same = called <= set(declared) | FROM_LOOPS and defined == {'sci_main'} and len(bare) == 1 and 'sci_main' in bare[0]
    return [told] * bool(told) + ([] if same else ['it calls %r, defines %r, and is told %r' % (called, defined, bare)])


def program_names(program):
    """The C of each design calls the nine functions and nothing else, and others see `sci_main` alone; compilers warn as the page says."""
    declared, is_bare, wrong = outside(text(EXAMPLES, 'primes.c')), lacks('what is made of the programs of the designs', 'gcc', 'nm'), []
    for path in PROGRAMS:
        content = text(path)
        called = set(re.findall(r'\b(sci_\w+)\(', content)) - {'sci_main'}
        told = [] if outside(content) == declared and called <= set(declared) else ['it declares %r and calls %r' % (outside(content), called)]
        wrong += ['%s: %s' % (path, line) for line in told + ([] if is_bare else wrong_object(path, declared))]
    return '; '.join(wrong) or ('' if len(PROGRAMS) == len(DIAGRAMS) else 'not each design has a program')


def annotations(program):
    """Without its lines of comments the annotated twin of each design's C is what `ccode` prints. Each variable, function, told value and state has one. The
    twin is C without a warning.
    """
    wrong, is_bare = [], lacks('the annotated C as C', 'gcc')
    with tempfile.TemporaryDirectory() as work:
        for path in DIAGRAMS:
            run = subprocess.run([os.path.join(TOP, 'tools', 'annotate'), path], capture_output=True, text=True, timeout=120)
            due = subprocess.run([program, 'ccode', path], capture_output=True, text=True, timeout=120).stdout
            bare, told = re.subn(r'^ */\* .* \*/\n', '', run.stdout, flags=re.M)
            lines = r'static int64_t |(?:static )?void \w+\(void\) \{| *v2\[.*\] = | *sci_val\('
            same = bare == due and told > 0 and not re.search(r'(?<! \*/\n)^(?:%s)' % lines, run.stdout, re.M) and not run.stderr
            wrong += [] if same else ['%s: %r' % (path, run.stderr)]
            with open(os.path.join(work, 'twin.c'), 'w') as file:
                file.write(run.stdout)
            wrong += [] if is_bare else [it for it in [compiled(FLAGS + SPARE + ['-c', '-o', 'o', 'twin.c'], work)] if it]
    return '; '.join(wrong)


def sizes(program):
    """The table of sizes has a row of five numbers for a diagram, and the one on the page is what is printed of the designs."""
    if lacks('tools/sizes', 'gcc', 'size'):
        return ''
    run = subprocess.run([os.path.join(TOP, 'tools', 'sizes'), program, os.path.join(EXAMPLES, 'counter.json')], capture_output=True, timeout=120)
    same = run.returncode == 0 and re.search(r'^\| counter\.json \| 4 (\| \d+ ){4}\|$', run.stdout.decode(), re.M)
    return wrong_flags(program) or wrong_table(program) if same else repr(run)


def wrong_flags(program):
    """What is wrong with sizes where the compiler has flags: code that isn't optimized is larger; a compiler or a flag that isn't there is told."""
    def told(compiler):
        return subprocess.run([os.path.join(TOP, 'tools', 'sizes'), '-c', compiler, program, os.path.join(EXAMPLES, 'counter.json')],
                              capture_output=True, text=True, timeout=120)
    small, large = (int(told(compiler).stdout.splitlines()[-1].split('|')[4]) for compiler in ('gcc', 'gcc -O0 -DX="a b"'))
    none, flag = told('no-such-gcc -mthumb'), told('gcc --no-such-flag')
    wrong = [] if small < large else ['%d bytes with -Os, %d with -O0' % (small, large)]
    wrong += [] if (none.returncode, none.stdout, none.stderr) == (70, '', "sizes: no-such-gcc isn't installed\n") else [repr(none)]
    return '; '.join(wrong + ([] if flag.returncode == 1 and 'is not compiled by gcc --no-such-flag' in flag.stderr else [repr(flag)]))


def wrong_table(program):
    """What is wrong with the page's table of the designs: with the compiler that it names all numbers are compared, else those of blocks and lines."""
    run = subprocess.run([os.path.join(TOP, 'tools', 'sizes'), program] + DIAGRAMS, capture_output=True, timeout=120)
    page, version = text(TOP, 'docs', 'SHIPPING.md'), subprocess.run(['gcc', '--version'], capture_output=True).stdout.decode().split('\n')[0]
    cells = 6 if '`%s`' % version in page and os.uname().machine == 'x86_64' else 3
    row = re.compile(r'^\| ([\w-]+)' + r' \| (\d+)' * 5 + r' \|$', re.M)
    given, due = ([found[:cells] for found in row.findall(table)] for table in (page, run.stdout.decode()))
    return '' if given == due and due else '%r in place of %r' % (given, due)


def rules_named(path):
    """How often cppcheck's MISRA addon names each rule on a C file."""
    with tempfile.TemporaryDirectory() as work:  # where it leaves what it makes
        shutil.copy(path, os.path.join(work, 'c.c'))
        run = subprocess.run(['cppcheck', '--addon=misra', '--std=c99', 'c.c'], cwd=work, capture_output=True, timeout=120)
    named = re.findall(r'misra-c2012-([\d.]+)', run.stderr.decode())
    return {rule: str(named.count(rule)) for rule in named}


def wrong_said(path):
    """What is wrong with what cppcheck says of a C file beside its MISRA addon, without the system's headers and with them."""
    words, given, lines = ['cppcheck', '--enable=all', '--std=c99', '-q', '--template={id} {line}', path], [], text(path).splitlines()
    for more in ([], ['-I', '/usr/include']):
        found = re.findall(r'^(\w+) (\d+)$', subprocess.run(words + more, capture_output=True, timeout=120).stderr.decode(), re.M)
        given.append({(name, lines[int(line) - 1].strip()) for name, line in found if name != 'missingIncludeSystem'})
    due = [{('unusedFunction', 'void sci_main(void) {')}] * 2
    return [] if given == due or given[0] == due[0] and not os.path.exists('/usr/include/stdint.h') else ['%r in place of %r' % (given, due)]


def checkers(program):
    """On the C of the counter cppcheck says what the page tells; on the C of the watchdog its MISRA addon names the rules of the page, each as often,
    and on the C of the counter and of the other designs no other, where the version is the page's."""
    if lacks('the rules of MISRA', 'cppcheck'):
        return ''
    page = text(TOP, 'docs', 'SHIPPING.md')
    version = subprocess.run(['cppcheck', '--version'], capture_output=True).stdout.decode().split()[-1]
    if '(%s)' % version not in page:
        untried('the rules of MISRA', 'the version of cppcheck that docs/SHIPPING.md names, here is ' + version)
        return ''
    due = dict(re.findall(r'^\| ([\d.]+) \| (\d+) \|', page, re.M))
    with tempfile.TemporaryDirectory() as work, concurrent.futures.ThreadPoolExecutor(os.cpu_count()) as pool:
        counter = os.path.join(work, 'counter.c')
        with open(counter, 'wb') as file:
            file.write(subprocess.run([program, 'ccode', os.path.join(EXAMPLES, 'counter.json')], capture_output=True, timeout=120).stdout)
        named = dict(zip([counter] + PROGRAMS, pool.map(rules_named, [counter] + PROGRAMS)))
        wrong = wrong_said(counter)
    given = named[os.path.join(EXAMPLES, 'watchdog', 'program.c')]
    wrong += [] if given == due and due else ['%r in place of %r' % (given, due)]
    wrong += ['%s: %r' % (path, found) for path, found in named.items() if not set(found) <= set(due) or found.get('8.4') != '1']
    return '; '.join(wrong)
