"""The pages' command lines: each block of them is run, line by line, and each line gives the status that is due, and prints what the next block shows,
if that shows something, or what another line prints, if the page says so; each other block is one that another case reads; and the README's first
diagram."""
import glob
import json
import os
import re
import shutil
import subprocess
import tempfile

from lacking import lacks, untried
from plain import in_folder
from ranges import beside

TOP = os.path.join(os.path.dirname(os.path.abspath(__file__)), '..')
EXAMPLES = os.path.join(TOP, 'examples')
PAGES = ['README.md', 'docs/SHIPPING.md', 'examples/README.md']
OTHERS = [os.path.join('docs', name) for name in sorted(os.listdir(os.path.join(TOP, 'docs'))) if name.endswith('.md')]  # these may be without any
STARTS = re.compile(r'\./[\w-]+ |gcc |(?:tools|bench)/\w+ |\w+=|mkdir |ls |parallel |crates/scicos/out/scicos ')
# ./test runs the gate, and these cases in it; ./prove takes an hour; and what is released has a case of its own (release.py)
NOT_RUN = ['./test', './prove', 'apt-get install ', 'tools/sources ', 'sha256sum ']
WANTED = {'gcc', 'clang', 'arm-none-eabi-gcc', 'xargs', 'parallel'}
# by page the words of fenced parts that other cases read
FENCED = {'README.md': ['python'], 'docs/PYTHON.md': ['python', 'text'],
          'docs/FORMAT.md': 'diagram inputs trace judge save resume vcd vcdat map schedule check block refused'.split(), 'docs/GENERATED.md': ['c'],
          'docs/SHIPPING.md': ['c'], 'docs/SCICOS.md': ['json']}


def blocks(page):
    """The blocks on a page in order, each by the word behind its fence, or none where it is indented, with its lines; a line that ends in a backslash goes
    on in the next one."""
    for found in re.finditer(r'^```(\S*).*\n((?:.*\n)*?)```$|(?:^    .*\n)+', page, re.M):
        text = found.group(2) if found.group(1) is not None else re.sub(r'^    ', '', found.group(), flags=re.M)
        yield found.group(1), text.replace('\\\n', '').splitlines()


def is_read_elsewhere(name, word, lines):
    """Whether another case reads a block, or it is a drawing in lines."""
    examples = [text_of(path) for path in glob.glob(os.path.join(EXAMPLES, '*.json'))]
    return word in FENCED.get(name, []) or '\n'.join(lines) + '\n' in examples or any('►' in line for line in lines)


def text_of(*path):
    with open(os.path.join(*path)) as file:
        return file.read()


def due(line):
    """The status that is written beside a line as `# status N`, or 0."""
    beside = re.search(r'# status (\d+)$', line)
    return int(beside.group(1)) if beside else 0


def cannot_run(name, line):
    """Whether something that a line calls isn't installed here, which is told."""
    called = WANTED & set(re.findall(r'[\w.+-]+', line)) | ({'gcc', 'size'} if line.startswith('tools/sizes') else set())
    called |= {'gcc'} if line.startswith(('bench/generated', 'bench/c ', 'bench/by_hand', 'tools/refuse_memory')) else set()
    return lacks('%s: %s' % (name, line), *sorted(called))


def trace_of(name):
    """The trace that all lines of a design's page print but those into a file; None of other pages."""
    trace = os.path.join(TOP, os.path.dirname(name), 'trace.txt')
    if not os.path.exists(trace):
        return None
    with open(trace, 'rb') as file:
        return file.read()


def furnish(program, work):
    """A folder in which the lines can be run: the program where they call it, the examples, the tools, the definitions, and the files that a reader has of
    his own, as those that the page on targets shows in C."""
    os.makedirs(os.path.join(work, 'crates', 'scicos', 'out'))
    os.mkdir(os.path.join(work, 'release'))
    os.mkdir(os.path.join(work, 'inputs'))
    for place in ('scicos', os.path.join('release', 'scicos'), os.path.join('crates', 'scicos', 'out', 'scicos')):
        os.symlink(program, os.path.join(work, place))
    for place in ('ranges', os.path.join('release', 'ranges')):
        os.symlink(beside(program), os.path.join(work, place))
    for folder in ('examples', 'tools', 'bench', 'cases', 'docs', 'python'):
        shutil.copytree(os.path.join(TOP, folder), os.path.join(work, folder))
    for name in ('scicos-kit', 'crates.txt'):
        shutil.copy(os.path.join(TOP, name), work)
    for specs in glob.glob(os.path.join(os.path.abspath(TOP), 'crates', '*', 'specs')):
        crate = os.path.join(work, 'crates', os.path.basename(os.path.dirname(specs)))
        os.makedirs(crate, exist_ok=True)
        os.symlink(specs, os.path.join(crate, 'specs'))
    shutil.copy(os.path.join(EXAMPLES, 'first.json'), os.path.join(work, 'my-diagram.json'))
    shutil.copy(os.path.join(EXAMPLES, 'watchdog', 'diagram.json'), os.path.join(work, 'd.json'))
    shown = ['\n'.join(lines) + '\n' for word, lines in blocks(text_of(TOP, 'docs', 'SHIPPING.md')) if word == 'c']
    for name, content in zip(('stepped.c', 'ticks.c', 'task.c', 'plant.c', 'host.c', 'board.c'), shown):
        with open(os.path.join(work, name), 'w') as file:
            file.write(content)
    for name, gaps in (('one', [20, 70, -1]), ('two', [49, 51, 50, -1])):
        with open(os.path.join(work, 'inputs', name + '.json'), 'w') as file:
            json.dump([gaps], file)


def wrong_lines(name, lines, work):
    """What is wrong with a block of command lines of a page, run one by one, and what they print, or None where some can't be run; what a line assigns
    holds in those behind it."""
    wrong, printed, assigned, trace = [], b'', '', trace_of(name)
    for number, line in enumerate(lines):
        if cannot_run(name, line):
            for later in lines[number + 1:]:
                untried('%s: %s' % (name, later), 'the line before it')
            return wrong, None
        if re.match(r'\w+=', line):
            assigned += line + '\n'
            continue
        run = subprocess.run(['bash', '-c', assigned + line], cwd=work, stdin=subprocess.DEVNULL, capture_output=True, timeout=120,
                             env=dict(os.environ, SLURM_ARRAY_TASK_ID='0'))
        printed += run.stdout
        if run.returncode != due(line) or trace and run.stdout != (b'' if ' > ' in line else trace):
            wrong.append('%s: %s gives %r' % (name, line, run))
    return wrong, printed


def wrong_blocks(name, page, work):
    """What is wrong with the blocks of a page: those of command lines are run, one behind these is what they print, and the others are read elsewhere."""
    wrong, run, printed = [], False, None
    for word, lines in blocks(page):
        known = [STARTS.match(line) is not None for line in lines]
        if is_read_elsewhere(name, word, lines) or all(line.startswith(tuple(NOT_RUN)) for line in lines):
            run = False
        elif all(known):
            more, printed = wrong_lines(name, lines, work)
            wrong, run = wrong + more, True
        elif known[0] or not run:
            wrong.append('%s: neither a command line that is known nor what one prints: %s' % (name, lines[known.index(False)]))
        else:
            shown, run = ''.join(line + '\n' for line in lines).encode(), False
            wrong += [] if printed in (None, shown) else ['%s: %r is shown, and %r printed' % (name, shown, printed)]
    return wrong


def wrong_alike(name, page, work):
    """What is wrong where a page says that a block of command lines prints what another line prints, as the README does."""
    found = re.findall(r'((?:^    .*\n)+)\nThis prints what `(\./[^`]+)` prints\.$', page, re.M)
    wrong = ['%s compares nothing' % name] if name == 'README.md' and not found else []
    for block, line in found:
        (told, given), (more, due) = (wrong_lines(name, lines, work) for lines in (next(blocks(block))[1], [line]))
        wrong += told + more + ([] if None in (given, due) or given == due else ['%s: %r in place of what %s prints' % (name, given, line)])
    return wrong


def wrong_page(name, work):
    page = text_of(TOP, name)
    has_none = name in PAGES and not any(STARTS.match(lines[0]) for _, lines in blocks(page))
    return wrong_blocks(name, page, work) + wrong_alike(name, page, work) + ['%s has no command lines' % name] * has_none


def wrong_bulk(program, work):
    """What is wrong with the traces that the page on targets makes of many input files."""
    wrong = []
    for name in sorted(os.listdir(os.path.join(work, 'inputs'))):
        run = subprocess.run([program, 'simulate', 'd.json', os.path.join('inputs', name), '100000', '100000'], cwd=work, capture_output=True, timeout=120)
        with open(os.path.join(work, 'traces', name[:-len('.json')]), 'rb') as file:
            wrong += [] if file.read() == run.stdout != b'' else ['the trace of %s' % name]
    return wrong


def wrong_remade(work):
    """What is wrong with what was made anew of the examples: where Graphviz isn't installed nothing may be another, and else but its pictures."""
    wrong = []
    for folder, _, names in os.walk(EXAMPLES):
        for name in names:
            place = os.path.relpath(os.path.join(folder, name), EXAMPLES)
            drawn = shutil.which('dot') and (name == 'picture.svg' or place.startswith('pictures'))
            with open(os.path.join(folder, name), 'rb') as ours, open(os.path.join(work, 'examples', place), 'rb') as made:
                wrong += [] if drawn or ours.read() == made.read() else ['%s is made otherwise' % place]
    return wrong


def command_lines(program):
    """Each command line on the pages gives its status, and those of a design print its trace."""
    designs = [os.path.relpath(path, TOP) for path in sorted(glob.glob(os.path.join(EXAMPLES, '*', 'README.md')))]
    wrong = []
    for name in PAGES + [name for name in OTHERS if name not in PAGES] + designs:
        with tempfile.TemporaryDirectory() as work:
            furnish(program, work)
            wrong += wrong_page(name, work)
            wrong += wrong_bulk(program, work) if name == 'docs/SHIPPING.md' and shutil.which('xargs') else []
            wrong += wrong_remade(work) if name == 'examples/README.md' else []
    return '; '.join(wrong)


def first_diagram(program):
    """The diagram that the README explains, and that the page on files begins with, is examples/first.json."""
    first = text_of(EXAMPLES, 'first.json')
    shown = re.search(r'^    \{"objs".*?^    \]\}\n', text_of(TOP, 'README.md'), re.M | re.S).group(0)
    begun = re.search(r'^```diagram\n(.*?)^```$', text_of(TOP, 'docs', 'FORMAT.md'), re.M | re.S).group(1)
    return '' if re.sub(r'^    ', '', shown, flags=re.M) == first == begun else 'the pages show another diagram than examples/first.json'


def clocks_shown(program):
    """A superblock that the page for users of Scicos shows, in the place of the first diagram's clock, gives that one's trace."""
    first, wrong = json.loads(text_of(EXAMPLES, 'first.json')), []
    due = in_folder(program, ['simulate', 'd', 'i', '12', '10'], d=json.dumps(first).encode(), i=b'[]')
    for word, lines in blocks(text_of(TOP, 'docs', 'SCICOS.md')):
        if word == 'json':
            objs = [json.loads('\n'.join(lines)), first['objs'][1], {'obj': 'Deleted'}, first['objs'][3]]
            given = in_folder(program, ['simulate', 'd', 'i', '12', '10'], d=json.dumps({'objs': objs}).encode(), i=b'[]')
            wrong += [] if given == due and due[2] == 0 else ['%r in place of %r' % (given, due)]
    return '; '.join(wrong)
