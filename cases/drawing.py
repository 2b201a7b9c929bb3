"""Drawings: the links of some diagrams, and of each example that every input is fed once, that what an event activates is in its schedule, and that its
picture shows what is drawn."""
import contextlib
import html
import json
import os
import re
import shutil
import subprocess
import sys
import tempfile

from formats import HERE, parts
from lacking import lacks
from refusals import CLOCK, FROM, block, constant, event, gain, superblock, wire
from schema import example_files

TOP = os.path.join(HERE, '..')
EXAMPLES = os.path.join(TOP, 'examples')
LINKS = {
    'tags.json': ('b1>b1 b1>b2 b1>b7', 'b2>b4.2 b3>b4.1 b4>b5 b4>b6.1 b5>b8.1 b6>b7 b6>b8.2 b7>b6.2 b8>b9'),
    'superblocks.json': ('b1>b2 b1>b3 b3>b4', ''),
}
# inputs that cross, a tag that is given both within and everywhere, and two branches
INSIDE = [block('IN_f', outs=[1], ipar=2), block('IN_f', outs=[1], ipar=1), gain(), block('GOTO', [1], ipar=[7, 1]), FROM, gain(),
          wire((1, 1), (3, 1)), wire((2, 1), (4, 1)), wire((5, 1), (6, 1))]
CROSSED = [CLOCK, constant(1), constant(2), superblock(INSIDE, ins=[1, 1]), wire((2, 1), (4, 1)), wire((3, 1), (4, 2)),
           block('GOTO', [1], ipar=[7, 3]), FROM, constant(3), block('IFTHEL_f', [1], evtin=1, evtout=2), block('HALT_f', evtin=1), block('HALT_f', evtin=1),
           wire((9, 1), (7, 1)), wire((8, 1), (10, 1)), event((1, 1), (1, 1)), event((1, 1), (10, 1)), event((10, 1), (11, 1)), event((10, 2), (12, 1))]
BRANCHED = ('b1>b1 b1>b7 b7.1>b8 b7.2>b9', 'b2>b5 b3>b4 b6>b7')


def drawn(program, words, diagram, path=os.environ.get('PATH', '')):
    """The text of a drawing, and what is said beside it, where commands are looked up in a path."""
    run = subprocess.run([os.path.join(TOP, 'scicos-kit'), 'draw'] + words + [diagram], capture_output=True, timeout=120,
                         env=dict(os.environ, PATH=path, SCICOS=program))
    return run.stdout.decode(), run.stderr.decode(), run.returncode


def links(text):
    """Of each link whether it is of activations, and its block, output, block and input."""
    for start, end, marks in re.findall(r'^  b(\d+) -> b(\d+)(.*);$', text, re.M):
        tail, head = (re.search(side + 'label="(\\d+)"', marks) for side in ('tail', 'head'))
        yield 'dashed' in marks, int(start), int(tail.group(1)) if tail else 1, int(end), int(head.group(1)) if head else 1


def wrong_links(program, content, due):
    """What is wrong with the links that are drawn of a diagram: those of activations, and the others."""
    with tempfile.TemporaryDirectory() as work:
        with open(os.path.join(work, 'd'), 'w') as file:
            file.write(content)
        text, said, status = drawn(program, ['--text'], os.path.join(work, 'd'))
    given = [[], []]
    for start, end, marks in re.findall(r'^  (b\d+) -> (b\d+)(.*);$', text, re.M):
        tail, head = (re.search(side + 'label="(\\d+)"', marks) for side in ('tail', 'head'))
        given['dashed' not in marks].append('%s%s>%s%s' % (start, '.' + tail.group(1) if tail else '', end, '.' + head.group(1) if head else ''))
    same = (tuple(' '.join(part) for part in given), said, status) == (due, '', 0)
    return [] if same else ['%r in place of %r, %r' % (given, due, said[-200:])]


def inputs_of(diagram, place):
    """How many regular inputs the block at a place has."""
    for at in place[:-1]:
        diagram = diagram['objs'][at - 1]['model']['rpar']
    ports = diagram['objs'][place[-1] - 1]['model'].get('in', [])
    return len(ports) if isinstance(ports, list) else 1


def wrong_wiring(program, content):
    """What is wrong with the drawing of a diagram beside what `map` and `schedule` say."""
    with tempfile.TemporaryDirectory() as work:
        diagram = os.path.join(work, 'd')
        with open(diagram, 'w') as file:
            file.write(content)
        text, said, _ = drawn(program, ['--text'], diagram)
        blocks, rows = (subprocess.run([program, word, diagram], capture_output=True, timeout=120).stdout.decode() for word in ('map', 'schedule'))
    places = {int(row.split()[0]): [int(at) for at in row.split()[1].split('/')] for row in blocks.splitlines()}
    due = sorted((block, port + 1) for block, place in places.items() for port in range(inputs_of(json.loads(content), place)))
    fed = sorted((end, entry) for active, _, _, end, entry in links(text) if not active)
    sources = {row.split('\n')[0]: [int(line.split()[0]) for line in row.split('\n')[1:-1]] for row in re.split('^source ', rows, flags=re.M)[1:]}
    missing = [link for link in links(text) if link[0] and link[3] not in sources.get('%d.%d' % link[1:3], [link[3]])]
    return [] if (fed, missing, said) == (due, [], '') else ['%r in place of %r, %r, %s of %s' % (fed, due, missing, said[-200:], content[:200])]


def coloured(program):
    """The blocks of a source, and those under a condition, have their colours."""
    text, said, status = drawn(program, ['--text', '--source', '1', '1'], os.path.join(EXAMPLES, 'branches.json'))
    due = {'1': 'gold', '2': 'gold', '3': 'gold', '4': 'lightyellow', '5': 'lightyellow', '6': 'lightyellow'}
    same = (dict(re.findall(r'^  b(\d+) \[.*fillcolor=(\w+)\];$', text, re.M)), said, status) == (due, '', 0) and 'at 6\\nint32[1x1]\\nif 3.1 or 3.2' in text
    return [] if same else [text + said]


def labels(marks):
    """The texts of a block or a link in a drawing's text."""
    found = re.findall(r'label="((?:[^"\\]|\\.)*)"', marks)
    return sorted(re.sub(r'\\(.)', r'\1', line) for label in found for line in label.split('\\n'))


def wanted(text):
    """What a picture has to show of a drawing's text: of each block and each link whether it is dashed, and its texts."""
    ends = re.findall(r'^  (b\d+(?: -> b\d+)?)(.*);$', text, re.M)
    return sorted((name.replace(' ', ''), 'dashed' in marks, labels(marks)) for name, marks in ends)


def shown(picture):
    """The same of a picture."""
    parts_of = re.findall(r'^<g id="\w+" class="(?:node|edge)">\n<title>(.*?)</title>\n(.*?)^</g>', picture, re.M | re.S)
    texts = [(html.unescape(name), part, re.findall(r'^<text .*?>(.*)</text>$', part, re.M)) for name, part in parts_of]
    return sorted((name, 'stroke-dasharray' in part, sorted(map(html.unescape, lines))) for name, part, lines in texts)


def picture_of(path):
    """The file of an example's picture, its page, and what stands there."""
    folder, name = os.path.split(path)
    if name == 'diagram.json':
        return os.path.join(folder, 'picture.svg'), os.path.join(folder, 'README.md'), ['\n![The blocks and their links](picture.svg)\n']
    name = name[:-len('.json')]
    words = ['| `%s.json` | [picture][%s] |' % (name, name), '\n[%s]: pictures/%s.svg\n' % (name, name)]
    return os.path.join(EXAMPLES, 'pictures', name + '.svg'), os.path.join(EXAMPLES, 'README.md'), words


def pictures(program):
    """Each example's picture shows the blocks and links that are drawn now, and a page has it; where Graphviz is installed it draws such pictures."""
    wrong, is_bare = [], lacks('pictures drawn anew', 'dot')
    for path in example_files():
        due = wanted(drawn(program, ['--text'], path)[0])
        picture, page, words = picture_of(path)
        with open(picture) as file:
            found = [file.read()]
        found += [] if is_bare else [drawn(program, [], path)[0]]
        wrong += ['%s shows %r in place of %r' % (picture, shown(content), due) for content in found if shown(content) != due or '<!--' in content]
        with open(page) as file:
            content = file.read()
        wrong += ['%s has no %s' % (page, part.strip()) for part in words if part not in content]
    return '; '.join(wrong)


BARE = "scicos-kit draw: dot isn't installed (apt-get install graphviz), so this is the graph's text\n"
# what stands in for `dot`: it notes its words and what it reads, and answers with this status
DOT = """#!%s
import sys
open(%r, 'w').write(' '.join(sys.argv[1:]) + '\\n' + sys.stdin.read())
print('<!-- a comment -->\\n<svg/>')
sys.exit(%d)
"""


@contextlib.contextmanager
def only_a_shell():
    """A folder for the path of commands, with what `scicos-kit` calls itself and nothing else."""
    with tempfile.TemporaryDirectory() as work:
        for name in ('sh', 'dirname', 'readlink', 'python3'):
            os.symlink(shutil.which(name), os.path.join(work, name))
        yield work


def wrong_dot(program, diagram, text, status):
    """What is wrong where `dot` answers with a status: it gets the text of the graph, and what it makes of that is written without comments; where it fails, nothing is written."""
    with only_a_shell() as work:
        took = os.path.join(work, 'took')
        with open(os.path.join(work, 'dot'), 'w') as file:
            file.write(DOT % (sys.executable, took, status))
        os.chmod(file.name, 0o755)
        given = drawn(program, [], diagram, work)
        with open(took) as file:
            read = file.read()
    due = ('<svg/>\n', '', 0) if status == 0 else ('', 'scicos-kit draw: dot ended with status 1: it says nothing\n', 1)
    return [] if (given, read) == (due, '-Tsvg\n' + text) else ['dot with status %d: %r, %r' % (status, given, read)]


def without_dot(program):
    """Where there is no `dot`, the text of the graph is written, and that is said; what breaks a rule is drawn with it and without, and its refusal told."""
    diagram = os.path.join(EXAMPLES, 'branches.json')
    text, said, status = drawn(program, ['--text'], diagram)
    wrong = [] if (said, status) == ('', 0) and text.startswith('digraph ') else ['--text: %r' % ((text, said, status),)]
    with only_a_shell() as nothing:
        bare = drawn(program, [], diagram, nothing)
        refused = drawn(program, [], os.path.join(EXAMPLES, 'loop.json'), nothing)
    wrong += [] if bare == (text, BARE, 0) else ['without dot: %r' % (bare,)]
    loop, said, status = drawn(program, ['--text'], os.path.join(EXAMPLES, 'loop.json'))
    wrong += [] if refused == (loop, BARE + said, 1) and status == 1 else ['refused: %r' % (refused,)]
    return '; '.join(wrong + wrong_dot(program, diagram, text, 0) + wrong_dot(program, diagram, text, 1))


def numbers(program):
    """The numbers that `scicos-kit numbers` prints are those of `map`, and it prints those of a refused diagram."""
    wrong = []
    for path in example_files():
        run = subprocess.run([os.path.join(TOP, 'scicos-kit'), 'numbers', path], capture_output=True, timeout=120)
        due = subprocess.run([program, 'map', path], capture_output=True, timeout=120)
        given, due = ([line.split()[:3] for line in told.stdout.decode().splitlines()] for told in (run, due))
        wrong += [] if given == due and due else ['%s: %r in place of %r' % (path, given, due)]
    run = subprocess.run([os.path.join(TOP, 'scicos-kit'), 'numbers', os.path.join(EXAMPLES, 'loop.json')], capture_output=True, timeout=120)
    return '; '.join(wrong + ([] if b'\n3 3 SUMMATION\n4 4 GAINBLK\n' in run.stdout else [repr(run)]))


def wrong_loop(program):
    """What is wrong with the drawing of a refused diagram: the blocks and links of its loop alone are red, and the refusal stands in it and is told."""
    text, said, status = drawn(program, ['--text'], os.path.join(EXAMPLES, 'loop.json'))
    red = re.findall(r'^  (b\d+(?: -> b\d+)?) .*color=red', text, re.M)
    same = (red, status) == (['b3', 'b4', 'b3 -> b4', 'b4 -> b3'], 1) and said.startswith('scicos-kit draw: an algebraic loop ') and 'an algebraic loop' in text
    return [] if same else [text + said]


def drawing(program):
    """Drawings are as the first line of this file says; what is refused is drawn too."""
    wrong = coloured(program) + wrong_links(program, json.dumps({'objs': CROSSED}), BRANCHED)
    for path in example_files():
        with open(path) as file:
            content = file.read()
        name = os.path.basename(path)
        wrong += wrong_wiring(program, content) + (wrong_links(program, content, LINKS[name]) if name in LINKS else [])
    with open(os.path.join(TOP, 'docs', 'FORMAT.md')) as file:
        for words, body in parts(file.read()):
            wrong += wrong_wiring(program, body) if words[0] == 'diagram' else []
    return '; '.join(wrong + wrong_loop(program))
