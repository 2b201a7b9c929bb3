"""A slow program in plain Python, tools/plain_run.py, beside the program: the traces of the cases, the designs and the small examples."""
import glob
import json
import os
import re
import sys
import tempfile

HERE = os.path.dirname(os.path.abspath(__file__))
EXAMPLES = os.path.join(HERE, '..', 'examples')
sys.path.insert(0, os.path.join(HERE, '..', 'tools'))

from streams import run, text  # noqa: E402
import plain_run  # noqa: E402


def simulations():
    """Runs that there are: a name, the diagram's and the input file's bytes, and the bounds."""
    for name in sorted(os.listdir(HERE)):
        folder = os.path.join(HERE, name)
        words = text(folder, 'words').decode().split('\n')[:-1] if os.path.exists(os.path.join(folder, 'words')) else []
        if words[:1] == ['simulate'] and text(folder, 'status') in (b'0\n', b'6\n'):
            yield name, text(folder, words[1]), text(folder, words[2]), words[3], words[4]
    for folder in sorted(glob.glob(os.path.join(EXAMPLES, '*', 'trace.txt'))):
        folder = os.path.dirname(folder)
        bounds = re.search(r'simulate \S+ \S+ (\d+) (\d+)', text(folder, 'README.md').decode())
        yield os.path.basename(folder), text(folder, 'diagram.json'), text(folder, 'inputs.json'), bounds.group(1), bounds.group(2)
    for name in sorted(os.listdir(EXAMPLES)):
        if name.endswith('.json') and name not in ('no-inputs.json', 'readings.json', 'loop.json'):
            yield name, text(EXAMPLES, name), text(EXAMPLES, 'readings.json'), '40', '30'


def ring_of_delays():
    """A clock and 256 delays of 256 elements, each of which takes the values of the one before it: as many elements as a diagram may have."""
    objs = [{'obj': 'Block', 'gui': 'EVTDLY_c', 'model': {'evtin': [1], 'evtout': [1], 'ipar': [3], 'firing': [0]}}]
    links = [{'obj': 'Link', 'from': [1, 1], 'to': [k, 1], 'ct': [5, -1]} for k in range(1, 258)]
    for k in range(2, 258):
        objs.append({'obj': 'Block', 'gui': 'DOLLAR_m', 'model': {'in': [256], 'intyp': [3], 'out': [256], 'outtyp': [3], 'evtin': [1], 'dstate': [1000 * k]}})
        links.append({'obj': 'Link', 'from': [k, 1], 'to': [k + 1 if k < 257 else 2, 1], 'ct': [1, 1]})
    return json.dumps({'objs': objs + links}).encode()


def plain(diagram, inputs):
    """A net and its columns."""
    return plain_run.Net(json.loads(diagram)), json.loads(inputs)


def trace(diagram, inputs, until, limit):
    """The trace, and the status of the run."""
    net, columns = plain(diagram, inputs)
    made, status = plain_run.trace_of(plain_run.Run(net, columns).reactions(int(until), int(limit)))
    return made.encode(), status


def plain_traces(program):
    """What `simulate` gives is what the slow program gives."""
    wrong = []
    for name, diagram, inputs, until, limit in simulations():
        due, status = trace(diagram, inputs, until, limit)
        given = in_folder(program, ['simulate', 'd', 'i', until, limit], d=diagram, i=inputs)
        wrong += [] if given == (due, b'', status) else ['%s: %r in place of %r' % (name, given, due)]
    return '; '.join(wrong)[:800]


def in_folder(program, words, **files):
    """The answer in a folder of these files."""
    with tempfile.TemporaryDirectory() as work:
        for name, content in files.items():
            with open(os.path.join(work, name), 'wb') as file:
                file.write(content)
        return run(program, words, cwd=work)


PLAIN = [plain_traces]
