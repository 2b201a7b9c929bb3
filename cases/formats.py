"""The examples of docs/FORMAT.md: diagrams with their traces, blocks with their values, what is refused, and the designs with a mistake in each."""
import json
import os
import re
import subprocess
import tempfile

HERE = os.path.dirname(os.path.abspath(__file__))
UNGIVEN = {30}  # the rules that no command gives
PERIOD = 100   # of the clock that activates a block which is shown


def answer(program, words, diagram, inputs='[]'):
    with tempfile.TemporaryDirectory() as work:
        for name, content in (('d', diagram), ('i', inputs)):
            with open(os.path.join(work, name), 'w') as file:
                file.write(content)
        run = subprocess.run([program] + words, cwd=work, capture_output=True, timeout=120)
        return run.stdout.decode(), run.stderr.decode(), run.returncode


def both_answers(program, diagram, inputs, bounds):
    """What a run of the diagram gives, and what its C gives, read back and run."""
    with tempfile.TemporaryDirectory() as work:
        for name, content in (('d', diagram), ('i', inputs)):
            with open(os.path.join(work, name), 'w') as file:
                file.write(content)
        with open(os.path.join(work, 'c'), 'wb') as file:
            subprocess.run([program, 'ccode', 'd'], cwd=work, stdout=file, stderr=subprocess.DEVNULL, timeout=120)
        runs = [subprocess.run([program, word, name, 'i'] + bounds, cwd=work, capture_output=True, timeout=120)
                for word, name in (('simulate', 'd'), ('crun', 'c'))]
        return [(run.stdout.decode(), run.stderr.decode(), run.returncode) for run in runs]


def parts(page):
    """The fenced parts of the page: each one's words and its text."""
    return [(first.split(), body) for first, body in re.findall(r'^```(\w[^\n]*)\n(.*?)^```$', page, re.M | re.S)]


def wrong_traces(program, page):
    """Each diagram on the page runs to the trace behind it, and so does its C."""
    wrong, diagram, inputs = [], None, '[]'
    for words, body in parts(page):
        if words[0] == 'diagram':
            diagram, inputs = body, '[]'
        elif words[0] == 'inputs':
            inputs = body
        elif words[0] == 'trace':
            for run in both_answers(program, diagram, inputs, words[1:]):
                if run != (body, '', 0):
                    wrong.append('%r in place of %r' % (run, body))
    return wrong


def wrong_printed(program, page):
    """What a command prints of an example, or without a file of the diagram above it, is what stands under its words; what was saved or dumped is what
    the next command reads."""
    wrong, kept = [], ''
    for words, body in parts(page):
        if words[0] in ('map', 'schedule', 'check', 'save', 'resume', 'vcd', 'vcdat'):
            with tempfile.NamedTemporaryFile('w') as file:
                file.write(kept)
                file.flush()
                line = {'resume': words[:3] + [file.name] + words[3:], 'vcdat': words[:1] + [file.name] + words[1:]}.get(words[0], words)
                line = line if len(line) > 1 else line + [file.name]
                run = subprocess.run([program] + line, cwd=os.path.join(HERE, '..'), capture_output=True, timeout=120)
            wrong += [] if (run.stdout.decode(), run.returncode) == (body, 0) else ['%r in place of %r' % (run, body)]
        kept = body if words[0] in ('diagram', 'save', 'vcd') else kept
    return wrong


def wrong_told(program, page):
    """What a command tells of a text is the last line under its words; the text is what stands before it."""
    wrong = []
    for words, body in parts(page):
        if words[0] == 'judge':
            *lines, due = body.splitlines(True)
            with tempfile.TemporaryDirectory() as work:
                with open(os.path.join(work, 'v'), 'w') as file:
                    file.write(''.join(lines))
                run = subprocess.run([program] + words[:3] + [os.path.join(work, 'v')] + words[3:], cwd=os.path.join(HERE, '..'), capture_output=True, timeout=120)
            if (run.stdout.decode(), run.stderr, run.returncode) != (due, b'', 0 if due.startswith('yes') else 8):
                wrong.append('%r in place of %r' % (run, due))
    return wrong


def around(model, count):
    """A diagram in which sensors feed the block's inputs, one clock activates all, and each activation output a counter of its own."""
    clock = {'obj': 'Block', 'gui': 'EVTDLY_c', 'model': {'evtin': [1], 'evtout': [1], 'ipar': [PERIOD], 'firing': [0]}}
    objs, links, column = [clock, None], [([1, 1], [1, 1], -1)], 0
    for port, (rows, kind) in enumerate(zip(model.get('in', []), model.get('intyp', []))):
        sensors = []
        for _ in range(rows):
            column += 1
            objs.append({'obj': 'Block', 'gui': 'SENSOR', 'model': {'evtin': [1], 'ipar': [column], 'out': [1], 'outtyp': [kind]}})
            sensors.append(len(objs))
            links.append(([1, 1], [len(objs), 1], -1))
        if rows > 1:
            objs.append({'obj': 'Block', 'gui': 'MUX', 'model': {'in': [1] * rows, 'intyp': [kind] * rows, 'out': [rows], 'outtyp': [kind]}})
            links += [([sensor, 1], [len(objs), at + 1], 1) for at, sensor in enumerate(sensors)]
            sensors = [len(objs)]
        links.append(([sensors[0], 1], [2, port + 1], 1))
    for port in range(len(model.get('evtout', []))):
        objs.append({'obj': 'Block', 'gui': 'Modulo_Count', 'model': {'evtin': [1], 'ipar': [2], 'dstate': [0], 'out': [1], 'outtyp': [3]}})
        links.append(([2, port + 1], [len(objs), 1], -1))
    links += [([1, 1], [2, port + 1], -1) for port in range(len(model.get('evtin', [])))]
    return objs, [{'obj': 'Link', 'from': start, 'to': end, 'ct': [1, kind]} for start, end, kind in links]


def seen(gui, out, counters):
    """What is seen of block 2 at each activation by the clock: the values of its outputs, or by its kind the ticks to its event, the activation output
    that it takes, or how the run ends. `counters` are the numbers of the counters behind its activation outputs."""
    given, begun = [[]], 0     # at start, and then at each event of the clock, whose last date is kept
    for line in out.splitlines():
        words = line.split()
        if words[0] == 'event' and words[2] == '1':
            given, begun = given + [[]], int(words[1])
        elif words[0] == 'event' and words[2] == '2':
            given[-1].append(str(int(words[1]) - begun))
        elif words[0] == 'val' and (words[1] == '2' or gui in ('IFTHEL_f', 'ESELECT_f') and int(words[1]) in counters):
            given[-1].append(words[4] if words[1] == '2' else str(1 + counters.index(int(words[1]))))
        elif line == 'end halt':
            given[-1].append('halt')
    return [shown or ['none'] for k, shown in enumerate(given) if shown or k and gui == 'EVTVARDLY']


def wrong_block(program, block, steps):
    """What is wrong with a block's values, for one activation after the other, in a run and in that of its C."""
    model, asked = block['model'], [[part.split() for part in step.split('->')] for step in steps.split(';')]
    objs, links = around(model, len(asked))
    objs[1] = dict(block, obj='Block')
    columns = [[int(step[0][k]) for step in asked] for k in range(len(asked[0][0]))]
    counters = [k for k, item in enumerate(objs, 1) if k > 2 and item['gui'] == 'Modulo_Count']
    due = [step[1] for step in asked]
    runs = both_answers(program, json.dumps({'objs': objs + links}), json.dumps(columns), [str(PERIOD * len(asked) - 1), '100'])
    wrong = [(seen(block['gui'], out, counters), err, status) for out, err, status in runs if (seen(block['gui'], out, counters), status) != (due, 0)]
    return '%r: %r in place of %r' % (block['gui'], wrong, due) if wrong else ''


def wrong_blocks(program, page):
    wrong = []
    for words, body in parts(page):
        if words[0] == 'block':
            lines = body.splitlines()
            for first, second in zip(lines[::2], lines[1::2]):
                told = wrong_block(program, json.loads(first), second)
                wrong += [told] if told else []
    return wrong


def wrong_refusals(program, page):
    """Each diagram is refused as the line behind it says."""
    wrong = []
    for words, body in parts(page):
        if words[0] == 'refused':
            for diagram, line in re.findall(r'(^\{"objs".*?\}\]\})\nrefused (\d+ [^\n]*)$', body, re.M | re.S):
                run = answer(program, ['check', 'd'], diagram)
                if run != ('', 'refused %s\n' % line, 1):
                    wrong.append('%r in place of %r' % (run, line))
    return wrong


def object_at(diagram, place):
    """The object of a diagram at a place, as `4/7`."""
    *outer, last = [int(part) - 1 for part in place.split('/')]
    for at in outer:
        diagram = diagram['objs'][at]['model']['rpar']
    return diagram['objs'][last]


def wrong_mistakes(program, page):
    """Each design with the change that its row tells is refused as the row says, and each design has a row."""
    rows = re.findall(r'^\| `([\w-]+)` \| `([\d/]+)` \| `(\w+)` \| `([^`]+)` \| `(\d+ [^`]+)` \|', page, re.M)
    examples = os.path.join(HERE, '..', 'examples')
    lacking = {name for name in os.listdir(examples) if os.path.exists(os.path.join(examples, name, 'diagram.json'))} - {row[0] for row in rows}
    wrong = ['no mistake in %s' % name for name in sorted(lacking)]
    for name, place, field, value, line in rows:
        with open(os.path.join(examples, name, 'diagram.json')) as file:
            diagram = json.load(file)
        changed = object_at(diagram, place)
        fields = changed if field in changed else changed['model']
        wrong += ['%s has this %s at %s anyhow' % (name, field, place)] if fields[field] == json.loads(value) else []
        fields[field] = json.loads(value)
        run = answer(program, ['check', 'd'], json.dumps(diagram))
        if run != ('', 'refused %s\n' % line, 1):
            wrong.append('%s: %r in place of %r' % (name, run, line))
    return wrong


def kinds_shown(page):
    """Each kind has a row, and an example of its own."""
    rows = set(re.findall(r'`(\w+)`', ' '.join(line.split('|')[1] for line in page.splitlines() if line.startswith('| `'))))
    with open(os.path.join(HERE, '..', 'crates', 'sci_names', 'specs', 'Names.antt')) as file:
        names = set(re.findall(r'codes "(\w+)"', file.read()))
    examples = set(re.findall(r'"gui": "(\w+)"', ' '.join(body for words, body in parts(page) if words[0] == 'block')))
    return ['no row of %s' % name for name in sorted(names - rows)] + ['no example of %s' % name for name in sorted(names - examples)]


def rules_shown(page):
    """Each rule that some command gives has a row, which says when it is broken, at which place, and what to do."""
    rows = [[cell.strip() for cell in line.split('|')[1:-1]] for line in page.splitlines() if re.match(r'\| \d+ [A-Z]\w+', line)]
    with open(os.path.join(HERE, '..', 'crates', 'sci_base', 'src', 'refusal.rt')) as file:
        rules = {(number, name) for name, number in re.findall(r'Rule::(\w+) => (\d+),', file.read()) if int(number) not in UNGIVEN}
    missing = sorted(rules - {rule for row in rows for rule in re.findall(r'(\d+) ([A-Z]\w+)', row[0])})
    return ['no row of %s %s' % rule for rule in missing] + ['the row of %s says too little' % row[0] for row in rows if not (row[1] and row[2] and row[-1])]


def formats(program):
    """The page on the files says what the program does."""
    with open(os.path.join(HERE, '..', 'docs', 'FORMAT.md')) as file:
        page = file.read()
    unread = [] if 2 * len(parts(page)) == len(re.findall(r'^```', page, re.M)) else ['parts of the page are not read']
    wrong = wrong_traces(program, page) + wrong_blocks(program, page) + wrong_refusals(program, page) + wrong_mistakes(program, page) + wrong_told(program, page)
    return '; '.join(unread + wrong + wrong_printed(program, page) + kinds_shown(page) + rules_shown(page))
