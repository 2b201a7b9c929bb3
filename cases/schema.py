"""The schema of diagram files, docs/diagram.schema.json: it takes what the program accepts, and refuses only what the program refuses."""
import json
import os
import random
import re
import subprocess
import tempfile

from formats import HERE, around, parts
from lacking import untried
from refusals import LIMITS, REFUSALS, TEXTS

DOCS = os.path.join(HERE, '..', 'docs')
EXAMPLES = os.path.join(HERE, '..', 'examples')
WORDS = ['Block', 'Link', 'super', 'csuper', 'GAINBLK', 'SPLIT_f', 'GOTO', 'IN_f', 'HALT_f', 'SCOPE', '']
VALUES = [None, True, False, 0, 1, -1, 2, 3, 5, 9, -7, 300, 2147483648, -2147483649, 4294967296, 1.5, [], [1], [1, 1], [0, 3], [-1], [2, 2, 2], ['super'], {}]
FIELDS = ['in', 'in2', 'intyp', 'out', 'out2', 'outtyp', 'evtin', 'evtout', 'ipar', 'dstate', 'firing', 'dep_ut', 'sim', 'rpar', 'gui', 'model', 'from', 'ct']


def validator():
    """What judges by the schema, or None where jsonschema isn't installed, or is too old."""
    try:
        from jsonschema import Draft202012Validator
    except ImportError:
        return None
    with open(os.path.join(DOCS, 'diagram.schema.json')) as file:
        schema = json.load(file)
    Draft202012Validator.check_schema(schema)
    return Draft202012Validator(schema)


def named(page):
    """The first example with the field that names the schema, as the page on the files shows it."""
    with open(os.path.join(EXAMPLES, 'first.json')) as file:
        return json.loads('{%s, %s' % (re.search(r'`("\$schema": "[^"]+")`', page).group(1), file.read()[1:]))


def schema_named(program):
    """A diagram that names the schema, as the page on the files shows it, is taken as one that doesn't; and there is such a file."""
    with open(os.path.join(DOCS, 'FORMAT.md')) as file:
        diagram = named(file.read())
    with tempfile.TemporaryDirectory() as work:
        with open(os.path.join(work, 'd'), 'w') as file:
            json.dump(diagram, file)
        given, due = (subprocess.run([program, 'map', path], capture_output=True, timeout=120)
                      for path in (os.path.join(work, 'd'), os.path.join(EXAMPLES, 'first.json')))
    same = (given.stdout, given.stderr, given.returncode) == (due.stdout, b'', 0) and os.path.exists(os.path.join(HERE, '..', diagram['$schema']))
    return '' if same else '%r in place of %r, of %r' % (given, due, diagram['$schema'])


def refuses(program, diagram):
    """Whether the program refuses the diagram."""
    with tempfile.TemporaryDirectory() as work:
        with open(os.path.join(work, 'd'), 'w') as file:
            json.dump(diagram, file)
        run = subprocess.run([program, 'check', 'd'], cwd=work, capture_output=True, timeout=120)
    return run.returncode == 1 and run.stderr.startswith(b'refused ')


def json_of(content):
    """The values that a text stands for: one, or none where it is no JSON."""
    try:
        return [json.loads(content)]
    except ValueError:
        return []


def page_diagrams(page):
    """The diagrams of the page on the files that are accepted, also those around its blocks."""
    for words, body in parts(page):
        if words[0] == 'diagram':
            yield json.loads(body)
        elif words[0] == 'block':
            lines = body.splitlines()
            for first, second in zip(lines[::2], lines[1::2]):
                block = json.loads(first)
                objs, links = around(block['model'], second.count(';') + 1)
                objs[1] = dict(block, obj='Block')
                yield {'objs': objs + links}


def example_files():
    """The files of the examples that break no rule, the designs among them."""
    for name in sorted(os.listdir(EXAMPLES)):
        if os.path.exists(os.path.join(EXAMPLES, name, 'diagram.json')):
            yield os.path.join(EXAMPLES, name, 'diagram.json')
        elif name.endswith('.json') and name not in ('no-inputs.json', 'readings.json', 'loop.json'):
            yield os.path.join(EXAMPLES, name)


def accepted():
    """Diagrams that the program accepts: the examples, those of the page, one that names the schema, and those at a limit that aren't large."""
    for name in example_files():
        with open(name) as file:
            yield json.load(file)
    with open(os.path.join(DOCS, 'FORMAT.md')) as file:
        page = file.read()
    yield from page_diagrams(page)
    yield named(page)
    yield from ({'objs': objs} for _, objs, _ in LIMITS if len(json.dumps(objs)) < 5000)


def others():
    """Diagrams of which some are refused: those of the folders, and those that break a rule or are odd texts."""
    for name in sorted(os.listdir(HERE)):
        if os.path.isfile(os.path.join(HERE, name, 'd')):
            with open(os.path.join(HERE, name, 'd'), 'rb') as file:
                yield from json_of(file.read())
    yield from ({} if objs is None else {'objs': objs} for _, objs, _ in REFUSALS if objs is None or len(json.dumps(objs)) < 5000)
    for _, content, _ in TEXTS:
        yield from json_of(content)


def places(value):
    """The lists and objects within a value, itself among them, that aren't empty."""
    if isinstance(value, (dict, list)) and value:
        yield value
        for inner in value.values() if isinstance(value, dict) else value:
            yield from places(inner)


def changed(diagram, draw):
    """The diagram with one entry of one of its lists and objects changed, left out, or added."""
    diagram = json.loads(json.dumps(diagram))
    place = draw.choice(list(places(diagram)))
    at = draw.choice(list(place) if isinstance(place, dict) else range(len(place)))
    act = draw.randrange(6)
    if act == 0:
        del place[at]
    elif act == 1 and isinstance(place, dict):
        place[draw.choice(FIELDS)] = draw.choice(VALUES)
    elif act == 1:
        place.append(place[at])
    elif isinstance(place[at], str):
        place[at] = draw.choice(WORDS)
    elif isinstance(place[at], int) and act < 4:
        place[at] += draw.choice([-2, -1, 1, 2])
    else:
        place[at] = draw.choice(VALUES)
    return diagram


def wrong_changes(program, judge, bases, count, seed):
    """So many small changes of accepted diagrams that the schema refuses: those that the program takes."""
    draw, wrong = random.Random(seed), []
    while count:
        diagram = changed(draw.choice(bases), draw)
        if not judge.is_valid(diagram):
            count -= 1
            wrong += [] if refuses(program, diagram) else ['refused by the schema alone: %s' % json.dumps(diagram)]
    return wrong


def wrong_names(judge):
    """The names of kinds are those of the program, and each has its line."""
    names = judge.schema['$defs']['kind']['properties']['gui']
    with open(os.path.join(HERE, '..', 'crates', 'sci_names', 'specs', 'Names.antt')) as file:
        kinds = [line.split('"')[1] for line in file if line.startswith('name_of ')]
    same = names['enum'][:len(kinds)] == kinds and len(names['enum']) == len(kinds) + 12 == len(names['enumDescriptions'])
    return [] if same else ['the names of kinds']


def schema(program):
    """The schema and the program agree as the first line of this file says, where Python's jsonschema is there to tell."""
    judge = validator()
    if judge is None:
        untried('the schema of diagrams', "Python's jsonschema")
        return ''
    bases = list(accepted())
    wrong = ['refused by the schema: %s' % json.dumps(diagram) for diagram in bases if not judge.is_valid(diagram)]
    wrong += ['refused by the schema alone: %s' % json.dumps(diagram) for diagram in others() if not judge.is_valid(diagram) and not refuses(program, diagram)]
    told = [name for name, objs, due in REFUSALS if due[:2] in ('2 ', '3 ', '7 ') and judge.is_valid({} if objs is None else {'objs': objs})]
    wrong += ['passed by the schema: %s' % name for name in told]
    return '; '.join(wrong + wrong_changes(program, judge, bases, 100, 1) + wrong_names(judge))
