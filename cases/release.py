"""What lies in release/: the two programs of these sources, as the gate builds them, which a usual machine of Debian 12 can run."""
import hashlib
import os
import re
import subprocess

from lacking import lacks, untried
from ranges import beside

TOP = os.path.join(os.path.dirname(os.path.abspath(__file__)), '..')
RELEASED = os.path.join(TOP, 'release', 'scicos')
OF_RANGES = os.path.join(TOP, 'release', 'ranges')
EXAMPLES = os.path.join(TOP, 'examples')
# Instructions that a processor of x86-64-v2 lacks: those of AVX and later begin with v, but for two older ones; and the newer ones on bits. A tzcnt is
# none of them: an older processor reads it as a bsf, which gives the same where a bit is set, and a compiler writes it there for that.
OLDER = {'verr', 'verw'}
NEWER = {'andn', 'bextr', 'blsi', 'blsmsk', 'blsr', 'bzhi', 'lzcnt', 'movbe', 'mulx', 'pdep', 'pext', 'rorx', 'sarx', 'shlx', 'shrx', 'adcx', 'adox'}


def content(*path):
    with open(os.path.join(*path), 'rb') as file:
        return file.read()


def manifest():
    with open(os.path.join(TOP, 'release', 'manifest')) as file:
        return dict(line.rstrip('\n').split(' ', 1) for line in file)


def below(name, rows, found):
    for used in rows[name]:
        if used in rows and used not in found:
            below(used, rows, found)
    found.append(name)
    return found


def crates():
    """The crates that the programs stand on, by crates.txt, and these two."""
    with open(os.path.join(TOP, 'crates.txt')) as file:
        rows = [line.partition('#')[0].split(':') for line in file]
    rows = {row[0].split()[0]: row[1].split() for row in rows if len(row) == 2}
    found = below('ranges', rows, below('scicos', rows, []))
    return [name for name in found if name not in ('scicos', 'ranges')] + ['scicos', 'ranges']


def wrong_manifest(told):
    """The manifest tells the crates, their sources' checksum, the kit and the programs' checksums."""
    wrong = [] if sorted(told) == ['crates', 'kit', 'program', 'ranges', 'sources'] and told['crates'].split() == crates() else ['the crates: %r' % told]
    summed = subprocess.run([os.path.join(TOP, 'tools', 'sources')] + crates(), capture_output=True, text=True, timeout=60).stdout.strip()
    same = told['sources'] == summed
    wrong += [] if same else ['the sources are %s, and the release is of %s: tools/release makes it anew' % (summed, told['sources'])]
    for name, path in (('program', RELEASED), ('ranges', OF_RANGES)):
        wrong += [] if told[name] == hashlib.sha256(content(path)).hexdigest() else ['the checksum of %s' % path]
    return wrong + ([] if re.fullmatch(r'\S+ logic [0-9a-f]{16}', told['kit']) else ['the kit: %s' % told['kit']])


def kit_here():
    """The kit's line, or nothing where rt isn't installed."""
    if lacks('whether the kit is that of the release', 'rt'):
        return ''
    return subprocess.run(['rt', 'version'], capture_output=True, text=True, timeout=60).stdout.strip()


def answers(program):
    """What a program answers on the diagrams of the examples: to each command that takes the diagram alone, and to a run."""
    runs = []
    for path in sorted(os.path.join(at, name) for at, _, names in os.walk(EXAMPLES) for name in names if name.endswith('.json') and 'inputs' not in name):
        runs += [[word, path] for word in ('check', 'map', 'schedule', 'ccode')]
        inputs = os.path.join(os.path.dirname(path), 'inputs.json')
        columns = inputs if os.path.exists(inputs) else os.path.join(EXAMPLES, 'no-inputs.json')
        runs += [[word, path, columns, '1000', '200'] for word in ('simulate', 'vcd')]
    runs += [['host'], ['bulk', '1', '500']]
    if os.path.basename(program) == 'ranges':
        runs = [words[1:3] for words in runs if words[0] == 'simulate']
    return [(it.returncode, it.stdout, it.stderr) for words in runs for it in [subprocess.run([program] + words, capture_output=True, timeout=120)]]


def wrong_bytes(program, released, told):
    """The program that is given has the bytes of the released one, where it was built with the kit that the manifest names; with another kit, its answers."""
    kit, name = kit_here(), os.path.relpath(released, TOP)
    if kit and kit != told['kit']:
        untried('whether the program has the bytes of %s' % name, 'the kit %s (this is %s): their answers are compared' % (told['kit'], kit))
        given, due = answers(program), answers(released)
        return [] if given == due and len({it[1] for it in due}) > 10 else ['%s answers otherwise than %s' % (program, name)]
    return [] if content(program) == content(released) else ['%s has other bytes than %s: tools/release makes it anew' % (program, name)]


def wrong_needs(released):
    """It needs the C library alone, in no version after that of Debian 12, and no processor after x86-64-v2."""
    if lacks('what the released program needs', 'objdump'):
        return []
    heads = subprocess.run(['objdump', '-p', released], capture_output=True, text=True, check=True).stdout
    needed = set(re.findall(r'NEEDED\s+(\S+)', heads))
    wrong = [] if needed == {'libc.so.6'} else ['libraries %r' % needed]
    versions = [tuple(map(int, it.split('.'))) for it in re.findall(r'GLIBC_([0-9.]+)', heads)]
    wrong += [] if versions and max(versions) <= (2, 36) else ['versions %r' % versions]
    lines = subprocess.run(['objdump', '-d', '--no-show-raw-insn', released], capture_output=True, text=True, check=True).stdout
    used = set(re.findall(r'^\s+[0-9a-f]+:\s+(\w+)', lines, flags=re.M))
    newer = {it for it in used if it.startswith('v') and it not in OLDER or it in NEWER}
    return wrong + (['instructions %r' % sorted(newer)] if newer or len(used) < 40 else [])


def wrong_paths(released):
    """Nothing in its bytes tells where it was built."""
    found = re.findall(rb'/(?:home|root|work|tmp|build)/[\w./-]*', content(released))
    return ['paths %r' % found[:3]] if found else []


def wrong_script(name, released, words):
    """The script of a program runs the released one."""
    run = subprocess.run([os.path.join(TOP, name)] + words, stdin=subprocess.DEVNULL, capture_output=True, timeout=60)
    due = subprocess.run([released] + words, stdin=subprocess.DEVNULL, capture_output=True, timeout=60)
    return [] if (run.stdout, run.stderr, run.returncode) == (due.stdout, b'', 0) else ['./%s gives %r' % (name, run.stderr)]


def release(program):
    """The programs have the bytes of the released ones, and `./scicos` and `./ranges` run these."""
    wrong = wrong_bytes(program, RELEASED, manifest()) + wrong_bytes(beside(program), OF_RANGES, manifest())
    wrong += wrong_script('scicos', RELEASED, ['host'])
    wrong += wrong_script('ranges', OF_RANGES, [os.path.join(EXAMPLES, 'first.json'), os.path.join(EXAMPLES, 'no-inputs.json')])
    for released in (RELEASED, OF_RANGES):
        wrong += wrong_needs(released) + wrong_paths(released)
    return '; '.join(wrong + wrong_manifest(manifest()))
