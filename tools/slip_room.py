"""What slips are, as slips.txt has them, and a workspace in which definitions are checked with slips in them."""
import os
import re
import shutil
import subprocess
import sys
import tempfile
import typing

HERE = os.path.dirname(os.path.abspath(__file__))
CRATES = os.path.join(HERE, '..', 'crates')
TABLE = 'sci_kinds/specs/Table.antt'


class Slip(typing.NamedTuple):
    """A line of a definition changed. The rows of the kinds must refuse it, or of a file of values those that are named."""
    kinds: tuple[str, ...]
    values: str
    name: str
    file: str
    uses: str = ''
    old: str = ''
    new: str = ''
    by: tuple[str, ...] = ()


class Refusal(typing.NamedTuple):
    """An error of the prover: the file in the crate, the line, and what is said."""
    path: str
    line: int
    said: str


def read(path: str) -> str:
    """A file of crates/."""
    with open(os.path.join(CRATES, path), encoding='utf-8') as file:
        return file.read()


def read_slips(name: str = 'slips.txt', table: str = TABLE) -> list[Slip]:
    """The slips of a list of this folder, in their order; those of kinds are in this table, where no other file is named."""
    slips: list[Slip] = []
    kinds: tuple[str, ...] = ()
    values, definition = '', table
    for line in read(f'../tools/{name}').split('\n'):
        word, _, rest = line.partition(': ')
        if word == 'kind':
            kinds, definition = tuple(rest.split()), table
        elif word == 'values':
            kinds, values = (), rest
        elif word == 'definition':
            definition = rest
        elif word == 'slip':
            slips.append(Slip(kinds, values, rest, definition))
        elif word == 'by':
            slips[-1] = slips[-1]._replace(by=tuple(rest.split()))
        elif word == 'file':
            slips[-1] = slips[-1]._replace(file=rest)
        elif word == 'uses':
            slips[-1] = slips[-1]._replace(uses=rest)
        elif word == 'old':
            slips[-1] = slips[-1]._replace(old=rest)
        elif word == 'new':
            slips[-1] = slips[-1]._replace(new=rest)
        elif line.strip() and not line.startswith('#'):
            sys.exit(f'{name}: {line}')
    return slips


def with_slips(text: str, slips: list[Slip]) -> str:
    """A text of definitions with the slips in it; each old text stands once in the text as it was."""
    wrong = [it.old for it in slips if not it.old or text.count(it.old) != 1]
    if wrong:
        sys.exit(f'not once in its file: {wrong[0]}')
    for slip in sorted(slips, key=lambda it: -text.index(it.old)):
        at = text.index(slip.old)
        text = text[:at] + slip.new + text[at + len(slip.old):]
    uses = ''.join(sorted({f'use {it.uses}\n' for it in slips if it.uses}))
    return re.sub(r'^(?=use )', lambda _: uses, text, count=1, flags=re.M)


def uses_of_crates() -> dict[str, list[str]]:
    """What each crate of crates.txt uses."""
    return {name: words.split() for name, words in re.findall(r'^(\w+): *(.*)$', read('../crates.txt'), re.M)}


def linked(source: str, target: str) -> None:
    """A file at another place: a link to what is built, and a copy of any other file."""
    if '/out/rlib/' in source and not source.endswith('/stamp'):
        try:
            os.link(source, target)
            return
        except OSError:
            pass
    shutil.copy2(source, target)


class Room:
    """A workspace with one crate of its own, which uses crates of the repository and of the kit; these stand there as they are."""

    def __init__(self, crate: str, uses: list[str]) -> None:
        self.room = tempfile.mkdtemp(prefix='slips-')
        self.crate, self.folder = crate, os.path.join(self.room, 'crates', crate)
        known = uses_of_crates()
        below = [it for it in uses if it in known]
        for name in below:
            below += [it for it in known[name] if it in known and it not in below]
        lines = [f'{crate}: {" ".join(uses)}\n'] + [f'{name}: {" ".join(known[name])}\n' for name in below]
        self.write('crates.txt', ''.join(lines))
        leave = shutil.ignore_patterns('incremental', '*_tests', '*.o')
        for name in below:
            shutil.copytree(os.path.join(CRATES, name), os.path.join(self.room, 'crates', name), ignore=leave, copy_function=linked)

    def write(self, path: str, text: str) -> None:
        """A file of the workspace."""
        path = os.path.join(self.room, path)
        os.makedirs(os.path.dirname(path), exist_ok=True)
        with open(path, 'w', encoding='utf-8') as file:
            file.write(text)

    def lines(self, path: str) -> list[str]:
        """The lines of a file of the crate."""
        with open(os.path.join(self.folder, path), encoding='utf-8') as file:
            return file.read().split('\n')

    def refusals(self) -> list[Refusal]:
        """What the prover refuses in the crate as it stands."""
        how = {'cwd': self.folder, 'stdin': subprocess.DEVNULL, 'stdout': subprocess.PIPE, 'stderr': subprocess.STDOUT}
        ran = subprocess.run(['rt', 'check', '--jobs', '1'], errors='replace', check=False, **how)
        found = re.findall(r'^(?:\./)?((?:specs|proofs)/\S+?):(\d+):\d+: (error.*)', ran.stdout, re.M)
        if ran.returncode not in (0, 1) or bool(ran.returncode) != bool(found):
            sys.exit(f'rt check gave no verdict:\n{ran.stdout[-3000:]}')
        return [Refusal(path, int(line), said) for path, line, said in found]

    def remove(self) -> None:
        """The workspace is done with."""
        shutil.rmtree(self.room)
