"""Slips in definitions that aren't meanings of kinds, and the worked values that must refuse them.

A workspace has copies of the definitions with slips, of the worked values, and of the definitions and lemmas between them, of each file what the values
stand on. The prover checks these alone, so that no proof about the code counts. One run of the prover checks many copies side by side, each with slips of
its own. In one copy are slips of which no value stands on the definition that another one changes; where something else goes wrong in it, each of its
slips is tried once more, in a copy for it alone.
"""
import functools
import os
import re
import shutil
import typing

from slip_room import CRATES, Room, Slip, read, uses_of_crates, with_slips

CRATE = 'slips'
BEFORE = re.compile(r'(?:abbrev |unfoldable |pub |data |record |module )*')
WORD = re.compile(r'[^\s(){}.,;]+')


class Piece(typing.NamedTuple):
    """A definition or a lemma of a file: what is written, from the left margin on to the next one of another name."""
    file: str
    name: str
    text: str


class Found(typing.NamedTuple):
    """What is refused in a copy: the values by name, and the errors in its definitions."""
    values: set[str]
    wrong: list[str]


# ---- files and what they stand on


def module_of(path: str) -> str:
    """The module that a file of crates/ is."""
    return 'Rattle.' + path[:-len('.antt')].replace('/', '.')


def files_named(text: str) -> list[str]:
    """The files of crates/ that a text takes words from."""
    named = re.findall(r'\bRattle\.(\w+)\.(specs|proofs)\.([\w-]+)', text)
    files = dict.fromkeys(f'{crate}/{part}/{name}.antt' for crate, part, name in named)
    return [it for it in files if os.path.exists(os.path.join(CRATES, it))]


@functools.lru_cache(maxsize=None)
def files_used(path: str) -> list[str]:
    """The files of crates/ that a file takes words from."""
    return files_named(read(path))


def between(values: str, slipped: set[str]) -> list[str]:
    """The files from a file of values down to those with slips, with all that it takes from its own crate."""
    leads: dict[str, bool] = {}
    own = values.split('/', maxsplit=1)[0] + '/'

    def look(path: str) -> bool:
        if path not in leads:
            leads[path] = path in slipped or path.startswith(own)
            below = [look(it) for it in files_used(path)]
            leads[path] = leads[path] or any(below)
        return leads[path]

    look(values)
    return [path for path, is_between in leads.items() if is_between]


# ---- which slips may be tried together


def head_of(text: str) -> str:
    """The name with which a definition begins, behind the words before it."""
    return BEFORE.sub('', text, count=1).split()[0]


def is_imported(line: str) -> bool:
    """The line takes in words or modules."""
    return line.startswith(('use ', 'pub use ', 'mod ', 'pub mod '))


def with_words(line: str, words: set[str]) -> str:
    """A line that takes in words of crates/, with those of these alone; nothing where it takes in none of them. What it passes on stays."""
    if line.startswith(('use Rattle.std.', 'pub use ')):
        return line
    found = re.fullmatch(r'(use Rattle\..*\.)\{(.*)\}', line)
    if not found:
        return line if re.split(r'[ .]', line)[-1] in words else ''
    kept = [it for it in found.group(2).split(', ') if '◌' in it or it.split()[-1] in words]
    return f'{found.group(1)}{{{", ".join(kept)}}}' if kept else ''


def pieces_in(path: str, text: str) -> list[Piece]:
    """The pieces of a text of a file. Clauses of one name are one piece."""
    found: list[Piece] = []
    for part in re.split(r'\n(?=\S)', text):
        if part.startswith('--') or is_imported(part):
            continue
        name = found[-1].name if part.startswith(('}', ')', 'unfolding ')) else head_of(part)
        if found and found[-1].name == name:
            found[-1] = found[-1]._replace(text=f'{found[-1].text}\n{part}')
        else:
            found.append(Piece(path, name, part))
    return found


@functools.lru_cache(maxsize=None)
def pieces_of(path: str) -> list[Piece]:
    """The pieces of a file."""
    return pieces_in(path, read(path))


def names_in(piece: Piece) -> set[str]:
    """The names that a piece defines: its own, and those of variants and of definitions inside. A field's type tells the record that it is of."""
    if re.match(r'(pub )?record ', piece.text):
        return {piece.name}
    return {piece.name, *re.findall(r'^\s+(?:abbrev |unfoldable |pub |data |record )*([^\s(){}.,;]+) .*?:', piece.text, re.M)}


@functools.lru_cache(maxsize=None)
def names_used(path: str) -> dict[str, tuple[str, str]]:
    """Of each word that a file imports by name, the file that it comes from and its name there."""
    found = {}
    for crate, part, name, words in re.findall(r'^(?:pub )?use Rattle\.(\w+)\.(specs|proofs)\.([\w-]+)\.\{(.*)\}$', read(path), re.M):
        for word, _, own in (it.partition(' as ') for it in words.split(', ')):
            found[own or word] = (f'{crate}/{part}/{name}.antt', word)
    return found


def piece_with(path: str, text: str) -> Piece:
    """The piece of a file that has a text."""
    return next(it for it in pieces_of(path) if text in it.text)


def value_named(values: str, name: str) -> Piece:
    """The piece that is a value."""
    found = [it for it in pieces_of(values) if it.name == name]
    if not found:
        raise SystemExit(f'{values} has no {name}')
    return found[0]


class Reach:
    """What each piece of some files stands on, by the words in it."""

    def __init__(self, files: list[str]) -> None:
        self.named: dict[tuple[str, str], list[Piece]] = {}
        for piece in (it for path in files for it in pieces_of(path)):
            for name in names_in(piece):
                self.named.setdefault((piece.file, name), []).append(piece)

    def meant(self, path: str, text: str) -> set[Piece]:
        """The pieces that the words of a text mean which stands in a file."""
        used = names_used(path)
        return {piece for word in WORD.findall(text) for key in ((path, word), used.get(word, (path, word))) for piece in self.named.get(key, [])}

    @functools.lru_cache(maxsize=None)
    def below(self, piece: Piece) -> frozenset[Piece]:
        """A piece with all that it stands on."""
        found, waiting = {piece}, [piece]
        while waiting:
            piece = waiting.pop()
            new = self.meant(piece.file, piece.text) - found
            found |= new
            waiting += new
        return frozenset(found)

    def of_slip(self, slip: Slip) -> frozenset[Piece]:
        """What the values that must refuse a slip stand on, with what is changed and what its new text names."""
        begin = [value_named(slip.values, name) for name in slip.by] + [piece_with(slip.file, slip.old)]
        begin += self.meant(slip.file, slip.new)
        return frozenset().union(*map(self.below, begin))

    def are_apart(self, one: Slip, other: Slip) -> bool:
        """No value of one slip stands on what the other changes."""
        return all(piece_with(b.file, b.old) not in self.of_slip(a) for a, b in ((one, other), (other, one)))


def in_rounds(slips: list[Slip], reach: Reach) -> list[list[Slip]]:
    """Lists of slips that may be tried in one copy."""
    rounds: list[list[Slip]] = []
    for slip in slips:
        free = [it for it in rounds if all(reach.are_apart(slip, other) for other in it)]
        if free:
            free[0].append(slip)
        else:
            rounds.append([slip])
    return rounds


# ---- the workspace


class Copy(typing.NamedTuple):
    """A copy of the definitions and of a file of values: with these slips, and with the values of these names alone."""
    values: str
    slips: list[Slip]
    names: set[str]


class ValueRoom:
    """A workspace with copies of files of values, of the definitions with slips, and of what stands between them."""

    def __init__(self, slips: list[Slip]) -> None:
        of_values = {it.values: {other.file for other in slips if other.values == it.values} for it in slips}
        self.files = {values: between(values, slipped) for values, slipped in of_values.items()}
        self.reach = {values: Reach(files) for values, files in self.files.items()}
        self.room = Room(CRATE, self.uses(slips))
        self.room.write(f'crates/{CRATE}/src/lib.rt', '//! Values.\n#![tactic(auto)]\n\n/// None.\npub const VALUES: u8 = 0;\n')

    def uses(self, slips: list[Slip]) -> list[str]:
        """The crates whose words the copies take from outside, and what these use."""
        known = uses_of_crates()
        whole = [copy_of_values(values, slips) for values in self.files]
        texts = [self.renamed(self.text_of(path, copy), copy.values, 0) for copy in whole for path in self.files_of(copy)]
        named = {name for text in texts for name in re.findall(r'\bRattle\.(\w+)\.', text)} - {'std', CRATE}
        return sorted(named.union(*(known.get(name, []) for name in named)))

    @staticmethod
    def place(path: str, number: int) -> str:
        """Where a file stands in the crate, of the copy of this number."""
        crate, part, name = path[:-len('.antt')].split('/')
        return f'{part}/n{number}_{crate}_{name}'

    def renamed(self, text: str, values: str, number: int) -> str:
        """A text that takes its words from the copy of this number."""
        for path in self.files[values]:
            text = re.sub(rf'\b{re.escape(module_of(path))}\b(?!-)', f'Rattle.{CRATE}.{self.place(path, number)}'.replace('/', '.'), text)
        return text

    def text_of(self, path: str, copy: Copy) -> str:
        """A file in a copy: with the slips in it, and of its pieces those that the values stand on."""
        reach = self.reach[copy.values]
        kept = frozenset().union(*(reach.below(value_named(copy.values, name)) for name in copy.names), *map(reach.of_slip, copy.slips))
        names = {it.name for it in kept if it.file == path}
        text = with_slips(read(path), [it for it in copy.slips if it.file == path])
        texts = [it.text.rstrip('\n') + '\n' for it in pieces_in(path, text) if it.name in names]
        words = {word for it in texts for word in WORD.findall(it)}
        lines = [with_words(it, words) for it in text.split('\n') if is_imported(it)]
        return '\n'.join([it for it in lines if it] + [''] + texts)

    def files_of(self, copy: Copy) -> list[str]:
        """The files of a copy: the values, and what they stand on down to the slips."""
        found = [copy.values]
        for path in found:
            used = files_named(self.text_of(path, copy))
            found += [it for it in used if it in self.files[copy.values] and it not in found]
        return found

    def lay_out(self, copies: list[Copy]) -> None:
        """Writes these copies, and no other."""
        files = [(number, copy, path) for number, copy in enumerate(copies) for path in self.files_of(copy)]
        for part in ('specs', 'proofs'):
            shutil.rmtree(os.path.join(self.room.folder, part), ignore_errors=True)
            places = [self.place(path, number) for number, _, path in files]
            self.room.write(f'crates/{CRATE}/{part}/Lib.antt', ''.join(f'pub mod {os.path.basename(it)}\n' for it in places if it.startswith(part)))
        for number, copy, path in files:
            self.room.write(f'crates/{CRATE}/{self.place(path, number)}.antt', self.renamed(self.text_of(path, copy), copy.values, number))

    def check(self, copies: list[Copy]) -> list[Found]:
        """What is refused in each copy."""
        self.lay_out(copies)
        found = [Found(set(), []) for _ in copies]
        for path, line, said in self.room.refusals():
            number = int(path.split('/')[1].split('_')[0][1:])
            name = self.value_at(path, line) if path == f'{self.place(copies[number].values, number)}.antt' else ''
            if not name:
                found[number].wrong.append(f'{path}:{line}: {said}')
            elif 'not checked:' not in said:
                found[number].values.add(name)
        return found

    def value_at(self, path: str, line: int) -> str:
        """The name of the value at a line; none where words are imported."""
        return next((head_of(it) for it in reversed(self.room.lines(path)[:line]) if re.match(r'\S', it) and not is_imported(it)), '')

    def rounds(self, slips: list[Slip]) -> list[list[Slip]]:
        """Lists of slips of one file of values that may be tried in one copy."""
        return [each for values, reach in self.reach.items() for each in in_rounds([it for it in slips if it.values == values], reach)]


def names_of(slips: list[Slip]) -> set[str]:
    """The values that must refuse slips."""
    return {name for slip in slips for name in slip.by}


def copy_of_values(values: str, slips: list[Slip]) -> Copy:
    """The copy of a file of values without a slip, with the values that must refuse these."""
    return Copy(values, [], names_of([it for it in slips if it.values == values]))


def with_own(slips: list[Slip]) -> Copy:
    """The copy in which slips of one file of values are tried."""
    return Copy(slips[0].values, slips, names_of(slips))


def is_well(found: Found, slips: list[Slip]) -> bool:
    """The definitions have types, and each slip is refused."""
    return not found.wrong and names_of(slips) <= found.values


def outcome(slip: Slip, found: Found) -> str:
    """What a slip comes to: the values that refuse it, or that it stands, or why it is none."""
    if found.wrong:
        return f'NO SLIP: {found.wrong[0]}'
    stands = [it for it in slip.by if it not in found.values]
    return f'STANDS at {" ".join(stands)}' if stands else f'refused by {" ".join(slip.by)}'


def tried(slips: list[Slip]) -> typing.Iterator[tuple[Slip, str]]:
    """What each slip comes to. All values are computed without a slip, too."""
    room = ValueRoom(slips)
    try:
        whole = [copy_of_values(values, slips) for values in room.files]
        rounds = room.rounds(slips)
        found = room.check(whole + [with_own(it) for it in rounds])
        for copy, said in zip(whole, found):
            if said.wrong or said.values:
                raise SystemExit(f'{copy.values}: refused without a slip: {" ".join([*sorted(said.values), *said.wrong])}')
        found = found[len(whole):]
        yield from ((slip, outcome(slip, said)) for each, said in zip(rounds, found) for slip in each if is_well(said, each) or len(each) == 1)
        again = [slip for each, said in zip(rounds, found) for slip in each if not is_well(said, each) and len(each) > 1]
        if again:
            yield from ((slip, outcome(slip, said)) for slip, said in zip(again, room.check([with_own([it]) for it in again])))
    finally:
        room.room.remove()
