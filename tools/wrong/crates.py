"""Crates as texts: their functions, and the edits that make a body wrong."""
import os
import re
import subprocess
from dataclasses import dataclass

from .mutants import FILE, NAMED, parsed

TOP = os.path.dirname(os.path.dirname(os.path.dirname(os.path.abspath(__file__))))

FUNCTION = re.compile(r'( *)(?:pub(?:\([a-z]+\))? )?(?:const )?(?:unsafe )?(?:extern "C" )?fn (\w+)')
TYPE = re.compile(r'^(?:pub(?:\([a-z]+\))? )?(?:struct|enum|union) (\w+)', re.M)
IMPL = re.compile(r'impl(?:<.*?>)? (?:(?P<trait>\w.*) for )?(?P<type>\w+(?:<\(.*\)>)?|\(.*\))')
DERIVE = re.compile(r'#\[derive\((.*)\)\]')
CYCLE = re.compile(r' *#\[cycle\((\w+)\)\]')
CYCLE_OF_TYPE = re.compile(r'#\[cycle\((\w+)\)\]\n(?: *(?:#\[|///).*\n)* *(?:pub(?:\([a-z]+\))? )?(?:struct|enum|union)\b')


@dataclass(frozen=True)
class Function:
    """A function of the crate's text: its lines, from 0, and its name as a check prints it, below the crate."""

    file: str
    first: int
    last: int
    path: tuple
    # the cycle of calls that it names, or the trait of its impl
    cycle: str
    trait: str

    def name(self):
        return '::'.join(self.path)

    def proofs(self):
        return 'proofs/' + '/'.join(self.path)

    def cycle_key(self):
        """Returns a key that the functions of one cycle share, and no other; None if it is in no cycle."""
        return (*self.path[:-1], '+' + self.cycle) if self.cycle else None


@dataclass(frozen=True)
class Edit:
    """An edit of a crate: the function that it changes, the changed lines of that function, what it names to show it wrong, if anything, and the
    impl that it writes by hand in place of a derived one, if any."""

    crate: str
    name: str
    function: Function
    lines: tuple
    shown: str = ''
    impl: str = ''

    def derived(self):
        """Returns the trait and the type of the impl that it writes by hand, or two empty texts."""
        found = IMPL.match(self.impl)
        return (found['trait'], found['type']) if found else ('', '')


class BadEdit(Exception):
    pass


def read(path):
    with open(path, encoding='utf-8') as f:
        return f.read()


def write(path, text):
    os.makedirs(os.path.dirname(path), exist_ok=True)
    with open(path, 'w', encoding='utf-8') as f:
        f.write(text)


def files_below(folder, part):
    """Returns the files of a part of a directory, each with its text."""
    found = []
    for at, _, names in os.walk(os.path.join(folder, part)):
        found += [(os.path.relpath(os.path.join(at, it), folder), read(os.path.join(at, it))) for it in names]
    return found


def module_of(file):
    """Returns the path of the module of a file in src/."""
    parts = file[len('src/') : -len('.rt')].split('/')
    return tuple(parts[:-1] if parts[-1] in ('lib', 'main', 'mod') else parts)


def words_of(text):
    """Returns a type as one word, as a check writes it in the name of an impl: without lifetimes, and for a tuple with the number of its items first."""
    tuples = re.sub(r'\(([^()]*)\)', lambda found: 'Tuple%d %s' % (found[1].count(',') + 1, found[1]), re.sub(r"'\w+", '', text))
    return ''.join(re.findall(r'\w+', tuples))


def functions_of(file, text, types):
    """Returns the functions of a file in the layout of `rt fmt`: an item ends at the brace below its own indentation."""
    lines, found, impl, cycle = text.split('\n'), [], None, ''
    for first, line in enumerate(lines):
        impl = IMPL.match(line) or (None if line.startswith('}') else impl)
        # the types of a cycle name it as functions do
        cycle = '' if TYPE.match(line) else (CYCLE.match(line) or [cycle, cycle])[1]
        head = FUNCTION.match(line)
        if not head:
            continue
        is_whole = line.endswith(('}', ';'))
        ends = (n for n in range(first, len(lines)) if is_whole or lines[n].startswith(head[1] + '}'))
        own = impl if head[1] else None
        path, trait = module_of(file), ''
        if own:
            trait = words_of(own['trait'] or '')
            path = types.get(own['type'], path) + (words_of(own['type']) + trait,)
        found.append(Function(file, first, next(ends, first), path + (head[2],), cycle, trait))
        cycle = ''
    return found


def by_hand(text, impl):
    """Returns the text of a file with an impl in place of the one that its type derives, or None if no type of the file derives it."""
    found, lines, is_of_type = IMPL.match(impl), text.split('\n'), False
    for at in reversed(range(len(lines)) if found else ()):
        head, derived = TYPE.match(lines[at]), DERIVE.match(lines[at])
        is_of_type = head[1] == found['type'] if head else is_of_type and lines[at].startswith(('#[', '///'))
        traits = derived[1].split(', ') if derived and is_of_type else []
        if found['trait'] in traits:
            lines[at] = '#[derive(%s)]' % ', '.join(it for it in traits if it != found['trait'])
            return '\n'.join([*lines, impl, ''])
    return None


class Crate:
    """A crate's text: its files, and its functions."""

    def __init__(self, top, name, libraries):
        self.top, self.name, self.libraries = top, name, libraries
        self.folder = os.path.join(top, 'crates', name)
        self.texts, self.others = dict(files_below(self.folder, 'src')), None
        types = {word: module_of(file) for file, text in self.texts.items() for word in TYPE.findall(text)}
        self.functions = [it for file, text in self.texts.items() for it in functions_of(file, text, types)]
        self.cycles_of_types = {it for text in self.texts.values() for it in CYCLE_OF_TYPE.findall(text)}

    def other_files(self):
        """Returns the files of specs/ and proofs/, each with its text."""
        if self.others is None:
            self.others = dict(files_below(self.folder, 'specs') + files_below(self.folder, 'proofs'))
        return self.others

    def mutants_path(self):
        return os.path.join(self.folder, FILE)

    def mutants(self):
        """Returns the mutants of its file, by their names."""
        path = self.mutants_path()
        return parsed(os.path.relpath(path, self.top), read(path)) if os.path.isfile(path) else {}

    def names(self):
        """Returns the names of its edits."""
        return sorted(self.mutants())

    def function_at(self, file, offset):
        line = self.texts[file].count('\n', 0, offset)
        inside = [it for it in self.functions if it.file == file and it.first <= line <= it.last]
        return max(inside, key=lambda it: it.first, default=None)

    def function_of(self, file, pairs, within):
        """Returns the function that an edit is in: the one that it names, else the one that has its first old text."""
        if within:
            return next((it for it in self.functions if it.file == file and it.name() == within), None)
        return self.function_at(file, self.texts[file].find(pairs[0][0]))

    def edit(self, name, mutants=None):
        """Reads an edit, of these mutants if they are given. Raises BadEdit if it can't be made."""
        mutant = (self.mutants() if mutants is None else mutants).get(name)
        if mutant is None:
            raise BadEdit('%s has no mutant %s' % (os.path.relpath(self.mutants_path(), self.top), name))
        file, within, impl, shown = (mutant.named[it] for it in NAMED)
        if file not in self.texts:
            raise BadEdit('there is no %s' % file)
        text, function = self.texts[file], self.function_of(file, mutant.pairs, within)
        if function is None:
            raise BadEdit('it changes no function')
        if impl and (shown or by_hand(text, impl) is None):
            raise BadEdit('it names a run, or no type of %s derives its impl: %s' % (file, impl))
        body = '\n'.join(text.split('\n')[function.first : function.last + 1])
        for old, new in mutant.pairs:
            if text.count(old) != 1 and not within:
                raise BadEdit('an old text stands %d times in %s: %s' % (text.count(old), file, old))
            if body.count(old) != 1:
                raise BadEdit('it changes more than one function')
            text, body = text.replace(old, new), body.replace(old, new)
        return Edit(self.name, name, function, tuple(body.split('\n')), shown, impl)

    def edits(self, names):
        """Returns the edits of these names, and why each of the others can't be made."""
        mutants, edits, bad = self.mutants(), [], {}
        for name in names:
            try:
                edits.append(self.edit(name, mutants))
            except BadEdit as error:
                bad[name] = str(error)
        return edits, bad

    def edited(self, edits):
        """Returns the texts of the files that the edits change; no two of them change one function."""
        texts = {it.function.file: self.texts[it.function.file].split('\n') for it in edits}
        for edit in sorted(edits, key=lambda it: -it.function.first):
            texts[edit.function.file][edit.function.first : edit.function.last + 1] = edit.lines
        return {file: '\n'.join(lines) for file, lines in texts.items()}


def libraries_of(top):
    """Returns each crate of crates.txt with the libraries that its line names."""
    found = {}
    for line in read(os.path.join(top, 'crates.txt')).split('\n'):
        # the word 'staticlib' follows the name of one
        name, _, libraries = line.partition('#')[0].partition(':')
        if name.strip():
            found[name.split()[0]] = libraries.split()
    return found


def libraries_below(name, libraries):
    """Returns the repository's libraries below a crate."""
    found = []
    for below in libraries[name]:
        if below in libraries:
            found += [it for it in [*libraries_below(below, libraries), below] if it not in found]
    return found


def kit():
    """Returns the kit's directory: that of the page which `rt doc` names."""
    said = subprocess.run(['rt', 'doc'], stdout=subprocess.PIPE, text=True, check=True).stdout
    return os.path.dirname(said.strip())
