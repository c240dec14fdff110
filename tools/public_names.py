#!/usr/bin/env python3
"""Compares the table of public names, docs/PUBLIC.md, with the sources of the crates.

    python3 tools/public_names.py                   this repository
    python3 tools/public_names.py FOLDER            another one, with its crates.txt, crates/ and docs/
    python3 tools/public_names.py --write [FOLDER]  makes its tables from the sources, and compares
    python3 tools/public_names.py --move [FOLDER]   moves rows that say 'not there yet' to the locations of their names

docs/PUBLIC.md says what a row is. All but its beginning and its part 'Left out' is generated, in the order of modules: for each item a row with these
entries, and with the first sentence of its comment: itself with its fields or variants, its numbered fields, its methods, its traits. An entry is wrong

    if its row has a location without such a public item, part or trait
    if its row says 'not there yet' or 'left out', and the name exists
    if its row says 'left out', and docs/DIFFERENCES.md doesn't have the name
    if the page has it twice

and a row is wrong if it can't be read or has entries of several items. A public name of a library lacks a row if no row names it at one of its locations.
Libraries are the crates of crates.txt that have src/lib.rt, except for those whose names end in `_test_support`, which only tests use. Public is what a
user can write: `pub` items that are reachable by `pub mod` and `pub use` from the crate's root, their `pub` fields and methods, variants, the items of a
trait, and traits that are implemented by hand. Items for contracts alone aren't public: `ghost` parts, and the trait `Model`. Kinds and categories, which
tools/kinds.py generates, are in docs/GRAPH.md.

The page also has to be as it is generated. The sources are read in the layout of `rt fmt`, and unsupported forms fail too: `pub use` of all names, or of
one that doesn't exist, a module within a file, two items of one name in a crate. Each fault has a line, and each name without a row has the row that it
needs; the last line is 'N passed, M failed'.
"""
import os
import re
import sys
from dataclasses import dataclass, field

from kinds.lines import MARK
from wrong.crates import IMPL, TOP, read, write

NOT_YET, LEFT_OUT = 'not there yet', 'left out'
# where the part that isn't generated begins again
END = '## Left out'
# the end of the names of libraries that only tests use
OF_TESTS = '_test_support'

LINK = re.compile(r'\[([^]]*)\]\([^)]*\)')
ROW = re.compile(r'\| (`[^`]+`(?:, `[^`]+`)*) \| ([^|]+?) \|.*')
ITEM = re.compile(r'pub (?:const |unsafe )*(struct|enum|trait|fn|type|const|static) (\w+)')
MODULE = re.compile(r'(pub )?(?:pub\([a-z]+\) )?mod (\w+);')
USE = re.compile(r'pub use (.*);', re.S)
DERIVE = re.compile(r'derive\(([^)]*)\)', re.S)
FIELD = re.compile(r'    pub (?!ghost )(\w+):')
VARIANT = re.compile(r'    (\w+)(?: \{(.*)\})?[,({ ]*')
ASKED = re.compile(r'    (?:const |unsafe )*(?:fn|type|const) (\w+)')
UNREAD = re.compile(r'pub (?!ghost )|impl\b')
# a comment of an item, the attributes below it, and the item
COMMENT = re.compile(r'((?:^///.*\n)+)(?:^#\[.*\n(?:^[ )].*\n)*)*^pub (?:const |unsafe |extern "C" )*(?:struct|enum|trait|fn|type|const|static) (\w+)', re.M)
METHOD = re.compile(r'    pub (?:(?:const |unsafe )*fn|const) (\w+)')
LIFETIME = re.compile(r"(?<=&)'\w+ ")


@dataclass(eq=False)
class Item:
    """A public item: its parts as `.field` and `::method`, the fields of its variants, its traits, and derived ones."""

    name: str
    parts: set = field(default_factory=set)
    # the parts in the order of the sources, and the first sentence of its comment
    order: list = field(default_factory=list)
    about: str = ''
    fields: dict = field(default_factory=dict)
    traits: set = field(default_factory=set)
    derived: set = field(default_factory=set)


@dataclass
class Module:
    """A module as its file has it: public items, all child modules, and what `pub use` names."""

    items: dict = field(default_factory=dict)
    children: dict = field(default_factory=dict)
    uses: dict = field(default_factory=dict)
    impls: list = field(default_factory=list)
    unread: list = field(default_factory=list)


@dataclass(frozen=True)
class Entry:
    """An entry of a row, with the row's line and location: a type or function, some of its parts, or its traits."""

    line: int
    name: str
    place: str
    base: str
    whole: bool = True
    parts: tuple = ()
    fields: tuple = ()
    traits: tuple = ()


def chunks(text):
    """Returns the items of a file with their lines: each begins at the margin with a word or an attribute."""
    found = []
    for line in text.split('\n'):
        if re.match(r'[\w#]', line):
            found.append([line])
        elif found and not line.lstrip().startswith('//'):
            found[-1].append(line)
    return found


def used(tree, before=()):
    """Returns the paths that a `use` names, as pairs of the new name and the path."""
    tree = tree.strip()
    if '{' in tree:
        head, rest = tree.split('{', 1)
        before += tuple(head.strip().rstrip(':').split('::')) if head.strip() else ()
        return [pair for part in split_list(rest.rstrip().rstrip('}')) for pair in used(part, before)]
    path, _, other = tree.partition(' as ')
    path = before + tuple(path.split('::'))
    path = path[:-1] if path[-1] == 'self' else path
    return [(other or path[-1], path)]


def split_list(text):
    """Splits a list at commas, except within braces."""
    parts, depth = [''], 0
    for letter in text:
        depth += (letter == '{') - (letter == '}')
        if letter == ',' and not depth:
            parts.append('')
        else:
            parts[-1] += letter
    return [part.strip() for part in parts if part.strip()]


def add_parts(item, parts):
    """Adds parts to an item, each once."""
    item.order += [it for it in parts if it not in item.parts]
    item.parts.update(parts)


def first_sentence(comment):
    """Returns the first sentence of a comment, without remarks in parentheses on the Rust crate."""
    text = ' '.join(it[3:].strip() for it in comment.strip().split('\n')).split('  ')[0]
    return re.split(r'(?<=[.:])\s+(?=[A-Z])', re.sub(r' ?\((?:own|extension|as deno_graph)[^()]*\)', '', text))[0].rstrip(':').replace('|', '/')


def read_parts(item, kind, lines):
    """Adds the public parts of a struct, an enum or a trait from its lines."""
    if kind == 'struct' and lines[0].rstrip().endswith(');'):
        held = split_list(lines[0][lines[0].index('(') + 1 : lines[0].rindex(')')])
        add_parts(item, ['.%d' % n for n, text in enumerate(held) if text.startswith('pub ')])
    variant = ''
    for line in lines[1:]:
        form = {'struct': FIELD, 'enum': VARIANT, 'trait': ASKED}.get(kind)
        found = form and form.match(line)
        if found:
            add_parts(item, [('.' if kind == 'struct' else '::') + found[1]])
        if found and kind == 'enum':
            variant = found[1]
            item.fields[variant] = re.findall(r'(\w+):', found[2] or '')
        elif kind == 'enum' and re.match(r' {8}\w+:(?!:)', line):
            item.fields[variant].append(line.split(':')[0].strip())


def read_impl(module, lines):
    """Records what an `impl` adds to its type: methods, or a trait."""
    head = IMPL.match(lines[0])
    trait = LIFETIME.sub('', re.sub(r'^(\w+::)+', '', head['trait'] or ''))
    methods = [] if trait else ['::' + found[1] for found in map(METHOD.match, lines) if found]
    module.impls.append((head['type'], trait, methods))
    if not trait:
        module.unread += [line.strip() for line in lines if UNREAD.match(line[4:]) and not METHOD.match(line)]


def read_module(text):
    module, derived, about = Module(), set(), {name: first_sentence(comment) for comment, name in COMMENT.findall(text)}
    for lines in chunks(text):
        whole = '\n'.join(lines)
        item, child, use = ITEM.match(whole), MODULE.match(whole), USE.match(whole)
        if item:
            made = Item(item[2], derived=derived, about=about.get(item[2], ''))
            read_parts(made, item[1], lines)
            module.items[item[2]] = made
        elif child:
            module.children[child[2]] = bool(child[1])
        elif use and '*' not in use[1]:
            module.uses.update(used(use[1]))
        elif IMPL.match(lines[0]):
            read_impl(module, lines)
        elif UNREAD.match(whole):
            module.unread.append(lines[0])
        words = DERIVE.search(whole) if whole.startswith('#') else None
        derived = set(re.findall(r'\w+', words[1])) if words else derived if whole.startswith('#') else set()
    if text.startswith('// ' + MARK):
        leave_variants(module)
    return module


def leave_variants(module):
    """Leaves the kinds and categories out, which docs/GRAPH.md has from the same table. An enum stays whole whose variants are items of the module."""
    for item in module.items.values():
        variants = [it for it in item.order if re.match('::[A-Z]', it)]
        if any(it[2:] not in module.items for it in variants):
            item.order, item.fields = [it for it in item.order if it not in variants], {}
            item.parts -= set(variants)


class Sources:
    """The libraries of a repository: modules by their paths, and the locations of each public item."""

    def __init__(self, folder):
        self.modules, self.places, self.unread = {}, {}, []
        listed = re.findall(r'^(\w+):', read(os.path.join(folder, 'crates.txt')), re.M)
        paths = {name: os.path.join(folder, 'crates', name, 'src') for name in listed}
        libraries = [name for name in listed if os.path.exists(os.path.join(paths[name], 'lib.rt')) and not name.endswith(OF_TESTS)]
        for name in libraries:
            self.read_file((name,), os.path.join(paths[name], 'lib.rt'), paths[name])
            self.give_impls(name)
        for name in libraries:
            self.visit((name,), (name,))

    def read_file(self, path, file, folder):
        module = self.modules[path] = read_module(read(file))
        self.unread += ['%s: %s' % ('::'.join(path), line) for line in module.unread]
        for child in module.children:
            self.read_file(path + (child,), os.path.join(folder, child + '.rt'), os.path.join(folder, child))

    def give_impls(self, crate):
        """Adds to the types of a crate what its `impl`s have for them, wherever these are."""
        own = [module for path, module in self.modules.items() if path[0] == crate]
        items, names = {}, [name for module in own for name in module.items]
        self.unread += ['%s: %s is a name of two items' % (crate, name) for name in set(names) if names.count(name) > 1]
        for module in own:
            items.update(module.items)
        for module in own:
            for name, trait, methods in module.impls:
                if name in items:
                    add_parts(items[name], methods)
                    items[name].traits.update({trait} - {'', 'Model'})

    def target(self, module, path):
        """Returns what a path in a module resolves to: an item, or the path of a module; None outside the libraries."""
        if path[0] in ('crate', 'self', 'super'):
            module = {'crate': module[:1], 'self': module, 'super': module[:-1]}[path[0]]
        elif path[0] in self.modules[module].children:
            module += (path[0],)
        elif (path[0],) in self.modules:
            module = (path[0],)
        else:
            return None
        for word in path[1:]:
            here = self.modules[module]
            if word in here.children:
                module += (word,)
            elif word in here.items:
                return here.items[word]
            elif word in here.uses:
                return self.target(module, here.uses[word])
            else:
                return None
        return module

    def visit(self, place, path):
        """Records the location of each public item below a module that is reachable under this path."""
        module = self.modules[path]
        found = {name: path + (name,) for name, is_public in module.children.items() if is_public}
        found.update({name: self.target(path, used) for name, used in module.uses.items()})
        found.update(module.items)
        for name, way in module.uses.items():
            if found[name] is None and way[0] in ('crate', 'self', 'super', *module.children):
                self.unread.append('%s: %s leads nowhere' % ('::'.join(path), '::'.join(way)))
        for name, what in found.items():
            if isinstance(what, Item):
                self.places.setdefault(what, []).append(('::'.join(place), name))
            elif what:
                self.visit(place + (name,), what)

    def items_at(self, place, name):
        return [item for item, places in self.places.items() if (place, name) in places]

    def items_of(self, name):
        return [item for item, places in self.places.items() if any(name == other for _, other in places)]


def entry_of(number, name, place):
    """Returns the entry of a name and a location; None if the name doesn't have the form."""
    if trait := re.fullmatch(r'(\w+): (\w.*)', name):
        return Entry(number, name, place, trait[1], whole=False, traits=tuple(re.split(r', (?=\w)(?![^<]*>)', trait[2])))
    if methods := re.fullmatch(r'(\w+)::\{(.*)\}', name):
        return Entry(number, name, place, methods[1], whole=False, parts=tuple('::' + it for it in split_list(methods[2])))
    if part := re.fullmatch(r'(\w+)((?:::|\.)\w+)', name):
        return Entry(number, name, place, part[1], whole=False, parts=(part[2],))
    if group := re.fullmatch(r'(\w+) \{ (.*) \}', name):
        words = [re.match(r'(\w+)(?: \{ (.*) \})?', word) for word in split_list(group[2])]
        fields = tuple((word[1], set(split_list(word[2]))) for word in words if word[2])
        parts = tuple(('::' if word[1][0].isupper() else '.') + word[1] for word in words)
        return Entry(number, name, place, group[1], parts=parts, fields=fields)
    return Entry(number, name, place, name) if re.fullmatch(r'\w+', name) else None


def entries_of(text):
    """Returns the entries of the rows, by the numbers of their lines, and the lines that look like rows and are none."""
    entries, odd = [], []
    for number, line in enumerate(text.split('\n'), 1):
        found = ROW.fullmatch(line)
        place = LINK.sub(r'\1', found[2]).strip('`') if found else ''
        own = [entry_of(number, name, place) for name in re.findall('`([^`]+)`', found[1])] if found else []
        entries += filter(None, own)
        if line.startswith('| `') and (None in own or len({it.base for it in own if it}) != 1):
            odd.append('line %d is no row: %s' % (number, line))
    return entries, odd


def lacking(entry, item):
    """Returns what an entry names that the item doesn't have."""
    if entry.traits:
        return [it for it in entry.traits if it not in item.traits | item.derived]
    wrong = [name for name, fields in entry.fields if name in item.fields and set(item.fields[name]) != fields]
    lacks = [part.lstrip(':.') for part in entry.parts if part not in item.parts]
    return lacks + ['%s with these fields' % name for name in wrong]


def cell_of(names):
    return ', '.join('`%s`' % it for it in names)


def row_of(names, place):
    """Returns the first two cells of a row: the names of an item, and its location."""
    return '| %s | `%s` |' % (cell_of(names), place)


def found_at(entry, sources):
    """Returns a location of what an entry names; '' if the sources don't have it."""
    items = [item for item in sources.items_of(entry.base) if entry.whole or not lacking(entry, item)]
    return sources.places[items[0]][-1][0] if items else ''


def fault_of(entry, sources, differences):
    """Returns what is wrong with an entry, if anything."""
    if entry.place not in (NOT_YET, LEFT_OUT):
        items = sources.items_at(entry.place, entry.base)
        lacks = lacking(entry, items[0]) if items else [entry.base]
        return '%s has no public %s' % (entry.place, ', '.join(lacks)) if lacks else ''
    place = found_at(entry, sources)
    if place:
        return 'is there: ' + row_of([entry.name], place)
    if entry.place == LEFT_OUT and '`%s`' % entry.name not in differences:
        return 'is left out, and docs/DIFFERENCES.md has no `%s`' % entry.name
    return ''


def names_without(item, place, entries):
    """Returns the names of an item that no entry has, as the entries would have them."""
    own = [entry for entry in entries if entry.base == place[1]]
    covered = {part for entry in own for part in entry.parts}
    missing = [] if any(entry.whole for entry in own) else [place[1]]
    missing += [place[1] + part for part in sorted(item.parts - covered)]
    return missing + ['%s: %s' % (place[1], it) for it in sorted(item.traits - {it for entry in own for it in entry.traits})]


def all_names(item):
    return 1 + len(item.parts) + len(item.traits)


def check(folder):
    """Returns how many entries and names are right, and a line for each that isn't."""
    sources, text = Sources(folder), read(os.path.join(folder, 'docs', 'PUBLIC.md'))
    differences = read(os.path.join(folder, 'docs', 'DIFFERENCES.md'))
    entries, faults = entries_of(text)
    faults += ['not read: ' + line for line in sources.unread]
    passed, seen = 0, set()
    for entry in entries:
        fault = 'stands twice' if entry.name in seen else fault_of(entry, sources, differences)
        seen.add(entry.name)
        passed += not fault
        faults += ['line %d: %s %s' % (entry.line, entry.name, fault)] if fault else []
    for item, places in sources.places.items():
        own = [entry for entry in entries if (entry.place, entry.base) in places]
        own += [entry for entry in entries if entry.place in (NOT_YET, LEFT_OUT) and entry.base == places[-1][1]]
        missing = names_without(item, places[-1], own)
        passed += all_names(item) - len(missing)
        faults += ['no row: ' + row_of([name], places[-1][0]) for name in missing]
    return passed, faults


def unlike(folder):
    """Returns the lines of the page that differ from the generated ones, and those that it lacks."""
    text = read(os.path.join(folder, 'docs', 'PUBLIC.md'))
    lines, others = text.split('\n'), made(folder, text).split('\n')
    found = ['isn\'t made so: ' + it for it in lines if it not in others] + ['is made so: ' + it for it in others if it not in lines]
    return found or ([] if lines == others else ['the lines are made in another order'])


def with_fields(item, part):
    """Returns a variant with its fields, or a field of a struct."""
    fields = item.fields.get(part.lstrip(':'), ())
    return part.lstrip(':.') + (' { %s }' % ', '.join(fields) if fields else '')


def row_for(item, place, name):
    """Returns the row of an item at its location: itself with its fields or variants, numbered fields, methods, traits."""
    held = [it for it in item.order if it[0] == '.' and not it[1:].isdigit() or it.startswith('::') and it[2:3].isupper()]
    methods = [it[2:] for it in item.order if it.startswith('::') and not it[2:3].isupper()]
    names = [name + (' { %s }' % ', '.join(with_fields(item, it) for it in held) if held else '')]
    names += [name + it for it in item.order if it[0] == '.' and it[1:].isdigit()]
    names += ['%s::{%s}' % (name, ', '.join(methods))] if methods else []
    names += ['%s: %s' % (name, ', '.join(sorted(item.traits)))] if item.traits else []
    return '%s %s |' % (row_of(names, place), item.about)


def made(folder, text):
    """Returns the page as generated from the sources: its beginning, the table, and the part 'Left out' unchanged."""
    sources, parts = Sources(folder), {}
    for item, places in sources.places.items():
        place, name = places[-1]
        parts.setdefault(place, []).append(row_for(item, place, name))
    head = text[: text.index('\n## ') + 1]
    end = text[text.index(END) :] if END in text else ''
    rows = [it for _, own in sorted(parts.items()) for it in own]
    return head + '\n'.join(['## Names', '', '| name | is in | what it is |', '|---|---|---|', *rows, '', end])


def move(folder):
    """Moves the entries of rows that say 'not there yet' to the locations of their names; the others of these rows stay."""
    sources, path = Sources(folder), os.path.join(folder, 'docs', 'PUBLIC.md')
    lines, moved = read(path).split('\n'), {}
    for entry in entries_of('\n'.join(lines))[0]:
        if entry.place == NOT_YET:
            moved.setdefault(entry.line, {}).setdefault(found_at(entry, sources) or NOT_YET, []).append(entry.name)
    for number, names in moved.items():
        line = lines[number - 1]
        others = line[ROW.fullmatch(line).end(1) :]
        rows = ['| ' + cell_of(own) + others if place == NOT_YET else row_of(own, place) for place, own in names.items()]
        lines[number - 1] = '\n'.join(rows)
    write(path, '\n'.join(lines))


def main():
    words = [word for word in sys.argv[1:] if word not in ('--move', '--write')]
    folder = words[0] if words else TOP
    if '--move' in sys.argv[1:]:
        move(folder)
    if '--write' in sys.argv[1:]:
        path = os.path.join(folder, 'docs', 'PUBLIC.md')
        write(path, made(folder, read(path)))
    passed, faults = check(folder)
    faults += unlike(folder)
    print(''.join(line + '\n' for line in faults), end='')
    print('%d passed, %d failed' % (passed, len(faults)))
    return 1 if faults else 0


if __name__ == '__main__':
    sys.exit(main())
