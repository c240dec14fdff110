"""The table of kinds, as it is read from its text."""
import re
from dataclasses import dataclass, field

from .blocks import BadTable, blocks_of
from .rules import hold
from .sorts import SORTS, Sort

FIELD = re.compile(r'(\w+): (%s)(?: of (\w+))?(?:, under (\w+))?' % '|'.join(sorted(SORTS, key=len, reverse=True)))
NAMES = re.compile(r'(?:(all of|none of|but) )?(\w+(?:, \w+)*)')


def small(name):
    """Returns a name in lower case, with an underscore between its words."""
    return re.sub(r'(?<=[a-z0-9])(?=[A-Z])', '_', name).lower()


@dataclass(frozen=True)
class Field:
    """A field of a kind: its category is empty if it holds no children."""

    name: str
    sort: Sort
    category: str
    key: str

    def is_list(self):
        return self.sort.children == 'many'


@dataclass(frozen=True)
class Kind:
    """A kind: its enum, its name in a graph, the function that reads it, whether it is tried before all others, and its fields in order."""

    enum: str
    name: str
    comment: str
    text: str
    reader: str
    is_first: bool
    fields: tuple

    def children(self):
        """Returns the fields that hold children."""
        return [it for it in self.fields if it.sort.children]

    def pattern(self, names):
        """Returns the pattern that names these of its fields."""
        rest = ['..'] if len(names) < len(self.fields) else []
        return '%s::%s { %s }' % (self.enum, self.name, ', '.join([*names, *rest]))


@dataclass(frozen=True)
class Enum:
    """An enum of kinds, with the comment of the function that reads its kinds."""

    name: str
    comment: str
    reader: str
    kinds: list = field(default_factory=list)

    def small(self):
        return small(self.name)


@dataclass(frozen=True)
class Set:
    """A set of kinds: named kinds, all kinds of other sets but some, or no kinds of another but some."""

    name: str
    comment: str
    tester: str
    kinds: tuple = ()
    all_of: tuple = ()
    none_of: tuple = ()
    but: tuple = ()

    def test(self):
        """Returns the function that tests for its kinds."""
        return 'is_' + self.tester


@dataclass(frozen=True)
class Category:
    """The kinds that a field allows; none are named if they are those of the set of this name."""

    name: str
    comment: str
    kinds: tuple = ()


@dataclass
class Table:
    """The table: enums with their kinds, sets and categories in order, and the blocks on names of fields."""

    enums: list = field(default_factory=list)
    sets: dict = field(default_factory=dict)
    categories: dict = field(default_factory=dict)
    in_contracts: dict = field(default_factory=dict)

    def kinds(self):
        return [kind for enum in self.enums for kind in enum.kinds]

    def of_set(self, name):
        """Returns the names of the kinds of a set."""
        it = self.sets[name]
        found = [kind for other in it.all_of for kind in self.of_set(other)]
        if it.none_of:
            without = {kind for other in it.none_of for kind in self.of_set(other)}
            found = [kind.name for kind in self.kinds() if kind.name not in without]
        return [kind for kind in [*found, *it.kinds] if kind not in it.but]

    def of_category(self, name):
        """Returns the names of the kinds of a category."""
        return list(self.categories[name].kinds) or self.of_set(name)


def field_of(line, words):
    found = FIELD.fullmatch(words)
    if not found:
        raise BadTable('line %d is no field: %s' % (line, words))
    name, sort, category, key = found.groups()
    if bool(category) != bool(SORTS[sort].children):
        raise BadTable('line %d: a field has a category where it holds children, and nowhere else: %s' % (line, words))
    return Field(name, SORTS[sort], category or '', key or name)


def pairs_of(block):
    """Returns the lines of a block that are a name and a value."""
    for line, words in block.lines:
        if ': ' not in words:
            raise BadTable('line %d has no value: %s' % (line, words))
    return dict(words.split(': ', 1) for _, words in block.lines)


def names_of(block):
    """Returns the names in the lines of a block, by the word before them."""
    found = {'': (), 'all of': (), 'none of': (), 'but': ()}
    for line, words in block.lines:
        match = NAMES.fullmatch(words)
        if not match:
            raise BadTable('line %d is no list of names: %s' % (line, words))
        found[match[1] or ''] += tuple(match[2].split(', '))
    return {'kinds': found[''], 'all_of': found['all of'], 'none_of': found['none of'], 'but': found['but']}


def take_kind(table, block):
    if not table.enums:
        raise BadTable('line %d: a kind stands behind its enum' % block.line)
    fields = tuple(field_of(*it) for it in block.lines)
    text, reader = block.said.get('written', block.name), block.said.get('read by', small(block.name))
    enum = table.enums[-1]
    enum.kinds.append(Kind(enum.name, block.name, block.comment, text, reader, 'tried' in block.said, fields))


def take(table, block):
    """Adds a block to the table."""
    if block.what == 'kind':
        take_kind(table, block)
    elif block.what == 'enum':
        table.enums.append(Enum(block.name, block.comment, pairs_of(block).get('reader', '')))
    elif block.what == 'set':
        tester = block.said.get('tested by', small(block.name))
        table.sets[block.name] = Set(block.name, block.comment, tester, **names_of(block))
    elif block.what == 'category':
        found = names_of(block)
        if any(found[it] for it in found if it != 'kinds'):
            raise BadTable('line %d: a category names kinds alone, or it is of a set: %s' % (block.line, block.name))
        table.categories[block.name] = Category(block.name, block.comment, found['kinds'])
    else:
        found = pairs_of(block)
        table.in_contracts.update({block.name: found['in contracts']} if 'in contracts' in found else {})


def table_of(text):
    """Returns the table of a text, after checking its rules."""
    table, blocks = Table(), blocks_of(text)
    for block in blocks:
        take(table, block)
    hold(table, blocks)
    return table
