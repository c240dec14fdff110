"""Checks the rules of the table."""
from .blocks import BadTable

# the possible contents of a block besides its name and its comment: after its name, and in its lines as a name with a value
BESIDE = {'enum': (), 'kind': ('written', 'read by', 'tried'), 'set': ('tested by',), 'category': (), 'field': ()}
VALUES = {'enum': ('reader',), 'field': ('in contracts',)}

# the children of a node are returned in a list of this length
MOST = 5

# keys that each node has
OWN_KEYS = ('kind', 'range')


def twice(names):
    """Returns the names that occur twice."""
    return sorted({it for it in names if names.count(it) > 1})


def wrong_blocks(blocks):
    """Yields what is wrong with blocks by themselves."""
    for what, name in twice([(it.what, it.name) for it in blocks]):
        yield '%s %s stands twice' % (what, name)
    for block in blocks:
        values = [words.partition(': ')[0] for _, words in block.lines] if block.what in VALUES else []
        unknown = [it for it in block.said if it not in BESIDE[block.what]] + [it for it in values if it not in VALUES[block.what]]
        for it in unknown:
            yield '%s %s: nothing is called %s' % (block.what, block.name, it)
        for it in twice(values):
            yield '%s %s: %s stands twice' % (block.what, block.name, it)
        if block.what == 'enum' and 'reader' not in values:
            yield 'enum %s has no reader' % block.name
        if block.said.get('tried', 'first') != 'first':
            yield '%s %s: a kind is tried first, or as all others' % (block.what, block.name)
        if not block.comment and block.what not in ('category', 'field'):
            yield '%s %s has no comment' % (block.what, block.name)


def wrong_kinds(table):
    """Yields what is wrong with kinds."""
    if not table.kinds():
        yield 'there is no kind'
    for text in twice([kind.text for kind in table.kinds()]):
        yield 'two kinds are written %s' % text
    for reader in twice([(kind.enum, kind.reader) for kind in table.kinds()]):
        yield 'two kinds of %s are read by %s' % reader
    for kind in table.kinds():
        for name in twice([it.name for it in kind.fields]):
            yield '%s has two fields %s' % (kind.name, name)
        for key in twice([*OWN_KEYS, *(it.key for it in kind.fields)]):
            yield '%s has two values under the key %s' % (kind.name, key)
        if not kind.fields:
            yield '%s has no field' % kind.name
        if len(kind.children()) > MOST:
            yield '%s has more than %d fields that hold children' % (kind.name, MOST)
        for it in kind.children():
            if it.category not in table.categories:
                yield '%s.%s: there is no category %s' % (kind.name, it.name, it.category)


def wrong_set(table, one):
    """Yields what is wrong with a set. It has to name existing kinds, and sets before it, in a form that can be written."""
    before = list(table.sets)[: list(table.sets).index(one.name)]
    for other in (*one.all_of, *one.none_of):
        if other not in before:
            yield 'set %s: no set %s stands before it' % (one.name, other)
    forms = [one.kinds or len(one.all_of) > 1, one.but and len(one.all_of) == 1, one.but and len(one.none_of) == 1]
    mixed = (one.kinds and one.but) or (one.none_of and (one.kinds or one.all_of)) or (one.but and len(one.all_of) > 1)
    if mixed or not any(forms):
        yield 'set %s is of no form that is known' % one.name


def wrong_categories(table):
    """Yields what is wrong with sets and categories."""
    names = {kind.name for kind in table.kinds()}
    for one in (*table.sets.values(), *table.categories.values()):
        for kind in twice([*one.kinds, *getattr(one, 'but', ())]):
            yield '%s: %s stands twice' % (one.name, kind)
        for kind in (*one.kinds, *getattr(one, 'but', ())):
            if kind not in names:
                yield '%s: there is no kind %s' % (one.name, kind)
    for one in table.sets.values():
        yield from wrong_set(table, one)
    used = {it.category for kind in table.kinds() for it in kind.children()}
    for one in table.categories.values():
        if bool(one.kinds) == (one.name in table.sets):
            yield 'category %s has its kinds here, or in the set of its name' % one.name
        if one.name not in used:
            yield 'category %s is of no field' % one.name
        if not one.comment and one.name not in table.sets:
            yield 'category %s has no comment' % one.name


def wrong_fields(table):
    """Yields what is wrong with the blocks on names of fields."""
    names = {it.name for kind in table.kinds() for it in kind.children()}
    for name in table.in_contracts:
        if name not in names:
            yield 'no field that holds children is called %s' % name


def hold(table, blocks):
    """Raises the first fault of the table."""
    for check in (wrong_blocks(blocks), wrong_kinds(table), wrong_categories(table), wrong_fields(table)):
        for fault in check:
            raise BadTable(fault)
