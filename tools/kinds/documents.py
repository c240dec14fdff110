"""Generates the tables of the page on graphs. The free text of a row stays: what a kind is."""
import re

from .lines import clause

NUMBERS = 'no one two three four five six seven eight nine ten eleven twelve'.split()


def begin(name):
    """Returns the line that marks where a part of the page begins."""
    return '<!-- generated from tools/kinds/kinds.txt by tools/kinds.py --write: %s -->' % name


def cells(row):
    """Returns the cells of a row: two at least."""
    found = [it.strip() for it in row.strip().strip('|').split(' | ')]
    return found if len(found) > 1 else [*found, '']


def row(*parts):
    return '| %s |' % ' | '.join(parts)


def fields_cell(kind):
    """Returns the cell with the fields of a kind: their keys with their marks, each with its category or the form of its value."""
    return ', '.join('`%s%s` %s' % (it.key, it.sort.mark, it.category or it.sort.word) for it in kind.fields)


def kinds_lines(enum, lines):
    """Returns the table of an enum's kinds. The description of a kind stays as it is; a kind without a row gets the comment of the table."""
    found = {cells(it)[0]: cells(it)[1] for it in lines[2:]}
    rows = [row('`%s`' % it.text, found.get('`%s`' % it.text, clause(it.comment)), fields_cell(it)) for it in enum.kinds]
    return [*lines[:2], *rows]


def count_lines(table, lines):
    """Returns lines that say how many kinds there are."""
    return [re.sub(r'^All \d+ kinds', 'All %d kinds' % len(table.kinds()), it) for it in lines]


class Categories:
    """The table of categories, whose rows stay in their order. A set or a category with a row is named in others; any other is replaced by its kinds."""

    def __init__(self, table, lines):
        self.table, self.lines = table, lines
        self.alone = [it.name for it in table.categories.values() if it.kinds == (it.name,)]
        self.rows = [cells(it)[0].split(', ') for it in lines[2:]]
        self.stands = {cells(it)[0]: cells(it)[1].split(', ') for it in lines[2:]}
        self.named = {name for names in self.rows for name in names}

    def texts(self, names):
        text = {kind.name: kind.text for kind in self.table.kinds()}
        return ['`%s`' % text[it] for it in names]

    def of_sets(self, names):
        """Returns the kinds of sets, by the names of those that have a row."""
        return [part for it in names for part in ([it] if it in self.named else self.texts(self.table.of_set(it)))]

    def beside(self, name):
        """Returns the kinds of a set without a row, by the set with one that has them beside another."""
        for it in self.table.sets.values():
            if name in it.all_of and len(it.all_of) == 2:
                other, count = it.all_of[1 - it.all_of.index(name)], len(self.table.of_set(name))
                return 'the %s that %s has and %s lacks' % (dict(enumerate(NUMBERS)).get(count, count), it.name, other)
        return ', '.join(self.of_sets([name]))

    def in_order(self, name, parts):
        """Returns parts in the order in which the row has them, and then those that it lacks."""
        stands = self.stands.get(name, [])
        return ', '.join(sorted(parts, key=lambda it: stands.index(it) if it in stands else len(stands)))

    def told(self, name):
        """Returns the description of the kinds of a category or set."""
        one = self.table.sets.get(name)
        if not one:
            return self.in_order(name, self.texts(self.table.categories[name].kinds))
        if one.none_of:
            return 'all kinds but %s and %s' % (', '.join(self.texts(one.but)), ' and '.join(map(self.beside, one.none_of)))
        if one.but:
            return '%s but for %s' % (', '.join(self.of_sets(one.all_of)), ', '.join(self.texts(one.but)))
        return self.in_order(name, [*self.of_sets(one.all_of), *self.texts(one.kinds)])

    def alone_row(self, names):
        """Returns the row of the categories that have only the kind of their name, in the order of the page."""
        kept = [it for it in dict.fromkeys(names) if it in self.alone]
        return row(', '.join([*kept, *(it for it in self.alone if it not in kept)]), 'the kind of that name alone')

    def made(self):
        """Returns the table: obsolete rows are dropped, and a category without a row gets one at the end."""
        rows, known = {}, {*self.table.sets, *self.table.categories}.difference(self.alone)
        for names in self.rows:
            if names[0] in known and len(names) == 1:
                rows[names[0]] = row(names[0], self.told(names[0]))
            elif set(names) & set(self.alone):
                rows['alone'] = self.alone_row(names)
        for name in self.table.categories:
            if name in known and name not in rows:
                rows[name] = row(name, self.told(name))
        if self.alone and 'alone' not in rows:
            rows['alone'] = self.alone_row([])
        return [*self.lines[:2], *rows.values()]
