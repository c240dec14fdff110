#!/usr/bin/env python3
"""Tests of kinds.py on copies of what the table of kinds makes: that it finds what differs, and mends it.

    python3 tools/test_kinds.py

A line a test that fails; the last line is 'N passed, M failed'.
"""
import os
import re
import subprocess
import sys
import tempfile
from contextlib import contextmanager

from tested import told
from kinds.blocks import BadTable
from kinds.documents import begin
from kinds.follow import TABLE, files_of, read, report
from kinds.lines import MARK
from kinds.places import GRAPH, KINDS, SYMDIR, TREE, regions_of
from kinds.regions import MARKED
from kinds.table import table_of
from kinds.tried import BAD, CHANGED, LOST, MADE, NEW_CATEGORIES, NEW_KINDS, OF_SYMDIR, SPOILT
from wrong.crates import TOP, write

TEXT = read(TOP, TABLE)
COMMAND = [sys.executable, os.path.join(TOP, 'tools', 'kinds.py')]
NAMES = [it.name for it in files_of(TOP, table_of(TEXT))]
FILES = {name: read(TOP, name) for name in (TABLE, SYMDIR, *NAMES)}


@contextmanager
def laid(file='', change=('', '')):
    """Makes a directory with the table and what is generated from it. One text of them, which is there once, is changed."""
    with tempfile.TemporaryDirectory() as folder:
        for name, text in FILES.items():
            assert name != file or text.count(change[0]) == 1, (file, change, text.count(change[0]))
            write(os.path.join(folder, name), text.replace(*change) if name == file else text)
        yield folder


def said_of(folder, writes=False):
    """Returns which parts are reported as different, and how many failed."""
    lines, _, failed = report(folder, writes)
    return [it for it in lines if it.startswith(tuple(name + ': ' for name in FILES)) and 'follow from the table' not in it], failed


def texts_of(folder):
    return {name: read(folder, name) for name in FILES}


def mended(file, change):
    """Returns the report on a spoilt copy, and after `--write` the report and whether everything is as it was."""
    with laid(file, change) as folder:
        found = said_of(folder)
        return found, said_of(folder, True), texts_of(folder) == FILES


def lost(file, change):
    """Returns the report on a copy in which a part isn't found, and whether it is also reported after `--write`."""
    with laid(file, change) as folder:
        found = said_of(folder)
        return found[0], found[1], said_of(folder, True)[0] == found[0]


def files_that_differ(change):
    """Returns the files that differ from a table with a change."""
    with laid(TABLE, change) as folder:
        return sorted({it.split(': ')[0] for it in said_of(folder)[0]})


def bad(change):
    """Returns why a text is no table, without the number of the line."""
    assert TEXT.count(change[0]) == 1, (change, TEXT.count(change[0]))
    try:
        table_of(TEXT.replace(*change))
    except BadTable as fault:
        return re.sub(r'^line \d+:? ', '', str(fault))
    return ''


def line_of_fault(old, new):
    """Returns whether the fault of a line names its number."""
    try:
        table_of(TEXT.replace(old, new))
    except BadTable as fault:
        return str(fault).startswith('line %d is' % (TEXT[: TEXT.index(old)].count('\n') + 1))
    return False


def with_new_kinds():
    """Returns which parts differ once new kinds are written, what files lack then, and which files aren't restored once the kinds are gone again."""
    kinds, categories = '\n# ---- categories', '\n# ---- fields'
    with laid() as folder:
        write(os.path.join(folder, TABLE), TEXT.replace(kinds, NEW_KINDS + kinds).replace(categories, NEW_CATEGORIES + categories))
        differ = said_of(folder, True)[0]
        made = [*MADE, (GRAPH, 'All %d kinds, with all their fields.' % (len(table_of(TEXT).kinds()) + NEW_KINDS.count('\nkind ')))]
        lack = [(name, text) for name, text in made if read(folder, name).count(text) != 1]
        write(os.path.join(folder, TABLE), TEXT)
        said_of(folder, True)
        return [it.split(':')[0] for it in differ], lack, [name for name, text in FILES.items() if read(folder, name) != text]


def command(*words, change=('', '')):
    """Returns the last line of the command on a copy, and its status."""
    with laid(TREE + 'names.rt' if change[0] else '', change) as folder:
        done = subprocess.run([*COMMAND, *words, folder], stdout=subprocess.PIPE, text=True, check=False)
        return done.stdout.rstrip('\n').split('\n')[-1].split(', ')[1], done.returncode


def of_symdir(change):
    """Returns the report on the converter's own table with a change, and whether `--write` leaves the table as it is."""
    with laid(SYMDIR, change) as folder:
        found, failed = said_of(folder)
        said_of(folder, True)
        return found, failed, read(folder, SYMDIR) == FILES[SYMDIR].replace(*change)


def counted():
    """Returns how many more passed than there are generated parts, the lines of a whole file and of parts of the page that are generated, and whether
    the total is their sum."""
    with laid() as folder:
        lines, passed, _ = report(folder)
    table = table_of(TEXT)
    found = re.findall(r'^(\S+): (\d+) of (\d+) lines follow', '\n'.join(lines), re.M)
    counts = [(name, int(follow), int(count)) for name, follow, count in found]
    whole = [it for it in counts if it[0] == KINDS + 'tys.rt']
    part = [follow for name, follow, _ in counts if name == GRAPH]
    last = '%d of %d lines follow' % (sum(it[1] for it in counts), sum(it[2] for it in counts))
    return passed - len(regions_of(table)), whole, part, lines[-1] == last


def unmarked():
    """Returns the files that are generated as a whole and don't say so in their first line."""
    return [name for name in NAMES if name != GRAPH and not FILES[name].split('\n')[0].endswith(' ' + MARK)]


def refused():
    """Returns the report on a table whose code `rt fmt` refuses, and whether everything is unchanged after `--write`."""
    with laid(TABLE, ('    is_block: flag', '    fn: flag')) as folder:
        done = subprocess.run([*COMMAND, '--write', folder], stdout=subprocess.PIPE, text=True, check=False)
        lines, other = done.stdout.split('\n'), [name for name, text in FILES.items() if read(folder, name) != text]
        return lines[0].startswith(TABLE + ': rt fmt refuses what it makes: '), lines[-2], other


def lost_alone():
    """Returns the row of categories with the kind of their name alone, once it is written where there was none, without the order of the kinds."""
    row = '| Ident, BindingIdent, Class, Function, VarDeclarator | the kind of that name alone |\n'
    with laid(GRAPH, (row, '')) as folder:
        found = said_of(folder), said_of(folder, True)
        return found, [it for it in read(folder, GRAPH).split('\n') if 'alone |' in it]


def lost_row():
    """Returns the row in the page that is generated for a kind without one."""
    row = '| `RestPat` | `...arg` | `arg` Pattern, `type_ann?` Annotation |\n'
    with laid(GRAPH, (row, '')) as folder:
        said_of(folder, True)
        return [it for it in read(folder, GRAPH).split('\n') if it.startswith('| `RestPat` |')]


def without_a_file():
    """Returns the report if a file doesn't exist."""
    with laid() as folder:
        os.remove(os.path.join(folder, KINDS + 'tys.rt'))
        return said_of(folder)


def without_a_table():
    """Returns the output of the command if the table doesn't exist, and whether everything else is unchanged after `--write`."""
    with laid() as folder:
        os.remove(os.path.join(folder, TABLE))
        done = subprocess.run([*COMMAND, '--write', folder], stdout=subprocess.PIPE, text=True, check=False)
        return done.stdout, done.returncode, [name for name, text in FILES.items() if read(folder, name) != text]


def tests():
    """Yields each test's name, with what was found and what is expected."""
    with laid() as folder:
        yield 'nothing differs without a change', said_of(folder), ([], 0)
    for name, file, change, part in SPOILT:
        yield name, mended(file, change), (([f'{file}: {part}: differs'], 1), ([], 0), True)
    for name, file, change, said in LOST:
        yield name, lost(file, change), (['%s: %s' % (file, said)], 1, True)
    for name, change, want in CHANGED:
        yield 'in the table: ' + name, files_that_differ(change), sorted(want)
    for name, change, want in BAD:
        yield 'no table: ' + name, bad(change), want
    all_lines, table = FILES[KINDS + 'tys.rt'].count('\n'), table_of(TEXT)
    # a row for each kind, a table's two first lines for each enum and for categories, their rows, and the line that counts
    rows = len(table.kinds()) + 2 * len(table.enums) + 2 + FILES[GRAPH].split(begin('categories'))[1].split(MARKED)[0].count('\n') - 3 + 1
    yield 'what is counted', counted(), (2, [(KINDS + 'tys.rt', all_lines, all_lines)], [rows], True)
    kinds = table.of_category('Any')
    found = len(kinds), 'Program' in kinds, 'Import' in kinds, 'ImportNamed' in kinds
    yield 'the kinds of a set without others', found, (len(table.kinds()) - 9, False, False, True)
    yield 'a row of several', lost_alone(), ((([GRAPH + ': categories: differs'], 1), ([], 0)),
                                             ['| Ident, Class, Function, VarDeclarator, BindingIdent | the kind of that name alone |'])
    yield 'a kind without a row', lost_row(), ['| `RestPat` | `...arg` as a pattern | `arg` Pattern, `type_ann?` Annotation |']
    yield 'the line of a fault', line_of_fault('    is_export: flag', '    is_export: bool'), True
    yield 'new kinds', with_new_kinds(), ([SYMDIR] * 5, [], [])
    for name, change, want in OF_SYMDIR:
        yield 'symdir: ' + name, of_symdir(change), (['%s: %s' % (SYMDIR, want)], 1, True)
    yield 'files without a mark', unmarked(), []
    yield 'a table whose code is refused', refused(), (True, '0 passed, 1 failed', [TABLE])
    yield 'a file that is not there', without_a_file(), (['%s: text: differs' % (KINDS + 'tys.rt')], 1)
    yield 'no table', without_a_table(), ('%s: there is no kind\n0 passed, 1 failed\n' % TABLE, 1, [TABLE])
    spoilt = ('    BigInt,\n', '')
    yield 'the command', command(), ('0 failed', 0)
    yield 'the command on what differs', command('--check', change=spoilt), ('1 failed', 1)
    yield 'the command that writes', command('--write', change=spoilt), ('0 failed', 0)


if __name__ == '__main__':
    sys.exit(told(tests()))
