#!/usr/bin/env python3
"""Tests how files of mutants are read and written, and that edit_counts.py finds what is wrong with them and with the counts.

    python3 tools/test_mutants.py

A line a test that fails; the last line is 'N passed, M failed'.
"""
import os
import sys
import tempfile

import edit_counts
from tested import told
from wrong.crates import BadEdit, Crate, libraries_of, read, write
from wrong.mutants import FILE, BadMutants, parsed, text_of, with_shown

MUTANTS = '''mutant: first
file: src/a.rt
old:     one
new:     two 
old: a: b
new:

mutant: second
file: src/a.rt
in: a::f
impl: impl Eq for A { }
shown: tests/cases/a

mutant: before
file: src/b.rt
in: f
old: one
new: two
'''
FIRST, SECOND, BEFORE = MUTANTS.split('\n\n')

# what is malformed, a text of a file, and what is said of it
MALFORMED = (
    ('a line without a key', FIRST.replace('old:     one', 'one'), '3: no line of a mutant'),
    ('another key', FIRST.replace('file:', 'files:'), '2: no line of a mutant'),
    ('a key without a space', FIRST.replace('file: ', 'file:'), '2: no line of a mutant'),
    ('no name', FIRST.replace('mutant: first', 'mutant:'), "1: a section begins with a line 'mutant: NAME'"),
    ('a name of two words', FIRST.replace('first', 'the first'), '1: a section begins'),
    ('a section without a heading', '%s\n\n%s' % (FIRST, SECOND.split('\n', 1)[1]), '8: a section begins'),
    ('an empty line in a section', FIRST.replace('old: a', '\nold: a'), '6: a section begins'),
    ('two sections without an empty line', '%s\n%s' % (FIRST, SECOND), "7: a second line 'mutant:'"),
    ('two files', FIRST + '\nfile: src/b.rt', "7: a second line 'file:'"),
    ('no file', '%s\n\n%s' % (FIRST, BEFORE.replace('file: src/b.rt\n', '')), '8: it names no file'),
    ('an empty file', FIRST.replace('file: src/a.rt', 'file:'), '1: it names no file'),
    ('no pair', 'mutant: a\nfile: src/a.rt\nin: f', '1: it has no pair'),
    ('an impl without a function', SECOND.replace('in: a::f\n', ''), '1: it has no pair'),
    ('an old text without a new one', FIRST + '\nold: c', "7: no line 'new:' follows"),
    ('two old texts', FIRST.replace('new:     two', 'old:     two'), "4: a line 'old:'"),
    ('a new text alone', FIRST + '\nnew: c', "7: a line 'old:'"),
    ('an empty old text', FIRST.replace('old: a: b', 'old:'), "5: a line 'old:'"),
    ('a key between old and new', FIRST.replace('old: a: b', 'old: a: b\nin: f'), "6: a line 'old:'"),
    ('a second mutant of a name', '%s\n\n%s' % (MUTANTS, FIRST), '21: a second mutant first: the first is in line 1'),
)

SOURCE = 'pub fn f() -> u8 {\n    1\n}\n\npub fn g() -> u8 {\n    2\n}\n'
OWN = '''mutant: more
file: src/a.rt
old: 1
new: 2
shown: tests/cases/a

mutant: none
file: src/a.rt
old: 2
new: 0
'''
RECORD = 'kit: a kit\nmore 1f broken\nnone 2e\n'
PAGE = '''| a check leaves a goal of a clause open | 1 |
| it breaks a proof by hand, and a run of a stored case of `symq` ends as no contract allows | 1 |
| it breaks a proof by hand, and fails a test or a case that names the clause | 0 |
| all | 2 |

1 mutants name a run; 1 of them
break a proof by hand. The 1 that name none have to be refused.
'''
FILES = {'crates.txt': 'low:\nhigh: low\n', 'crates/low/src/a.rt': SOURCE, 'crates/low/' + FILE: OWN, 'crates/low/wrong/refused': RECORD, edit_counts.PAGE: PAGE}
THIRD = '\nmutant: other\nfile: src/a.rt\nold: 1\nnew: 3\n'

# a name, the file whose text is changed, the change, and the checks that fail then, each with what it finds
CHANGES = (
    ('nothing', '', ('', ''), {}),
    ('a text that stands nowhere', 'crates/low/' + FILE, ('old: 2', 'old: 3'), {'each edit can be made': {'low/none': 'an old text stands 0 times in src/a.rt: 3'}}),
    ('no such file', 'crates/low/' + FILE, ('src/a.rt\nold: 2', 'src/b.rt\nold: 2'), {'each edit can be made': {'low/none': 'there is no src/b.rt'}}),
    ('another order', 'crates/low/' + FILE, ('mutant: none', 'mutant: many'), {
        'each mutant is at its place, by file and name': ['crates/low/wrong/mutants:7: many'],
        'each line of a record has a mutant': ['crates/low/wrong/refused:3: there is no mutant none'],
    }),
    ('a mutant without a record', 'crates/low/wrong/refused', ('none 2e\n', ''), {}),
    ('a mutant that is gone', 'crates/low/wrong/refused', ('none 2e', 'gone 2e'), {'each line of a record has a mutant': ['crates/low/wrong/refused:3: there is no mutant gone']}),
    ('another count', edit_counts.PAGE, ('| all | 2 |', '| all | 3 |'), {edit_counts.PAGE + r': \| all \| (\d+) \|': [3]}),
    ('a sentence that is gone', edit_counts.PAGE, ('| all | 2 |\n', ''), {edit_counts.PAGE + r': \| all \| (\d+) \|': []}),
)


def faults(text):
    """Returns what is said of a text of a file of mutants; empty if it can be read."""
    try:
        parsed('m', text)
    except BadMutants as error:
        return str(error).split('\n')
    return []


def tests_of_texts():
    """Tests how texts are read and written."""
    found = parsed('m', MUTANTS)
    yield 'mutants are read', list(found), ['first', 'second', 'before']
    yield 'texts are those after the space', found['first'].pairs, (('    one', '    two '), ('a: b', ''))
    keys = [[it.named[key] for key in ('file', 'in', 'impl', 'shown')] for it in found.values()]
    yield 'keys are read', keys[1:], [['src/a.rt', 'a::f', 'impl Eq for A { }', 'tests/cases/a'], ['src/b.rt', 'f', '', '']]
    yield 'what is read is written', text_of(found.values()), MUTANTS
    yield 'and sorted by file and name', text_of(reversed(found.values())), MUTANTS
    yield 'no mutants are read and written', (parsed('m', ''), text_of([])), ({}, '')
    yield 'empty lines may be more than one', list(parsed('m', '\n' + MUTANTS.replace('\n\n', '\n\n\n'))), list(found)
    for name in ('first', 'before'):
        written = parsed('m', with_shown(MUTANTS, found[name], 'tests/forms/a:2'))
        shown = {it: own.named['shown'] for it, own in written.items()}
        yield 'what shows %s is written' % name, shown, {it: own.named['shown'] for it, own in found.items()} | {name: 'tests/forms/a:2'}
        yield 'as the last line of ' + name, written[name].lines, (*found[name].lines, 'shown: tests/forms/a:2')
    for name, text, want in MALFORMED:
        lines = faults(text)
        yield name, len(lines) == 1 and lines[0].startswith('m:' + want) or lines, True
    yield 'each malformed section is named', [it.split(': ')[0] for it in faults('%s\n\nx\n\n%s\n\ny' % (FIRST, SECOND))], ['m:8', 'm:16']


def laid(folder, file='', change=('', '')):
    """Makes a repository with mutants, with one text of it changed."""
    for name, text in FILES.items():
        assert name != file or text.count(change[0]) == 1, change
        write(os.path.join(folder, name), text.replace(*change) if name == file else text)


def wrong_in(folder):
    """Returns the checks that fail in the repository, each with what it finds, but the last one, of the clauses of symq."""
    return {name: found for name, found, want in [*edit_counts.checks(folder)][:-1] if found != want}


def tests_of_crates(folder):
    """Tests that a crate names what is wrong with its mutants, with file and line."""
    laid(folder)
    crate = Crate(folder, 'low', libraries_of(folder))
    yield 'names are those of the file', crate.names(), ['more', 'none']
    yield 'a crate without the file has none', Crate(folder, 'high', libraries_of(folder)).names(), []
    try:
        crate.edit('other')
        said = ''
    except BadEdit as error:
        said = str(error)
    yield 'a name that is not there', said, 'crates/low/wrong/mutants has no mutant other'
    write(os.path.join(folder, 'crates', 'low', FILE), OWN.replace('new: 0', 'none: 0'))
    try:
        crate.edits(['more'])
        said = ''
    except SystemExit as error:
        said = str(error)
    yield 'a malformed file ends each program', said.split(': ')[0], 'crates/low/wrong/mutants:10'


def tests_of_counts():
    """Tests that each wrong count is found, and that all are written."""
    for name, file, change, want in CHANGES:
        with tempfile.TemporaryDirectory() as folder:
            laid(folder, file, change)
            yield name, wrong_in(folder), want
    with tempfile.TemporaryDirectory() as folder:
        laid(folder)
        write(os.path.join(folder, 'crates/low', FILE), OWN + THIRD)
        write(os.path.join(folder, 'crates/high', FILE), OWN)
        write(os.path.join(folder, 'crates/high/src/a.rt'), SOURCE)
        yield 'counts of more mutants', len(wrong_in(folder)), 4
        edit_counts.write_counts(folder)
        yield 'counts are written', wrong_in(folder), {}
        yield 'and nothing else', read(os.path.join(folder, edit_counts.PAGE)).split('\n')[-3:-1], ['2 mutants name a run; 1 of them', 'break a proof by hand. The 3 that name none have to be refused.']


def tests():
    """Yields each test's name, with what was found and what is expected."""
    yield from tests_of_texts()
    with tempfile.TemporaryDirectory() as folder:
        yield from tests_of_crates(folder)
    yield from tests_of_counts()


if __name__ == '__main__':
    sys.exit(told(tests()))
