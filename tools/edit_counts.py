#!/usr/bin/env python3
"""Checks the files of mutants, and their counts in docs/WRONG_BODIES.md, the only page that has any.

    python3 tools/edit_counts.py            compares
    python3 tools/edit_counts.py --write    writes the counts into the page, and compares

Each mutant has to fit the source that it changes and to stand at its place in crates/NAME/wrong/mutants. Each line of a record, crates/NAME/wrong/refused,
needs a mutant of its name. The clauses that fix how a run ends need the texts that a person signed.
A line for each number that is wrong; the last line is 'N passed, M failed'.
"""
import argparse
import os
import re
import sys

from tested import told
from wrong.clauses import named_by, unsigned_clauses
from wrong.crates import TOP, Crate, libraries_of, read, write
from wrong.mutants import misplaced
from wrong.record import lines_by_kit, path_of

PAGE = 'docs/WRONG_BODIES.md'
# the sentences and rows, each with the meaning of its numbers
SENTENCES = (
    (r'\| a check leaves a goal of a clause open \| (\d+) \|', 'refused'),
    (r'\| it breaks a proof by hand, and a run of a stored case of `symq` [^|]*\| (\d+) \|', 'broken without a clause'),
    (r'\| it breaks a proof by hand, and fails a test or a case that names the clause \| (\d+) \|', 'broken with a clause'),
    (r'\| all \| (\d+) \|', 'all'),
    (r'(\d+) mutants name a run; (\d+) of them break a proof by hand', 'named', 'broken'),
    (r'The (\d+) that name none have to be refused', 'nameless'),
)


def counted(crates):
    """Returns how many edits there are: all; with and without a run; those recorded as breaking a proof, with and without a clause, and those that
    don't."""
    lines = {it.name: [line for own in lines_by_kit(it).values() for line in own.items()] for it in crates}
    broken = {(name, edit) for name, own in lines.items() for edit, line in own if line.endswith(' broken')}
    shown = {(it.name, name): mutant.named['shown'] for it in crates for name, mutant in it.mutants().items()}
    counts = {'all': len(shown), 'named': sum(map(bool, shown.values())), 'broken': len(broken)}
    counts['broken with a clause'] = sum(bool(named_by(shown.get(it, ''))[1]) for it in broken)
    counts['broken without a clause'] = counts['broken'] - counts['broken with a clause']
    return counts | {'nameless': counts['all'] - counts['named'], 'refused': counts['all'] - counts['broken']}


def unfit(crates):
    """Returns the reasons why edits can't be made, by crate and name. Usually an old text isn't in its file exactly once."""
    return {'%s/%s' % (it.name, name): why for it in crates for name, why in it.edits(it.names())[1].items()}


def at_wrong_places(crates):
    """Returns the places of mutants that stand below one that belongs below them."""
    found = [(os.path.relpath(it.mutants_path(), it.top), mutant) for it in crates for mutant in misplaced(list(it.mutants().values()))]
    return ['%s:%d: %s' % (path, it.line, it.name) for path, it in found]


def without_mutants(crates):
    """Returns the lines of records whose mutants are gone, each with its place."""
    found = []
    for crate in (it for it in crates if os.path.isfile(path_of(it))):
        path, names = os.path.relpath(path_of(crate), crate.top), crate.names()
        lines = enumerate(read(path_of(crate)).splitlines(), 1)
        found += ['%s:%d: there is no mutant %s' % (path, n, it.split()[0]) for n, it in lines if not it.startswith('kit: ') and it.split()[0] not in names]
    return found


def loose(pattern):
    """Returns a pattern that finds a sentence whose words stand on one line or more."""
    return re.compile(pattern.replace(' ', r'\s+'))


def numbers_in(text, pattern):
    """Returns the numbers in the only sentence of this form; none if there isn't exactly one."""
    found = list(loose(pattern).finditer(text))
    return [int(it) for it in found[0].groups()] if len(found) == 1 else []


def with_counts(text, counts):
    """Returns the text of the page with the right numbers."""
    for pattern, *names in SENTENCES:
        for found in loose(pattern).finditer(text):
            for at, name in reversed([*enumerate(names, 1)]):
                text = text[: found.start(at)] + str(counts[name]) + text[found.end(at) :]
            break
    return text


def checks(top):
    """Yields each sentence with its numbers and the right ones, and what is wrong with mutants and clauses."""
    libraries, page = libraries_of(top), read(os.path.join(top, PAGE))
    crates = [Crate(top, name, libraries) for name in libraries]
    counts = counted(crates)
    for pattern, *names in SENTENCES:
        yield '%s: %s' % (PAGE, pattern), numbers_in(page, pattern), [counts[it] for it in names]
    yield 'each edit can be made', unfit(crates), {}
    yield 'each mutant is at its place, by file and name', at_wrong_places(crates), []
    yield 'each line of a record has a mutant', without_mutants(crates), []
    yield 'each clause that fixes how a run ends has the text that was signed', unsigned_clauses(top), {}


def write_counts(top):
    """Writes the counts into the page."""
    libraries, path = libraries_of(top), os.path.join(top, PAGE)
    text = read(path)
    new = with_counts(text, counted([Crate(top, name, libraries) for name in libraries]))
    if new != text:
        write(path, new)


def main():
    parser = argparse.ArgumentParser(description='Checks the files of mutants, and their counts in %s.' % PAGE)
    parser.add_argument('--write', action='store_true', help='writes the counts into the page, and compares')
    if parser.parse_args().write:
        write_counts(TOP)
    return told(checks(TOP))


if __name__ == '__main__':
    sys.exit(main())
