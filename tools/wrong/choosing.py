"""Builds with many edits side by side: a function with edits looks up which one is chosen, and goes on with its body.

The sources are copied. A crate `chosen_edit` is added, with two functions in C: one returns the number of the chosen edit, 0 for none,
and a test calls the other to choose one. A program chooses by its arguments, if one of them has `edit-NUMBER-` in it, as in the name of a file.
"""
import os
import re
import shutil
import tempfile
from contextlib import contextmanager
from dataclasses import replace

from .crates import Crate, libraries_of, read, write
from .rooms import body_of

# the files of the repository that a build reads besides the crates
PARTS = ('HANDLES', 'tests', 'tools')
CRATE = 'chosen_edit'

LIBRARY = '''//! Which edit is chosen.
#![tactic(auto)]

unsafe extern "C" {
    /// The number of the edit that is chosen; 0 for none.
    pub safe fn chosen_edit() -> u32;

    /// Chooses an edit.
    pub safe fn choose_edit(number: u32);
}
'''

CODE = r'''#include <stdio.h>
#include <stdlib.h>
#include <string.h>

static unsigned chosen;
static int is_known;

void choose_edit(unsigned number) {
    chosen = number;
    is_known = 1;
}

/* The number in the first word of the command line that has one. */
static unsigned by_words(void) {
    static char words[1 << 16];
    FILE *file = fopen("/proc/self/cmdline", "rb");
    size_t length = file ? fread(words, 1, sizeof words - 1, file) : 0;
    if (file) fclose(file);
    for (size_t at = 0; at < length; at += strlen(words + at) + 1) {
        const char *found = strstr(words + at, "edit-");
        if (found) return (unsigned)atoi(found + 5);
    }
    return 0;
}

unsigned chosen_edit(void) {
    if (!is_known) choose_edit(by_words());
    return chosen;
}
'''


def word_of(number):
    """Returns the part of an argument that chooses the edit of this number."""
    return 'edit-%d-' % number


def parts_of(lines, function):
    """Returns the lines of a function before its body, and those within; None if it has no body on lines of its own."""
    found = body_of(lines, function)
    return (lines[function.first : found[0] + 1], lines[found[0] + 1 : found[1]]) if found else None


def choices_of(crate, edit):
    """Returns the head of the edit's function, its body and the edit's; None if the edit changes more than the body."""
    own = parts_of(crate.texts[edit.function.file].split('\n'), edit.function)
    other = parts_of(list(edit.lines), replace(edit.function, first=0, last=len(edit.lines) - 1))
    return (*own, other[1]) if own and other and own[0] == other[0] else None


def with_choices(head, body, edited, end):
    """Returns the lines of a function whose body looks up which edit is chosen: `edited` has numbers, each with a body."""
    lines = list(head)
    for number, other in edited:
        lines += ['if %s::chosen_edit() == %d {' % (CRATE, number), *other, '} else']
    return [*lines, '{', *body, '}', end]


def chosen_texts(crate, edits):
    """Returns the texts of the crate's files in which these edits can be chosen, each by its number."""
    by_function = {}
    for number, edit in edits:
        by_function.setdefault(edit.function, []).append((number, edit))
    texts = {it.file: crate.texts[it.file].split('\n') for it in by_function}
    for function in sorted(by_function, key=lambda it: -it.first):
        found = [(number, choices_of(crate, edit)) for number, edit in by_function[function]]
        head, body, _ = found[0][1]
        lines = texts[function.file]
        new = with_choices(head, body, [(number, it[2]) for number, it in found], lines[function.last])
        lines[function.first : function.last + 1] = new
    return {file: '\n'.join(lines) for file, lines in texts.items()}


def test_name(number, test):
    """Returns the name of the copy of a test that chooses an edit."""
    at, _, name = test.rpartition('::')
    return '%s%sedit_%d_%s' % (at, '::' if at else '', number, name)


def tests_of(crate):
    """Returns the tests of a crate, by their names."""
    lines = {file: text.split('\n') for file, text in crate.texts.items()}
    return ['::'.join(it.path) for it in crate.functions if it.first and lines[it.file][it.first - 1].strip() == '#[test]']


def copy_of_test(crate, number, test):
    """Returns the file of a test, and the lines of its copy that chooses an edit first; None if there is no such test."""
    function = next((it for it in crate.functions if it.path == tuple(test.split('::'))), None)
    found = parts_of(crate.texts[function.file].split('\n'), function) if function else None
    if not found:
        return None
    name = function.path[-1]
    head = [re.sub(r'\bfn %s\b' % name, 'fn ' + test_name(number, name), it) for it in found[0]]
    return function.file, ['', '#[test]', *head, '%s::choose_edit(%d);' % (CRATE, number), *found[1], '}', '']


def lay_sources(top, folder):
    """Writes the sources of the repository, without proofs, and the crate that knows which edit is chosen."""
    for part in PARTS:
        if os.path.exists(os.path.join(top, part)):
            os.symlink(os.path.join(top, part), os.path.join(folder, part))
    for name in libraries_of(top):
        for part in ('src', 'specs'):
            of = os.path.join(top, 'crates', name, part)
            if os.path.isdir(of):
                shutil.copytree(of, os.path.join(folder, 'crates', name, part))
    lines = [it.partition('#')[0].rstrip() for it in read(os.path.join(top, 'crates.txt')).split('\n')]
    write(os.path.join(folder, 'crates.txt'), '\n'.join(['%s:' % CRATE, *['%s %s' % (it, CRATE) for it in lines if it]]) + '\n')
    write(os.path.join(folder, 'crates', CRATE, 'src', 'lib.rt'), LIBRARY)
    write(os.path.join(folder, 'crates', CRATE, 'c', 'chosen_edit.c'), CODE)


def lay_choices(top, folder, edits):
    """Writes the files in which the edits can be chosen, each by its number."""
    libraries = libraries_of(top)
    for name in {it.crate for _, it in edits}:
        own = [(number, it) for number, it in edits if it.crate == name]
        for file, text in chosen_texts(Crate(top, name, libraries), own).items():
            write(os.path.join(folder, 'crates', name, file), text)


def lay_tests(top, folder, tests):
    """Appends copies of tests to their files: each has a number, its crate and its name."""
    libraries = libraries_of(top)
    crates = {it: Crate(top, it, libraries) for it in {name for _, name, _ in tests}}
    for number, name, test in tests:
        found = copy_of_test(crates[name], number, test)
        if found:
            path = os.path.join(folder, 'crates', name, found[0])
            write(path, read(path) + '\n'.join(found[1]))


@contextmanager
def with_edits(top, edits, tests):
    """Makes a copy of the repository's sources in which the edits can be chosen, each by its number. The tests, each a number with a crate and a
    name, have a copy each that chooses the edit of its number."""
    with tempfile.TemporaryDirectory(prefix='shown-') as folder:
        lay_sources(top, folder)
        lay_choices(top, folder, edits)
        lay_tests(top, folder, tests)
        yield folder
