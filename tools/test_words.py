#!/usr/bin/env python3
"""Tests of words.py on small sources of its own: that it names each identifier and each row that is wrong, and nothing else.

    python3 tools/test_words.py

A line a test that fails; the last line is 'N passed, M failed'.
"""
import os
import sys
import tempfile

import words
from tested import told
from wrong.crates import write

FILES = {
    'crates.txt': 'low:\nhigh: low\n',
    'crates/low/src/lib.rt': '''//! What is told of the owner.
ghost use Rattle.std.specs.Option.{is_told};
ghost use Rattle.low.specs.Views.{view_of};
use std::borrow::ToOwner;

/// Asked by no one.
pub fn view(text: &str) -> u8
    ensures { is_told result ≡ view_of text.now }
{
    let a = "told"; // told
    let b = r#"an "owner" behind"#;
    let c = 'x';
    7
}
''',
    'crates/low/specs/Views.antt': '''use Rattle.std.specs.Prelude.{ℕ, ◌≡◌}
-- what was told
{- the way -}
abbrev pub view_of : ℕ → ℕ
view_of n = f n "told"
''',
    'crates/high/proofs/Lib.antt': 'away : ℕ\naway = tollway\n',
    words.LIST: '# a list\n\n',
}
SOURCE, SPEC, OTHER = 'crates/low/src/lib.rt', 'crates/low/specs/Views.antt', 'crates/high/proofs/Lib.antt'
# what is replaced by what, and the output then
NAMES = (
    ('a name', SOURCE, 'let a', 'let told', 'told: told: low'),
    ('a word of a name', SOURCE, 'let a', 'let was_told_of', 'was_told_of: told: low'),
    ('two words', SOURCE, 'let a', 'let owner_told', 'owner_told: owner, told: low'),
    ('a type', SOURCE, 'pub fn view', 'struct OwnerView {}\npub fn view', 'OwnerView: owner: low'),
    ('a constant', SOURCE, 'pub fn view', 'const OWNERS: u8 = 1;\npub fn view', 'OWNERS: owners: low'),
    ('a name with a digit', SOURCE, 'let a', 'let told2', 'told2: told: low'),
    ('a name behind a life time', SOURCE, '(text: &str)', "<'a>(told: &'a str)", 'told: told: low'),
    ('a name with dashes', SPEC, 'view_of n', 'view-Told-of n', 'view-Told-of: told: low'),
    ('a name behind a minus', SPEC, 'f n', 'f n - way', 'way: way: low'),
    ('what comes from a crate of the repository', OTHER, 'away :', 'use Rattle.low.specs.Views.{is_asked}\naway :', 'is_asked: asked: high'),
    ('what comes from the kit in another file', OTHER, 'tollway', 'is_told', 'is_told: told: high'),
)
ROW = 'told, low, a reason, with a comma\n'
# rows of the list, with a source that has `was_told_of` in the crate low
ROWS = (
    ('a word that stays', ROW, []),
    ('an identifier that stays', 'was_told_of, low, a reason\n', []),
    ('everywhere', 'told, *, a reason\n', []),
    ('several crates', 'told, high low, a reason\n', []),
    ('an identifier alone', '=was_told_of, low, a reason\n', []),
    ('a word as an identifier alone', '=told, low, a reason\n', ['was_told_of: told: low', words.LIST + ': no identifier uses this row: =told, low, a reason']),
    ('another crate', 'told, high, a reason\n', ['was_told_of: told: low', words.LIST + ': no identifier uses this row: told, high, a reason']),
    ('a row that nothing uses', ROW + 'way, *, a reason\n', [words.LIST + ': no identifier uses this row: way, *, a reason']),
    ('a row without a reason', ROW + 'told, low\n', [words.LIST + ': not a name, where and why: told, low']),
    ('a row with an empty part', ROW + 'told, , a reason\n', [words.LIST + ': not a name, where and why: told, , a reason']),
    ('as many rows as there may be', ''.join('told, low, %d\n' % n for n in range(words.ROWS)), []),
    ('too many rows', ''.join('told, low, %d\n' % n for n in range(words.ROWS + 1)), ['%s: %d rows, over %d' % (words.LIST, words.ROWS + 1, words.ROWS)]),
)


def lines_of(changes):
    """Returns the output on the sources with these changes: a file, a text in it, and another text."""
    with tempfile.TemporaryDirectory(prefix='words-') as top:
        texts = dict(FILES)
        for path, old, new in changes:
            assert texts[path].count(old) >= 1
            texts[path] = texts[path].replace(old, new, 1)
        for path, text in texts.items():
            write(os.path.join(top, path), text)
        return words.told(top)[1]


def tests():
    yield 'nothing without a change', lines_of([]), []
    for name, path, old, new, said in NAMES:
        yield name, lines_of([(path, old, new)]), [said]
    for name, rows, said in ROWS:
        yield name, lines_of([(SOURCE, 'let a', 'let was_told_of'), (words.LIST, '# a list\n', rows)]), said


if __name__ == '__main__':
    sys.exit(told(tests()))
