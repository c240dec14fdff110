#!/usr/bin/env python3
"""Tests of public_names.py on a small repository of its own: that it names each thing that is wrong, and nothing else.

    python3 tools/test_public_names.py

A line a test that fails; the last line is 'N passed, M failed'.
"""
import os
import re
import sys
import tempfile

from tested import told
import public_names
from kinds.lines import MARK
from wrong.crates import read, write

FILES = {
    'crates.txt': '# bottom up\nlow: other\nhigh: low\nlow_test_support: low\nstart: high\n',
    'crates/low_test_support/src/lib.rt': 'pub fn only_tests_use_it() {}\n',
    'crates/low/src/lib.rt': '''//! pub struct Nothing;
#![tactic(auto)]

mod hidden;
pub mod shown;

pub use hidden::deep::{Made, make as made};
pub use other::Foreign;
''',
    'crates/low/src/hidden.rt': '''pub(crate) mod deep;

/// Nobody leads here.
pub struct Unreachable {
    pub part: u8,
}
''',
    'crates/low/src/hidden/deep.rt': '''use crate::shown::Kind;

#[derive(Clone, Copy)]
pub struct Made<'a> {
    /// pub comment: u8,
    pub first: &'a str,
    pub(crate) second: u8,
    third: u8,
    pub ghost inside: { third ≡ 3 },
}

impl<'a> Made<'a> {
    /// What is made.
    pub fn kind(&self) -> Kind
        ensures { result ≡ record { tag = 1 } }
    {
        let pub_fn = "pub fn text()";
        Kind::Plain
    }

    pub(crate) fn inner(&self) {}

    fn own(&self) {}
}

impl<T: Drop> From<Vec<T>> for Made<'_> {
    fn from(_: Vec<T>) -> Self {
        make()
    }
}

impl<'a> From<&'a str> for Made<'a> {
    fn from(_: &'a str) -> Self {
        make()
    }
}

impl Model for Made<'_> {}

pub fn make() -> Made<'static> {
    todo()
}

pub(crate) fn unseen() {}
''',
    'crates/low/src/shown.rt': '''/// A number.
#[derive(Clone, Debug, Eq)]
pub struct Number(pub u32, u8);

#[derive(
    Clone, Hash
)]
pub enum Kind {
    Plain,
    Of(
        other::Number,
    ),
    With {
        /// The left one.
        left: Number,
        right: Number,
    },
}

pub trait Device {
    ghost failures: { Self → ℕ };

    fn read(&mut self, count: u8) -> u8
        requires { 0 < count };
}

pub const LIMIT: u32 = 7;

pub type Numbers = [Number; 5];
''',
    'crates/high/src/lib.rt': 'mod view;\n\npub use low::shown;\n',
    'crates/high/src/view.rt': 'fn nothing() {}\n',
    'crates/start/src/main.rt': 'pub fn main() {}\n',
    'docs/DIFFERENCES.md': '- **No `Made::gone`**.\n',
    'docs/PUBLIC.md': '''# Names

| name | stands in |
|---|---|
| `Made { first }`, `Made::kind`, `Made: From<Vec<T>>`, `Made: From<&str>`, `Made: Copy` | `low` |
| `Made::later` | not there yet |
| `Made::gone` | [left out](DIFFERENCES.md) |
| `Later { one, Two }` | not there yet |
| `made` | `low` |
| `Number` | `low::shown` |
| `Number.0` | `high::shown` |
| `Kind { Plain, Of, With { left, right } }` | `high::shown` |
| `Device`, `Device::read` | `low::shown` |
| `LIMIT` | `low::shown` |
| `Numbers` | `low::shown` | five of them |
''',
}

DEEP, SHOWN, TABLE = 'crates/low/src/hidden/deep.rt', 'crates/low/src/shown.rt', 'docs/PUBLIC.md'

# a name, the file whose text is changed, the change, and the lines that are printed then
CHANGES = [
    ('a method that is not there', TABLE, ('`Made::kind`', '`Made::sort`'),
     ['Made::sort low has no public sort', 'no row: | `Made::kind` | `low` |']),
    ('a method of a private module', TABLE, ('| `Made { first }`, `Made::kind`', '| `Made::kind` | `low::hidden::deep` |\n| `Made { first }`'),
     ['Made::kind low::hidden::deep has no public Made', 'no row: | `Made::kind` | `low` |']),
    ('a row of a private module', TABLE, ('`Device::read` | `low::shown`', '`Device::read` | `low::hidden`'),
     ['Device low::hidden has no public Device', 'Device::read low::hidden has no public Device',
      'no row: | `Device` | `high::shown` |', 'no row: | `Device::read` | `high::shown` |']),
    ('a field for a method', TABLE, ('`Made::kind`', '`Made.kind`'),
     ['Made.kind low has no public kind', 'no row: | `Made::kind` | `low` |']),
    ('a private method', DEEP, ('pub fn kind', 'fn kind'), ['Made::kind low has no public kind']),
    ('a method for the crate', DEEP, ('pub fn kind', 'pub(crate) fn kind'), ['Made::kind low has no public kind']),
    ('a private field', DEEP, ('pub first', 'first'), ['Made { first } low has no public first']),
    ('a field of contracts', DEEP, ('pub first', 'pub ghost first'), ['Made { first } low has no public first']),
    ('a trait that is gone', DEEP, ('From<Vec<T>> for', 'From<u8> for'),
     ['Made: From<Vec<T>> low has no public From<Vec<T>>', 'no row: | `Made: From<u8>` | `low` |']),
    ('a derived trait that is gone', DEEP, ('Clone, Copy', 'Clone'), ['Made: Copy low has no public Copy']),
    ('a name that is no longer passed on', 'crates/low/src/lib.rt', (', make as made', ''),
     ['made low has no public made']),
    ('a module that is no longer public', 'crates/high/src/lib.rt', ('pub use low', 'use low'),
     ['Number.0 high::shown has no public Number',
      'Kind { Plain, Of, With { left, right } } high::shown has no public Kind',
      'no row: | `Number.0` | `low::shown` |', 'no row: | `Kind` | `low::shown` |', 'no row: | `Kind::Of` | `low::shown` |',
      'no row: | `Kind::Plain` | `low::shown` |', 'no row: | `Kind::With` | `low::shown` |']),
    ('a variant that is gone', SHOWN, ('    Plain,\n', ''),
     ['Kind { Plain, Of, With { left, right } } high::shown has no public Plain']),
    ('a variant with another field', SHOWN, ('        right:', '        wrong:'),
     ['Kind { Plain, Of, With { left, right } } high::shown has no public With with these fields']),
    ('a new variant', SHOWN, ('    Plain,\n', '    Plain,\n    More,\n'), ['no row: | `Kind::More` | `high::shown` |']),
    ('a new field', DEEP, ('    third', '    pub third'), ['no row: | `Made.third` | `low` |']),
    ('a new field of a pair', SHOWN, ('pub u32, u8', 'pub u32, pub u8'), ['no row: | `Number.1` | `high::shown` |']),
    ('a new method', DEEP, ('    fn own', '    pub const fn own'), ['no row: | `Made::own` | `low` |']),
    ('a new call of a trait', SHOWN, ('    fn read', '    fn has_room(&self) -> bool;\n\n    fn read'),
     ['no row: | `Device::has_room` | `high::shown` |']),
    ('a new trait of a type', DEEP, ('impl Model for', 'impl Device for'), ['no row: | `Made: Device` | `low` |']),
    ('a new function', SHOWN, ('pub const', 'pub fn next(\n    x: u8,\n) -> u8 {\n    x\n}\n\npub const'),
     ['no row: | `next` | `high::shown` |']),
    ('a private module that is public now', 'crates/low/src/lib.rt', ('mod hidden', 'pub mod hidden'),
     ['no row: | `Unreachable` | `low::hidden` |', 'no row: | `Unreachable.part` | `low::hidden` |']),
    ('a row that is gone', TABLE, ('| `LIMIT` | `low::shown` |\n', ''), ['no row: | `LIMIT` | `high::shown` |']),
    ('a method that came', DEEP, ('    fn own', '    pub fn later'),
     ['Made::later is there: | `Made::later` | `low` |']),
    ('a type that came', SHOWN, ('pub const', 'pub struct Later;\n\npub const'),
     ['Later { one, Two } is there: | `Later { one, Two }` | `high::shown` |']),
    ('a left out name that is there', DEEP, ('    fn own', '    pub fn gone'),
     ['Made::gone is there: | `Made::gone` | `low` |']),
    ('a left out name without a difference', 'docs/DIFFERENCES.md', ('`Made::gone`', '`Made::going`'),
     ['Made::gone is left out, and docs/DIFFERENCES.md has no `Made::gone`']),
    ('a name that has two rows', TABLE, ('| `made`', '| `LIMIT` | not there yet |\n| `made`'),
     ['LIMIT is there: | `LIMIT` | `high::shown` |', 'LIMIT stands twice']),
    ('a name that its row has twice', TABLE, ('`Made::kind`', '`Made::kind`, `Made::kind`'), ['Made::kind stands twice']),
    ('a method that its row lacks', TABLE, ('`Made::kind`, ', ''), ['no row: | `Made::kind` | `low` |']),
    ('a trait that its row lacks', TABLE, ('`Made: From<Vec<T>>`, ', ''), ['no row: | `Made: From<Vec<T>>` | `low` |']),
    ('a row without its item', TABLE, ('`Device`, ', ''), ['no row: | `Device` | `high::shown` |']),
    ('a row of two items', TABLE, ('| `LIMIT` | `low::shown` |\n| `Numbers`', '| `LIMIT`, `Numbers`'),
     ['is no row: | `LIMIT`, `Numbers` | `low::shown` | five of them |']),
    ('a line that is no row', TABLE, ('`Device::read`', '`Device::read()`'),
     ['is no row: | `Device`, `Device::read()` | `low::shown` |', 'no row: | `Device::read` | `high::shown` |']),
    ('a row without a comma', TABLE, ('`Device`, ', '`Device` '),
     ['is no row: | `Device` `Device::read` | `low::shown` |', 'no row: | `Device` | `high::shown` |', 'no row: | `Device::read` | `high::shown` |']),
    ('what is passed on without names', 'crates/high/src/lib.rt', ('mod view;', 'mod view;\n\npub use view::*;'),
     ['not read: high: pub use view::*;']),
    ('what is passed on from nowhere', 'crates/low/src/lib.rt', ('make as made', 'absent'),
     ['not read: low: hidden::deep::absent leads nowhere', 'made low has no public made']),
    ('a module within a file', SHOWN, ('pub const', 'pub mod within {\n}\n\npub const'),
     ['not read: low::shown: pub mod within {']),
    ('an impl over several lines', SHOWN, ('pub const', 'impl<\n    T,\n> Device for Kind {}\n\npub const'),
     ['not read: low::shown: impl<']),
    ('what only contracts speak of', SHOWN, ('pub const', 'pub ghost fn spoken();\n\npub const'), []),
    ('two items of one name', SHOWN, ('pub const', 'pub fn make() {}\n\npub const'),
     ['not read: low: make is a name of two items', 'no row: | `make` | `high::shown` |']),
]


def laid(folder, file='', change=('', '')):
    """Makes the repository, with one text of it changed."""
    for name, text in FILES.items():
        assert name != file or text.count(change[0]) == 1, change
        write(os.path.join(folder, name), text.replace(*change) if name == file else text)


def lines_of(file='', change=('', '')):
    """Returns the output on the repository with a change, without the numbers of lines."""
    with tempfile.TemporaryDirectory() as folder:
        laid(folder, file, change)
        passed, faults = public_names.check(folder)
    return passed, [re.sub(r'^line \d+:? ', '', line) for line in faults]


LATER = '| `Made::later` | not there yet |'


def moved(change, row=LATER):
    """Returns the lines of the table that differ after names were added and rows were moved; `row` is there in place of `LATER`."""
    with tempfile.TemporaryDirectory() as folder:
        laid(folder, DEEP, change)
        write(os.path.join(folder, TABLE), FILES[TABLE].replace(LATER, row))
        public_names.move(folder)
        after = read(os.path.join(folder, TABLE)).split('\n')
        faults = public_names.check(folder)[1]
    return [line for line in after if line not in FILES[TABLE].split('\n')], faults


PAGE = '# Names\n\nAll of them.\n\n## Old\n\n## Left out\n\n| `Made::gone` | [left out](DIFFERENCES.md) |\n'
# the rows of a module in a generated page
MADE = """| `Made { first }`, `Made::{kind}`, `Made: From<&str>, From<Vec<T>>` | `low` |  |
| `made` | `low` |  |
"""
OF_ITEM = MADE.split('\n')[0]


def of_made(file='', change=('', '')):
    """Returns the output on a generated page, and on the same page after the sources were changed."""
    with tempfile.TemporaryDirectory() as folder:
        laid(folder)
        page = public_names.made(folder, PAGE)
        write(os.path.join(folder, TABLE), page)
        first = public_names.check(folder)[1] + public_names.unlike(folder)
        laid(folder, file, change)
        write(os.path.join(folder, TABLE), page)
        return page, first, public_names.check(folder)[1] + public_names.unlike(folder)


# a generated module: kinds, and an enum of enums
KINDS = """// %s
//! Kinds.

/// A kind.
pub enum Kind {
    Amount(Amount),
    Text(Text),
}

pub enum Amount {
    Whole {
        digits: u8,
    },
}

pub enum Text {
    Plain,
}

impl Kind {
    pub fn name(&self) -> u8 {
        1
    }
}
""" % MARK


def tests_of_kinds():
    """Tests that kinds, which a table generates, are left to the page on graphs."""
    for text, want in ((KINDS, ['Kind { Amount, Text }`, `Kind::{name}', 'Amount', 'Text']),
                       (KINDS.replace(MARK, 'By hand.'), ['Kind { Amount, Text }`, `Kind::{name}', 'Amount { Whole { digits } }', 'Text { Plain }'])):
        with tempfile.TemporaryDirectory() as folder:
            laid(folder)
            write(os.path.join(folder, 'crates/high/src/lib.rt'), 'pub mod view;\n')
            write(os.path.join(folder, 'crates/high/src/view.rt'), text)
            page = public_names.made(folder, PAGE)
            write(os.path.join(folder, TABLE), page)
            yield 'rows of kinds', re.findall(r'^\| `(.*)` \| `high::view` \|', page, re.M), want
            yield 'the page is right', public_names.check(folder)[1] + public_names.unlike(folder), []


def made_tests():
    page, first, _ = of_made()
    yield 'a page that is made is right', first, []
    yield 'it begins as it did', page.startswith('# Names\n\nAll of them.\n\n## Names\n\n| name |'), True
    yield 'it has the rows of a module', MADE in page, True
    yield 'it ends as it did', page.endswith(PAGE[PAGE.index('## Left') :]), True
    yield 'an item has the first sentence of its comment', '| `Number`, `Number.0` | `high::shown` | A number. |' in page, True
    yield 'a variant has its fields', '| `Kind { Plain, Of, With { left, right } }` | `high::shown` |' in page, True
    told_of = of_made(DEEP, ('    fn own', '    pub fn own'))[2]
    yield 'a method that came', told_of, ['no row: | `Made::own` | `low` |', 'isn\'t made so: ' + OF_ITEM,
                                          'is made so: ' + OF_ITEM.replace('{kind}', '{kind, own}')]
    told_of = of_made(DEEP, ('pub fn kind', 'fn kind'))[2]
    yield 'a method that is gone', [re.sub(r'^line \d+: ', '', it) for it in told_of], [
        'Made::{kind} low has no public kind', 'isn\'t made so: ' + OF_ITEM, 'is made so: ' + OF_ITEM.replace('`Made::{kind}`, ', '')]
    told_of = of_made(SHOWN, ('/// A number.', '/// No number. Or one.'))[2]
    yield 'another comment', told_of, ['isn\'t made so: | `Number`, `Number.0` | `high::shown` | A number. |',
                                       'is made so: | `Number`, `Number.0` | `high::shown` | No number. |']


def tests():
    """Yields each test's name, with what was found and what is expected."""
    yield 'nothing is wrong without a change', lines_of(), (32, [])
    for name, file, change, want in CHANGES:
        yield name, sorted(lines_of(file, change)[1]), sorted(want)
    came, two = ('    fn own', '    pub fn later'), '| `Made::later`, `Made::latest` | [not there yet](NEXT.md) | soon |'
    yield 'a row is moved', moved(came), (['| `Made::later` | `low` |'], [])
    yield 'an entry of a row is moved', moved(came, two), (['| `Made::later` | `low` |', '| `Made::latest` | [not there yet](NEXT.md) | soon |'], [])
    both = ('    fn own', '    pub fn later(&self) {}\n\n    pub fn latest')
    yield 'entries are moved together', moved(both, two), (['| `Made::later`, `Made::latest` | `low` |'], [])
    yield 'a row whose names are not there is not moved', moved(('    fn own', '    fn later'), two), ([two], [])
    yield from made_tests()
    yield from tests_of_kinds()
    yield 'a left out row is not moved', moved(('    fn own', '    pub fn gone'))[0], []


if __name__ == '__main__':
    sys.exit(told(tests()))
