#!/usr/bin/env python3
"""Tests of docs.py and quotes.py on a small repository of its own: that they name each thing that is wrong, and nothing else.

    python3 tools/test_docs.py

A line a test that fails; the last line is 'N passed, M failed'.
"""
import os
import sys
import tempfile

import docs
import quotes
from tested import told
from wrong.crates import read, write

LONG = ' '.join(['word'] * 36)

FILES = {
    'crates.txt': '# bottom up\nlow: other\nuser: low\n',
    'crates/low/src/lib.rt': '''//! What this crate is.
#![tactic(auto)]

/// A number that is kept.
pub struct Kept<'a> {
    pub name: &'a str,
    pub ghost sound: { name ≡ name },
}

impl<'a> Kept<'a> {
    /// Returns the name.
    /// What it is called is kept.
    pub fn name(&self, text: &'a str) -> &'a str
        requires room { self.now ≡ self.now }
        ensures named { result ≡ called self.now text.now }
        ensures grown { self.new ≡ self.old }
    {
        self.name
    }
}

impl<'a> Lends<'a> for Kept<'a> {
    fn lend(
        &mut self,
        count: u8,
    ) -> u8
        ensures { result ≡ self.old.count
            + 1 }
    {
        // What is lent.
        count
    }
}

/// Makes one.
pub fn make() -> u8
    ensures listed { AreExportListsCorrectAndUnique graph }
    ensures { result ≡ 1 }
{
    1
}
''',
    'crates/low/specs/Names.antt': '-- a name\nuse Rattle.std.specs.Prelude.{ℕ}\n\nabbrev pub called : ℕ\ncalled = 1\n',
    'crates/low/specs/inner/Parts.antt': 'abbrev pub part : ℕ\npart = 2\n',
    'crates/low/wrong/mutants': 'mutant: another\nfile: src/lib.rt\nold: 1\nnew: 2\n',
    'crates/library_example/src/main.rt': 'fn main() {}\n',
    'examples/shapes/a.ts': 'export const a = 1;\n',
    'README.md': '''# A repository

See [the map](docs/ARCHITECTURE.md#the-map), `tools/made.py` and `crates/NAME/src/lib.rt`.

```console
$ symdir api examples/shapes
one name
```
''',
    'tools/made.py': '',
    'docs/ARCHITECTURE.md': '# Architecture\n\n## The `map`\n\nShort. [Up](../README.md) and [out](https://example.org/x).\n',
    'docs/DEFINITIONS.md': '# Glossary\n\n`crate::File name`\n\n| notion | definition |\n|---|---|\n| **name** | `low::Names called` |\n',
    'docs/PROVED.md': '''# Proved

| promise | carried by | tried by |
|---|---|---|
| It has a name. | `low::Kept::name named`, `low::Kept sound`, `low::lend` | `low/another` |

about 2 lines without comments.
''',
    'docs/CALLING.md': '''# Calling

```rust
fn main() {}
```

```text
low
  fn Kept::name(&self, text: &str) -> &str
    requires room: S ≡ S
    ensures named: result ≡ called S text.now
  fn Lends::lend(&mut self, count: u8) -> u8
    ensures: result ≡ S.count + 1
  fn make() -> u8
    ensures: result ≡ 1
```
''',
    'docs/QUERIES.md': '''# Queries

```console
["module","a"]
answer of a graph that symdir wrote: ["module","a"]
```

```json
{}
```

```console
$ ./symq --strict graph.json
["x"]
strict answer of {}: ["x"]
["y"]
strict answer of {}: ["y"]
```

```console
["name","a"]
answer of a graph that symdir wrote: ["name","a"]
```
''',
    'evidence/crate/README.md': '# A program\n\nShort.\n',
    'symdir/bin/symdir.js': '''const [command, , , file] = process.argv.slice(2);
if (command === 'graph') require('fs').writeFileSync(file, 'a graph that symdir wrote');
else console.log('one name');
''',
}

SYMQ = '''#!/usr/bin/env python3
import sys
graph = open(sys.argv[-1]).read().strip()
for line in sys.stdin:
    print('%sanswer of %s: %s' % ('strict ' if '--strict' in sys.argv else '', graph, line.strip()))
'''

README, MAP, CODE = 'README.md', docs.MAP, 'crates/low/src/lib.rt'

# a name, the file whose text is changed, the change, and the beginnings of the lines that are printed then
CHANGES = [
    ('a long sentence', README, ('See [', 'Word. %s. See [' % LONG), ['README.md: sentences over 35 words']),
    ('a long sentence over lines', README, ('See [', LONG.replace('word word', 'word\nword', 1) + '.\n\nSee ['), ['README.md: sentences']),
    ('a long item', README, ('See [', '- %s\n\nSee [' % LONG), ['README.md: sentences']),
    ('a long cell', MAP, ('Short.', '\n| a | %s |\n' % LONG), ['docs/ARCHITECTURE.md: sentences']),
    ('two sentences that are short', README, ('See [', 'A %s. A %s. See [' % (LONG[:-10], LONG[:-10])), []),
    ('two sentences, the second in code', README, ('See [', 'A %s. `it` %s. See [' % (LONG[:-10], LONG[:-10])), []),
    ('two items', README, ('See [', '- %s\n- %s\n\nSee [' % (LONG[:-10], LONG[:-10])), []),
    ('a list of names in code', README, ('See [', ', '.join(['`name`'] * 50) + ' and `it`. See ['), []),
    ('a long line of a block', docs.MAP, ('Short.', '```text\n%s\n```' % LONG), []),
    ('a link to no file', README, ('docs/ARCHITECTURE.md#', 'docs/ARCHITECTURES.md#'), ['README.md: links']),
    ('a link to no heading', README, ('#the-map', '#a-map'), ['README.md: links']),
    ('a path to no file', README, ('tools/made.py', 'tools/make.py'), ['README.md: links']),
    ('a link from docs', MAP, ('../README.md', 'README.md'), ['docs/ARCHITECTURE.md: links']),
    ('too long a map', MAP, ('Short.', 'Short.\n' * 250), ['lines of docs/ARCHITECTURE.md']),
    ('too many lines', README, ('See [', 'Short.\n' * 2900 + 'See ['), ['lines of all documents']),
    ('too many lines of a page below', 'evidence/crate/README.md', ('Short.', 'Short.\n' * 2900), ['lines of all documents']),
    ('too many notions', docs.GLOSSARY, ('| **name** |', '| **name** | |\n' * 60 + '| **name** |'), ['notions of docs/DEFINITIONS.md']),
    ('no such definition', docs.GLOSSARY, ('Names called', 'Names told'), ['docs/DEFINITIONS.md: definitions']),
    ('no such file of definitions', docs.GLOSSARY, ('Names called', 'Name called'), ['docs/DEFINITIONS.md: definitions']),
    ('no such clause', docs.PROMISES, ('name named', 'name other'), ['docs/PROVED.md: clauses and mutants']),
    ('no such function', docs.PROMISES, ('low::lend', 'low::lent'), ['docs/PROVED.md: clauses and mutants']),
    ('no such crate', docs.PROMISES, ('low::lend', 'high::lend'), ['docs/PROVED.md: clauses and mutants']),
    ('no such invariant', docs.PROMISES, ('Kept sound', 'Kept safe'), ['docs/PROVED.md: clauses and mutants']),
    ('no such mutant', docs.PROMISES, ('low/another', 'low/other'), ['docs/PROVED.md: clauses and mutants']),
    ('a clause that is gone', CODE, ('ensures named', 'ensures called'), ['docs/CALLING.md: contracts: lines', 'docs/PROVED.md: clauses and mutants']),
    ('fewer trusted lines', docs.PROMISES, ('2 lines', '3 lines'), ['docs/PROVED.md: lines of trusted definitions']),
    ('one trusted line more', 'crates/low/specs/Names.antt', ('called = 1\n', 'called = 1\nabbrev pub other : ℕ\n'), ['docs/PROVED.md: lines of trusted']),
    ('an untrusted line more', 'crates/low/specs/inner/Parts.antt', ('part = 2\n', 'part = 2\nabbrev pub other : ℕ\n'), []),
    ('a doc comment of What', CODE, ('/// Makes one.', '/// What is made.'), ['crates/low/src/lib.rt: doc comments']),
    ('a doc comment of Whatever', CODE, ('/// Makes one.', '/// Whatever is made.'), []),
    ('another argument', CODE, ('text: &', 'name: &'), ['docs/CALLING.md: contracts: lines']),
    ('another clause', CODE, ('            + 1 }', '            + 2 }'), ['docs/CALLING.md: contracts: lines']),
    ('a clause that all have', CODE, ('ensures grown { self.new ≡ self.old }', 'ensures grown { ⊤ }'), []),
    ('another order', quotes.PAGE, ('    requires room: S ≡ S\n    ensures named: result ≡ called S text.now\n',
                                    '    ensures named: result ≡ called S text.now\n    requires room: S ≡ S\n'), ['docs/CALLING.md: contracts: order']),
    ('a function that is not there', quotes.PAGE, ('fn make() -> u8', 'fn made() -> u8'), ['docs/CALLING.md: contracts: lines']),
    ('another example', quotes.EXAMPLE, ('fn main', 'pub fn main'), ['docs/CALLING.md: the example: lines']),
    ('no block of contracts', quotes.PAGE, ('```text\nlow', '```text\n\nlow'), ['docs/CALLING.md: contracts']),
    ('another output', README, ('one name', 'two names'), ['README.md: $ symdir api examples/shapes']),
    ('no output', README, ('one name\n', ''), ['README.md: $ symdir api examples/shapes']),
    ('no command', README, ('$ symdir api', '$ rm'), ['README.md: $ rm examples/shapes']),
    ('another answer', 'docs/QUERIES.md', ('wrote: ["module","a"]', 'wrote: ["module","b"]'), ['docs/QUERIES.md: ["module","a"]']),
    ('another graph', 'docs/QUERIES.md', ('{}\n```', '{"a":1}\n```'), ['docs/QUERIES.md: $ ./symq --strict graph.json']),
    ('a query without an answer', 'docs/QUERIES.md', ('strict answer of {}: ["y"]\n', ''), ['docs/QUERIES.md: $ ./symq --strict graph.json']),
    ('other rules', 'docs/QUERIES.md', ('--strict ', ''), ['docs/QUERIES.md: $ ./symq graph.json']),
]


def laid(folder, file='', change=('', '')):
    """Makes the repository, with one text of it changed."""
    for name, text in FILES.items():
        assert name != file or text.count(change[0]) == 1, change
        write(os.path.join(folder, name), text.replace(*change) if name == file else text)
    write(os.path.join(folder, 'symq'), SYMQ)
    os.chmod(os.path.join(folder, 'symq'), 0o755)


def wrong_in(file='', change=('', ''), with_blocks=True):
    """Returns the names of the checks that fail in the repository with a change."""
    with tempfile.TemporaryDirectory() as folder:
        laid(folder, file, change)
        return [name for name, found, want in docs.checks(folder, with_blocks) if found != want]


def written():
    """Returns the page of calls after the sources changed and the quotes were written again, and what fails then."""
    with tempfile.TemporaryDirectory() as folder:
        laid(folder, CODE, ('text: &', 'name: &'))
        path = os.path.join(folder, quotes.PAGE)
        write(path, quotes.made(folder, read(path)))
        return read(path), [name for name, found, want in docs.checks(folder, True) if found != want]


def tests():
    """Yields each test's name, with what was found and what is expected."""
    os.environ.pop('SYMQ', None)
    yield 'nothing is wrong without a change', wrong_in(), []
    for name, file, change, want in CHANGES:
        found = wrong_in(file, change)
        yield name, len(found) == len(want) and all(it.startswith(begin) for it, begin in zip(found, want)) or found, True
    yield 'blocks are left out', wrong_in(README, ('one name', 'two names'), with_blocks=False), []
    page, wrong = written()
    yield 'quotes are written', page, FILES[quotes.PAGE].replace('text: &str)', 'name: &str)')
    yield 'and are right then', wrong, []


if __name__ == '__main__':
    sys.exit(told(tests()))
