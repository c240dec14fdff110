#!/usr/bin/env python3
"""Tests of line_lengths.py on small sources of its own: that it names each line that is too long, and no other.

    python3 tools/test_line_lengths.py

A line a test that fails; the last line is 'N passed, M failed'.
"""
import os
import sys
import tempfile

import line_lengths
from tested import told
from wrong.crates import write

CODE, SPEC, PROOF = 'crates/low/src/lib.rt', 'crates/low/specs/Views.antt', 'crates/low/proofs/one/Answers.antt'
FILES = {
    'crates.txt': 'low:\n',
    CODE: '''//! A view.
/// Returns the view.
pub fn view(text: &str) -> u8
    requires { IsShort text.now }
    ensures is { result ≡
        view_of (record { text = text.now }) }
{
    let ensures = "}";
    match text {
        _ => 7,
    }
}
''',
    SPEC: 'abbrev pub view_of : ℕ → ℕ\nview_of n = n\n',
    PROOF: 'returns c = refl\n',
    'crates/low/src/data.txt': 'x' * 500,
}


def said(path, line, length, most):
    """Returns what is printed of a line that is too long."""
    return ['%s:%d: %d characters, over %d' % (path, line, length, most)]


# a file, a line of it, how long that becomes, and the output then
CASES = (
    ('code that just fits', CODE, 8, 120, []),
    ('code', CODE, 8, 121, said(CODE, 8, 121, 120)),
    ('a comment', CODE, 2, 121, said(CODE, 2, 121, 120)),
    ('a head', CODE, 3, 120, []),
    ('a clause that just fits', CODE, 4, 100, []),
    ('what is required', CODE, 4, 101, said(CODE, 4, 101, 100)),
    ('what is ensured', CODE, 5, 101, said(CODE, 5, 101, 100)),
    ('a later line of a clause', CODE, 6, 101, said(CODE, 6, 101, 100)),
    ('the line after a clause', CODE, 7, 120, []),
    ('the last line', CODE, 12, 121, said(CODE, 12, 121, 120)),
    ('a definition that just fits', SPEC, 2, 160, []),
    ('a definition', SPEC, 2, 161, said(SPEC, 2, 161, 160)),
    ('a proof', PROOF, 1, 161, said(PROOF, 1, 161, 160)),
)


def lines_of(path, line, length):
    """Returns the output on the sources with a line that is longer: letters of more than one byte are added in front of its last character."""
    with tempfile.TemporaryDirectory(prefix='lengths-') as top:
        for name, text in FILES.items():
            lines = text.split('\n')
            if name == path:
                old = lines[line - 1]
                lines[line - 1] = old[:-1] + 'λ' * (length - len(old)) + old[-1:]
            write(os.path.join(top, name), '\n'.join(lines))
        return line_lengths.checked(top)


def tests():
    yield 'nothing in short lines', lines_of(CODE, 1, 0), (3, [])
    for name, path, line, length, found in CASES:
        yield name, lines_of(path, line, length), (3 - len(found), found)


if __name__ == '__main__':
    sys.exit(told(tests()))
