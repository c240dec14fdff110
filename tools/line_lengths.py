#!/usr/bin/env python3
"""Checks that no line of the sources is too long: in characters, a line of code, of a clause in code, and of contracts and proofs (`MOST`).

    python3 tools/line_lengths.py [FOLDER]    the sources, *.rt and *.antt, of this repository or of another directory

A clause goes from `ensures` or `requires`, at the beginning of a line, to the brace that closes it. A line for each that is too long; the last line
is 'N passed, M failed', where N counts the files in which none is.
"""
import os
import re
import sys

from tested import report
from wrong.crates import TOP, files_below, libraries_of

MOST, CLAUSE = {'.rt': 120, '.antt': 160}, 100
BEGINS = re.compile(r' *(?:ensures|requires)\b')


def limits(ending, lines):
    """Yields how long each line may be."""
    opened = closed = 0
    for line in lines:
        is_clause = ending == '.rt' and (opened > closed or bool(BEGINS.match(line)))
        yield CLAUSE if is_clause else MOST[ending]
        opened, closed = (opened + line.count('{'), closed + line.count('}')) if is_clause else (0, 0)


def too_long(path, text):
    """Returns a line for each line of a file that is too long."""
    lines = text.split('\n')
    pairs = zip(lines, limits(os.path.splitext(path)[1], lines))
    return ['%s:%d: %d characters, over %d' % (path, n, len(line), most) for n, (line, most) in enumerate(pairs, 1) if len(line) > most]


def checked(top):
    """Returns how many files have no such line, and a line for each line that is too long."""
    passed, lines = 0, []
    for crate in sorted(libraries_of(top)):
        for part in ('src', 'specs', 'proofs'):
            for path, text in sorted(it for it in files_below(os.path.join(top, 'crates', crate), part) if it[0].endswith(tuple(MOST))):
                found = too_long(os.path.join('crates', crate, path), text)
                passed += not found
                lines += found
    return passed, lines


def main(argv):
    return report(*checked(os.path.abspath(argv[0] if argv else TOP)))


if __name__ == '__main__':
    sys.exit(main(sys.argv[1:]))
