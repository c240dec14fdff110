#!/usr/bin/env python3
"""Checks which borrows the public calls of the library allow.

    python3 tools/run_borrows.py                       over the libraries as `rt check` leaves them, in out/ of each crate
    python3 tools/run_borrows.py --libraries FOLDER    over the built libraries of a directory, NAME.rlib

A file of tests/borrows/ is a crate of one file. A file of allowed/ has to be proved. A file of refused/ has to be refused for a
borrow, and for nothing else. Each file has a line; the last line is 'N passed, M failed'.
"""
import argparse
import os
import re
import shutil
import subprocess
import sys
import tempfile

from runner import Limits, counts, run
from wrong.crates import TOP, Crate, kit, libraries_of
from wrong.rooms import words_of

CASES = os.path.join(TOP, 'tests', 'borrows')
# the libraries that a file may use
USES = ['deno_symbols']
ERROR = re.compile(r'\berror(\[[\w-]+\])?:')


def with_borrows(libraries):
    """Returns the crates with their dependencies, and a file of tests/borrows/ among them as the crate `borrows`."""
    return {**libraries, 'borrows': USES}


def gathered(folder):
    """Returns a directory with the libraries in out/ of their crates."""
    for name in libraries_of(TOP):
        built = os.path.join(TOP, 'crates', name, 'out', 'rlib', name + '.rlib')
        if os.path.isdir(built):
            os.symlink(built, os.path.join(folder, name + '.rlib'))
    return folder


def said_of(path, built):
    """Returns the output of a check of the file as a crate."""
    with tempfile.TemporaryDirectory(prefix='borrows-') as top:
        source = os.path.join(top, 'crates', 'borrows', 'src')
        os.makedirs(source)
        shutil.copy(path, os.path.join(source, 'lib.rt'))
        crate = Crate(top, 'borrows', with_borrows(libraries_of(TOP)))
        program, *words = words_of(crate, kit(), built)
        got = run(program, words, None, Limits(seconds=None), cwd=crate.folder, stderr=subprocess.STDOUT)
        return got.output.decode('utf-8', 'replace')


def is_allowed(said):
    return bool(re.search(r'^fn borrows::held: (proved|no holes)', said, re.M)) and not ERROR.search(said)


def is_refused(said):
    errors = ERROR.findall(said)
    return bool(errors) and all(it.startswith('[borrow-') for it in errors)


def main():
    p = argparse.ArgumentParser(description=__doc__, formatter_class=argparse.RawDescriptionHelpFormatter)
    p.add_argument('--libraries', metavar='FOLDER', type=os.path.abspath)
    a = p.parse_args()
    verdicts = []
    with tempfile.TemporaryDirectory(prefix='libraries-') as folder:
        built = a.libraries or gathered(folder)
        for sort, test in (('allowed', is_allowed), ('refused', is_refused)):
            for name in sorted(os.listdir(os.path.join(CASES, sort))):
                said = said_of(os.path.join(CASES, sort, name), built)
                verdicts.append(test(said))
                print('%s/%s: %s' % (sort, name, 'passed' if verdicts[-1] else 'FAILED\n' + said), flush=True)
    return counts(sum(verdicts), len(verdicts) - sum(verdicts)) or int(not verdicts)


if __name__ == '__main__':
    sys.exit(main())
