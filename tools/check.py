#!/usr/bin/env python3
"""Runs all tests that need no proof, on unverified builds of the programs.

    python3 tools/check.py

It builds `symq` and `symq_tables` once for their sources (`unproved_symq.py`). Then it runs the stored cases, the worked rows and a minute of random
graphs, the tests of the command over directories, and those that compare tables and documents with the sources. Each part has a line with its time.

It proves nothing: a function may break its contract where no test looks, and no mutant is tried. `make test` is the full check.
The last line is 'N passed, M failed'.
"""
import os
import subprocess
import sys
import time
from concurrent.futures import ThreadPoolExecutor

from gate import TESTED, Part, tool
from wrong.crates import TOP

PROGRAMS = ('symq', 'symq_tables')


def unproved(program):
    """Returns the path of a program that is built without its proofs."""
    done = subprocess.run(tool('unproved_symq.py', program), stdout=subprocess.PIPE, text=True)
    return done.stdout.strip() if done.returncode == 0 else sys.exit('%s could not be built' % program)


def commands(symq, symq_tables):
    """Yields the parts: each with its name and its command, the slowest first."""
    model = [sys.executable, os.path.join(TOP, 'evidence', 'model', 'gate.py')]
    yield 'rows and random graphs', [*model, 'program', symq]
    yield 'the command over directories', tool('run_symdir.py', symq)
    yield 'the model', [*model, 'model']
    yield 'stored cases', tool('run_cases.py', '--programs', symq, symq_tables)
    yield 'documents', ['env', 'SYMQ=' + symq, *tool('docs.py')]
    for name in ('kinds', 'public_names', 'words', 'line_lengths', 'quotes', 'edit_counts', *map('test_%s'.__mod__, TESTED)):
        yield name, tool(name + '.py')


def main():
    began, processors = time.time(), len(os.sched_getaffinity(0))
    with ThreadPoolExecutor(processors) as pool:
        programs = list(pool.map(unproved, PROGRAMS))
        built = time.time()
        parts = list(pool.map(lambda it: Part(it[0]).run(it[1]), commands(*programs)))
    print('built: %.1f minutes' % ((built - began) / 60))
    for part in parts:
        print('%s: %.1f minutes, %.1f of the processors%s' % (part.name, part.clock, part.processors, ', FAILED' if part.failed else ''))
    print('all: %.1f minutes' % ((time.time() - began) / 60))
    passed, failed = sum(it.passed for it in parts), sum(it.failed for it in parts)
    print('%d passed, %d failed' % (passed, failed))
    return 1 if failed else 0


if __name__ == '__main__':
    sys.exit(main())
