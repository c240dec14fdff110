#!/usr/bin/env python3
"""The part of the full check for the model.

    python3 evidence/model/gate.py model                  the model's rows and self-check, and the differ's own test
    python3 evidence/model/gate.py program [PROGRAM]      the program beside the rows, faults around it, random graphs and pairs
    python3 evidence/model/gate.py all [PROGRAM]          both

PROGRAM is `crates/symq/out/symq` by default; the first form needs none. The seeds come from the number of commits, so that
each state is tried with other graphs: those from 100,000 times that number on, for 60 seconds, and for 30 pairs of graphs that differ
in one place. The last line is `N passed, M failed`.
"""
import argparse
import os
import re
import subprocess
import sys

from differ.words import command_of

HERE = os.path.dirname(os.path.abspath(__file__))
TOP = os.path.dirname(os.path.dirname(HERE))
SEEDS_OF_A_COMMIT = 100000


def first_seed() -> int:
    """Returns the first seed of the checked out commit; 0 outside of a repository."""
    try:
        count = subprocess.run(['git', 'rev-list', '--count', 'HEAD'], cwd=TOP, stdout=subprocess.PIPE, stderr=subprocess.DEVNULL)
    except OSError:
        return 0
    return SEEDS_OF_A_COMMIT * int(count.stdout or 0)


def part(name, *words) -> 'tuple[int, int]':
    """Runs a command of this directory, and returns the counts of its last line; another last line is a failure."""
    print('-- %s' % name, flush=True)
    command = [sys.executable, os.path.join(HERE, words[0]), *words[1:]]
    done = subprocess.run(command, stdout=subprocess.PIPE, text=True, errors='replace')
    print(done.stdout, end='', flush=True)
    found = re.fullmatch(r'(\d+) passed, (\d+) failed', (done.stdout.splitlines() or [''])[-1])
    passed, failed = (int(found[1]), int(found[2])) if found else (0, 1)
    return passed, failed or int(done.returncode != 0)


def of_model(seeds) -> list:
    return [part('worked rows, the model', 'run_rows.py'),
            part('the page on graphs', 'graph_page.py'),
            part('the model by the definitions', 'self_check.py', '--seeds', seeds, '--seconds', '10'),
            part('planted faults', 'test_differ.py')]


def of_program(seeds, program, seconds) -> list:
    return [part('worked rows, the program', 'run_rows.py', program),
            part('faults around the program', 'test_differ.py', program),
            part('random graphs', 'compare.py', program, '--seeds', seeds, '--seconds', seconds),
            part('pairs of graphs', 'changed.py', program, '--seeds', seeds, '--seconds', str(min(30.0, float(seconds))))]


def main() -> int:
    p = argparse.ArgumentParser(description=__doc__, formatter_class=argparse.RawDescriptionHelpFormatter)
    p.add_argument('what', choices=['model', 'program', 'all'])
    p.add_argument('program', nargs='?', default=os.path.join(TOP, 'crates', 'symq', 'out', 'symq'))
    p.add_argument('--seconds', default='60', help='how long random graphs are tried')
    a = p.parse_args()
    seeds = '%d..%d' % (first_seed(), first_seed() + SEEDS_OF_A_COMMIT)
    parts = of_model(seeds) if a.what != 'program' else []
    if a.what != 'model':
        try:
            command_of(a.program)
        except argparse.ArgumentTypeError as fault:
            p.error(str(fault))
        parts += of_program(seeds, a.program, a.seconds)
    passed, failed = (sum(counts) for counts in zip(*parts))
    print('%d passed, %d failed' % (passed, failed))
    return 1 if failed else 0


if __name__ == '__main__':
    sys.exit(main())
