#!/usr/bin/env python3
"""Tests the differ: programs with a planted fault are detected within 500 graphs each, and right ones aren't reported.

    python3 evidence/model/test_differ.py             faults in copies of the model
    python3 evidence/model/test_differ.py PROGRAM     faults around a program

Each fault is planted into a copy of the model, which is queried in one process, and at the end as a program. With PROGRAM it is
a program around that one, which changes its answers. Only graphs of families and rules are tried in which the fault may show.
A reported case has to differ also after it was made small. If the readings of the definitions cover the fault, the self-check
of the copy has to fail, too. The last line is `N passed, M failed`.
"""
import argparse
import os
import subprocess
import sys
import tempfile
import time
from contextlib import closing
from functools import lru_cache

from differ.comparing import compare
from differ.copies import Copy
from differ.planted import BOTH, DENO, FAULTS, MODEL, WRAPPED, plant, wrapped
from differ.running import NO_STRICT_RULES, Program, has_strict_rules
from differ.shrinking import shrink
from differ.words import command_of
from graphs.cases import case_of_seed, family_of_seed
from rules.stack import with_big_stack

# how many graphs may hide a fault; the time for shrinking a case, in seconds; the seeds of the self-check of a copy
LIMIT, SHRINK, SELF_CHECK = 500, 0.5, '0..1000'
RIGHT_GRAPHS = 20


@lru_cache(maxsize=None)
def kept_case(seed):
    return case_of_seed(seed)


def cases_for(families, rules) -> list:
    """Returns the seeds and cases in which a fault may show."""
    seeds = ((seed, family_of_seed(seed)) for seed in range(LIMIT))
    return [(seed, kept_case(seed)) for seed, (family, strict) in seeds if family in families.split() and strict in rules]


def found_in(asked, program, cases) -> 'tuple[str, float]':
    """Compares until a graph differs, makes it small, and runs the program on that. Returns what was wrong, or nothing, and the time until the
    difference."""
    began = time.monotonic()
    seed, case = next(((at, it) for at, it in cases if asked.difference(it.graph, it.lines, it.strict) is not None),
                      (LIMIT, None))
    took = time.monotonic() - began
    if case is None:
        return 'no difference in %d graphs' % LIMIT, took
    graph, lines = shrink(asked, case, SHRINK)
    still = program.difference(graph, lines, case.strict) is not None and len(graph) <= len(case.graph)
    print('  seed %d, %d bytes of %d, %d lines of %d' % (seed, len(graph), len(case.graph), len(lines), len(case.lines)))
    return '' if still else 'the small case of seed %d is none' % seed, took


def self_check_sees(top) -> str:
    done = subprocess.run([sys.executable, 'self_check.py', '--seeds', SELF_CHECK], cwd=top, stdout=subprocess.DEVNULL,
                          stderr=subprocess.DEVNULL)
    return '' if done.returncode == 1 else 'the self-check ended with status %d' % done.returncode


def right(name, command, rules=BOTH):
    """Checks that no difference is reported for a program without a fault."""
    program = Program(command)
    cases = ((seed, kept_case(seed)) for seed in range(RIGHT_GRAPHS))
    counts = compare(program, ((seed, case if case.strict in rules else case.by(rules[0])) for seed, case in cases))
    program.close()
    wrong = '' if counts.differ == 0 and counts.graphs == RIGHT_GRAPHS else counts.told()
    return name, wrong, counts.seconds()


def results(folder):
    """Yields the name of each test of the model's copies, what is wrong with it, and its time, as they come."""
    yield right('the model itself', [sys.executable, os.path.join(MODEL, 'symq.py')])
    for fault in FAULTS:
        top = plant(fault, folder)
        with closing(Copy(top)) as copy, closing(Program([sys.executable, os.path.join(top, 'symq.py')])) as program:
            yield (fault.name, *found_in(copy, program, cases_for(fault.families, fault.rules)))
        if fault.readings:
            began = time.monotonic()
            yield fault.name + ', by the readings', self_check_sees(top), time.monotonic() - began


def results_around(program):
    """Yields the same for a program, and for those around it."""
    known = BOTH if has_strict_rules(program) else DENO
    if known is DENO:
        yield 'strict rules', NO_STRICT_RULES, 0
    yield right('the program itself', program, known)
    for name, (families, rules) in WRAPPED.items():
        if rules[0] in known:
            with closing(Program(wrapped(name, program))) as around:
                yield (name + ', around the program', *found_in(around, around, cases_for(families, rules)))


def main() -> int:
    p = argparse.ArgumentParser(description=__doc__, formatter_class=argparse.RawDescriptionHelpFormatter)
    p.add_argument('program', type=command_of, nargs='?')
    a = p.parse_args()
    passed = failed = 0
    with tempfile.TemporaryDirectory(prefix='evidence-') as folder:
        for name, wrong, took in results_around(a.program) if a.program else results(folder):
            passed, failed = passed + (not wrong), failed + bool(wrong)
            print('%s: %s' % (name, wrong or 'as it should be, %.1f s' % took), flush=True)
    print('%d passed, %d failed' % (passed, failed))
    return 1 if failed else 0


if __name__ == '__main__':
    sys.exit(with_big_stack(main))
