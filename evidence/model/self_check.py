#!/usr/bin/env python3
"""Compares the model with the definitions, read literally (`readings/`), on random small graphs.

    python3 evidence/model/self_check.py --seeds 0..2000

Three in ten graphs are queried by strict rules, and three in ten of these are webs, in which most names are shared. Tables are
compared with filters over the events of the tree. Exports, shared names, stored modules and both counts of steps are compared
with all simple chains, enumerated and sorted. Each list of paths has to be derived, its leaves to be in the least relations, and
no required leaf to be lost. It stops at the first seed that fails, and ends with a line `N passed, M failed`.
"""
import argparse
import random
import sys
import time
from collections import Counter

from differ.words import seeds_of
from graphs.cases import value_of_seed
from readings.checks import PathChecks, check_exports, check_tables
from rules.checker import check_graph
from rules.raw_graph import graph_of_value
from rules.stack import with_big_stack


def check_seed(seed: int, counts: Counter) -> None:
    value, strict = value_of_seed(seed)
    graph = check_graph(graph_of_value(value))
    check_tables(graph, counts)
    check_exports(graph, strict, counts)
    PathChecks(graph, strict, random.Random(seed), counts).check()


def check_seeds(seeds, seconds=None, go_on=False) -> int:
    """Checks the seeds, until the time is over or one fails, and prints what was checked. Returns the status."""
    counts, began, passed, failed = Counter(), time.monotonic(), 0, 0
    for seed in seeds:
        if (seconds is not None and time.monotonic() - began > seconds) or (failed and not go_on):
            break
        try:
            check_seed(seed, counts)
            passed += 1
        except AssertionError as fault:
            failed += 1
            print('seed %d: %s' % (seed, fault))
    print('%.1f s; %s' % (time.monotonic() - began, ', '.join('%s: %d' % it for it in sorted(counts.items()))))
    print('%d passed, %d failed' % (passed, failed))
    return 1 if failed or not passed else 0


def main() -> int:
    p = argparse.ArgumentParser(description=__doc__, formatter_class=argparse.RawDescriptionHelpFormatter)
    p.add_argument('--seeds', type=seeds_of, default='0..500', metavar='A..B')
    p.add_argument('--seconds', type=float, help='stop after so long')
    p.add_argument('--go-on', action='store_true', help='go on behind a seed that fails')
    a = p.parse_args()
    return check_seeds(a.seeds, a.seconds, a.go_on)


if __name__ == '__main__':
    sys.exit(with_big_stack(main))
