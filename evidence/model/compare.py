#!/usr/bin/env python3
"""Compares a program with the model on random graphs: status, standard output and standard error, byte for byte.

    python3 evidence/model/compare.py crates/symq/out/symq --seeds 0..20000
    python3 evidence/model/compare.py crates/symq/out/symq --every
    python3 evidence/model/compare.py crates/symq/out/symq --mutated --seeds 0..200000
    python3 evidence/model/compare.py 'python3 evidence/model/symq.py' --seeds 0..100

PROGRAM is one word of the shell. A seed is one graph with up to 160 queries, in one run: 12 of 20 are accepted, the others
broken in a tree, a list, a field, a value or the text. Three in ten are queried by strict rules, with `--strict`. A program
without them counts as one failure, and is queried by Deno's rules alone. The first difference is made small and printed, and the
status is 1.
--every takes, in place of random graphs, each field of each kind with each wrong value, each kind in each child field,
and so on; --mutated takes accepted random graphs, the text of each changed at one to three positions. The last line is `N passed, M failed`.
"""
import argparse
import sys

from differ.comparing import compare
from differ.running import NO_STRICT_RULES, Program, has_strict_rules
from differ.words import command_of, seeds_of
from graphs.cases import case_of_seed, mutated_case
from graphs.every import every_case
from rules.stack import with_big_stack


def cases_of(a, rules):
    """Returns the cases with their seeds; if rules are given, all of them are queried by these."""
    if a.every:
        every = every_case()
        cases = ((at, every[at]) for at in (a.seeds or range(len(every))) if at < len(every))
        return ((at, case.by(rules == 'strict') if rules else case) for at, case in cases)
    if a.mutated:
        return ((seed, mutated_case(seed).by(rules == 'strict')) for seed in a.seeds or range(1000))
    strict = rules == 'strict' if rules else None
    return ((seed, case_of_seed(seed, a.accepted, strict)) for seed in a.seeds or range(1000))


def main() -> int:
    p = argparse.ArgumentParser(description=__doc__, formatter_class=argparse.RawDescriptionHelpFormatter)
    p.add_argument('program', type=command_of)
    p.add_argument('--seeds', type=seeds_of, metavar='A..B', help='0..1000 unless said; of --every a part')
    p.add_argument('--seconds', type=float, help='stop after so long')
    p.add_argument('--accepted', action='store_true', help='graphs that are accepted alone')
    p.add_argument('--every', action='store_true', help='every small case, about 13,700')
    p.add_argument('--mutated', action='store_true', help='graphs whose texts are changed')
    p.add_argument('--rules', choices=['Deno', 'strict'], help='by these rules all graphs')
    p.add_argument('--go-on', action='store_true', help='tell each difference in one line, and go on')
    p.add_argument('--shrink-seconds', type=float, default=30)
    p.add_argument('--keep', metavar='FOLDER', help='keep the files of a difference')
    a = p.parse_args()
    lacks_strict = a.rules != 'Deno' and not has_strict_rules(a.program)
    if lacks_strict:
        print(NO_STRICT_RULES, flush=True)
    program = Program(a.program)
    counts = compare(program, cases_of(a, 'Deno' if lacks_strict else a.rules), a.seconds, a.go_on, a.shrink_seconds, a.keep,
                     lambda text: print(text, flush=True))
    program.close()
    print(counts.told())
    print('%d passed, %d failed' % (counts.graphs - counts.differ, counts.differ + lacks_strict))
    return 1 if counts.differ or lacks_strict or not counts.graphs else 0


if __name__ == '__main__':
    sys.exit(with_big_stack(main))
