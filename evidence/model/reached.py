#!/usr/bin/env python3
"""Measures how much of the table of dependencies random graphs cover: makes each single change of the table, and checks whether a graph detects it.

    python3 evidence/model/reached.py --seeds 6000

In the model each edge is left out, each mark, guard and form of an edge is removed, each mark is replaced, and each two adjacent
edges are swapped, one change at a time. Four changes are equivalent (SAME). The last line is `N passed, M failed`: how many of
the others some graph detected.
"""
import argparse
import copy
import sys

from graphs.cases import case_of_seed, family_of_seed
from rules.answers import run
from rules.kinds import BEGIN, EDGES, SIG_EDGES
from rules.stack import with_big_stack

TABLES = {'edges': EDGES, 'signatures': SIG_EDGES, 'beginnings': BEGIN}
OTHER_MARK = {'T': 'V', 'V': 'B', 'B': 'T', 'C': None}

# equivalent changes: of two edges never both are open; and a reference without a mark is one of a value
SAME = ['edges of Arrow: body before return_type', 'beginnings of ClassProp: value before type_ann',
        'beginnings of ClassMethod: key with mark None', 'beginnings of ClassProp: key with mark None']


def changes_of(edges) -> list:
    """Returns each wrong version of a row, with a name."""
    found = []
    for at, edge in enumerate(edges):
        name = edge.field or edge.special
        found.append(('%s left out' % name, edges[:at] + edges[at + 1:]))
        if at:
            found.append(('%s before %s' % (name, edges[at - 1].field), edges[:at - 1] + [edge, edges[at - 1]] + edges[at + 1:]))
        others = [(key, None) for key in ('mark', 'guard') if getattr(edge, key)]
        others += [('sig', False)] if edge.sig else []
        others += [('special', None)] if edge.special in ('computed', 'arrow', 'list', 'rest') else []
        others += [('mark', OTHER_MARK[edge.mark])] if OTHER_MARK.get(edge.mark) else []
        for key, value in others:
            other = copy.copy(edge)
            setattr(other, key, value)
            found.append(('%s with %s %s' % (name, key, value), edges[:at] + [other] + edges[at + 1:]))
    return found


def cases_with_answers(count) -> list:
    """Returns graphs of this many seeds that are accepted, their queries for dependencies, and the right answers."""
    found = []
    for seed in range(count):
        if family_of_seed(seed, strict=False)[0] not in ('dependent', 'mixed'):
            continue
        case = case_of_seed(seed, strict=False)
        lines = [line for line in case.lines if line.replace(b' ', b'').startswith(b'["deps"')]
        found.append((case.graph, lines, run(case.graph, lines)))
    return found


def is_told(cases) -> bool:
    return any(run(graph, lines) != answers for graph, lines, answers in cases)


def all_changes():
    """Yields each change of each row: its name, the position of the row, and its replacement."""
    for table, rows in TABLES.items():
        for kind, edges in list(rows.items()):
            for name, changed in changes_of(edges):
                yield '%s of %s: %s' % (table, kind, name), rows, kind, edges, changed


def main() -> int:
    p = argparse.ArgumentParser(description=__doc__, formatter_class=argparse.RawDescriptionHelpFormatter)
    p.add_argument('--seeds', type=int, default=6000, metavar='N', help='the seeds from 0 to before N')
    a = p.parse_args()
    cases, passed, failed = cases_with_answers(a.seeds), 0, 0
    for name, rows, kind, edges, changed in all_changes():
        rows[kind] = changed
        told = is_told(cases)
        rows[kind] = edges
        if told == (name in SAME):
            failed += 1
            print('%s: %s' % (name, 'told' if told else 'no graph tells it'), flush=True)
        elif told:
            passed += 1
    print('%d passed, %d failed' % (passed, failed))
    return 1 if failed else 0


if __name__ == '__main__':
    sys.exit(with_big_stack(main))
