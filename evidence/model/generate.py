#!/usr/bin/env python3
"""Writes the graph and the queries of a seed, or a graph of one form and any size, to look at.

    python3 evidence/model/generate.py --seed 7 --graph GRAPH --queries QUERIES
    python3 evidence/model/generate.py --large ring 10000 --graph GRAPH --queries QUERIES

For a seed it prints the rules of its queries.
"""
import argparse

from graphs.cases import case_of_seed
from graphs.large import FORMS, large
from graphs.texts import compact
from rules.stack import with_big_stack


def made(a) -> 'tuple[bytes, list[bytes]]':
    """Returns the text of a graph, and lines; prints the rules."""
    if a.large:
        value, queries = large(a.large[0], int(a.large[1]))
        return compact(value), [compact(query) for query in queries]
    case = case_of_seed(a.seed, a.accepted)
    print('symq --strict GRAPH' if case.strict else 'symq GRAPH')
    return case.graph, case.lines


def main() -> None:
    p = argparse.ArgumentParser(description=__doc__, formatter_class=argparse.RawDescriptionHelpFormatter)
    how = p.add_mutually_exclusive_group(required=True)
    how.add_argument('--seed', type=int)
    how.add_argument('--large', nargs=2, metavar=('FORM', 'SIZE'), help='FORM is one of ' + ', '.join(FORMS))
    p.add_argument('--accepted', action='store_true', help='of the graphs that are accepted')
    p.add_argument('--graph', required=True, help='the file to write the graph to')
    p.add_argument('--queries', required=True, help='the file to write the queries to')
    a = p.parse_args()
    if a.large and (a.large[0] not in FORMS or not a.large[1].isdecimal()):
        p.error('no such form or size: %s %s' % tuple(a.large))
    graph, lines = with_big_stack(made, a)
    with open(a.graph, 'wb') as file:
        file.write(graph)
    with open(a.queries, 'wb') as file:
        file.write(b''.join(line + b'\n' for line in lines))


if __name__ == '__main__':
    main()
