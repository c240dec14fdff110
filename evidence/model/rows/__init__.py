"""Rows that were worked out by hand from the rules: a graph, queries, and the answers by the rules. Sources were parsed by
a converter of TypeScript, so the trees weren't made by hand, except those of `refused.json`, and all names have scope 1.

A row has `name`, and `graph`, or `text` (the literal text of a graph; with `each` its beginnings), or `words` (the program's
arguments, in place of a graph). `asked` has pairs of a query and its answer as JSON, a line that is no query as {"hex": bytes}.
`strict` has such pairs by strict rules, or true if those of `asked` hold by both. `status` and `error` are there if they aren't
0 and empty. `calls` has results of library calls that no line shows, on the model alone."""
import json
import os

from rows.large import large_rows

HERE = os.path.dirname(os.path.abspath(__file__))
FILES = ('exports', 'declarations', 'dependencies', 'paths', 'strict', 'modules', 'refused', 'program')


def all_rows() -> 'list[dict]':
    found = []
    for name in FILES:
        with open(os.path.join(HERE, name + '.json'), encoding='utf-8') as file:
            found += json.load(file)
    return found + large_rows()
