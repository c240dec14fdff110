#!/usr/bin/env python3
"""Compares the page on graphs, `docs/GRAPH.md`, with the model: each kind with its fields and their categories, and the answers
on its graphs.

    python3 evidence/model/graph_page.py

The model's table of kinds was written independently of the page, and is compared with the program by `compare.py --every`. The last
line is `N passed, M failed`.
"""
import json
import os
import re
import sys

from differ.running import STRICT
from rules.answers import run
from rules.json_text import text_of
from rules.kinds import ALL_KINDS, FIELDS
from rules.stack import with_big_stack

PAGE = os.path.join(os.path.dirname(os.path.abspath(__file__)), '..', '..', 'docs', 'GRAPH.md')

# the names on the page for the types of fields that hold no child
PLAIN = {'text': 'text', 'flag': 'bool', 'name': 'Id', 'access': 'ACC', 'method kind': 'MKIND'}
OPTIONAL = {'text': 'text?', 'flag': 'bool', 'access': 'ACC'}


def rows_between(page, first, last) -> 'list[list[str]]':
    """Returns the cells of the tables between two lines of the page."""
    part = page[page.index(first):page.index(last)]
    rows = [[cell.strip() for cell in line.strip('|').split('|')] for line in part.split('\n') if line.startswith('| ')]
    return [row for row in rows if len(row) > 1]


def categories_of(page) -> 'dict[str, frozenset]':
    """Returns the kinds of each category, by its name."""
    found = {kind: frozenset([kind]) for kind in ('Ident', 'BindingIdent', 'Class', 'Function', 'VarDeclarator')}
    texts = {row[0]: row[1] for row in rows_between(page, '## Categories', '## Rules of shape')}

    def kinds_of(name):
        if name not in found:
            text, _, without = texts[name].partition(' but for ')
            kinds = set(re.findall(r'`(\w+)`', text))
            for other in re.sub(r'`\w+`', '', text).replace(',', ' ').split():
                kinds |= kinds_of(other)
            found[name] = frozenset(kinds - set(re.findall(r'`(\w+)`', without)))
        return found[name]

    items = kinds_of('Item') - kinds_of('Statement')
    found['Any'] = frozenset(ALL_KINDS) - items - {'Program'}
    for name in texts:
        if ',' not in name and name != 'category':
            kinds_of(name)
    return found


def fields_of(cell, categories) -> list:
    """Returns the fields of a kind, from the model."""
    found = []
    for part in filter(None, (it.strip() for it in cell.split(','))):
        name, mark, kind = re.fullmatch(r'`(\w+)([?*]?)` (.+)', part).groups()
        if kind in PLAIN:
            found.append((name, (OPTIONAL if mark else PLAIN)[kind], None))
        else:
            found.append((name, 'child' + mark, categories[kind]))
    return found


def examples_of(page):
    """Yields each graph of the page with its query lines and answers, and whether it is by strict rules."""
    for graph, console in re.findall(r'```json\n(.*?)```.*?```console\n(.*?)```', page, re.S):
        lines = [line for line in console.split('\n') if line and not line.startswith('$')]
        yield json.loads(graph), lines[0::2], lines[1::2], STRICT in console.split('\n')[0]


def checks(page):
    """Yields the checks, with what is found and what is expected."""
    categories = categories_of(page)
    told = {row[0].strip('`'): row[2] for row in rows_between(page, '### Items', '## Categories') if row[0].startswith('`')}
    yield 'the kinds', sorted(told), sorted(ALL_KINDS)
    for kind, cell in told.items():
        yield kind, fields_of(cell, categories), FIELDS[kind]
    for graph, lines, answers, strict in examples_of(page):
        output = run(text_of(graph).encode(), [line.encode() for line in lines], strict)[1].decode().split('\n')[:-1]
        yield 'the graph with %s' % lines[0], answers, output


def main() -> int:
    with open(PAGE, encoding='utf-8') as file:
        page = file.read()
    passed = failed = 0
    for what, found, wanted in checks(page):
        passed, failed = passed + (found == wanted), failed + (found != wanted)
        if found != wanted:
            print('%s: the page has %s, the model %s' % (what, found, wanted))
    print('%d passed, %d failed' % (passed, failed))
    return 1 if failed else 0


if __name__ == '__main__':
    sys.exit(with_big_stack(main))
