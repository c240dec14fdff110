#!/usr/bin/env python3
"""Reads large graphs in little memory: those on the fast path, which need no JSON value of the whole text, are accepted.

    python3 tools/run_plain.py              the proved program, crates/symq/out/symq
    python3 tools/run_plain.py SYMQ         the program at this path

No contract can say that a graph is read node by node: a reader that makes a value of the whole text for each graph returns
the same graphs. It needs over ten times the memory of the text, and reading node by node at most seven times. So the modules of the
stored cases are repeated to a text of some megabytes, in each of the forms of the fast path, and the program may take eight
times the text: it has to accept each. Texts of other forms are accepted without a bound. Within it the program has to run
out of memory, which shows that the bound distinguishes the two.

Nor can a contract say that no value is made of a node. One node whose list of children is as long as the text needs over
eight times the text for its value, and under five for its tokens: the program may take six and a half times the text.

Nor that a list of modules is read in pieces. One reader for the whole text needs as much more memory as the text is long. If the modules
come first, as symdir writes them, the program may take six times the text. It runs out of memory within that if they come last.

Nor that vectors leave no unused blocks when they grow. For one module of twice as many declarations the program may take 2.1 times
the peak memory, as in `bench/reading.py`.
The last line is 'N passed, M failed'.
"""
import json
import math
import os
import subprocess
import sys
import tempfile

import runner
from run_cases import ROOT, TESTS

sys.path.insert(1, os.path.join(ROOT, 'bench'))

from made import declarations, write
from reading import GROWTH, apart, run

SIZE, TIMES, TIMES_OF_ONE_NODE, TIMES_IN_PIECES = 6_000_000, 8, 6.5, 6
DECLARATIONS = 50_000


def stored_modules():
    """Returns the modules of the stored graphs that are accepted."""
    found = []
    for name in sorted(os.listdir(os.path.join(TESTS, 'cases'))):
        folder = os.path.join(TESTS, 'cases', name)
        path = os.path.join(folder, 'graph.json')
        if os.path.exists(path) and not os.path.exists(os.path.join(folder, 'status')):
            with open(path, encoding='utf-8') as text:
                found += json.load(text).get('modules') or []
    return found


def large_graph():
    """Returns a graph of those modules repeated, each under a specifier of its own, with redirects and resolutions."""
    modules, graph, size = stored_modules(), {'modules': [], 'redirects': [], 'resolutions': []}, 0
    while size < SIZE:
        number = len(graph['modules'])
        module = dict(modules[number % len(modules)], specifier='m%d' % number)
        graph['modules'].append(module)
        graph['redirects'].append(['r%d' % number, 'm%d' % number])
        graph['resolutions'].append(['m%d' % number, './t', 'm0'])
        size += len(json.dumps(module)) + 60
    return graph


def rebuilt(value, change):
    """Returns a value in which the members of each object were changed."""
    if isinstance(value, dict):
        return dict(change([(key, rebuilt(it, change)) for key, it in value.items()]))
    return [rebuilt(it, change) for it in value] if isinstance(value, list) else value


def compact(value, **how):
    return json.dumps(value, separators=(',', ':'), **how)


def with_nulls(members):
    """Returns the members, and null under each optional key that is absent."""
    there = dict(members)
    return members + [(key, None) for key in ('tree', 'nodes', 'declaration', 'types', 'children') if key not in there]


def plain_texts(graph):
    """Yields a graph in the forms of the fast path, by name."""
    text = compact(graph, ensure_ascii=False)
    nothing = [('extra', {'deep': [[{}], None, True, 'x', 18446744073709551615]})]
    values = ('x', 18446744073709551615, True, None, [], [1], [1, 2], [1, 2, 3], ['x', 1], {})
    yield 'as stored', text
    yield 'with escapes', compact(graph).replace('"kind"', '"\\u006bind"').replace('"nodes"', '"nod\\u0065s"')
    yield 'with white space', json.dumps(graph, indent=1)
    yield 'keys in another order', compact(rebuilt(graph, lambda members: members[::-1]))
    yield 'keys that count for nothing', compact(rebuilt(graph, lambda members: nothing + members))
    yield 'more keys that count for nothing', compact(rebuilt(graph, lambda members: members + [('x%d' % i, it) for i, it in enumerate(values)]))
    yield 'a key twice', text.replace('"specifier":', '"specifier":"x","specifier":')
    yield 'null where it may be absent', compact(rebuilt(graph, with_nulls))
    yield 'no lists', compact({'modules': graph['modules'], 'redirects': None})


def odd_texts(graph):
    """Yields the graph in forms that are accepted but not on the fast path."""
    rest = compact(graph, ensure_ascii=False)[1:]
    yield 'modules twice', '{"modules":[],' + rest
    yield 'a fraction that a later value replaces', '{"extra":0.5,"extra":1,' + rest
    yield 'a list of texts in a node', '{"resolutions":[],' + rest.replace('{"kind":"Program",', '{"x":["a","b"],"kind":"Program",', 1)
    yield 'a tree of a JSON module that is none', '{"resolutions":[],' + rest.replace(
        '"modules":[', '"modules":[{"specifier":"j","kind":"json","text":"","tree":[]},', 1)


def in_pieces(graph):
    """Yields the graph as symdir writes it, a module a line, which is read in pieces; and with its modules last, which isn't."""
    text = compact(graph, ensure_ascii=False)
    lines = text.replace('{"modules":[', '{"modules":[\n', 1).replace('},{"specifier":', '},\n{"specifier":')
    rest = {key: value for key, value in graph.items() if key != 'modules'}
    yield 'modules in lines', lines, 0
    yield 'modules behind the rest', compact({**rest, 'modules': graph['modules']}, ensure_ascii=False), 7


def one_node():
    """Returns a graph of one node, with as many children as take most room in a list that doubles. None is a node, so the graph is refused."""
    children = ','.join(['4294967295'] * (2 ** 20 + 1))
    return '{"modules":[{"specifier":"m","kind":"esm","text":"","tree":{"nodes":[{"kind":"Program","range":[0,0],"body":[%s]}]}}]}' % children


def status(program, path, memory=None):
    """Returns the status of a run without queries, within this much memory."""
    limits = runner.Limits(seconds=None, memory=memory)
    return runner.run(program, [path], subprocess.DEVNULL, limits, stdout=subprocess.DEVNULL, stderr=subprocess.DEVNULL).status


def growth_of_one_module(program):
    """Returns how much the peak memory grows from a module of declarations to one of twice as many."""
    peaks = []
    with tempfile.TemporaryDirectory() as folder:
        for n in (DECLARATIONS, 2 * DECLARATIONS):
            path = os.path.join(folder, '%d.json' % n)
            apart(lambda: write(path, {'modules': [declarations('m', n)]}))
            if status(program, path) != 0:
                return math.inf
            peaks.append(run(program, path)[1])
    return peaks[1] / peaks[0]


def rows(program):
    """Yields the name of each check, and what is wrong."""
    # first, since memory of this process would count as the program's
    grown = growth_of_one_module(program)
    too_much = 'twice as many take %.2f times the memory, over %.1f' % (grown, GROWTH)
    yield 'one module of declarations', too_much if grown > GROWTH else ''
    graph = large_graph()
    sorts = [(text, [(TIMES, 0)]) for text in plain_texts(graph)]
    sorts += [(text, [(None, 0), (TIMES, 7)]) for text in odd_texts(graph)]
    sorts += [((name, text), [(TIMES_IN_PIECES, want)]) for name, text, want in in_pieces(graph)]
    sorts.append((('one node of many children', one_node()), [(TIMES_OF_ONE_NODE, 5)]))
    for (name, text), wants in sorts:
        with tempfile.TemporaryDirectory() as folder:
            path = os.path.join(folder, 'graph.json')
            with open(path, 'w', encoding='utf-8') as file:
                file.write(text)
            for times, want in wants:
                got = status(program, path, times and int(times * os.path.getsize(path)))
                room = '%g times the text' % times if times else 'free'
                yield '%s, memory %s' % (name, room), '' if got == want else 'status %d, not %d' % (got, want)


def main(words):
    return runner.report(rows(runner.programs(words, missing='no program %s: `make symq` builds it')[0]))


if __name__ == '__main__':
    sys.exit(main(sys.argv[1:]))
