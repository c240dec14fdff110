#!/usr/bin/env python3
"""Counts the stages of the program on made graphs, with their growth from n to 2n, beside the Rust crate.

    python3 bench/counts.py PROGRAM                     the program alone
    python3 bench/counts.py PROGRAM --beside OTHER      beside another, as evidence/crate/out/crate-symq
    python3 bench/counts.py PROGRAM --graph GRAPH ..    on graphs of files, too

It prints a table with a row for each graph and stage. The stages are

    read      a run on the graph with a module's specifier twice, which is refused before its trees are checked
    check     a run without queries, less read
    analyse   a run with a query for each module, less one without queries
    depend    a run with a query for the dependencies of the first symbol of each module, less one with the queries of
              analyse: of the graph of references; of graphs of files the dependencies of each symbol, in both modes
    export    a run with a query for the exports of each module, less one with the queries of analyse: of the graph of
              webs, which is measured for 4n too, and of graphs of files
    path      a run with a query for the paths of a symbol, of graphs of files of each, less one without queries: of
              re-exports in a row, of candidates of an import, of aliases in a chain and of an alias of many parts, including
              their analysis
    ends      a run with a query for the definitions at the ends of such paths, less one with the queries of analyse: of
              aliases in a chain and of an alias of many parts
    call      a run with a query for the full name of the innermost of nested namespaces, less one with the queries of analyse
    name      a run with a query for the paths of an import along one `export *`, less one without queries: of one name of
              many webs, of which half are visited
    whole     of the same graph a run with a query for all exports there, less one without queries

and the counts of a run are:

    instructions   in millions, by valgrind's cachegrind, which is some 25 times slower than the program:
                   so a made graph has a tenth of the stated size there
    pages          of 4096 bytes, that were touched for the first time (minor faults, the least of three runs); not
                   counted for the other program's analyse

'growth' is the ratio of the figure of 2n to that of n, and of 4n to that of 2n. 'of other' is the ratio to the figure of the other
program, for n and for 2n. Its read is its whole run without queries, which starts, reads the file, builds the graph and frees
everything; ours leaves the graph to the system. Its other stages are measured like ours; it has no checker. A dash replaces a ratio to a count below 100.
"""
import argparse
import json
import os
import re
import resource
import subprocess
import sys
import tempfile
from functools import partial

from made import MADE, line, write

# the runs of each command, for the pages
PAGES = 3

COLUMNS = ['graph', 'stage', 'million instructions', 'growth', 'of other', 'pages', 'growth', 'of other']

STAGES = ('read', 'check', 'analyse')

# the modes of dependencies
MODES = ('types', 'all')

# stages that are less a run without queries
APART = ('path', 'name', 'whole')


class Files:
    """A graph's files in a directory, and query lines for each of its modules. If a graph counts its symbols by module, the paths and the
    dependencies of each are queried; otherwise the paths of the first module's first symbol."""

    def __init__(self, folder, graph, symbols=None):
        modules = graph['modules']
        self.path, self.refused = (os.path.join(folder, name) for name in ('graph.json', 'refused.json'))
        write(self.path, graph)
        write(self.refused, dict(graph, modules=modules + [{'specifier': modules[0]['specifier'], 'kind': 'external'}]))
        self.queries = b''.join(line('symbol', m['specifier'], '', 0) for m in modules)
        self.asked = {
            'depend': b''.join(line('deps', m, k, mode) for m, count in symbols.items() for k in range(count) for mode in MODES)
            if symbols else b''.join(line('deps', m['specifier'], 1, 'all') for m in modules),
            'export': b''.join(line('exports', m['specifier']) for m in modules),
            'path': b''.join(line('paths', m, k) for m, count in symbols.items() for k in range(count))
            if symbols else line('paths', modules[0]['specifier'], 1),
            'ends': line('definitions', modules[0]['specifier'], 1),
            'call': line('name', modules[0]['specifier'], namespaces_in(modules[0])),
            'name': line('paths', 'first', 1),
            'whole': line('exports', 'hub'),
        }


def namespaces_in(module):
    return sum(node['kind'] == 'TsModuleDecl' for node in (module.get('tree') or {}).get('nodes', []))


def symbols_of(program, path, graph):
    """Returns how many symbols each module has, if it is found by its own specifier."""
    found, left, size = {}, [m['specifier'] for m in graph['modules']], 64
    while left:
        lines = b''.join(line('name', m, found.get(m, 0) + k) for m in left for k in range(size))
        answers = subprocess.run([program, path], input=lines, stdout=subprocess.PIPE).stdout.split(b'\n')
        more = []
        for at, m in enumerate(left):
            count = sum(it.startswith(b'{"name"') for it in answers[at * size : (at + 1) * size])
            found[m] = found.get(m, 0) + count
            more += [m] if count == size else []
        left, size = more, size * 2
    return {m: count for m, count in found.items() if count}


def pages(command, lines=b''):
    """Returns the pages that a run touches: the least of some runs."""
    found = []
    for _ in range(PAGES):
        before = resource.getrusage(resource.RUSAGE_CHILDREN).ru_minflt
        subprocess.run(command, input=lines, stdout=subprocess.DEVNULL, stderr=subprocess.DEVNULL)
        found.append(resource.getrusage(resource.RUSAGE_CHILDREN).ru_minflt - before)
    return min(found)


def instructions(command, lines=b''):
    counter = ['valgrind', '--tool=cachegrind', '--cache-sim=no', '--cachegrind-out-file=/dev/null']
    p = subprocess.run(counter + command, input=lines, stdout=subprocess.DEVNULL, stderr=subprocess.PIPE)
    return int(re.search(rb'I +refs: +([\d,]+)', p.stderr)[1].replace(b',', b''))


def counts(count, program, other, files, stages):
    """Returns the counts of the program and the other, by stage."""
    further = [it for it in stages if it in files.asked]
    read = count([program, files.refused])
    idle = count([program, files.path])
    asked = count([program, files.path], files.queries)
    found = {'read': [read], 'check': [idle - read], 'analyse': [asked - idle]}
    found.update((it, [count([program, files.path], files.asked[it]) - (idle if it in APART else asked)]) for it in further)
    if other:
        idle = count([other, files.path])
        found['read'].append(idle)
        if count is instructions:
            asked = count([other, files.path], files.queries)
            found['analyse'].append(asked - idle)
            for stage in further:
                found[stage].append(count([other, files.path], files.asked[stage]) - (idle if stage in APART else asked))
    return found


def cells(form, stage, sizes):
    """Returns the program's figure for n, its growth, and its ratios to the other's; empty texts for missing ones."""
    def part(figure, divisor):
        return '%.2f' % (figure / divisor) if divisor >= 100 else '-'

    figures = [it.get(stage) for it in sizes]
    if not figures or not figures[0]:
        return ['', '', '']
    growth = '; '.join(part(more[0], less[0]) for less, more in zip(figures, figures[1:]))
    of_other = '; '.join(part(ours, theirs[0]) for ours, *theirs in figures if theirs)
    return [form(figures[0][0]), growth, of_other]


def measure(a, name, makers, small, stages):
    """Prints the rows of a graph of some sizes. `small` has smaller ones for counting instructions."""
    with tempfile.TemporaryDirectory() as top:
        def files(make):
            return Files(tempfile.mkdtemp(dir=top), *make())
        executed = [counts(instructions, a.program, a.beside, files(make), stages) for make in small]
        touched = [counts(pages, a.program, a.beside, files(make), stages) for make in makers]
    for stage in stages:
        row = [name, stage] + cells(lambda n: '%.1f' % (n / 1e6), stage, executed) + cells(str, stage, touched)
        print('| %s |' % ' | '.join(row), flush=True)


def main():
    p = argparse.ArgumentParser(description=__doc__, formatter_class=argparse.RawDescriptionHelpFormatter)
    p.add_argument('program', type=os.path.abspath)
    p.add_argument('--beside', metavar='OTHER', type=os.path.abspath)
    p.add_argument('--graph', nargs='*', default=[])
    p.add_argument('--made', metavar='REGEX', help='of the made graphs, those with such a name')
    a = p.parse_args()
    print('| %s |\n|%s' % (' | '.join(COLUMNS), '---|' * len(COLUMNS)))
    for name, n, make, further, multiples in MADE:
        if a.made and not re.search(a.made, name):
            continue
        sizes = [partial(lambda size: (make(size),), n * it) for it in multiples]
        small = [partial(lambda size: (make(size),), n * it // 10) for it in multiples]
        measure(a, '%s, %d' % (name, n), sizes, small, STAGES + further)
    for file in a.graph:
        with open(file, encoding='utf-8') as f:
            graph = json.load(f)
        made = (graph, symbols_of(a.program, file, graph))
        measure(a, os.path.basename(file), [lambda: made], [lambda: made], STAGES + ('depend', 'export', 'path'))


if __name__ == '__main__':
    sys.exit(main())
