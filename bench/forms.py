#!/usr/bin/env python3
"""Counts the cost of other queries beside `exports` by Deno's rules: public names, and strict rules.

    python3 bench/forms.py PROGRAM [--graph GRAPH ..] [--size 2000]

The queries on each module of a graph are

    exports   its exports
    names     its public names
    strict    its exports by strict rules; not of a program without them

and a figure is that of a run with these queries, less that of a run by the same rules that queries a symbol of each module, so
that it is analysed. The graphs are made ones of the stated size, twice and four times that, and graphs of files, as those of
declaration files. In webs of ten modules each has `export *` from all others, and no name is shared. In tens that share names
one has `export *` from nine others, which each export the same five names locally. Instructions, in millions, and pages are counted as in counts.py,
instructions on made graphs of a tenth of the size; 'growth' is the ratio of the figure of 2n to that of n, and of 4n to that
of 2n; 'of exports' is the ratio to the figure of `exports`, for each size.
"""
import argparse
import json
import os
import subprocess
import sys
import tempfile

from counts import Files, instructions, pages
from made import line, sharing_of, webs_of

MADE = {'webs of ten modules': webs_of, 'tens that share names': sharing_of}

# the form of the queries, and the arguments before the graph
FORMS = {'exports': ('exports', []), 'names': ('names', []), 'strict': ('exports', ['--strict'])}


def has_strict_rules(program, path) -> bool:
    how = {'stdin': subprocess.DEVNULL, 'stdout': subprocess.DEVNULL, 'stderr': subprocess.DEVNULL}
    return subprocess.run([program, '--strict', path], **how).returncode == 0


def asked(form, graph) -> bytes:
    return b''.join(line(form, it['specifier']) for it in graph['modules'])


def figures(count, program, graph) -> 'dict[str, int]':
    """Returns the cost of each form beyond analysing."""
    found = {}
    with tempfile.TemporaryDirectory() as folder:
        files = Files(folder, graph)
        is_strict = has_strict_rules(program, files.path)
        for name, (form, words) in FORMS.items():
            if is_strict or not words:
                command = [program, *words, files.path]
                found[name] = count(command, asked(form, graph)) - count(command, files.queries)
    return found


def quotients(more, less) -> str:
    return '; '.join('%.2f' % (a / b) if b >= 100 else '-' for a, b in zip(more, less))


def rows(name, program, small, large) -> None:
    """Prints the rows of graphs: instructions of the small ones, pages of the large ones."""
    executed, touched = [figures(instructions, program, it) for it in small], [figures(pages, program, it) for it in large]
    for form in executed[0]:
        each, base = [it[form] for it in executed], [it['exports'] for it in executed]
        row = [name, form, '%.1f' % (each[0] / 1e6), quotients(each[1:], each), quotients(each, base) if form != 'exports' else '',
               str(touched[0][form])]
        print('| %s |' % ' | '.join(row), flush=True)


def main() -> None:
    p = argparse.ArgumentParser(description=__doc__, formatter_class=argparse.RawDescriptionHelpFormatter)
    p.add_argument('program', type=os.path.abspath)
    p.add_argument('--graph', nargs='*', default=[])
    p.add_argument('--size', type=int, default=2000, help='of the made graphs; 0 for none')
    a = p.parse_args()
    print('| graph | asked | million instructions | growth | of exports | pages |\n|' + '---|' * 6)
    if a.size:
        sizes = [a.size, 2 * a.size, 4 * a.size]
        for name, make in MADE.items():
            rows('%s, %d' % (name, a.size), a.program, [make(it // 10) for it in sizes], [make(it) for it in sizes])
    for path in a.graph:
        with open(path, encoding='utf-8') as file:
            graph = json.load(file)
        rows(os.path.basename(path), a.program, [graph], [graph])


if __name__ == '__main__':
    sys.exit(main())
