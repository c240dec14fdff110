#!/usr/bin/env python3
"""Times and counts reading: whole runs without queries on made graphs, of n and of 2n, and on graphs of files.

    python3 bench/reading.py PROGRAM --beside OTHER                  beside another, as evidence/crate/out/crate-symq
    python3 bench/reading.py PROGRAM --beside OTHER --graph GRAPH .. on graphs of files too
    python3 bench/reading.py PROGRAM --before OLD                    refused graphs beside an earlier program

A run without queries starts, reads the file, builds the graph and checks it, and leaves the graph to the system; the other
program doesn't check, and frees the graph. It prints a table with a row for each graph: the text in megabytes, then of a run

    ms             processor time, the least of some runs. Those of all programs and of n and 2n are made in turn, so
                   that a slow minute of the machine affects each. It varies with the load of the machine
    MB             of peak memory
    instructions   in millions, by valgrind's cachegrind, on a made graph of a tenth of the stated size; not of files

each as a ratio to the other program's figure, of n and of 2n, and with its growth from n to 2n. Beside an earlier program there
is a row for each graph and kind of refusal: a text that is cut at its end, one whose last module is no module, and one with
a module's specifier twice, which is a fault of the graph.

It ends with status 1 if a run takes more than 0.45 of the other's time or 0.3 of its memory, if memory or instructions
grow by more than 2.1, or if a refused graph takes more than 1.5 of the earlier program's time.
"""
import argparse
import json
import os
import re
import subprocess
import sys
import tempfile
from functools import partial

from counts import instructions
from made import class_of, declarations, interface_of, write

RUNS = 11

# a graph's name, its n, and its generator
MADE = [
    ('many modules', 2000, lambda n: {'modules': [declarations('m%d' % i, 20) for i in range(n)]}),
    ('one module of declarations', 50000, lambda n: {'modules': [declarations('m', n)]}),
    ('one class of members', 20000, class_of),
    ('one interface of members', 40000, interface_of),
]

# the allowed ratios of a run's time and memory to the other's, of growth, and of a refused graph's time to the earlier program's
TIME, MEMORY, GROWTH, REFUSED = 0.45, 0.3, 2.1, 1.5


def apart(work):
    """Runs work in a process of its own. The peak memory of this process would count for processes that it starts."""
    child = os.fork()
    if not child:
        work()
        os._exit(0)
    if os.waitpid(child, 0)[1]:
        sys.exit('a graph was not made')


def run(program, path):
    """Returns the processor time of a run in milliseconds, and its peak memory in megabytes."""
    started = subprocess.Popen([program, path], stdin=subprocess.DEVNULL, stdout=subprocess.DEVNULL,
                               stderr=subprocess.DEVNULL)
    _, status, used = os.wait4(started.pid, 0)
    started.returncode = os.waitstatus_to_exitcode(status)
    return 1000 * (used.ru_utime + used.ru_stime), used.ru_maxrss / 1024


def in_turn(commands):
    """Returns for each program on each text the least time and memory of some runs."""
    found = [[] for _ in commands]
    for _ in range(RUNS):
        for command, figures in zip(commands, found):
            figures.append(run(*command))
    return [tuple(min(it[i] for it in figures) for i in range(2)) for figures in found]


def parts(ours, theirs):
    return '; '.join('%.2f' % (a / b) for a, b in zip(ours, theirs))


def growth(figures):
    return '; '.join('%.2f' % (b / a) for a, b in zip(figures, figures[1:]))


class Bounds:
    """Whether each bound was kept."""

    def __init__(self):
        self.kept = True

    def hold(self, what, figure, bound):
        if figure > bound:
            self.kept = False
            print('%s: %.2f, over %.2f' % (what, figure, bound), file=sys.stderr)


def row(bounds, name, program, other, paths, small):
    """Prints the row of a graph of some sizes. `small` has smaller ones for counting instructions."""
    figures = in_turn([(it, path) for path in paths for it in (program, other)])
    ours, theirs = figures[0::2], figures[1::2]
    counted = [[instructions([it, path]) for path in small] for it in (program, other)]
    for n, (a, b) in enumerate(zip(ours, theirs)):
        bounds.hold('%s, size %d, of the time' % (name, n + 1), a[0] / b[0], TIME)
        bounds.hold('%s, size %d, of the memory' % (name, n + 1), a[1] / b[1], MEMORY)
    cells = [name, '; '.join('%.1f' % (os.path.getsize(it) / 1e6) for it in paths)]
    for i in range(2):
        mine = [it[i] for it in ours]
        cells += ['%.0f' % mine[0], parts(mine, [it[i] for it in theirs]), growth(mine)]
    cells += ['%.1f' % (counted[0][0] / 1e6), parts(*counted), growth(counted[0])] if small else []
    for what, mine in ('memory', [it[1] for it in ours]), ('instructions', counted[0]):
        for a, b in zip(mine, mine[1:]):
            bounds.hold('%s, growth of %s' % (name, what), b / a, GROWTH)
    print('| %s |' % ' | '.join(cells), flush=True)


def write_refused(folder, graph):
    """Writes the refused texts of a graph, each under the name of its fault."""
    modules = graph['modules']
    lasts = {'no module': {}, 'specifier twice': {'specifier': modules[0]['specifier'], 'kind': 'external'}}
    for name, last in lasts.items():
        write(os.path.join(folder, name), dict(graph, modules=modules + [last]))
    with open(os.path.join(folder, 'specifier twice'), 'rb') as whole, open(os.path.join(folder, 'cut'), 'wb') as cut:
        cut.write(whole.read()[:-1])


def loaded(path):
    with open(path, encoding='utf-8') as text:
        return json.load(text)


def refused_rows(bounds, name, program, old, make):
    with tempfile.TemporaryDirectory() as folder:
        apart(lambda: write_refused(folder, make()))
        for how in sorted(os.listdir(folder)):
            path = os.path.join(folder, how)
            (mine, _), (earlier, _) = in_turn([(program, path), (old, path)])
            bounds.hold('%s, %s' % (name, how), mine / earlier, REFUSED)
            print('| %s | %s | %.0f | %.2f |' % (name, how, mine, mine / earlier), flush=True)


def main():
    p = argparse.ArgumentParser(description=__doc__, formatter_class=argparse.RawDescriptionHelpFormatter)
    p.add_argument('program', type=os.path.abspath)
    p.add_argument('--beside', metavar='OTHER', type=os.path.abspath)
    p.add_argument('--before', metavar='OLD', type=os.path.abspath)
    p.add_argument('--graph', nargs='*', default=[])
    p.add_argument('--uncounted', action='store_true', help='count no instructions')
    p.add_argument('--made', metavar='REGEX', default='', help='of the made graphs, those with such a name')
    a = p.parse_args()
    made = [it for it in MADE if re.search(a.made, it[0])]
    bounds = Bounds()
    with tempfile.TemporaryDirectory() as folder:
        def file(n, make):
            path = os.path.join(folder, '%d.json' % n)
            apart(lambda: write(path, make(n)))
            return path
        if a.beside:
            heads = ['graph', 'MB of text'] + ['ms', 'of other', 'growth', 'MB', 'of other', 'growth']
            heads += [] if a.uncounted else ['million instructions', 'of other', 'growth']
            print('| %s |\n|%s' % (' | '.join(heads), '---|' * len(heads)))
            for name, n, make in made:
                small = [] if a.uncounted else [file(it, make) for it in (n // 10, n // 5)]
                row(bounds, '%s, %d' % (name, n), a.program, a.beside, [file(it, make) for it in (n, 2 * n)], small)
            for path in a.graph:
                row(bounds, os.path.basename(path), a.program, a.beside, [path], [])
        if a.before:
            print('| graph | refused | ms | of the earlier |\n|---|---|---|---|')
            for name, n, make in made:
                refused_rows(bounds, '%s, %d' % (name, n), a.program, a.before, partial(make, n))
            for path in a.graph:
                refused_rows(bounds, os.path.basename(path), a.program, a.before, partial(loaded, path))
    return 0 if bounds.kept else 1


if __name__ == '__main__':
    sys.exit(main())
