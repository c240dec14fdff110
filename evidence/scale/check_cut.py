#!/usr/bin/env python3
"""Cuts graphs by packages, and compares each answer of the shards with that of the whole graph.

    python3 evidence/scale/check_cut.py PROGRAM GRAPH .. [--megabytes 0 1 10 100] [--alone]
    python3 evidence/scale/check_cut.py PROGRAM --seeds 0..1000 [--alone]

The queries for each module are `module`, `exports` and `names`; for each symbol its name, its dependencies in both modes, its
paths, definitions and leaves; and for each reference in the answers what it resolves to. A random graph (evidence/model) has
its own queries, and each of its modules is a package. A row is a graph, or all random ones, and a size of shards; 0 makes a
shard for each package. 'text' is the ratio of the text of all shards to that of the graph. With --alone shards have only the
modules of their packages: the differences then show what the cut has to include. The status is 1 if an answer differs.
"""
import argparse
import json
import os
import subprocess
import sys
import tempfile

HERE = os.path.dirname(os.path.abspath(__file__))
sys.path[1:1] = [os.path.join(HERE, '..', '..', 'bench'), os.path.join(HERE, '..', 'model')]
from cut import Whole, cut, join, read, split_lines, write  # noqa: E402
from differ.words import seeds_of  # noqa: E402
from graphs.cases import case_of_seed  # noqa: E402
from made import line  # noqa: E402
from stages import stages_of  # noqa: E402


class Counts:
    """The sums over graphs."""

    def __init__(self):
        self.modules = self.packages = self.shards = self.largest = self.cut = self.whole = self.answers = self.differ = 0

    def row(self, name: str, megabytes: float) -> str:
        return '| %s | %d | %d | %g | %d | %.1f | %.2f | %d | %d |' % (
            name, self.modules, self.packages, megabytes, self.shards, self.largest / 1e6, self.cut / self.whole,
            self.answers, self.differ)


def lines_of(program: str, path: str) -> bytes:
    specifiers = [it['specifier'] for it in json.loads(read(path))['modules']]
    return b''.join([*stages_of(program, path).values(), *(line('names', it) for it in specifiers)])


def answers(program: str, graph: str, lines: bytes) -> bytes:
    run = subprocess.run([program, graph], input=lines, stdout=subprocess.PIPE)
    if run.returncode != 0:
        sys.exit('%s %s ended with the status %d' % (program, graph, run.returncode))
    return run.stdout


def compare(a, path: str, lines: bytes, wanted: bytes, megabytes: float, depth: int, counts: Counts) -> None:
    """Counts what a graph's shards have, and the wrong answers, of which the first is reported."""
    whole = Whole(json.loads(read(path)), depth)
    with tempfile.TemporaryDirectory() as folder:
        sizes = cut(whole, split_lines(lines), folder, megabytes, not a.alone)
        for k in map(str, range(len(sizes))):
            given = read(os.path.join(folder, 'lines', k))
            write(os.path.join(folder, 'answers', k), answers(a.program, os.path.join(folder, 'graphs', k + '.json'), given))
        found = join(folder)
    differ = [asked for asked, is_, want in zip(split_lines(lines), found, split_lines(wanted), strict=True) if is_ != want]
    if differ and not counts.differ:
        print('%s: the first that differs: %s' % (path, differ[0].decode(errors='replace')), file=sys.stderr)
    counts.modules, counts.packages = counts.modules + len(whole.texts), counts.packages + len(whole.packages())
    counts.shards, counts.largest = counts.shards + len(sizes), max(counts.largest, *sizes)
    counts.cut, counts.whole = counts.cut + sum(sizes), counts.whole + os.path.getsize(path)
    counts.answers, counts.differ = counts.answers + len(found), counts.differ + len(differ)


def of_files(a) -> bool:
    """Prints the rows of graphs of files. Returns whether no answer differs."""
    same = True
    for path in a.graph:
        lines = lines_of(a.program, path)
        wanted = answers(a.program, path, lines)
        for megabytes in a.megabytes:
            counts = Counts()
            compare(a, path, lines, wanted, megabytes, a.depth, counts)
            print(counts.row(os.path.basename(path), megabytes), flush=True)
            same = same and not counts.differ
    return same


def of_seeds(a) -> bool:
    counts = Counts()
    with tempfile.TemporaryDirectory() as folder:
        for seed in a.seeds:
            case, path = case_of_seed(seed, accepted_only=True, strict=False), os.path.join(folder, 'seed-%d.json' % seed)
            write(path, case.graph)
            lines = b''.join(it + b'\n' for it in case.lines)
            compare(a, path, lines, answers(a.program, path, lines), 0, 1, counts)
            os.remove(path)
    print(counts.row('random graphs, %d' % len(a.seeds), 0))
    return not counts.differ


def main() -> int:
    p = argparse.ArgumentParser(description=__doc__, formatter_class=argparse.RawDescriptionHelpFormatter)
    p.add_argument('program', type=os.path.abspath)
    p.add_argument('graph', nargs='*')
    p.add_argument('--seeds', type=seeds_of, metavar='A..B', default=range(0), help='of random graphs')
    p.add_argument('--megabytes', type=float, nargs='+', default=[0, 1, 10, 100], help='of text that a shard has at most')
    p.add_argument('--depth', type=int, default=1, help='parts of a path that name a package')
    p.add_argument('--alone', action='store_true', help='shards without what they reach')
    a = p.parse_args()
    print('| graph | modules | packages | MB a shard | shards | MB of the largest | text | answers | differ |\n|' + '---|' * 9)
    same = of_files(a)
    return 0 if (not a.seeds or of_seeds(a)) and same else 1


if __name__ == '__main__':
    sys.exit(main())
