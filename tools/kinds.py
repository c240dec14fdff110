#!/usr/bin/env python3
"""Compares the parts that are generated from the table of kinds, tools/kinds/kinds.txt, with the present files.

    python3 tools/kinds.py                    compares
    python3 tools/kinds.py --write            writes the generated parts, and compares
    python3 tools/kinds.py [--write] FOLDER   in another repository, with its tools/kinds/kinds.txt, crates/, docs/ and symdir/

Generated are files of code and of contracts, whose first line says so, and the tables of the page on graphs, each between two comments. Code is
formatted by `rt fmt`. The free parts of a table stay: the description of a kind, and the order of categories. The table of the directory converter,
symdir/lib/check/kinds.js, is compared, and not written.

For each file it prints how many of its lines are generated, and where it differs from the table; each part counts. The last line is
'N passed, M failed'.
"""
import argparse
import os
import sys

from kinds.blocks import BadTable
from kinds.follow import TABLE, report

TOP = os.path.dirname(os.path.dirname(os.path.abspath(__file__)))


def arguments():
    parser = argparse.ArgumentParser(description='Compares what follows from the table of kinds with what stands there.')
    parser.add_argument('--check', action='store_true', help='compares, as it does without a word')
    parser.add_argument('--write', action='store_true', help='writes what follows, and compares')
    parser.add_argument('folder', nargs='?', default=TOP, help='the repository')
    return parser.parse_args()


def main():
    args = arguments()
    try:
        lines, passed, failed = report(args.folder, args.write)
    except BadTable as fault:
        lines, passed, failed = ['%s: %s' % (TABLE, fault)], 0, 1
    print('\n'.join([*lines, '%d passed, %d failed' % (passed, failed)]))
    return 1 if failed else 0


if __name__ == '__main__':
    sys.exit(main())
