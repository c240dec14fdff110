#!/usr/bin/env python3
"""Compares a program with the Rust crate, by the program that `build.py` makes of it.

    python3 evidence/crate/compare.py crates/symq/out/symq --graph GRAPH ..    every query on graphs of files
    python3 evidence/crate/compare.py crates/symq/out/symq --seeds 0..20000    random accepted graphs
    python3 evidence/crate/compare.py --seeds 0..20000                         the model, with the full tables

The queries on a graph are the module of each specifier and its exports; the full name of each symbol, its dependencies in both
modes, its paths, definitions and leaves; and for each reference in the answers the symbol of its name and what it resolves to.
Answers are compared byte for byte. Known differences are counted apart (`known.py`, README.md). The last line is
`N passed, M failed`, of random graphs, or of answers if graphs are given.
"""
import argparse
import json
import os
import subprocess
import sys
import tempfile
from collections import Counter

HERE = os.path.dirname(os.path.abspath(__file__))
sys.path.insert(1, os.path.join(os.path.dirname(HERE), 'model'))

from differ.words import command_of, seeds_of
from graphs.cases import case_of_seed
from graphs.texts import compact
from known import PANIC, has_opaque_pattern, is_own, without_known, without_recursion
from rules.answers import run
from rules.checker import check_graph
from rules.raw_graph import graph_of_value
from rules.root import Root
from rules.stack import with_big_stack
from tables import table_differs

CRATE = os.path.join(HERE, 'out', 'crate-symq')
OF_SYMBOLS = (('name',), ('deps', 'types'), ('deps', 'all'), ('paths',), ('definitions',), ('leaves',))
SHOWN = 3


def line_of(*query) -> bytes:
    return json.dumps(query, ensure_ascii=False).encode()


def ask(command, path, lines, words=()) -> 'list[bytes]':
    """Returns the answers of a program to lines on the graph of a file."""
    with tempfile.TemporaryFile() as asked:
        asked.write(b''.join(line + b'\n' for line in lines))
        asked.seek(0)
        done = subprocess.run([*command, path, *words], stdin=asked, stdout=subprocess.PIPE, stderr=subprocess.PIPE)
    if done.returncode:
        raise SystemExit('%s ended with status %d: %s' % (command[0], done.returncode, done.stderr.decode().strip()))
    answers = done.stdout.split(b'\n')[:-1]
    if len(answers) != len(lines):
        raise SystemExit('%s answered %d of %d lines' % (command[0], len(answers), len(lines)))
    return answers


def told(line, ours, theirs) -> str:
    return '  query   %s\n  program %s\n  crate   %s' % tuple(it.decode('utf-8', 'replace')[:1500] for it in (line, ours, theirs))


class RandomGraphs:
    """Compares a program, or the model, with the crate on the graphs of seeds."""

    def __init__(self, program, crate, folder):
        self.program, self.crate, self.path = program, crate, os.path.join(folder, 'graph.json')
        self.known, self.passed, self.failed, self.queries = Counter(), 0, 0, 0

    def of_crate(self, value, lines) -> 'list[bytes]':
        with open(self.path, 'wb') as file:
            file.write(compact(value))
        return ask(self.crate, self.path, lines, ('--stack', '4'))

    def of_program(self, value, lines) -> 'list[bytes]':
        if self.program:
            return ask(self.program, self.path, lines)
        return run(compact(value), lines)[1].split(b'\n')[:-1]

    def differences(self, value, lines) -> list:
        """Returns the lines with different answers, with the program's answer and the crate's, except for known differences."""
        theirs, ours, recursive, found = self.of_crate(value, lines), self.of_program(value, lines), None, []
        for line, a, b in zip(lines, ours, theirs):
            if a == b:
                continue
            if b == PANIC:
                if recursive is None:
                    recursive = PANIC not in self.of_crate(without_recursion(value), lines)
                kind = 'recursion without end' if recursive else None
            else:
                opaque = line.startswith(b'["deps"') and b'"types"' in line and has_opaque_pattern(value)
                kind = 'pattern `Other`, mode `types`' if opaque else None
            if kind:
                self.known[kind] += 1
            else:
                found.append((line, a, b))
        return found

    def table_differences(self, value) -> list:
        """Returns the differences of the model's tables of all modules."""
        root = Root(check_graph(graph_of_value(value)))
        specifiers = [module['specifier'] for module in value['modules']]
        lines = [line_of('table', specifier) for specifier in specifiers]
        answers = self.of_crate(value, lines)
        self.queries += len(lines)
        return [(line, b'another table', answer) for specifier, line, answer in zip(specifiers, lines, answers)
                if answer != PANIC and table_differs(root, specifier, answer)]

    def compare(self, seed) -> None:
        case = case_of_seed(seed, accepted_only=True, strict=False)
        value, lines = without_known(case.value), [line for line in case.lines if not is_own(line)]
        found = self.differences(value, lines) + ([] if self.program else self.table_differences(value))
        self.queries += len(lines)
        self.passed, self.failed = self.passed + (not found), self.failed + bool(found)
        if found and self.failed <= SHOWN:
            print('seed %d, %d answers\n%s' % (seed, len(found), told(*found[0])), flush=True)

    def last_lines(self) -> str:
        known = ''.join('; known: %s: %d' % it for it in sorted(self.known.items()))
        return '%d graphs, %d queries%s\n%d passed, %d failed' % (self.passed + self.failed, self.queries, known, self.passed,
                                                                 self.failed)


def first_questions(crate, path) -> 'list[bytes]':
    """Returns all queries on the modules of a graph and their symbols."""
    with open(path, encoding='utf-8') as file:
        specifiers = [module['specifier'] for module in json.load(file)['modules']]
    tables = ask(crate, path, [line_of('table', specifier) for specifier in specifiers])
    lines = []
    for specifier, table in zip(specifiers, tables):
        lines += [line_of('module', specifier), line_of('exports', specifier)]
        symbols = [] if table in (b'null', PANIC) else json.loads(table)['symbols']
        lines += [line_of(form, specifier, symbol['number'], *mode) for symbol in symbols for form, *mode in OF_SYMBOLS]
    return lines


def further_questions(lines, answers) -> 'list[bytes]':
    """Returns queries on the references in the answers: what each resolves to, and the symbol of its name."""
    found = {}
    for line, answer in zip(lines, answers):
        if not line.startswith(b'["deps"') or b'fault' in answer[:9]:
            continue
        specifier = json.loads(line)[1]
        for dependencies in json.loads(answer)['deps']:
            for reference, _ in dependencies:
                found[line_of('resolve', specifier, reference)] = None
                if reference[0] != 'import':
                    found[line_of('symbol', specifier, *reference[1:3])] = None
    return list(found)


def compare_file(program, crate, path) -> 'tuple[int, int]':
    """Runs all queries of a graph on both, and returns how many answers agree and how many don't."""
    lines = first_questions(crate, path)
    lines += further_questions(lines, ask(crate, path, lines))
    passed, failed, panics = 0, 0, 0
    for line, ours, theirs in zip(lines, ask(program, path, lines), ask(crate, path, lines)):
        panics += theirs == PANIC
        if ours == theirs:
            passed += 1
            continue
        failed += 1
        if failed <= SHOWN:
            print(told(line, ours, theirs), flush=True)
    print('%s: %d queries, %d answers agree, %d differ (%d of them the crate has none)' % (
        os.path.basename(path), len(lines), passed, failed, panics), flush=True)
    return passed, failed


def main() -> int:
    p = argparse.ArgumentParser(description=__doc__, formatter_class=argparse.RawDescriptionHelpFormatter)
    p.add_argument('program', type=command_of, nargs='?', help='with --seeds the model, unless said')
    p.add_argument('--crate', default=CRATE, metavar='PROGRAM', help='what build.py makes, unless said')
    what = p.add_mutually_exclusive_group(required=True)
    what.add_argument('--seeds', type=seeds_of, metavar='A..B')
    what.add_argument('--graph', nargs='+')
    a = p.parse_args()
    if a.graph and not a.program:
        p.error('a program is needed for graphs of files')
    if not os.path.exists(a.crate):
        p.error('%s is not there: make crate FROM=FOLDER builds it' % a.crate)
    a.crate = command_of(a.crate)
    if a.graph:
        counts = [compare_file(a.program, a.crate, path) for path in a.graph]
        passed, failed = (sum(it) for it in zip(*counts))
        print('%d passed, %d failed' % (passed, failed))
        return 1 if failed else 0
    with tempfile.TemporaryDirectory(prefix='evidence-') as folder:
        graphs = RandomGraphs(a.program, a.crate, folder)
        for seed in a.seeds:
            graphs.compare(seed)
    print(graphs.last_lines())
    return 1 if graphs.failed else 0


if __name__ == '__main__':
    sys.exit(with_big_stack(main))
