#!/usr/bin/env python3
"""Runs the worked rows (`rows/`), and reports where a program, or the model, differs from the results worked out by hand.

    python3 evidence/model/run_rows.py crates/symq/out/symq
    python3 evidence/model/run_rows.py

The strict part of a row is a check of its own, with `--strict`. Without PROGRAM the model is run, which is also checked
for what rows say about calls: steps, stored modules, limits, overload flags, tables. The last line is `N passed, M failed`.
"""
import argparse
import json
import os
import re
import subprocess
import sys
import tempfile

from differ.running import NO_STRICT_RULES, STRICT
from differ.words import command_of
from rows import all_rows
from rules.answers import answer, run
from rules.checker import check_graph
from rules.exports import export_of, exports
from rules.faults import SymbolsFault
from rules.json_text import text_of
from rules.paths import definition_paths
from rules.queries import query_of_value
from rules.raw_graph import graph_of_value
from rules.root import Root, Steps
from rules.stack import with_big_stack


def texts_of(row) -> 'list[bytes]':
    """Returns the texts of a row's graph: mostly one."""
    if 'graph' in row:
        return [text_of(row['graph']).encode()]
    text = row['text'].encode()
    beginnings = [text[:at] for at in range(len(text))]
    each = {'beginning': beginnings, 'beginning behind a byte 255': [b'\xff' + it for it in beginnings]}
    return each[row['each']] if 'each' in row else [text]


def run_program(command, words, lines):
    done = subprocess.run([*command, *words], input=b''.join(line + b'\n' for line in lines), stdout=subprocess.PIPE,
                          stderr=subprocess.PIPE)
    return done.returncode, done.stdout, done.stderr


def runs_of(command, row, lines, strict) -> list:
    """Returns the results for a row, by a program, or by the model, which takes no arguments."""
    if 'words' in row:
        return [run_program(command, row['words'], lines)] if command else []
    if not command:
        return [run(text, lines, strict) for text in texts_of(row)]
    found = []
    with tempfile.TemporaryDirectory(prefix='evidence-') as folder:
        path = os.path.join(folder, 'graph.json')
        for text in texts_of(row):
            with open(path, 'wb') as file:
                file.write(text)
            found.append(run_program(command, [STRICT, path] if strict else [path], lines))
    return found


def answers_differ(command, row, strict=False) -> 'list[str]':
    """Returns the answers that differ from the row, by strict rules or by Deno's."""
    asked, error = row.get('asked', ()), row.get('error', '')
    if strict and row['strict'] is not True:
        asked = row['strict']
    lines = [bytes.fromhex(it['hex']) if type(it) is dict else text_of(it).encode() for it, _ in asked]
    output = b''.join(text_of(it).encode() + b'\n' for _, it in asked)
    wanted = (row.get('status', 0), output, (error + '\n').encode() if error else b'')
    wrong = [it for it in runs_of(command, row, lines, strict) if it != wanted]
    return [NO_STRICT_RULES if strict and it[0] == 2 else 'found %.2000r, want %.2000r' % (it, wanted) for it in wrong]


class Calls:
    """Calls the model, as a module, for what a row says about calls."""

    def __init__(self, row):
        self.graph = check_graph(graph_of_value(row['graph']))
        self.root, self.steps = Root(self.graph), Steps()

    def module(self, call):
        return self.root.module_from_specifier(call['module'])

    def call_root(self, call) -> None:
        limits = {'max_' + key: call[key] for key in ('modules', 'symbols') if key in call}
        self.root = Root(self.graph, **limits, strict=call.get('strict', False))

    def call_module_from_specifier(self, call):
        found = self.root.module_from_specifier(call['specifier'])
        return None if found is None else found.number

    def call_has_analyzed(self, call):
        return self.root.has_analyzed(call['specifier'])

    def call_stored(self, _):
        return len(self.root.modules)

    def call_symbols(self, call):
        return len(self.module(call).table.symbols)

    def call_symbol(self, call):
        symbol = self.module(call).table.symbols[call['number']]
        first = symbol.declarations[0]
        told = {'parent': symbol.parent, 'declarations': len(symbol.declarations), 'exports': symbol.exports,
                'children': list(symbol.children), 'members': list(symbol.members),
                'overloads': [it.overload for it in symbol.declarations],
                'private_member': first.is_definition() and first.node.is_private_member()}
        return {key: told[key] for key in call['expect']}

    def call_paths(self, call) -> None:
        definition_paths(self.root, self.module(call), call['number'])

    def call_answer(self, call):
        return json.loads(answer(self.root, query_of_value(call['query'])))

    def call_exports(self, call) -> None:
        exports(self.root, self.module(call), self.steps)

    def call_export_of(self, call):
        found = export_of(self.root, self.module(call), call['name'], self.steps)
        return None if found is None else [found.module.specifier, found.symbol, found.statements()]

    def differs(self, call) -> 'str | None':
        """Returns the results that differ from what a row says about a call."""
        before, found, fault = self.steps.count, None, None
        try:
            found = getattr(self, 'call_' + call['call'])(call)
        except SymbolsFault as raised:
            fault = raised.reason if raised.specifier is None else [raised.reason, raised.specifier]
        if fault != call.get('fault'):
            return '%r: fault %r' % (call, fault)
        if 'expect' in call and found != call['expect']:
            return '%r: found %r' % (call, found)
        if 'steps' in call and self.steps.count - before != call['steps']:
            return '%r: %d steps' % (call, self.steps.count - before)
        return None


def calls_differ(row) -> 'list[str]':
    calls = Calls(row)
    return [it for it in map(calls.differs, row['calls']) if it]


def checks_of(command, row) -> list:
    found = []
    if row.keys() & {'asked', 'status'} and (command or 'words' not in row):
        found.append(lambda: answers_differ(command, row))
    if 'strict' in row:
        found.append(lambda: answers_differ(command, row, True))
    if 'calls' in row and not command:
        found.append(lambda: calls_differ(row))
    return found


def main() -> int:
    p = argparse.ArgumentParser(description=__doc__, formatter_class=argparse.RawDescriptionHelpFormatter)
    p.add_argument('program', type=command_of, nargs='?')
    p.add_argument('--only', default='', metavar='REGEX', help='rows with such a name')
    a = p.parse_args()
    passed = failed = 0
    for row in all_rows():
        for check in checks_of(a.program, row) if re.search(a.only, row['name']) else ():
            wrong = check()
            passed, failed = passed + (not wrong), failed + bool(wrong)
            for told in wrong[:8]:
                print('%s: %s' % (row['name'], told))
    print('%d passed, %d failed' % (passed, failed))
    return 1 if failed or not passed else 0


if __name__ == '__main__':
    sys.exit(with_big_stack(main))
