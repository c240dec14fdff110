#!/usr/bin/env python3
"""Counts the program's instructions on graphs whose names collide in every map that hashes with the kit's fixed seed.

    python3 tools/run_flood.py              the proved program, crates/symq/out/symq
    python3 tools/run_flood.py SYMQ         the program at this path

No contract says which keys a map hashes with, so this test does. Each check makes a graph with `MANY` names of one sort, all with one hash by
`FoldHasher`, the kit's default. Beside it stands the same graph with each name reversed, whose hashes differ. With keys that no writer of a graph
knows both take about the same instructions. With fixed ones the colliding names take time quadratic in their number. The program may
take `TIMES` the instructions of the other graph. They are counted by valgrind, so a check doesn't depend on what else the machine does.

The names are made from the definition of the hash in `FixedHash`, and each set of them is compared with it first.
The last line is 'N passed, M failed'.
"""
import json
import os
import random
import sys
import tempfile

import runner
from run_cases import ROOT
from set_up import ensure

sys.path.insert(1, os.path.join(ROOT, 'bench'))

from counts import instructions
from made import Tree, line, variable

MANY, TIMES = 2_000, 1.5
LETTERS = b'abcdefghijklmnopqrstuvwxyz0123456789'
MASK = (1 << 64) - 1


def number(some):
    return int.from_bytes(some, 'little')


class FixedHash:
    """The kit's `FoldHasher`: its state after writes."""

    MULTIPLIER = 0x9e3779b97f4a7c15

    def __init__(self):
        self.state = 0x243f6a8885a308d3

    @staticmethod
    def folded(one, other):
        product = one * other
        return (product & MASK) ^ (product >> 64)

    def write(self, some):
        """Takes these bytes in, and returns itself."""
        if len(some) <= 8:
            self.state = self.folded(self.state ^ self.short(some), self.MULTIPLIER ^ (2 * len(some)))
            return self
        state = (self.state + len(some)) & MASK
        at = 0
        while len(some) - at > 16:
            state = self.folded(number(some[at : at + 8]) ^ state, number(some[at + 8 : at + 16]) ^ self.MULTIPLIER)
            at += 16
        last = some[max(0, len(some) - 16) :]
        self.state = self.folded(number(last[:8]) ^ state, number(some[-8:]) ^ self.MULTIPLIER)
        return self

    @staticmethod
    def short(some):
        if len(some) >= 4:
            return number(some[:4]) | number(some[-4:]) << 32
        return some[0] | some[len(some) // 2] << 8 | some[-1] << 16 if some else 0

    def text(self, some):
        """Takes a string in, and returns itself."""
        return self.write(some.encode()).write(b'\xff')


def colliding(before=FixedHash):
    """Returns names with one hash, where a hasher of this state takes a name in: 16 letters, then the eight bytes of the state behind them,
    which make the next factor 0, then any eight bytes."""
    chosen = random.Random(1)
    while True:
        front = bytes(chosen.choice(LETTERS) for _ in range(16))
        state = (before().state + 32) & MASK
        behind = FixedHash.folded(number(front[:8]) ^ state, number(front[8:]) ^ FixedHash.MULTIPLIER).to_bytes(8, 'little')
        if all(32 < it < 127 and it not in b'"\\' for it in behind):
            return ['%s%08d' % ((front + behind).decode(), it) for it in range(MANY)]


def reversed_names(names):
    return [it[::-1] for it in names]


def external(specifier):
    return {'specifier': specifier, 'kind': 'external'}


def of_exports(names):
    """Returns a module that exports a variable of each name."""
    tree = Tree()
    return tree.module('m', [variable(tree, it) for it in names])


def of_variables(names):
    """Returns a module that declares a variable of each name."""
    tree, body = Tree(), []
    for name in names:
        decl = tree.add('VarDecl')
        declarator = tree.add('VarDeclarator')
        tree.nodes[declarator]['name'] = tree.add('BindingIdent', sym=[name, 1])
        tree.nodes[decl]['decls'] = [declarator]
        body.append(decl)
    return tree.module('m', body)


def of_members(names):
    """Returns a module with an interface that has a property of each name. The interface is symbol 1."""
    tree, body = Tree(), []
    at = tree.add('TsInterfaceDecl')
    tree.nodes[at]['id'] = tree.add('Ident', sym=['I', 1])
    for name in names:
        member = tree.add('TsPropertySignature')
        tree.nodes[member]['key'] = tree.add('Ident', sym=[name, 0])
        body.append(member)
    tree.nodes[at]['body'] = body
    return tree.module('m', [at])


def of_texts(names):
    """Returns a graph in which a module has a resolution of each text."""
    return {'modules': [], 'resolutions': [['m', it, 'm'] for it in names]}


def typed(specifier, types):
    return {'specifier': specifier, 'kind': 'esm', 'text': '', 'types': types}


def star():
    """Returns a module with `export *` from the module `m`."""
    tree = Tree()
    return tree.module('star', [tree.add('ExportAll', src='m')])


def no_lines(names):
    return b''


def line_on_module(names):
    return line('symbol', 'm', '', 0)


def line_on_first(names):
    return line('symbol', names[0], '', 0)


def line_on_each(names):
    return b''.join(line('symbol', it, '', 0) for it in names)


def checks():
    """Yields the checks: a name, the names of the graph, what makes a graph of them, and what makes lines of queries of them."""
    behind_holder, behind_referrer = lambda: FixedHash().write((1).to_bytes(4, 'little')), lambda: FixedHash().text('m')
    yield 'specifiers of modules', colliding(), lambda names: {'modules': [external(it) for it in names]}, no_lines
    yield 'sources of redirects', colliding(), lambda names: {'modules': [], 'redirects': [[it, 'm'] for it in names]}, no_lines
    yield 'referrers of resolutions', colliding(), lambda names: {'modules': [], 'resolutions': [[it, 't', 'm'] for it in names]}, no_lines
    yield 'texts of resolutions', colliding(), of_texts, no_lines
    yield 'texts behind a referrer', colliding(behind_referrer), of_texts, no_lines
    yield 'variables', colliding(), lambda names: {'modules': [of_variables(names)]}, line_on_module
    yield 'exported names', colliding(), lambda names: {'modules': [of_exports(names)]}, line_on_module
    yield 'collected names', colliding(), lambda names: {'modules': [of_exports(names), star()], 'resolutions': [['star', 'm', 'm']]}, \
        lambda names: line('exports', 'star')
    yield 'members', colliding(behind_holder), lambda names: {'modules': [of_members(names)]}, line_on_module
    yield 'stored modules', colliding(), lambda names: {'modules': [{'specifier': it, 'kind': 'json', 'text': '0'} for it in names]}, line_on_each
    yield 'a chain of types', colliding(), lambda names: {'modules': [typed(it, types) for it, types in zip(names, [*names[1:], 'm'])]}, line_on_first


def counted(program, folder, graph, lines):
    """Returns the instructions of a run."""
    path = os.path.join(folder, 'graph.json')
    with open(path, 'w', encoding='utf-8') as file:
        json.dump(graph, file)
    return instructions([program, path], lines)


def rows(program):
    """Yields the name of each check, and what is wrong."""
    ensure(['valgrind'])
    with tempfile.TemporaryDirectory(prefix='flood-') as folder:
        for name, names, make, lines in checks():
            flooded, other = (counted(program, folder, make(it), lines(it)) for it in (names, reversed_names(names)))
            times = flooded / other
            print('%s: %.1f million instructions, %.2f times those with other names' % (name, flooded / 1e6, times), file=sys.stderr)
            yield name, '' if times <= TIMES else '%.2f times the instructions with other names, over %.1f' % (times, TIMES)


def hashes(names, before):
    """Returns how many hashes names have."""
    return len({before().text(it).state for it in names})


def own_rows():
    """Yields whether the names collide by the fixed hash, and the others don't."""
    for name, before in (('alone', FixedHash), ('behind a holder', lambda: FixedHash().write((1).to_bytes(4, 'little'))),
                         ('behind a referrer', lambda: FixedHash().text('m'))):
        names = colliding(before)
        found = hashes(names, before), hashes(reversed_names(names), before)
        yield 'hashes of names ' + name, '' if found == (1, MANY) else '%d and %d' % found


def main(words):
    program = runner.programs(words, missing='no program %s: `make symq` builds it')[0]
    return runner.report([*own_rows(), *rows(program)])


if __name__ == '__main__':
    sys.exit(main(sys.argv[1:]))
