#!/usr/bin/env python3
"""Tests the order in which `prove.py` proves crates, and what it takes of earlier runs: `python3 tools/test_prove.py`."""
import os
import sys
import tempfile
import threading
from unittest.mock import patch

import kept
import prove
from tested import told
from wrong.crates import write

PRINTING = threading.Lock()
A_MINUTE = 60


class Fake:
    """A crate whose proof waits until that of another begins, if one is named. It writes into a list what is requested, and when it ends."""

    def __init__(self, name, deps, folder, log, lines=10, beside=None, is_good=True, is_there=False):
        self.name, self.deps, self.folder, self.log = name, deps, os.path.join(folder, name), log
        self.lines, self.beside, self.is_good, self.out = lines, beside, is_good, None
        self.began = threading.Event()
        self.rlib = os.path.join(self.folder, 'out', 'rlib', name + '.rlib')
        if is_there:
            os.makedirs(self.rlib)
            write(prove.marker(self), self.stamp())

    def below(self):
        found = []
        for it in self.deps:
            found += [other for other in [*it.below(), it] if other not in found]
        return found

    def count(self, _):
        return self.lines

    def makes_rlib(self):
        return True

    def stamp(self):
        return 'of ' + self.name

    def ci(self, flags, tests):
        with PRINTING:
            self.log.append(('begins', self.name, flags[1], os.getpriority(os.PRIO_PROCESS, threading.get_native_id())))
        self.began.set()
        if self.beside:
            self.beside.began.wait(A_MINUTE)
        self.out.write('what it says\n')
        with PRINTING:
            self.log.append(('ends', self.name))
        return 0 if self.is_good else 1


def begun(log):
    return [it[1] for it in log if it[0] == 'begins']


def tests_of_order():
    """Tests a chain with a crate beside it."""
    with tempfile.TemporaryDirectory() as folder:
        log, jobs, own = [], str(len(os.sched_getaffinity(0))), 0
        low = Fake('low', [], folder, log)
        beside = Fake('beside', [low], folder, log, lines=20)
        chain = Fake('chain', [low], folder, log, lines=50, beside=beside)
        top = Fake('top', [low, chain], folder, log, lines=30)
        yield 'all are proved', prove.prove_all([low, beside, chain, top]), True
        begins = {name: (count, priority) for it, name, *rest in log if it == 'begins' for count, priority in [rest]}
        yield 'the lowest first', begun(log)[0], 'low'
        yield 'that for which most wait leads, by a job for each processor', begins['chain'], (jobs, own)
        yield 'what stands on the chain waits for it', log.index(('ends', 'chain')) < log.index(('begins', 'top', jobs, own)), True
        yield 'the other is proved on what it leaves idle', begins['beside'], (jobs, prove.PRIORITIES[1])
        yield 'and beside it', log.index(('begins', 'beside', *begins['beside'])) < log.index(('ends', 'chain')), True


def tests_of_what_is_there():
    """Tests that what is built isn't proved again, and that a failure stops the crates above it."""
    with tempfile.TemporaryDirectory() as folder:
        log = []
        low = Fake('low', [], folder, log, is_there=True)
        middle = Fake('middle', [low], folder, log, is_good=False)
        top = Fake('top', [middle], folder, log)
        yield 'a crate fails', prove.prove_all([low, middle, top]), False
        yield 'only what is not built is tried, and nothing above a failure', begun(log), ['middle']
        again = Fake('low', [], folder, log)
        write(prove.marker(low), 'of another text')
        yield 'what was built of another text is proved again', (prove.prove_all([again]), begun(log)), (True, ['middle', 'low'])
        yield 'and is there then', prove.is_there(Fake('low', [], folder, log)), True


def tests_of_keeping():
    """Tests that a stored build is used only as long as all of its inputs are the same."""
    was_folder, was_sum = kept.KEPT, kept.sum_of
    with tempfile.TemporaryDirectory() as folder:
        built = os.path.join(folder, 'built')
        with open(built, 'w', encoding='utf-8') as file:
            file.write('a program')
        kept.KEPT, kept.sum_of = os.path.join(folder, 'out'), lambda name: 'now'
        try:
            yield 'nothing is kept at first', kept.kept('symq', 'now'), None
            kept.keep('symq', built, 'before')
            yield 'nor what was made from other sources', kept.kept('symq', 'before'), None
            kept.keep('symq', built, 'now')
            yield 'what was made from these is', kept.kept('symq', 'now'), os.path.join(kept.KEPT, 'symq')
            yield 'and is not taken for others', kept.kept('symq', 'later'), None
        finally:
            kept.KEPT, kept.sum_of = was_folder, was_sum


def tests():
    with patch.object(prove, 'may_begin', lambda crate, running: len(running) < len(prove.PRIORITIES)):
        yield from tests_of_order()
        yield from tests_of_what_is_there()
    yield from tests_of_keeping()


if __name__ == '__main__':
    sys.exit(told(tests()))
