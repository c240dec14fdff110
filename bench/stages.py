#!/usr/bin/env python3
"""Times the stages of a program within one process, on graphs of files, beside the Rust crate.

    python3 bench/stages.py PROGRAM --beside OTHER --graph GRAPH ..

A program is started on the graph and queried stage by stage. The processor time of the program alone is measured for each. The
stages are

    load          until the first answer, for a specifier without a module: read, check and store the graph
    analyse       which module each specifier resolves to, so that each module is analysed
    exports       the exports of each module
    names         the fully qualified name of each symbol
    dependencies  the dependencies of each symbol, in both modes
    paths, definitions, leaves     of each symbol
    references    what each reference in the dependencies resolves to
    end           after the last answer: everything is freed
    everything    from the start to the end, and the peak memory

Both programs are run in turn, and the least of their runs (--runs) is reported: the milliseconds of PROGRAM, and their ratio to
OTHER's. The answers of both have to be the same, byte for byte; else the status is 1.
"""
import argparse
import hashlib
import json
import os
import subprocess
import sys
import threading
import time

from counts import symbols_of
from made import line

NOWHERE = line('module', 'no such module')
OF_SYMBOLS = {'names': (('name',),), 'dependencies': (('deps', 'types'), ('deps', 'all')), 'paths': (('paths',),),
              'definitions': (('definitions',),), 'leaves': (('leaves',),)}


def processor_time(process) -> float:
    """Returns the processor time of a process in milliseconds: its clock, by the number that Linux gives it."""
    return 1000 * time.clock_gettime((~process.pid << 3) | 2)


def peak(process) -> float:
    """Returns the peak memory of a process so far, in megabytes, without that of its parent."""
    with open('/proc/%d/status' % process.pid, encoding='utf-8') as status:
        return next(int(it.split()[1]) / 1024 for it in status if it.startswith('VmHWM'))


class Run:
    """A run of a program: the time of each stage, a digest of the answers, and the peak memory in megabytes."""

    def __init__(self, program, path, stages):
        self.took, self.answers = {}, hashlib.sha256()
        self.process = subprocess.Popen([program, path], stdin=subprocess.PIPE, stdout=subprocess.PIPE)
        for name, lines in stages.items():
            before = processor_time(self.process) if self.took else 0
            self.ask(lines)
            self.took[name] = processor_time(self.process) - before
        self.megabytes, before = peak(self.process), processor_time(self.process)
        self.process.stdin.close()
        self.process.stdout.read()
        _, status, used = os.wait4(self.process.pid, 0)
        self.process.returncode = os.waitstatus_to_exitcode(status)
        self.took['everything'] = 1000 * (used.ru_utime + used.ru_stime)
        self.took['end'] = self.took['everything'] - before

    def ask(self, lines: bytes) -> None:
        """Writes the lines while it reads the answers, so that no pipe fills up. It returns when all answers are there."""
        writer = threading.Thread(target=self.write, args=(lines,))
        writer.start()
        for _ in range(lines.count(b'\n')):
            self.answers.update(self.process.stdout.readline())
        writer.join()

    def write(self, lines: bytes) -> None:
        self.process.stdin.write(lines)
        self.process.stdin.flush()


def references(program, path, lines: bytes) -> bytes:
    """Returns a query for each reference in the answers to queries for dependencies."""
    answers = subprocess.run([program, path], input=lines, stdout=subprocess.PIPE).stdout
    found = {}
    for asked, answer in zip(lines.split(b'\n'), answers.split(b'\n')):
        if asked:
            specifier = json.loads(asked)[1]
            for dependencies in json.loads(answer)['deps']:
                found.update((line('resolve', specifier, reference), None) for reference, _ in dependencies)
    return b''.join(found)


def stages_of(program, path) -> 'dict[str, bytes]':
    """Returns the lines of each stage."""
    with open(path, encoding='utf-8') as file:
        graph = json.load(file)
    specifiers, symbols = [module['specifier'] for module in graph['modules']], symbols_of(program, path, graph)
    stages = {'load': NOWHERE, 'analyse': b''.join(line('module', it) for it in specifiers),
              'exports': b''.join(line('exports', it) for it in specifiers)}
    for stage, forms in OF_SYMBOLS.items():
        stages[stage] = b''.join(line(form, module, number, *mode) for module, count in symbols.items()
                                 for number in range(count) for form, *mode in forms)
    return dict(stages, references=references(program, path, stages['dependencies']))


def rows(a, path) -> bool:
    """Prints the rows of a graph. Returns whether the answers are the same."""
    stages = stages_of(a.program, path)
    programs = [a.program] + ([a.beside] if a.beside else [])
    runs = [[] for _ in programs]
    for _ in range(a.runs):
        for program, found in zip(programs, runs):
            found.append(Run(program, path, stages))
    same = len({run.answers.digest() for found in runs for run in found}) == 1
    queries = {name: lines.count(b'\n') for name, lines in stages.items()}
    queries['everything'] = sum(queries.values())
    for stage in [*stages, 'end', 'everything']:
        least = [min(run.took[stage] for run in found) for found in runs]
        part = '%.2f' % (least[0] / least[1]) if a.beside and least[1] >= 1 else ''
        name = os.path.basename(path)
        print('| %s | %s | %s | %.1f | %s |' % (name, stage, queries.get(stage, ''), least[0], part), flush=True)
    least = [min(run.megabytes for run in found) for found in runs]
    print('| %s | MB at the peak | | %.0f | %s |' % (os.path.basename(path), least[0],
                                                     '%.2f' % (least[0] / least[1]) if a.beside else ''))
    if not same:
        print('%s: the answers differ' % path, file=sys.stderr)
    return same


def main() -> int:
    p = argparse.ArgumentParser(description=__doc__, formatter_class=argparse.RawDescriptionHelpFormatter)
    p.add_argument('program', type=os.path.abspath)
    p.add_argument('--beside', metavar='OTHER', type=os.path.abspath, help='as evidence/crate/out/crate-symq')
    p.add_argument('--graph', nargs='+', required=True)
    p.add_argument('--runs', type=int, default=6)
    a = p.parse_args()
    print('| graph | stage | queries | ms | of other |\n|---|---|---|---|---|')
    return 0 if all([rows(a, path) for path in a.graph]) else 1


if __name__ == '__main__':
    sys.exit(main())
