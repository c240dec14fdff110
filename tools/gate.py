#!/usr/bin/env python3
"""Runs the full check: every proof from nothing, the mutants, the borrows that the library allows, the tables of kinds and
of public names, the words of names, the lengths of lines, the counts of mutants, the documents, and the stored cases on the
proved programs.

    python3 tools/gate.py

`rt ci` proves the crates from the lowest on. The mutants of a crate are tried meanwhile, as soon as the libraries below
the crate are proved, over copies of their builds: those that are due, as `wrong_bodies.py` says, by the number of
commits. Beside them the model of `evidence/` is compared with its sources, and the static library is built and called
from other languages. The checks that need the proved programs begin when the proofs have ended: random graphs, the command
over directories, calls that fail in turn, long chains, and the cases. At the end each part has a line with its time on
the clock and of the processors. The first lines of each part's failures are repeated, those of the proofs last, since what
fails there makes other parts fail; the last line is 'N passed, M failed'.
"""
import os
import re
import shutil
import subprocess
import sys
import tempfile
import threading
import time
from concurrent.futures import ThreadPoolExecutor

from kept import keep, sum_of
from run_borrows import with_borrows
from wrong.crates import TOP, Crate, libraries_below, libraries_of

HERE = os.path.dirname(os.path.abspath(__file__))

PRINTING = threading.Lock()
PROCESSORS = len(os.sched_getaffinity(0))
# the processors that the proofs leave to other parts; priorities alone leave too little to the proofs, since each session gets a fair share
LEFT = threading.Semaphore(max(1, PROCESSORS - 1))
# tools with tests that take seconds
TESTED = ('docs', 'kinds', 'line_lengths', 'mutants', 'public_names', 'prove', 'words')
# how many lines of a part that failed are repeated at the end
SHOWN = 12


class Proofs:
    """What `rt ci` has proved so far, and copies of the libraries that it built."""

    def __init__(self, folder):
        self.folder, self.proved, self.ended = folder, set(), False
        self.changed = threading.Condition()

    def read(self, line):
        found = re.fullmatch(r'rt: (\w+) (?:proved|is kept: .*)\s*', line)
        if found:
            built = os.path.join(TOP, 'crates', found[1], 'out', 'rlib', found[1] + '.rlib')
            if os.path.isdir(built) and found[1] not in self.proved:
                shutil.copytree(built, os.path.join(self.folder, os.path.basename(built)))
            with self.changed:
                self.proved.add(found[1])
                self.changed.notify_all()

    def end(self):
        with self.changed:
            self.ended = True
            self.changed.notify_all()

    def wait(self):
        """Waits until nothing more will be proved."""
        with self.changed:
            self.changed.wait_for(lambda: self.ended)

    def has(self, names):
        """Waits until these crates are proved, or nothing more will be. Returns whether they are proved."""
        with self.changed:
            self.changed.wait_for(lambda: self.ended or self.proved.issuperset(names))
            return self.proved.issuperset(names)


class Part:
    """A command of the full check: the counts of its last line, and its time in minutes."""

    def __init__(self, name, may_be_empty=False):
        self.name, self.may_be_empty, self.passed, self.failed = name, may_be_empty, 0, 1
        self.clock, self.processors, self.told = 0.0, 0.0, []

    def run(self, command, read=None):
        """Runs the command. Its lines are passed on as they come if they are read, and otherwise at its end."""
        began, lines = time.time(), []
        how = {'stdout': subprocess.PIPE, 'stderr': subprocess.STDOUT, 'text': True, 'errors': 'replace'}
        started = subprocess.Popen(command, cwd=TOP, **how)
        for line in started.stdout:
            lines.append(line)
            if read:
                read(line)
                with PRINTING:
                    print(line, end='', flush=True)
        _, status, used = os.wait4(started.pid, 0)
        started.returncode = os.waitstatus_to_exitcode(status)
        if not read:
            with PRINTING:
                print(''.join(lines), end='', flush=True)
        self.clock, self.processors = (time.time() - began) / 60, (used.ru_utime + used.ru_stime) / 60
        self.count(lines[-1] if lines else '', started.returncode)
        self.told = [it for it in lines if 'FAILED' in it or 'NOT PROVED' in it] or lines[-SHOWN:]
        return self

    def count(self, last, status):
        """Adds the counts of a last line. Another last line is a failure, and so is a part where nothing passed, unless it may be empty."""
        found = re.fullmatch(r'(\d+) passed, (\d+) failed\s*', last)
        if found:
            self.passed, self.failed = int(found[1]), int(found[2])
            self.failed = self.failed or int(status != 0 or not (self.passed or self.may_be_empty))


class PartBeside(Part):
    """A part that waits until the proofs leave a processor to it."""

    def run(self, command, read=None):
        with LEFT:
            return super().run(command, read)


def free_here():
    """Returns how much memory and disk is free, as text."""
    with open('/proc/meminfo', encoding='utf-8') as f:
        memory = int(re.search(r'^MemAvailable:\s+(\d+)', f.read(), re.M)[1]) / 1e6
    disk = min(shutil.disk_usage(it).free for it in (TOP, tempfile.gettempdir())) / 1e9
    return '%.1f GB of memory and %.1f of disk are free' % (memory, disk)


def tool(name, *words):
    """Returns the command that runs a program of tools/, at a lower priority than the proofs have."""
    return ['nice', '-n', '5', sys.executable, os.path.join(HERE, name), *words]


def proofs_part(proofs):
    """Proves everything from nothing, and stores the program for `make symq`. Another run of `rt ci` follows if a crate wasn't proved, which is
    proved again then and nothing else: a proof may end for lack of memory beside the other parts."""
    part, made_from = Part('proofs, tests in Rust and programs (rt ci)'), sum_of('symq')
    try:
        part.run(['rt', 'ci'], proofs.read)
        if any('NOT PROVED' in it for it in part.told):
            print('proofs, again: %s' % free_here(), flush=True)
            first, part = part, Part(part.name).run(['rt', 'ci'], proofs.read)
            part.clock, part.processors = part.clock + first.clock, part.processors + first.processors
    finally:
        proofs.end()
        LEFT.release()
    if not part.failed:
        keep('symq', os.path.join(TOP, 'crates', 'symq', 'out', 'symq'), made_from)
    return part


def commits():
    """Returns how many commits there are, which decides which mutants are due."""
    try:
        done = subprocess.run(['git', 'rev-list', '--count', 'HEAD'], cwd=TOP, stdout=subprocess.PIPE, stderr=subprocess.DEVNULL, text=True)
    except OSError:
        done = None
    if done is None or done.returncode != 0:
        sys.exit('the gate needs git and a clone of the repository: which wrong bodies are due goes by the number of commits')
    return done.stdout.strip()


def wrong_bodies_part(name, libraries, proofs, lanes, turn):
    """Tries the mutants of a crate that are due, once the libraries below it are proved."""
    part = PartBeside('wrong bodies: ' + name, may_be_empty=True)
    if not proofs.has(libraries_below(name, libraries)):
        return part
    words = ['--checks', '--libraries', proofs.folder, '--lanes', lanes, '--turn', turn, name]
    return part.run(tool('wrong_bodies.py', *words))


def shown_part(lanes):
    """Runs the cases and tests that mutants name which break a proof by hand."""
    return PartBeside('wrong bodies: shown by runs').run(tool('wrong_bodies.py', '--runs', '--lanes', lanes))


def borrows_part(proofs):
    """Checks which borrows are allowed, once the crates that they use are proved."""
    part = PartBeside('borrows')
    if not proofs.has(libraries_below('borrows', with_borrows(libraries_of(TOP)))):
        return part
    return part.run(tool('run_borrows.py', '--libraries', proofs.folder))


def bindings_part(proofs):
    """Builds the static library, and calls it from other languages, once the libraries below it are proved."""
    part = PartBeside('from C, Python and Rust')
    if not proofs.has(libraries_below('symq_c', libraries_of(TOP))):
        return part
    return part.run(tool('run_bindings.py', '--libraries', proofs.folder))


def tests_part(name, *words):
    return PartBeside('tests of tools/' + name).run(tool('test_' + name, *words))


def model_part(what):
    """Compares the model with its rows and readings, or the program with the model."""
    return PartBeside('evidence: ' + what).run(tool('../evidence/model/gate.py', what))


def programs_part(proofs, run):
    """Runs a part that needs the programs, once no more proofs are to come."""
    proofs.wait()
    return run()


def laid(folder, name, files=0):
    """Makes a directory with so many empty files: one for each check of mutants that may run at once."""
    path = os.path.join(folder, name)
    os.mkdir(path)
    for n in range(files):
        with open(os.path.join(path, str(n)), 'w', encoding='utf-8'):
            pass
    return path


def part_of(name, program, *words):
    """Returns a call that runs a program of tools/ as a part."""
    return lambda: PartBeside(name).run(tool(program, *words))


# what needs no proof, and what needs the proved programs, the longest first
TABLES = (
    part_of('table of kinds', 'kinds.py'),
    part_of('public names', 'public_names.py'),
    part_of('counts of wrong bodies', 'edit_counts.py'),
    part_of('quotes of the sources', 'quotes.py'),
    part_of('words of names', 'words.py'),
    part_of('lengths of lines', 'line_lengths.py'),
)
ON_PROGRAMS = (
    part_of('symdir', 'run_symdir.py'),
    part_of('long ways', 'run_deep.py'),
    part_of('evidence: long ways', 'run_deep.py', '--model'),
    lambda: model_part('program'),
    part_of('refused calls', 'run_refusing.py'),
    part_of('floods', 'run_flood.py'),
    part_of('plain graphs', 'run_plain.py'),
    part_of('documents', 'docs.py'),
    part_of('cases', 'run_cases.py', '--proved'),
)


def all_parts():
    """Runs the parts: `rt ci`, and all others beside it on the processors but one, at a lower priority, since the proofs are mostly a chain. On less than
    four processors `rt ci` has two proofs at once, with one job each. On more it distributes them itself, and a crate on that chain gets more than one
    job."""
    libraries, turn = libraries_of(TOP), commits()
    if PROCESSORS < 4:
        os.environ.setdefault('RT_JOBS', '2')
    edits = {name: len(Crate(TOP, name, libraries).names()) for name in libraries}
    names = sorted((name for name in libraries if edits[name]), key=lambda it: -edits[it])
    with tempfile.TemporaryDirectory(prefix='gate-') as folder, ThreadPoolExecutor(len(names) + 32) as pool:
        proofs, lanes = Proofs(laid(folder, 'built')), laid(folder, 'lanes', max(1, PROCESSORS - 1))
        tasks = [pool.submit(proofs_part, proofs), pool.submit(borrows_part, proofs), pool.submit(bindings_part, proofs)]
        tasks += [pool.submit(tests_part, 'wrong_bodies.py', '--turn', turn), *(pool.submit(tests_part, name + '.py') for name in TESTED)]
        tasks += [pool.submit(model_part, 'model'), pool.submit(shown_part, lanes), *map(pool.submit, TABLES)]
        tasks += [pool.submit(wrong_bodies_part, name, libraries, proofs, lanes, turn) for name in names]
        tasks += [pool.submit(programs_part, proofs, it) for it in ON_PROGRAMS]
        return [it.result() for it in tasks]


def main():
    began, free = time.time(), free_here()
    parts = all_parts()
    for part in parts:
        word = ', FAILED' if part.failed else ''
        print('%s: %.1f minutes, %.1f of the processors%s' % (part.name, part.clock, part.processors, word))
    for part in reversed(parts):
        if part.failed:
            more = '... and %d lines more\n' % (len(part.told) - SHOWN) if len(part.told) > SHOWN else ''
            print('%s: what failed, again:\n%s%s' % (part.name, ''.join(part.told[:SHOWN]), more), end='')
    took = (time.time() - began) / 60, sum(it.processors for it in parts)
    print('all: %.1f minutes, %.1f of the processors; at the beginning %s, now %s' % (*took, free, free_here()))
    failed = sum(it.failed for it in parts)
    print('%d passed, %d failed' % (sum(it.passed for it in parts), failed))
    return 1 if failed else 0


if __name__ == '__main__':
    sys.exit(main())
