#!/usr/bin/env python3
"""Measures the time of the project's commands in a fresh clone, on a number of processors.

    python3 bench/minutes.py                            `make symq`, `make lib`, `make check` and `make test`, each in a clone of its own
    python3 bench/minutes.py --processors 2 symq        one of them, on two processors
    python3 bench/minutes.py --after test symq lib      those after `make test`, in the same clone

A clone of the last commit has no results of earlier runs. Nothing else should run meanwhile. Each command has a line: minutes on the clock,
minutes of the processors, and the last line that it printed. Before them is a line on the machine and the kit.
"""
import argparse
import os
import re
import subprocess
import sys
import tempfile
import time

TOP = os.path.dirname(os.path.dirname(os.path.abspath(__file__)))
COMMANDS = ('symq', 'lib', 'check', 'test')


def machine(processors):
    """Returns a line on the machine and the kit."""
    with open('/proc/cpuinfo', encoding='utf-8') as file:
        model = re.search(r'^model name\s*: (.*)$', file.read(), re.M)[1]
    with open('/proc/meminfo', encoding='utf-8') as file:
        memory = int(re.search(r'^MemTotal:\s+(\d+)', file.read(), re.M)[1]) / 2 ** 20
    version = subprocess.run(['rt', 'version'], stdout=subprocess.PIPE, text=True, check=True).stdout.strip()
    return '%s, %d of its processors, %.0f GB, %s' % (model, processors, memory, version)


def cloned(folder):
    """Returns a clone of the last commit, without results of earlier runs."""
    made = os.path.join(folder, 'clone')
    subprocess.run(['git', 'clone', '-q', TOP, made], check=True)
    return made


def measured(clone, command):
    """Runs a command of make in the clone, and returns its minutes on the clock and of the processors, and its last line."""
    began = time.time()
    with tempfile.TemporaryFile('w+', errors='replace') as said:
        started = subprocess.Popen(['make', command], cwd=clone, stdout=said, stderr=subprocess.STDOUT, stdin=subprocess.DEVNULL)
        _, status, used = os.wait4(started.pid, 0)
        started.returncode = os.waitstatus_to_exitcode(status)
        said.seek(0)
        lines = said.read().splitlines()
    minutes = (time.time() - began) / 60, (used.ru_utime + used.ru_stime) / 60
    return (*minutes, lines[-1] if lines else '', started.returncode)


def arguments(words):
    parser = argparse.ArgumentParser(description='Measures what the project\'s commands take from nothing.')
    parser.add_argument('--processors', type=int, default=len(os.sched_getaffinity(0)), help='how many processors they may use')
    parser.add_argument('--after', choices=COMMANDS, help='a command to run first, in the same clone')
    parser.add_argument('commands', nargs='*', metavar='COMMAND', help='some of: ' + ' '.join(COMMANDS))
    args = parser.parse_args(words)
    if set(args.commands) - set(COMMANDS) or not 0 < args.processors <= len(os.sched_getaffinity(0)):
        parser.error('a command is one of %s, and there are %d processors' % (', '.join(COMMANDS), len(os.sched_getaffinity(0))))
    return args


def report(name, minutes, processors, last, status):
    print('%s: %.1f minutes, %.1f of the processors: %s' % (name, minutes, processors, last if status == 0 else 'FAILED: ' + last), flush=True)


def main(words):
    args = arguments(words)
    os.sched_setaffinity(0, sorted(os.sched_getaffinity(0))[: args.processors])
    print(machine(args.processors), flush=True)
    commands = args.commands or ([] if args.after else COMMANDS)
    if args.after:
        with tempfile.TemporaryDirectory(prefix='minutes-') as folder:
            clone = cloned(folder)
            report(args.after, *measured(clone, args.after))
            for it in commands:
                report('%s behind %s' % (it, args.after), *measured(clone, it))
        return
    for it in commands:
        with tempfile.TemporaryDirectory(prefix='minutes-') as folder:
            report(it, *measured(cloned(folder), it))


if __name__ == '__main__':
    main(sys.argv[1:])
