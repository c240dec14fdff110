#!/usr/bin/env python3
"""Checks the types of the command over directories, symdir/, and runs its tests.

    python3 tools/run_symdir.py            the types, and the tests on the proved program crates/symq/out/symq
    python3 tools/run_symdir.py SYMQ       the tests on the program at this path
    python3 tools/run_symdir.py --packages [SYMQ]    compares `symdir api` with TypeScript's own checker on packages of Debian, with the
                                                     TypeScript that is installed and, if available, that of the newest suite, and
                                                     looks at the page of `api --html` in Chromium

If TypeScript, Graphviz, the packages or the types of Node are missing, and this is root on Debian, they are installed, the types
and the newest TypeScript in symdir/node_modules. What failed is named in lines that begin with 'FAILED' at the end, and the last line
is 'N passed, M failed'.
"""
import json
import os
import re
import shutil
import signal
import subprocess
import sys
import tempfile
from contextlib import contextmanager

import runner
from set_up import ensure, ensure_directories, may_install, newest_suite, quiet

ROOT = os.path.realpath(runner.ROOT)
PACKAGE = os.path.join(ROOT, 'symdir')
# after which hanging tests are ended
SECONDS = 1200


def node_types(folder):
    """Puts the types of Node under the directory, from Debian's package of Node, which needn't be the running one."""
    shown = quiet(['apt-cache', 'showpkg', 'node-types-node']).stdout
    found = re.search(r'^nodejs (\S+)', shown.partition('Reverse Provides:')[2].strip(), re.M)
    if not found or not may_install():
        return False
    with tempfile.TemporaryDirectory() as made:
        os.chmod(made, 0o777)
        quiet(['apt-get', 'download', 'nodejs=' + found[1]], cwd=made)
        files = [os.path.join(made, it) for it in os.listdir(made) if it.endswith('.deb')]
        if not files or quiet(['dpkg', '-x', files[0], made]).returncode != 0:
            return False
        shutil.copytree(os.path.join(made, 'usr/share/nodejs/@types/node'), folder, symlinks=False)
    return True


def set_up():
    """Returns whether the types can be checked. TypeScript and Graphviz are installed in any case."""
    ensure(['node', 'tsc', 'dot'])
    types = os.path.join(PACKAGE, 'node_modules', '@types', 'node')
    os.makedirs(os.path.dirname(types), exist_ok=True)
    return os.path.isdir(types) or node_types(types)


def installed_typescript():
    """Returns the TypeScript of the command tsc."""
    return os.path.dirname(os.path.dirname(os.path.realpath(shutil.which('tsc'))))


def newest_typescript():
    """Returns the TypeScript of Debian's newest suite, which is unpacked if it is missing; None if it isn't available."""
    place = os.path.join(PACKAGE, 'node_modules', 'newest-typescript')
    with tempfile.TemporaryDirectory() as made:
        found = os.path.join(made, 'usr', 'share', 'nodejs', 'typescript')
        if not os.path.isdir(place) and newest_suite('node-typescript', made) and os.path.isdir(found):
            shutil.copytree(found, place, symlinks=False)
    return place if os.path.isdir(place) else None


@contextmanager
def with_typescript(typescript):
    """Puts TypeScript among the package's modules while it is checked and tested: `rt ci` refuses a repository with a link in it."""
    place = os.path.join(PACKAGE, 'node_modules', 'typescript')
    if os.path.islink(place):
        os.unlink(place)
    if os.path.exists(place):
        yield place
        return
    os.symlink(typescript, place)
    try:
        yield place
    finally:
        os.unlink(place)


def check_types(typescript):
    done = quiet(['node', os.path.join(typescript, 'lib', 'tsc.js'), '-p', PACKAGE])
    if done.returncode != 0:
        print(done.stdout[-6000:])
    return done.returncode == 0


def said_within(words, seconds, **how):
    """Returns the output of a command, and its status. One that takes longer is ended, with all that it started."""
    started = subprocess.Popen(words, stdout=subprocess.PIPE, stderr=subprocess.STDOUT, text=True, start_new_session=True, **how)
    try:
        return started.communicate(timeout=seconds)[0], started.returncode
    except subprocess.TimeoutExpired:
        os.killpg(started.pid, signal.SIGKILL)
        return started.communicate()[0] + f'\nended after {seconds} seconds', 1


# a test in a report in TAP that failed: its name, and what the report says of it
FAILURE = re.compile(r'^( *)not ok \d+ - ([^\n]*)\n\1  ---\n(.*?)^\1  \.\.\.$', re.M | re.S)
# of what a report says of one test so many characters are printed
LONGEST = 4000


def failures(said):
    """Prints what a report in TAP says of tests that failed. Returns a line for each of them."""
    lines = []
    for _, name, words in FAILURE.findall(said):
        if name.endswith(' # TODO'):
            continue
        place = re.search(r"^ *location: '(.*)'$", words, re.M)
        print('%s\n%s' % (name, words[:LONGEST]))
        lines.append('%s, %s' % (name, os.path.relpath(place[1], ROOT)) if place else name)
    return lines


def concurrency():
    """Returns the option of Node for two files of tests at a time on two processors, where it runs one. Before version 20.10 it has no such option."""
    known = '--test-concurrency' in quiet(['node', '--help']).stdout
    return ['--test-concurrency=%d' % max(2, len(os.sched_getaffinity(0)) - 1)] if known else []


def run_tests(files, environment):
    """Returns how many tests passed, and a line for each that failed. Without any, another status than 0 and a report without an end are failures."""
    said, status = said_within(['node', '--test', '--test-reporter=tap', *concurrency(), *files], SECONDS, cwd=PACKAGE, env=environment)
    for name, reason in re.findall(r'^\s*ok \d+ - (.*?) # SKIP ?(.*)$', said, re.M):
        print(f'skipped, neither passed nor failed: {name}: {reason}')
    passed, failed = re.search(r'^# pass ([1-9]\d*)$', said, re.M), failures(said)
    if not passed or (status != 0 and not failed):
        print(said[-LONGEST:])
        failed.append('node --test: the status %s, and %s' % (status, 'no test failed' if passed else 'no test passed'))
    return int(passed[1]) if passed else 0, failed


def version_of(typescript):
    with open(os.path.join(typescript, 'package.json'), encoding='utf-8') as file:
        return json.load(file)['version']


def run_over_packages(symq):
    """Compares with each TypeScript that can be had. Returns how many tests passed, and a line for each that failed."""
    folder = os.path.join(PACKAGE, 'packages')
    with open(os.path.join(folder, 'packages.json'), encoding='utf-8') as file:
        ensure_directories([(row['directory'], row['package']) for row in json.load(file)])
    newest = newest_typescript()
    if newest is None:
        print("TypeScript of Debian's newest suite can't be had here: compared with the one that is installed alone")
    passed, failed = 0, []
    for typescript in filter(None, [installed_typescript(), newest]):
        with with_typescript(typescript), tempfile.TemporaryDirectory() as cache:
            right, wrong = run_tests(tests_in(folder), environment(symq, cache))
        version = version_of(typescript)
        print('TypeScript %s: %d passed, %d failed' % (version, right, len(wrong)))
        passed, failed = passed + right, failed + [f'TypeScript {version}: {it}' for it in wrong]
    return passed, failed


def run_all(symq, can_check):
    """Checks the types and runs the tests. Returns how many passed, and a line for each that failed."""
    with with_typescript(installed_typescript()) as typescript, tempfile.TemporaryDirectory() as cache:
        is_right = can_check and check_types(typescript)
        passed, failed = run_tests(tests_in(os.path.join(PACKAGE, 'tests')), environment(symq, cache))
    if is_right:
        return passed + 1, failed
    return passed, failed + ['the types of symdir' if can_check else 'the types of Node are not there: install @types/node in symdir']


def tests_in(folder):
    return sorted(os.path.join(folder, it) for it in os.listdir(folder) if it.endswith('.test.js'))


def environment(symq, cache):
    return {**os.environ, 'SYMQ': symq, 'XDG_CACHE_HOME': cache, 'NO_COLOR': '1'}


def main():
    words = sys.argv[1:]
    named = [it for it in words if it != '--packages']
    symq = runner.programs(named[:1], missing='no program %s')[0]
    can_check = set_up()
    passed, failed = run_over_packages(symq) if '--packages' in words else run_all(symq, can_check)
    for line in failed:
        print('FAILED: ' + line)
    return runner.counts(passed, len(failed))


if __name__ == '__main__':
    sys.exit(main())
