#!/usr/bin/env python3
"""Builds a program without its proofs, and prints its path: python3 tools/unproved_symq.py [symq_tables]

Without an argument the program is symq.

It is cached under the user's cache directory by the hash of its inputs: the kit, this file, and the sources of the program and of the
crates below it. So it is built once for each state of them. A build that isn't used for 30 days is removed, as all of symdir's files there.

The kit builds only proved crates (`rattle build`), except for `rt try`, which runs a program before any proof, with memory checks, and
doesn't store it. It has clang compile a module of LLVM, without optimisation. So that module is taken when clang starts, and `rt try` is
ended. Then clang compiles it by the same words, but optimised and without the memory checks, and the kit links the program. What the
module itself checks stays, as sums that wrap: a signal then ends the program.

If that can't be done, a line on standard error says so. Then the program is copied while `rt try` runs it, with its checks: it waits for
its graph, which comes by a pipe from here. A status of 3 and a line on standard error say that it can't be built.
"""
import hashlib
import os
import re
import shutil
import signal
import subprocess
import sys
import tempfile
import time
from contextlib import contextmanager, suppress

ROOT = os.path.realpath(os.path.join(os.path.dirname(os.path.abspath(__file__)), '..'))
PROGRAMS = ('symq', 'symq_tables')
# after which a build is ended
SECONDS = 900
# what the kit passes clang for `rt try`, and what is passed here in its place
CHECKS, UNOPTIMISED, OPTIMISED = '-fsanitize=address', '-O0', '-O1'
# the module of LLVM, in the folder in which the kit runs clang
MODULE = 'module.bc'
# the status of a program that is run without arguments
USAGE = 2


def crates_below(name):
    """Returns the crate and its dependencies in this repository."""
    with open(os.path.join(ROOT, 'crates.txt'), encoding='utf-8') as file:
        rows = [re.fullmatch(r'(\w+)(?: staticlib)?:(.*)', line.strip()) for line in file]
    needs = {row[1]: row[2].split() for row in rows if row}
    found, open_ones = set(), [name]
    while open_ones:
        crate = open_ones.pop()
        if crate in needs and crate not in found:
            found.add(crate)
            open_ones += needs[crate]
    return sorted(found)


def sources(program):
    """Returns the files that the program is built from."""
    found = [os.path.join(ROOT, 'crates.txt')]
    for crate in crates_below(program):
        for part in ('src', 'specs'):
            for folder, _, names in os.walk(os.path.join(ROOT, 'crates', crate, part)):
                found += [os.path.join(folder, name) for name in names]
    return sorted(found)


def sum_of_sources(program, kit):
    """Returns the hash of the kit's identity, this file and the sources."""
    made = hashlib.sha256(kit)
    for path in [os.path.abspath(__file__), *sources(program)]:
        with open(path, 'rb') as file:
            content = file.read()
        made.update(b'%s %d\n' % (os.path.relpath(path, ROOT).encode(), len(content)))
        made.update(content)
    return made.hexdigest()[:32]


def cache_directory():
    """Returns symdir's cache directory, whose files can be made again."""
    return os.path.join(os.environ.get('XDG_CACHE_HOME') or os.path.expanduser('~/.cache'), 'symdir')


def environment(folder):
    """Returns the environment of `rt try`, with its files in the folder. It also starts a check by `sh`, which only gives a hint on reserved names and
    takes as long as the build. Here its `sh` ends at once."""
    programs = os.path.join(folder, 'bin')
    os.mkdir(programs)
    os.symlink(shutil.which('true') or '/bin/true', os.path.join(programs, 'sh'))
    return {**os.environ, 'TMPDIR': folder, 'PATH': programs + os.pathsep + os.environ.get('PATH', os.defpath)}


@contextmanager
def trial(program, folder):
    """Runs the program by `rt try` with its files in the folder, on a graph that comes by the pipe `graph` there, and ends it afterwards."""
    pipe = os.path.join(folder, 'graph')
    os.mkfifo(pipe)
    with open(os.path.join(folder, 'said'), 'wb') as said:
        # the kit's interpreter can't run a program that reads its arguments: one step of it is enough
        words = ['rt', 'try', '--steps', '1', '--', pipe]
        build = subprocess.Popen(words, cwd=os.path.join(ROOT, 'crates', program), env=environment(folder), stdin=subprocess.DEVNULL,
                                 stdout=subprocess.DEVNULL, stderr=said, start_new_session=True)
    try:
        yield build
    finally:
        end(build)


def end(build):
    """Ends `rt try`, which then ends what it started."""
    if build.poll() is None:
        os.killpg(build.pid, signal.SIGTERM)
    try:
        build.wait(timeout=60)
    except subprocess.TimeoutExpired:
        os.killpg(build.pid, signal.SIGKILL)
        build.wait()


def words_of_clang(folder):
    """Returns the words by which clang compiles in the folder with memory checks, or None if it doesn't."""
    for process in filter(str.isdigit, os.listdir('/proc')):
        with suppress(OSError):
            if os.readlink('/proc/%s/cwd' % process) == folder:
                with open('/proc/%s/cmdline' % process, 'rb') as file:
                    words = [os.fsdecode(it) for it in file.read().split(b'\0')[:-1]]
                if CHECKS in words and UNOPTIMISED in words:
                    return words
    return None


def taken_module(folder, to):
    """Links the module that clang compiles below the folder. Returns clang's words, or None if there is none."""
    for at, _, names in os.walk(folder):
        words = words_of_clang(at) if MODULE in names else None
        if words:
            with suppress(OSError):
                os.link(os.path.join(at, MODULE), os.path.join(to, MODULE))
                return words
    return None


def copied_program(folder, to):
    """Copies the program that runs from below the folder, once it has opened its pipe. Returns no words, or None if none runs."""
    try:
        pipe = os.open(os.path.join(folder, 'graph'), os.O_WRONLY | os.O_NONBLOCK)
    except OSError:
        return None
    try:
        for at, _, names in os.walk(folder):
            if 'program' in names:
                shutil.copyfile(os.path.join(at, 'program'), os.path.join(to, 'program'))
                return []
        return None
    finally:
        os.close(pipe)


def tried(program, to, *takes):
    """Runs `rt try` until something can be taken from it, and returns what the call returned that took it."""
    with tempfile.TemporaryDirectory(dir=to) as folder:
        with trial(program, folder) as build:
            began = time.time()
            while build.poll() is None and time.time() - began < SECONDS:
                for take in takes:
                    taken = take(folder, to)
                    if taken is not None:
                        return taken
                time.sleep(0.02)
        with open(os.path.join(folder, 'said'), encoding='utf-8', errors='replace') as said:
            sys.stderr.write(said.read()[-2000:])
    print('%s could not be built: rt try ended with the status %s' % (program, build.returncode), file=sys.stderr)
    sys.exit(3)


def optimise(folder, words):
    """Makes the program of the module in the folder: by clang's words, but optimised and without memory checks, and linked as the kit does it."""
    toolchain = os.path.dirname(os.path.dirname(next(it for it in words if it.endswith('/bin/clang'))))
    kit = os.path.dirname(toolchain)
    target = next(it for it in words if it.startswith('--target=')).partition('=')[2]
    compiles = [OPTIMISED if it == UNOPTIMISED else it for it in words if it != CHECKS]
    links = [os.path.join(kit, 'bin', 'rattle-link'), '--target', target, '--toolchain', toolchain, '-o', 'program', words[words.index('-o') + 1]]
    links += [os.path.join(kit, 'c', it) for it in ('libos_c.a', 'liblibc_c.a')]
    for step in (compiles, links):
        subprocess.run(step, cwd=folder, env={}, stdin=subprocess.DEVNULL, capture_output=True, timeout=SECONDS, check=True)
    status = subprocess.run([os.path.join(folder, 'program')], stdin=subprocess.DEVNULL, capture_output=True, timeout=SECONDS).returncode
    if status != USAGE:
        raise OSError('it ends with the status %d' % status)


def reason(error):
    """Returns in a line why a program could not be optimised."""
    said = getattr(error, 'stderr', None) or b''
    return (said.decode('utf-8', 'replace').strip().splitlines() or [str(error)])[0]


def make(program, folder):
    """Makes the program in the folder: optimised, or if that fails with memory checks, which it says."""
    why, words = 'no clang was seen', tried(program, folder, taken_module, copied_program)
    if words:
        try:
            return optimise(folder, words)
        except (OSError, ValueError, StopIteration, subprocess.SubprocessError) as error:
            why = reason(error)
        tried(program, folder, copied_program)
    print('%s is not optimised and has memory checks, so it is far slower: %s' % (program, why), file=sys.stderr)


def build_to(program, to):
    """Builds the program and stores it."""
    os.makedirs(os.path.dirname(to), exist_ok=True)
    with tempfile.TemporaryDirectory(prefix='symq-') as folder:
        folder = os.path.realpath(folder)
        make(program, folder)
        part = '%s.%d' % (to, os.getpid())
        shutil.copyfile(os.path.join(folder, 'program'), part)
        os.chmod(part, 0o755)
        os.rename(part, to)


def main():
    program = sys.argv[1] if len(sys.argv) > 1 else PROGRAMS[0]
    if program not in PROGRAMS:
        sys.exit('a program is one of: ' + ' '.join(PROGRAMS))
    if shutil.which('rt') is None:
        print('the Rattle kit is needed: its command rt was not found', file=sys.stderr)
        sys.exit(3)
    kit = subprocess.run(['rt', 'version'], stdout=subprocess.PIPE, stderr=subprocess.DEVNULL).stdout
    path = os.path.join(cache_directory(), '%s-%s' % (program, sum_of_sources(program, kit)))
    if os.path.exists(path):
        os.utime(path)
    else:
        print('making an unverified build of %s: once for these sources, in a minute or two' % program, file=sys.stderr, flush=True)
        try:
            build_to(program, path)
        except OSError as error:
            print('%s could not be stored in %s: %s' % (program, cache_directory(), error.strerror), file=sys.stderr)
            sys.exit(3)
    print(path)


if __name__ == '__main__':
    main()
