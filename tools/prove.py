#!/usr/bin/env python3
"""Proves and builds the program, or the static library, with all of its dependencies.

    python3 tools/prove.py symq     the program, as ./symq
    python3 tools/prove.py lib      the library for C, Python and Rust, into lib/

Each crate is proved from nothing as `rt ci` proves it, as soon as those below it are, by a job for each processor. The one on which most work
waits goes first. If memory is free, two others are proved beside it at lower priorities, on idle processors.

Earlier results are reused: the libraries that an earlier run of this program built, and the program or the static library that
`make test` proved and built, as long as the kit and the sources are unchanged.
"""
import os
import queue
import shutil
import sys
import threading
import time

import pack_library
from kept import crate_of, keep, kept, rt, sum_of
from run_bindings import built
from wrong.crates import TOP, read, write

# the priorities of crates that are proved at once, as `nice` counts: first the one on which most work waits
PRIORITIES = (0, 10, 19)
CHANGED = 'the sources changed while they were proved: run it again'
PRINTING = threading.Lock()


def tell(line):
    with PRINTING:
        print(line, file=sys.stderr, flush=True)


def marker(crate):
    """Returns the file beside a built library with the hash of its inputs. Any other build of the library removes it."""
    return os.path.join(crate.folder, 'out', 'rlib', 'made-from')


def is_there(crate):
    """Returns whether an earlier run built the library from the present inputs."""
    return os.path.isdir(crate.rlib) and os.path.isfile(marker(crate)) and read(marker(crate)) == crate.stamp()


def lines_behind(crates):
    """Returns how many lines wait for each crate, by its name: its own, and those on the longest chain of crates above it."""
    behind = {}
    for crate in sorted(crates, key=lambda it: -len(it.below())):
        above = [it for it in crates if crate in it.deps]
        behind[crate.name] = crate.count(rb'\n') + max((behind[it.name] for it in above), default=0)
    return behind


def prove(crate, jobs, priority, ended):
    """Proves and builds a crate over those below it. Puts the crate into `ended`, with whether that succeeded."""
    began, made_from, is_well = time.time(), crate.stamp(), False
    try:
        # (on Linux each thread has a priority, and a process gets that of the thread that starts it)
        os.setpriority(os.PRIO_PROCESS, threading.get_native_id(), priority)
        os.makedirs(os.path.join(crate.folder, 'out'), exist_ok=True)
        with open(os.path.join(crate.folder, 'out', 'said'), 'w+', encoding='utf-8', errors='replace') as crate.out:
            is_well = crate.ci(['--jobs', str(jobs)], False) == 0
            if is_well and crate.makes_rlib():
                write(marker(crate), made_from)
            crate.out.seek(0)
            said = '' if is_well else crate.out.read()
        tell('%s%s: %s in %.1f minutes' % (said, crate.name, 'proved' if is_well else 'NOT PROVED', (time.time() - began) / 60))
    finally:
        ended.put((crate, is_well))


def may_begin(crate, running):
    """Returns whether a crate on which no others wait may be proved beside these."""
    return len(running) < len(PRIORITIES) and rt().need(crate) < rt().free()


def prove_all(crates):
    """Proves the crates, each in a thread of its own. Returns whether all succeeded."""
    processors, behind, ended = len(os.sched_getaffinity(0)), lines_behind(crates), queue.Queue()
    proved, running = {it for it in crates if it.makes_rlib() and is_there(it)}, set()
    left = sorted((it for it in crates if it not in proved), key=lambda it: -behind[it.name])
    while left or running:
        for crate in [it for it in left if proved.issuperset(it.deps)]:
            before = sum(behind[it.name] >= behind[crate.name] for it in running)
            if not before or may_begin(crate, running):
                left.remove(crate)
                running.add(crate)
                threading.Thread(target=prove, args=(crate, processors, PRIORITIES[before], ended), daemon=True).start()
        crate, is_well = ended.get()
        running.remove(crate)
        if is_well:
            proved.add(crate)
        else:
            left = []
    return len(proved) == len(crates)


def proved_with(name, with_itself):
    """Proves the crates below one, and the crate itself if that is wanted. Ends the process if a proof fails."""
    # (its first call sets a handler of a signal, which only the main thread may)
    rt().rtlib.guarded()
    crate = crate_of(name)
    crates = [*crate.below(), *([crate] if with_itself else [])]
    locks = rt().rtlib.lock(crates)
    is_well = prove_all(crates)
    for lock in locks:
        os.close(lock)
    if not is_well:
        sys.exit(1)


def prove_program():
    """Puts the proved program at the top."""
    made_from = sum_of('symq')
    if not kept('symq', made_from):
        proved_with('symq', True)
        keep('symq', os.path.join(TOP, 'crates', 'symq', 'out', 'symq'), made_from)
    shutil.copy(kept('symq', made_from) or sys.exit(CHANGED), os.path.join(TOP, 'symq'))


def prove_library():
    """Puts the proved library into lib/."""
    made_from = sum_of('symq_c')
    if not kept('symq_c', made_from):
        proved_with('symq_c', False)
        built(pack_library.ARCHIVE, None)
    pack_library.pack(os.path.join(TOP, 'lib'), kept('symq_c', made_from) or sys.exit(CHANGED))


def main(words):
    wanted = {'symq': prove_program, 'lib': prove_library}
    if len(words) != 1 or words[0] not in wanted:
        sys.exit(__doc__)
    began = time.time()
    wanted[words[0]]()
    tell('%s: %.1f minutes' % (words[0], (time.time() - began) / 60))


if __name__ == '__main__':
    main(sys.argv[1:])
