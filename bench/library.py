#!/usr/bin/env python3
"""Times calls of the library beside a run of the program, on the same graph and lines.

    python3 bench/library.py PROGRAM LIBRARY [--graph GRAPH ..]    ./symq lib/libsymq.so

A run and a call both read the graph anew and answer the same lines: a run starts a process, reads a file, and writes to a pipe; a
call, from Python, has the text and the buffer in memory. A session has read the graph before, and answers the lines. Graphs are
a small one, webs of ten modules, and those of files; the lines query the exports of each module. A figure is processor time
in milliseconds, the least of some runs, which are made in turn. The answers have to be the same.
"""
import argparse
import ctypes
import json
import os
import resource
import subprocess
import sys
import tempfile
import time

from made import line, webs_of

RUNS = 11
ROOM = 1 << 16
SMALL = {'modules': [{'specifier': 'm', 'kind': 'esm', 'text': '', 'tree': {'nodes': [{'kind': 'Program', 'range': [0, 0]}]}}]}


class Kept(ctypes.Structure):
    """`struct symq_session`."""

    _fields_ = [('is_open', ctypes.c_bool), ('kept', ctypes.c_void_p)]


class Library:
    """The functions of a library, called from Python."""

    def __init__(self, path):
        found = ctypes.CDLL(path)
        text, out = [ctypes.c_char_p, ctypes.c_size_t], [ctypes.c_void_p, ctypes.c_size_t, ctypes.POINTER(ctypes.c_size_t)]
        kept = ctypes.POINTER(Kept)
        self.answer, self.open, self.ask, self.close = found.symq_answer, found.symq_open, found.symq_ask, found.symq_close
        self.answer.argtypes, self.open.argtypes = [*text, *text, *out], [*text, kept, *out]
        self.ask.argtypes, self.close.argtypes = [kept, *text, *out], [kept]
        for call in (self.answer, self.open, self.ask):
            call.restype = ctypes.c_uint8
        self.close.restype = None


def told(call, room, *given):
    """Returns the processor time of a call, and its output."""
    needed, out = ctypes.c_size_t(), ctypes.create_string_buffer(room)
    before = time.process_time()
    status = call(*given, out, room, needed)
    took = time.process_time() - before
    if status:
        sys.exit('the library refuses a graph: %d' % status)
    return took, out.raw[:needed.value]


def run_time(program, path, lines):
    """Returns the processor time of a run, and its answers."""
    before = resource.getrusage(resource.RUSAGE_CHILDREN)
    done = subprocess.run([program, path], input=lines, stdout=subprocess.PIPE, check=True)
    after = resource.getrusage(resource.RUSAGE_CHILDREN)
    return after.ru_utime + after.ru_stime - before.ru_utime - before.ru_stime, done.stdout


def row(program, library, path):
    """Returns the times for the exports of each module."""
    with open(path, 'rb') as file:
        text = file.read()
    lines = b''.join(line('exports', it['specifier']) for it in json.loads(text)['modules'])
    _, answers = run_time(program, path, lines)
    room, kept, found = max(ROOM, len(answers)), Kept(), []
    told(library.open, room, text, len(text), kept)
    for _ in range(RUNS):
        each = [run_time(program, path, lines), told(library.answer, room, text, len(text), lines, len(lines)),
                told(library.ask, room, kept, lines, len(lines))]
        if any(it[1] != answers for it in each):
            sys.exit('the answers differ')
        found.append([it[0] for it in each])
    library.close(kept)
    return len(text) / 1e6, lines.count(b'\n'), *(1000 * min(it) for it in zip(*found))


def main():
    parser = argparse.ArgumentParser(description=__doc__, formatter_class=argparse.RawDescriptionHelpFormatter)
    parser.add_argument('program', type=os.path.abspath)
    parser.add_argument('library', type=os.path.abspath)
    parser.add_argument('--graph', nargs='*', default=[])
    args = parser.parse_args()
    library = Library(args.library)
    print('| graph | MB of text | lines | run, ms | call, ms | of the run | session, ms | of the run |\n|' + '---|' * 8)
    with tempfile.TemporaryDirectory() as folder:
        made = [('one empty module', SMALL), ('webs of ten modules, 2000', webs_of(2000))]
        for number, (_, graph) in enumerate(made):
            with open(os.path.join(folder, '%d.json' % number), 'w', encoding='utf-8') as file:
                json.dump(graph, file, separators=(',', ':'))
        paths = [(name, os.path.join(folder, '%d.json' % at)) for at, (name, _) in enumerate(made)]
        for name, path in paths + [(os.path.basename(it), it) for it in args.graph]:
            size, asked, run, called, kept = row(args.program, library, path)
            told_row = (name, size, asked, run, called, called / run, kept, kept / run)
            print('| %s | %.1f | %d | %.1f | %.1f | %.2f | %.1f | %.2f |' % told_row, flush=True)


if __name__ == '__main__':
    main()
