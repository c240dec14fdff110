#!/usr/bin/env python3
"""The model of `symq` as a program: the same arguments, lines, statuses and standard error.

    python3 evidence/model/symq.py [--strict] GRAPH < QUERIES
"""
import os
import sys

from rules.answers import answer_line
from rules.checker import check_graph
from rules.faults import FormatFault, GraphFault
from rules.raw_graph import read_graph
from rules.root import Root
from rules.stack import with_big_stack

BLOCK = 1 << 16


def write_all(data: bytes) -> None:
    left = memoryview(data)
    while left:
        left = left[os.write(1, left[:BLOCK]):]


def stop(status: int, line: str) -> int:
    try:
        os.write(2, (line + '\n').encode('utf-8', 'surrogateescape'))
    except OSError:
        pass
    return status


def serve(root: Root) -> int:
    """Answers line by line, until the input ends."""
    waiting = b''
    while True:
        try:
            block = os.read(0, BLOCK)
        except OSError:
            return stop(6, 'symq: input failed')
        *lines, waiting = (waiting + block).split(b'\n')
        if not block and waiting:
            lines.append(waiting)
        try:
            write_all(b''.join(answer_line(root, line).encode() + b'\n' for line in lines))
        except OSError:
            return stop(6, 'symq: output failed')
        if not block:
            return 0


def main(words: 'list[str]') -> int:
    strict = len(words) == 2 and words[0] == '--strict'
    if len(words) != 1 and not strict:
        return stop(2, 'usage: symq [--strict] GRAPH')
    try:
        with open(words[-1], 'rb') as file:
            data = file.read()
    except (OSError, ValueError):
        return stop(3, 'symq: cannot read graph')
    try:
        root = Root(check_graph(read_graph(data)), strict=strict)
    except (FormatFault, GraphFault) as fault:
        return stop(4 if isinstance(fault, FormatFault) else 5, fault.line())
    return serve(root)


if __name__ == '__main__':
    status = with_big_stack(main, sys.argv[1:])
    sys.stdout = sys.stderr = None
    os._exit(status)
