#!/usr/bin/env python3
"""Answers each case on standard input, a pickled (graph, lines, strict), with the result of this copy of the model, until the input ends. So a copy
is queried in one process (`copies.py`), while `running.py` starts a program anew for each case."""
import os
import pickle
import sys

sys.path.insert(0, os.path.dirname(os.path.dirname(os.path.abspath(__file__))))

from rules.answers import run
from rules.stack import with_big_stack


def result(graph, lines, strict) -> 'tuple[int | str, bytes, bytes]':
    """Returns the result of a run. An exception has a status of its own, which no run of the model has."""
    try:
        return run(graph, lines, strict)
    except Exception as fault:
        return 'exception', b'', repr(fault).encode()


def main() -> None:
    while True:
        try:
            case = pickle.load(sys.stdin.buffer)
        except EOFError:
            break
        pickle.dump(result(*case), sys.stdout.buffer)
        sys.stdout.buffer.flush()


if __name__ == '__main__':
    with_big_stack(main)
