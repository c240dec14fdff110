"""Runs recursion as deep as trees and paths are."""
import sys
import threading

MEGABYTES = 512


def with_big_stack(function, *words):
    """Calls the function in a thread with a large stack, and returns or raises its result."""
    found = []

    def body():
        try:
            found.append((True, function(*words)))
        except BaseException as fault:  # passed on to the caller
            found.append((False, fault))

    sys.setrecursionlimit(1000000)
    threading.stack_size(MEGABYTES * 1024 * 1024)
    thread = threading.Thread(target=body)
    thread.start()
    thread.join()
    succeeded, value = found[0]
    if not succeeded:
        raise value
    return value
