"""Compares a program with the model on cases, one after the other."""
import time

from differ.reporting import in_full, in_short, keep
from differ.running import Program
from differ.shrinking import shrink


class Counts:
    """What was compared: graphs, how many of them by strict rules, queries, how many graphs differ, and the time in seconds."""

    def __init__(self):
        self.graphs = self.strict = self.queries = self.differ = 0
        self.began = time.monotonic()

    def seconds(self) -> float:
        return time.monotonic() - self.began

    def told(self) -> str:
        return '%d graphs, %d of them by strict rules, %d queries, %d differ, %.1f s' % (
            self.graphs, self.strict, self.queries, self.differ, self.seconds())


def compare(program: Program, cases, seconds=None, go_on=False, shrink_seconds=30, folder=None, tell=print) -> Counts:
    """Takes the cases, each with its seed, until the time is over or one differs. That one is made small and reported; with the option to go on, each
    is reported in one line."""
    counts = Counts()
    for seed, case in cases:
        if seconds is not None and counts.seconds() > seconds:
            break
        found = program.difference(case.graph, case.lines, case.strict)
        counts.graphs += 1
        counts.strict += case.strict
        counts.queries += len(case.lines)
        if found is None:
            continue
        counts.differ += 1
        if go_on:
            tell(in_short(seed, case, found))
            continue
        tell('seed %d differs; it is made small ..' % seed)
        graph, lines = shrink(program, case, shrink_seconds)
        tell(in_full(seed, case, graph, lines, program.difference(graph, lines, case.strict)))
        if folder:
            keep(folder, seed, case, graph, lines)
        break
    return counts
