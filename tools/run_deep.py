#!/usr/bin/env python3
"""Queries the program about long chains, with a small stack: the depth of a graph has no bound there.

    python3 tools/run_deep.py                   the proved program, crates/symq/out/symq
    python3 tools/run_deep.py SYMQ              the program at this path
    python3 tools/run_deep.py --links N ..      chains of this length, in place of `LINKS`
    python3 tools/run_deep.py --model           small chains, and the model of evidence/ in place of the program
    python3 tools/run_deep.py --host HOST       the library, by the program of tests/library/deep.c at this path

Each shape of `deep_graphs.py` is queried with a stack of `STACK` bytes, by Deno's rules and by strict ones, and the answers are compared with
those that follow from the construction of the graph. The last line is 'N passed, M failed'.
"""
import argparse
import os
import sys
import tempfile

from deep_graphs import LONG, WIDE
from runner import ROOT, Limits, Outcome, programs, report, run

STACK, LINKS, SMALL = 256 * 1024, 1_000_000, (1, 2, 3, 5)
# by strict rules, and of wide shapes by both, chains have a part of these links
PART = 5
# the options of the program, and the field of a question with its answer
RULES = (((), 'answer'), (('--strict',), 'strict'))
MODEL = os.path.join(ROOT, 'evidence', 'model', 'symq.py')


def lines_of(texts):
    return ''.join(it + '\n' for it in texts).encode()


def wrong_with(got, questions, field):
    """Returns what is wrong with a run, or nothing."""
    if got == Outcome(0, lines_of(getattr(it, field) for it in questions), b''):
        return ''
    lines = got.output.decode(errors='replace').split('\n')
    asked = [it.query for it, line in zip(questions, lines) if getattr(it, field) != line]
    return 'status %d, %d bytes of answers, standard error %r; not as expected: %s' % (got.status, len(got.output), got.error[:200], ' '.join(asked))


def by_program(words, limits):
    """Returns a run of a program on a graph's file and lines."""
    return lambda options, place, lines, _: run(words[0], [*words[1:], *options, place], lines, limits)


def by_host(host):
    """Returns a call of the library, with so much room for the answers, in a thread with a small stack."""
    def called(options, place, lines, room):
        with open(place + '.lines', 'wb') as file:
            file.write(lines)
        return run(host, [*options, place, file.name, str(STACK), str(room)])
    return called


def shapes(links):
    """Returns the shapes, each with the length of its chain and rules."""
    deno, strict = RULES
    return [*((it, links, [deno]) for it in LONG), *((it, links // PART, [strict]) for it in LONG), *((it, links // PART, RULES) for it in WIDE)]


def rows(called, chosen):
    """Yields the name of each shape and kind of rules, and what is wrong with its run."""
    with tempfile.TemporaryDirectory(prefix='deep-') as folder:
        place = os.path.join(folder, 'graph.json')
        for shape, links, rules in chosen:
            graph, questions = shape(links)
            with open(place, 'w', encoding='utf-8') as file:
                file.writelines(graph)
            for options, field in rules:
                room = len(lines_of(getattr(it, field) for it in questions))
                got = called(options, place, lines_of(it.query for it in questions), room)
                yield ' '.join([shape.__name__, str(links), *options]), wrong_with(got, questions, field)


def main(words):
    parser = argparse.ArgumentParser(description='Queries about long chains, with a small stack.')
    parser.add_argument('--links', type=int, default=LINKS, help='the length of the chains')
    parser.add_argument('--model', action='store_true', help='compares the answers about small chains with those of the model')
    parser.add_argument('--host', help='calls the library by this program')
    parser.add_argument('program', nargs='*', metavar='SYMQ', help='the program')
    args = parser.parse_args(words)
    if args.model:
        small = [(shape, links, RULES) for shape in (*LONG, *WIDE) for links in SMALL]
        return report(rows(by_program([sys.executable, MODEL], Limits()), small))
    called = by_host(args.host) if args.host else by_program(programs(args.program), Limits(stack=STACK))
    return report(rows(called, shapes(args.links)))


if __name__ == '__main__':
    sys.exit(main(sys.argv[1:]))
