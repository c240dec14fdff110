#!/usr/bin/env python3
"""Tries mutants: wrong bodies of the crates' functions, many in one check. Each has to be refused by a goal of a clause, or by a run that its
contract doesn't allow.

    python3 tools/wrong_bodies.py                       the edits of every crate, crates side by side
    python3 tools/wrong_bodies.py CRATE ..              those of some crates
    python3 tools/wrong_bodies.py CRATE/EDIT ..         some edits
    python3 tools/wrong_bodies.py --turn N ..           only those that are due at the commit of this number
    python3 tools/wrong_bodies.py --base ..             with a check of each crate without an edit, before the others
    python3 tools/wrong_bodies.py --record ..           writes which edits ended well
    python3 tools/wrong_bodies.py --checks ..           only checks; --runs: only the runs that edits name
    python3 tools/wrong_bodies.py --libraries FOLDER .. over the built libraries of a directory, NAME.rlib
    python3 tools/wrong_bodies.py --lanes FOLDER ..     as many checks at once, with those of others, as the directory has files

The file crates/CRATE/wrong/mutants has a section for each edit: a line 'mutant: EDIT', a line 'file: src/FILE.rt' and pairs of
lines 'old: TEXT' and 'new: TEXT', up to an empty line. Each old text is in that file exactly once, after the earlier pairs are
applied, and an edit changes only one function. A line 'in: MODULE::TYPE::FUNCTION' names that function, and its texts may be in
others, too. A line 'impl: TEXT' writes an impl by hand in place of the one that a type of the file derives. Sections are sorted
by file and name, and a malformed one ends the program with its file and line.

A check proves function by function, from the contracts of what a function calls. So one check tries an edit in each of
many functions, on a copy of the crate in which each unchecked function has `unreachable!()` for its body and a
hole in place of its proof, which `rattle check --allow-holes` accepts by its contract. A batch has at most one edit for a
function. The functions of a cycle of calls share a proof, but each has goals of its own, which rely only on the
contracts of the others, and which bear its name: so each of them may have an edit in one batch. An edit is

    refused         if a goal of a clause stays open: of what the function ensures, of what a call in it requires, of the
                    law of its type. If the function has a proof by hand, a goal counts only if the prover gives values
                    at which it is false, or proves that clause by itself without the edit
    proof broken    if answers by hand, or a loop's invariant, don't fit the change, and no such goal is open
                    without them. That is no refusal: a right body may break a proof. The edit names a run that its contract
                    doesn't allow, by a line 'shown: tests/cases/NAME' or 'shown: CRATE/TEST by CRATE::FUNCTION CLAUSE'
    let through     if the function is proved with the edit, also without answers by hand that don't fit
    not reached     if the text doesn't apply, or the batch doesn't compile: it is halved until the edit is found
    undecided       if neither a goal was named nor the function proved; such an edit is tried once more, alone. In no other check
                    does an edit survive: each has for each function an answer to no goal, for which the check offers no answers

and only the first passes, and the second if it names something. What edits name is run, for all of them at each run: the
case or test has to fail with the edit, in an unverified build, and to hold without it. The contracts of its calls fix how a
run of symq ends, except for status 7, which reports a failed allocation. For any other case or test the edit names the
clause, or the law of a type, that doesn't allow the result. One build of a program, or of a crate of tests, has all of these
edits in it: a function with edits looks up which one is chosen.

The file wrong/refused of a crate records the edits that pass by a check, each with a hash of all inputs of its verdict: the kit,
these programs, the crate as a check of the edit reads it, and the readable part of the libraries below. Due are the edits
whose hash isn't recorded, and of the others those of some crates, in turn. Edits that name only a case of symq have no turn,
since their run refuses them. `--turn` takes the number of commits. `--record` writes the record. Into edits that broke a proof
and name nothing it writes what shows them wrong, if anything does. With `--base` the changed functions must all be proved
without an edit, in the same setting. `make wrong` does both, with all edits.

The libraries below a crate must be built: if no directory is named, those in their out/, as `rt check` of the crate
leaves them. Each edit has a line, with what refused it, and so has each run; the last line is 'N passed, M failed'.
"""
import argparse
import os
import resource
import sys
import threading
import time
from concurrent.futures import ThreadPoolExecutor

from wrong.crates import TOP, Crate, kit, libraries_of
from wrong.outcomes import Runs, run_named, try_crate
from wrong.rooms import Lanes, words_of


def wanted(top, words):
    """Returns the crates, each with the names of the edits to try, those with most edits first."""
    libraries, found = libraries_of(top), {}
    for word in words or libraries:
        name, _, edit = word.partition('/')
        if name not in libraries:
            sys.exit('crates.txt names no crate %s' % name)
        crate = found.setdefault(name, (Crate(top, name, libraries), []))[0]
        found[name][1].extend([edit] if edit else crate.names())
    return sorted((it for it in found.values() if it[1]), key=lambda it: -len(it[1]))


def checked(crates, args, lanes):
    """Tries edits of the crates by checks, and returns the outcomes."""
    kit_folder, printing, outcomes = kit(), threading.Lock(), []

    def work(crate, names):
        began = time.time()
        words = words_of(crate, kit_folder, args.libraries)
        outcome = try_crate(crate, names, words, lanes, args.turn, args.base, args.record)
        with printing:
            outcomes.append(outcome)
            print('\n'.join([*outcome.lines(), outcome.count(time.time() - began)]), flush=True)

    with ThreadPoolExecutor(max(1, len(crates))) as pool:
        for task in [pool.submit(work, *it) for it in crates]:
            task.result()
    return outcomes


def run(crates, args, lanes):
    """Tries the edits by checks and by runs, as far as requested, and returns the outcomes."""
    outcomes = [] if args.runs else checked(crates, args, lanes)
    runs = Runs([], []) if args.checks else run_named(crates, lanes)
    for line in runs.lines():
        print(line)
    return [*outcomes, runs]


def arguments(words):
    parser = argparse.ArgumentParser(description='Tries wrong bodies of the crates\' functions.', epilog='The head of the file says what the outcomes are.')
    parser.add_argument('edits', nargs='*', metavar='CRATE[/EDIT]', help='the edits of a crate, or one of them; all, where none is named')
    parser.add_argument('--libraries', metavar='FOLDER', type=os.path.abspath, help='where the built libraries are')
    parser.add_argument('--lanes', metavar='FOLDER', type=os.path.abspath, help='as many checks at once as the folder has files')
    parser.add_argument('--turn', metavar='N', type=int, help='the edits alone that are due at this number of commits')
    parser.add_argument('--base', action='store_true', help='checks each crate without an edit first')
    parser.add_argument('--record', action='store_true', help='writes the record, and what shows edits wrong that name nothing')
    which = parser.add_mutually_exclusive_group()
    which.add_argument('--checks', action='store_true', help='checks alone')
    which.add_argument('--runs', action='store_true', help='runs alone of what edits name')
    return parser.parse_args(words)


def main():
    args = arguments(sys.argv[1:])
    crates = wanted(TOP, args.edits)
    outcomes = run(crates, args, Lanes(args.lanes))
    passed, failed = (sum(it) for it in zip(*[(it.passed_count(), it.failures()) for it in outcomes]))
    if not crates:
        print('no edit was found')
        failed = 1
    elif not passed and not failed:
        print('no edit is due')
    used = resource.getrusage(resource.RUSAGE_CHILDREN)
    print('processor time: %d s' % (used.ru_utime + used.ru_stime))
    print('%d passed, %d failed' % (passed, failed))
    return 1 if failed else 0


if __name__ == '__main__':
    sys.exit(main())
