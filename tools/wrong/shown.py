"""Shows that an edit doesn't meet its contract if the prover can't: by a stored case or a test that fails in an unverified build with the edit,
and holds if no edit is chosen. A build has all requested edits.

All other functions are proved from the contracts of what they call. If the edited one met its own, so would each call above it. These fix how a run
of `symq` ends and what it writes, except for failed allocations. For any other case or test the edit names a clause that doesn't allow the
result."""
import os
import re
import shutil
import subprocess
from concurrent.futures import ThreadPoolExecutor
from contextlib import suppress

import run_cases

from .choosing import CRATE, choices_of, test_name, tests_of, with_edits, word_of
from .clauses import has_clause, missing_clauses, named_by
from .crates import Crate, libraries_of, read, write
from .mutants import with_shown

# the sorts of cases in the order in which they are tried, each with the program that runs them
SORTS = (('cases', 'symq'), ('forms', 'symq'), ('tables', 'symq_tables'))
# the program whose contracts fix how a run ends, except for this status, which reports a failed allocation
FIXED, MEMORY_REFUSED = 'symq', 7
# the files of functions with unknown inputs: no contract covers a program's arguments, and the contents of its files and streams
UNKNOWN = ('symq/src/main.rt', 'symq_core/src/arguments.rt', 'symq_core/src/streams.rt')
# the faults of runs that count, in the words of `rt try`: a proof says that there is none
FAULTS = re.compile(rb'fault kind=(?:index-out-of-bounds|panic) ')
# how a test fails by what it finds, in the same words
FOUND = re.compile(r'^    (?:the test failed: its result gives status|assertion )', re.M)


def environment(folder):
    """Returns the environment of builds. Each `rt try` also starts a check by `sh`, which only gives a hint on reserved names and would take as long
    as the build. Here its `sh` ends at once."""
    bin_folder = os.path.join(folder, 'bin')
    os.makedirs(bin_folder, exist_ok=True)
    with suppress(FileExistsError):
        os.symlink(shutil.which('true'), os.path.join(bin_folder, 'sh'))
    return {**os.environ, 'PATH': bin_folder + os.pathsep + os.environ['PATH'], 'RT_ALLOW_C': CRATE}


def is_fixed(edit):
    """Returns whether the contracts of the program's calls fix what a run shows of the edited function."""
    return '%s/%s' % (edit.crate, edit.function.file) not in UNKNOWN


def case_of(cases, name):
    """Returns the stored case of this name, in its own order; None if there is none."""
    return next((it for it in cases if 'tests/' + it.name == name), None)


def by_cases(folder, program, asked):
    """Returns for numbered edits, each with a case of the program, why the case doesn't show the edit wrong, or None if it does. An edit whose run
    has no outcome has no entry."""
    cases = [*{case.name: case for _, case in asked}.values()]
    runs = [*[('', it) for it in cases], *[(word_of(number), case) for number, case in asked]]
    words, given = [word for word, _ in runs], [case for _, case in runs]
    found, said = run_cases.tried_outcomes(program, given, folder, words, environment(folder))
    if not found:
        return None, said
    holds = {case.name: found.get(at) == case.want for at, case in enumerate(cases)}
    outcomes = [(number, case, found.get(len(cases) + at)) for at, (number, case) in enumerate(asked)]
    return {number: why_not_case(case, holds[case.name], outcome) for number, case, outcome in outcomes}, said


def why_not(name, holds, fails):
    """Returns why what an edit names doesn't show it wrong; None if it does."""
    if not holds:
        return '%s does not hold without an edit' % name
    return '' if fails else '%s does not fail with it' % name


def says_nothing(outcome):
    """Returns whether contracts may allow such an end of a run: an allocation failed, or it ended by a fault that doesn't count, such as the end of
    the stack."""
    return outcome.status == MEMORY_REFUSED or outcome.status == 'fault' and not FAULTS.search(outcome.error)


def why_not_case(case, holds, outcome):
    """Returns why a case with this outcome, if any, doesn't show the edit wrong; None if it does."""
    fails = outcome and outcome != case.want
    nothing = '%s ends with it in a way that says nothing of contracts' % case.name
    return nothing if holds and fails and says_nothing(outcome) else why_not(case.name, holds, fails)


def told_of_tests(said):
    """Returns by the name of each test whether it failed, from the output of `rt try --test`. A test that ended by a fault, or ran out of its time,
    is reported as failed, too, and says nothing about the edit: it is left out."""
    found = re.findall(r'^test (\S+) \.\.\. (\w+)\n((?: .*\n)*)', said, re.M)
    return {name: how == 'FAILED' for name, how, why in found if how != 'FAILED' or FOUND.search(why)}


def said_of_tests(folder, crate):
    how = {'stdin': subprocess.DEVNULL, 'stdout': subprocess.PIPE, 'stderr': subprocess.STDOUT, 'text': True, 'errors': 'replace'}
    return subprocess.run(['rt', 'try', '--steps', '1', '--test'], cwd=os.path.join(folder, 'crates', crate), env=environment(folder), **how).stdout


def by_tests(folder, crate, asked):
    """Returns the same for numbered edits, each with a test of the crate."""
    said = said_of_tests(folder, crate)
    failed = told_of_tests(said)
    if not failed:
        return None, said
    return {number: why_not(test, failed.get(test) is False, failed.get(test_name(number, test))) for number, test in asked}, said


def sorted_out(top, edits):
    """Returns what is run for numbered edits: for each program, or crate of tests, a function and the edits, each with its case or test. Also returns
    why what some edits name can't be run, or says nothing about their contracts."""
    libraries, (cases, _), runs, bad = libraries_of(top), run_cases.all_cases(), {}, {}
    missing = missing_clauses(top)
    for number, edit in edits:
        name, clause = named_by(edit.shown)
        crate, _, test = name.partition('/')
        case = case_of(cases, name)
        if not case and not (crate in libraries and test):
            bad[number] = 'there is no %s' % name
        elif clause and not has_clause(Crate(top, edit.crate, libraries), clause):
            bad[number] = 'there is no clause %s' % clause
        elif not clause and not (case and case.program == FIXED and is_fixed(edit)):
            bad[number] = 'it names no clause that fixes what %s looks at' % name
        elif not clause and missing:
            bad[number] = 'nothing fixes how a run ends, without the clause ' + missing[0]
        elif case:
            runs.setdefault((by_cases, case.program), []).append((number, case))
        else:
            runs.setdefault((by_tests, crate), []).append((number, test))
    return runs, bad


def shown_together(top, edits, lanes):
    """Returns for numbered edits, by one build for each program or crate of tests, why what they name doesn't show them wrong. A build that fails is
    repeated for each half of them."""
    runs, whys = sorted_out(top, edits)
    tests = [(number, crate, test) for (by, crate), asked in runs.items() if by is by_tests for number, test in asked]
    with with_edits(top, edits, tests) as folder:

        def work(key):
            with lanes.taken():
                return key[0](folder, key[1], runs[key])

        with ThreadPoolExecutor(max(1, len(runs))) as pool:
            results = dict(zip(runs, pool.map(work, runs)))
    for key, (found, said) in results.items():
        own = [(number, edit) for number, edit in edits if number in dict(runs[key])]
        if found is not None:
            whys.update(found)
        elif len(edits) == 1:
            whys[own[0][0]] = 'no build with it runs: ' + (said.strip().split('\n') or [''])[-1]
        else:
            for half in (own[: len(own) // 2], own[len(own) // 2 :]):
                whys.update(shown_together(top, half, lanes) if half else {})
    return whys


def not_shown(top, edits, lanes):
    """Returns for each edit that names a case or a test why that doesn't show the edit wrong, or None if it does."""
    libraries = libraries_of(top)
    crates = {name: Crate(top, name, libraries) for name in {it.crate for it in edits}}
    numbered = [(number, it) for number, it in enumerate(edits, 1) if choices_of(crates[it.crate], it)]
    whys = shown_together(top, numbered, lanes) if numbered else {}
    left = 'it changes more than the lines of a body, so it is no choice'
    return [whys.get(number, 'nothing was run for it') if (number, it) in numbered else left for number, it in enumerate(edits, 1)]


def name_what_shows(crate, edit, lanes):
    """Writes into an edit the case or test that shows it wrong: of the first sort of which some fail with it, the one whose name is most alike, or
    else the first. Returns it; None if none fails. If it has to name a clause, that isn't determined."""
    found = all_that_show(crate, edit, lanes)
    words = set(edit.name.split('_'))
    best = max(found, key=lambda it: len(words & set(re.split(r'/|::|_', it))), default='')
    if best:
        path = crate.mutants_path()
        write(path, with_shown(read(path), crate.mutants()[edit.name], best))
    return best


def all_that_show(crate, edit, lanes):
    """Returns the cases that fail with the edit, of the first sort of which some do, and otherwise the tests of a crate of tests; all hold without
    it."""
    libraries, (cases, _) = libraries_of(crate.top), run_cases.all_cases()
    tests = [(1, name, it) for name in libraries if name.endswith('_tests') for it in tests_of(Crate(crate.top, name, libraries))]
    with with_edits(crate.top, [(1, edit)], tests) as folder, lanes.taken():
        for sort, program in SORTS if 'symq' in libraries else ():
            own = [it for it in cases if it.name.startswith(sort + '/') and ',' not in it.name]
            found, _ = run_cases.tried_outcomes(program, own, folder, [word_of(1)] * len(own), environment(folder))
            failed = sorted('tests/' + own[at].name for at, outcome in found.items() if not why_not_case(own[at], True, outcome))
            if failed:
                return failed
        for name in sorted({name for _, name, _ in tests}):
            told = told_of_tests(said_of_tests(folder, name))
            failed = [it for it in told if told.get(it) is False and told.get(test_name(1, it))]
            if failed:
                return sorted('%s/%s' % (name, it) for it in failed)
    return []
