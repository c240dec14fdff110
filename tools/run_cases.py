#!/usr/bin/env python3
"""Runs the stored cases on the programs: compares status, standard output and standard error.

    python3 tools/run_cases.py                                builds the programs without a proof, and runs them
    python3 tools/run_cases.py --proved                       runs the proved programs, crates/NAME/out/NAME
    python3 tools/run_cases.py --programs SYMQ SYMQ_TABLES    runs the programs at these paths
    python3 tools/run_cases.py cases/NAME tables ..           only these cases, or sorts of cases
    python3 tools/run_cases.py --once ..                      each case in its own order alone

There are three sorts of cases, in three directories of tests/:

    cases/NAME/     a run of symq: graph.json (the graph's text), queries (standard input) and lines (standard output)
    tables/NAME/    a run of symq_tables: graph.json and tables (standard output)
    forms/NAME      a run of symq without queries for each line that isn't empty and begins with no '#':
                    STATUS, tab, STANDARD ERROR (one line, or nothing), tab, TEXT OF THE GRAPH

A directory also has status, stderr and args (one argument a line), if they are not 0, empty and the graph. An absent file is
empty. An answer doesn't depend on earlier queries. So a case of cases/ with several queries, each answered, is run three
times: in order, in reverse, and repeated. The last line is 'N passed, M failed'; a sort without cases counts as a failure.
"""
import argparse
import os
import re
import subprocess
import sys
import tempfile
from concurrent.futures import ThreadPoolExecutor
from typing import NamedTuple, Optional

from runner import ROOT, Outcome, built, report, run

TESTS = os.path.join(ROOT, 'tests')
PROGRAMS = ('symq', 'symq_tables')


class Case(NamedTuple):
    name: str
    program: str
    graph: Optional[bytes]
    words: Optional[list]
    given: bytes
    want: Outcome


def read(folder, name, default=b''):
    path = os.path.join(folder, name)
    if not os.path.exists(path):
        return default
    with open(path, 'rb') as file:
        return file.read()


def write(folder, name, content):
    with open(os.path.join(folder, name), 'wb') as file:
        file.write(content)


def folder_cases(sort, name, program, output):
    """Returns the case of a directory, whose expected standard output is in the file `output`."""
    folder = os.path.join(TESTS, sort, name)
    words = read(folder, 'args', None)
    if words is not None:
        words = words.decode(errors='surrogateescape').splitlines()
    want = Outcome(int(read(folder, 'status', b'0')), read(folder, output), read(folder, 'stderr'))
    graph = read(folder, 'graph.json', None)
    case = Case(sort + '/' + name, program, graph, words, read(folder, 'queries'), want)
    return [case, *in_other_orders(case)]


def in_other_orders(case):
    """Returns the case with its queries in reverse, and repeated; none unless each of several lines has an answer."""
    queries, answers = ([line + b'\n' for line in text.split(b'\n')[:-1]] for text in (case.given, case.want.output))
    if case.want.status or len(queries) < 2 or len(queries) != len(answers) or not case.given.endswith(b'\n'):
        return []
    orders = [('backwards', queries[::-1], answers[::-1]), ('twice over', queries * 2, answers * 2)]
    return [case._replace(name=case.name + ', ' + order, given=b''.join(asked),
                          want=case.want._replace(output=b''.join(answered)))
            for order, asked, answered in orders]


def form_cases(sort, name):
    """Returns a case for each line of a file."""
    cases = []
    for number, line in enumerate(read(os.path.join(TESTS, sort), name).split(b'\n'), 1):
        if line and not line.startswith(b'#'):
            status, error, graph = line.split(b'\t', 2)
            want = Outcome(int(status), b'', error + b'\n' if error else b'')
            cases.append(Case('%s/%s:%d' % (sort, name, number), 'symq', graph, None, b'', want))
    return cases


SORTS = {
    'cases': lambda sort, name: folder_cases(sort, name, 'symq', 'lines'),
    'tables': lambda sort, name: folder_cases(sort, name, 'symq_tables', 'tables'),
    'forms': form_cases,
}


def all_cases():
    """Returns the cases, and what is wrong with the directories themselves."""
    cases, wrong = [], {}
    for sort, load in SORTS.items():
        folder = os.path.join(TESTS, sort)
        names = sorted(os.listdir(folder)) if os.path.isdir(folder) else []
        found = [case for name in names for case in load(sort, name)]
        if not found:
            wrong['tests/' + sort] = 'no case is there'
        cases += found
    return cases, wrong


def show(outcome):
    return 'status %s\n  standard output %r\n  standard error  %r' % outcome


def difference(case, got):
    """Returns what is wrong with an outcome; empty if nothing is."""
    return '' if got == case.want else 'got %s\nwant %s' % (show(got), show(case.want))


def run_program(path, case):
    """Returns what is wrong with the run of a built program."""
    with tempfile.TemporaryDirectory() as folder:
        if case.graph is not None:
            write(folder, 'graph.json', case.graph)
        words = ['graph.json'] if case.words is None else case.words
        try:
            got = run(path, words, case.given, cwd=folder)
        except (OSError, subprocess.TimeoutExpired) as error:
            return str(error)
    return difference(case, got)


def run_programs(paths, cases):
    """Returns what is wrong with the runs of the programs at these paths, case by case."""
    with ThreadPoolExecutor(os.cpu_count()) as pool:
        return list(pool.map(lambda case: run_program(paths[case.program], case), cases))


def write_trial(folder, key, case, word=''):
    """Writes the files from which `rt try --cases` runs a case: its standard input and arguments, and the graph apart, with an argument before its
    name."""
    graph = os.path.join(folder, word + key + '.json')
    if case.graph is not None:
        write(folder, word + key + '.json', case.graph)
    words = [graph] if case.words is None else [graph if it == 'graph.json' and case.graph is not None else it for it in case.words]
    trials = os.path.join(folder, 'trials')
    write(trials, key, case.given)
    write(trials, key + '.args', ''.join(word + '\n' for word in words).encode(errors='surrogateescape'))


def trial_outcomes(output, report):
    """Returns the outcomes of the runs of `rt try --cases` by their keys. It prints the standard output of a run below the line '== KEY', and its
    standard error above the line 'case=KEY' of its report. A last line without an end gets one. A run that ended by a fault, such as an index out
    of bounds, has the fault's name for its status."""
    outputs = re.split(rb'^== (\d{5})\n', output, flags=re.M)
    outputs = dict(zip(outputs[1::2], outputs[2::2]))
    errors = re.split(rb'^case=(\d{5}) run=(\S+)(?: status=(\d+))?.*\n', report, flags=re.M)
    ends = zip(errors[0::4], errors[1::4], errors[2::4], errors[3::4])
    return {key: Outcome(int(status) if status else run.decode(), outputs.get(key), error)
            for error, key, run, status in ends if run in (b'ended', b'fault')}


def tried_outcomes(program, cases, top=ROOT, words=None, environment=None):
    """Returns the outcomes of the cases by an unproved build of a program of the repository at `top`, by the numbers of the cases; a case without an
    outcome is left out. Also returns the last words of the build. Arguments, one for each case, precede the names of the graphs' files."""
    with tempfile.TemporaryDirectory() as folder:
        trials = os.path.join(folder, 'trials')
        os.mkdir(trials)
        for number, case in enumerate(cases):
            write_trial(folder, '%05d' % number, case, words[number] if words else '')
        try:
            # the kit's interpreter can't run a program that reads its arguments: one step of it is enough
            tried = subprocess.run(['rt', 'try', '--steps', '1', '--cases', trials], cwd=os.path.join(top, 'crates', program),
                                   stdout=subprocess.PIPE, stderr=subprocess.PIPE, env=environment)
        except OSError as error:
            return {}, str(error)
    # the output of a build of C code precedes the output of the first run
    found = trial_outcomes(tried.stdout, re.sub(rb'\A(?:rt: compiling .*\n)+', b'', tried.stderr))
    return {int(key): it for key, it in found.items()}, tried.stderr.decode('utf-8', 'replace')[-400:]


def try_program(program, cases):
    """Returns what is wrong with the runs of an unproved build of a program, case by case."""
    if not cases:
        return []
    found, said = tried_outcomes(program, cases)
    last_words = 'no run; the last words of rt try: ' + said
    return [difference(case, found[number]) if number in found else last_words for number, case in enumerate(cases)]


def try_programs(cases):
    """Returns what is wrong with the runs of unproved builds of the programs, case by case."""
    shares = [[case for case in cases if case.program == program] for program in PROGRAMS]
    with ThreadPoolExecutor(len(PROGRAMS)) as pool:
        found = list(pool.map(try_program, PROGRAMS, shares))
    texts = {case.name: text for share, part in zip(shares, found) for case, text in zip(share, part)}
    return [texts[case.name] for case in cases]


def arguments(words):
    parser = argparse.ArgumentParser(description='Runs the stored cases on the programs.')
    which = parser.add_mutually_exclusive_group()
    which.add_argument('--proved', action='store_true', help='the proved programs, crates/NAME/out/NAME')
    which.add_argument('--programs', nargs=2, metavar=('SYMQ', 'SYMQ_TABLES'), help='the programs at these paths')
    parser.add_argument('--once', action='store_true', help='each case in its own order alone')
    parser.add_argument('names', nargs='*', metavar='SORT[/NAME]', help='these cases alone')
    return parser.parse_args(words)


def main(words):
    args, (cases, wrong) = arguments(words), all_cases()
    if args.names:
        cases = [it for it in cases if it.name.split(',')[0] in args.names or it.name.split('/')[0] in args.names]
        wrong = {name: 'no case has this name' for name in set(args.names) - {it.name for it in cases} - set(SORTS)}
    if args.once:
        cases = [it for it in cases if ',' not in it.name]
    paths = args.programs
    if args.proved:
        paths = [built(program) for program in PROGRAMS]
    if paths:
        found = run_programs({program: os.path.abspath(path) for program, path in zip(PROGRAMS, paths)}, cases)
    else:
        found = try_programs(cases)
    return report(sorted({**wrong, **{case.name: text for case, text in zip(cases, found)}}.items()))


if __name__ == '__main__':
    sys.exit(main(sys.argv[1:]))
