#!/usr/bin/env python3
"""Makes calls of the programs fail in turn. Whichever fails, they report it, and their output is a beginning of the answers.

    python3 tools/run_refusing.py                                   the proved programs, crates/NAME/out/NAME
    python3 tools/run_refusing.py SYMQ SYMQ_TABLES REFUSED_CALLS    the programs at these paths; the last may be left out

`tests/refusing/refuse.c`, which `cc` builds here and which is preloaded, makes the call with a number fail: an allocation,
alone or with all later ones, over stored cases; a read of the graph's file or of the queries, or a write of the answers,
which also may accept nothing, or be interrupted. The numbers go up until there is no such call. Expected is the table of
statuses in `README.md`: after a failed allocation the outcome of the stored case, or the status 7; after a failed read the
answers to the lines that were read; after a failed write what was written before. Neither is repeated, not even if a signal
interrupted it; an interrupted read of the graph's file is. Then come a graph's text that is cut off, after each of its
bytes, and streams that fail by themselves: a full device, a pipe that nobody reads, a directory, a closed stream.

`refused_calls` calls the library, with failing allocations in one call at a time. That call returns its usual result, or reports
the failed allocation. Then the modules that it needs are stored, each whole or not at all, in the order in which it needs them.
All later calls return what they return on a fresh root. The calls that need no memory allocate nothing.

A check is a row of failures or of cut texts, or such a stream. The last line is 'N passed, M failed'.
"""
import os
import subprocess
import sys
import tempfile
from concurrent.futures import ThreadPoolExecutor

import runner
from run_cases import PROGRAMS, ROOT, TESTS, Case, Outcome, folder_cases, show, write
from set_up import ensure

# queries of each form on a small graph; declarations with deep content, long chains, other modules; graphs with a fault; no graph
OF_MEMORY = ('each_form_of_query', 'dependencies_in_both_modes', 'paths_to_definitions', 'types_chains', 'json_module',
             'refused_shape', 'refused_tree_after_tables', 'refused_duplicate_redirect', 'refused_form', 'refused_half_a_text',
             'no_file', 'no_words')
# tables of declarations of all sorts, of a JSON text, of no module; graphs with a fault
OF_TABLES = ('tests_of_declarations', 'json_objects', 'no_modules', 'refused_shape', 'refused_half_a_text', 'no_words')
LISTS = tuple(b'["%s"' % it for it in (b'exports', b'names', b'deps', b'paths', b'definitions', b'leaves', b'resolve'))
ALL_FORMS, FEW_LINES, SMALL = 'each_form_of_query', 'line_that_is_not_utf8', 'one_variable'
# the program that calls the library; its steps in which an allocation may fail, and the one that stores modules; the one that allocates nothing
CALLS, STEPS, STORING, VIEWS = 'refused_calls', ('read_graph', 'ModuleGraph::new', 'run', 'run once more', 'inputs'), 'run', 'views'
NO_GRAPH, NO_JSON = Outcome(3, b'', b'symq: cannot read graph\n'), Outcome(4, b'', b'symq: not a graph: json\n')
NO_INPUT, NO_OUTPUT, NO_MEMORY = b'symq: input failed\n', b'symq: output failed\n', b'symq: out of memory\n'


def stored(name):
    """Returns a stored case, in its own order."""
    return folder_cases('cases', name, 'symq', 'lines')[0]


def stored_tables(name):
    """Returns a stored case of tables."""
    return folder_cases('tables', name, 'symq_tables', 'tables')[0]


def stored_calls():
    """Returns what the program that calls the library prints."""
    with open(os.path.join(ROOT, 'crates', CALLS, 'stdout'), 'rb') as file:
        return file.read()


class Program:
    """A program, with the library that is preloaded into it, and a directory for graphs."""

    def __init__(self, path, folder):
        self.path, self.folder, self.library = os.path.abspath(path), folder, os.path.join(folder, 'refuse.so')
        words = ['cc', '-O1', '-Wall', '-Wextra', '-shared', '-fPIC', '-o', self.library]
        subprocess.run([*words, os.path.join(TESTS, 'refusing', 'refuse.c')], check=True)

    def graph(self, text):
        """Returns the path of a file with this text."""
        number, path = tempfile.mkstemp(dir=self.folder)
        with open(number, 'wb') as file:
            file.write(text)
        return path

    def run(self, words, given, **how):
        """Returns the outcome of a run, and whether a call failed."""
        reads, told = os.pipe()
        how = {'LD_PRELOAD': self.library, 'TOLD': told, **how}
        try:
            environment = {**os.environ, **{key: str(it) for key, it in how.items()}}
            got = runner.run(self.path, words, given, env=environment, cwd=self.folder, pass_fds=[told])
        finally:
            os.close(told)
            with open(reads, 'rb') as pipe:
                refused = bool(pipe.read())
        return got, refused

    def row(self, case, is_wanted, **how):
        """Returns what is wrong if the calls of a case fail one after the other; empty if nothing is. Without a failure the outcome is that of the
        case."""
        words, number, wrong = ['graph.json'] if case.words is None else case.words, 0, []
        if case.graph is not None:
            graph = self.graph(case.graph)
            words = [graph if it == 'graph.json' else it for it in words]
        while not wrong:
            got, refused = self.run(words, case.given, NUMBER=number, **how)
            if number and not refused:
                return ['no call was refused'] if number == 1 else []
            if not (is_wanted(number, got) if number else got == case.want):
                wrong.append('call %d: %s' % (number, show(got)))
            number += 1
        return wrong


def of_memory(program, case, **how):
    """Checks a failed allocation: the outcome of the case, or its status after a beginning of the output. There is no line if the allocation for a
    line itself failed."""
    lines = (NO_MEMORY, b'') if how or case.want.status else (NO_MEMORY,)

    def is_wanted(_, got):
        return got == case.want or (got.status == 7 and got.error in lines and case.want.output.startswith(got.output))
    return program.row(case, is_wanted, REFUSED='memory', **how)


def with_lists(case):
    """Returns a case with those of its lines that are answered by lists, each of which takes memory."""
    rows = zip(case.given.splitlines(True), case.want.output.splitlines(True))
    kept = [(line, answer) for line, answer in rows if line.startswith(LISTS)]
    return case._replace(given=b''.join(it for it, _ in kept), want=case.want._replace(output=b''.join(it for _, it in kept)))


def of_finished_answers(program, case, **how):
    """Checks that at a failed allocation the answers to all lines before are written, each whole: as allocations fail later, each number of answers
    comes up in turn."""
    counts, answers = [], case.want.output.splitlines(True)

    def is_wanted(_, got):
        count = got.output.count(b'\n')
        if got.status == 7:
            counts.append(count)
        return got == case.want or (got.status == 7 and got.output == b''.join(answers[:count]))
    wrong = program.row(case, is_wanted, REFUSED='memory', **how)
    in_turn = counts == sorted(counts) and sorted(set(counts)) == list(range(len(answers)))
    return wrong or ([] if in_turn else ['answers written: %s' % sorted(set(counts))])


def of_file(program, case):
    return program.row(case, lambda _, got: got == NO_GRAPH, REFUSED='file')


def of_interrupted_file(program, case):
    """Checks that an interrupted read of the graph is repeated."""
    return program.row(case, lambda _, got: got == case.want, REFUSED='file', INTERRUPT=1)


def of_input(program, case, **how):
    """Checks that of queries that come byte by byte, those that end before the failing byte are answered."""
    answers = case.want.output.splitlines(True)

    def is_wanted(number, got):
        lines = case.given[:number - 1].count(b'\n')
        return got == Outcome(6, b''.join(answers[:lines]), NO_INPUT)
    return program.row(case, is_wanted, REFUSED='input', PIECES=1, **how)


def of_output(program, case, **how):
    """Checks that of answers that are accepted byte by byte, exactly the accepted bytes are written."""
    def is_wanted(number, got):
        return got == Outcome(6, case.want.output[:number - 1], NO_OUTPUT)
    return program.row(case, is_wanted, REFUSED='output', PIECES=1, **how)


def of_cut_texts(program, text, front=b''):
    """Checks that each proper beginning of a graph's text is no JSON, nor any beginning after invalid bytes."""
    for end in range(len(text) + bool(front)):
        got, _ = program.run([program.graph(front + text[:end])], b'')
        if got != NO_JSON:
            return ['%d bytes: %s' % (end, show(got))]
    return []


def rows_of(program):
    """Returns the rows of failures, as pairs of a name and the function for the row."""
    found = []
    for name in OF_MEMORY:
        found.append(('memory, ' + name, lambda case=stored(name): of_memory(program, case)))
        found.append(('memory from there on, ' + name, lambda case=stored(name): of_memory(program, case, REST=1)))
    case, few = stored(ALL_FORMS), stored(FEW_LINES)
    found.append(('memory, finished answers', lambda: of_finished_answers(program, with_lists(case))))
    found.append(('memory from there on, finished answers', lambda: of_finished_answers(program, with_lists(case), REST=1)))
    # a repeated list makes a graph that isn't read node by node
    other = case._replace(graph=b'{"modules":[],' + case.graph[1:])
    found.append(('memory, a graph of another form', lambda: of_memory(program, other)))
    found.append(('memory from there on, a graph of another form', lambda: of_memory(program, other, REST=1)))
    found += [('reads of the graph', lambda: of_file(program, case)), ('reads of queries', lambda: of_input(program, case))]
    found.append(('reads of the graph that are interrupted', lambda: of_interrupted_file(program, case)))
    found.append(('reads of queries that are interrupted', lambda: of_input(program, case, INTERRUPT=1)))
    found.append(('writes of answers', lambda: of_output(program, few)))
    found.append(('writes of answers that are interrupted', lambda: of_output(program, few, INTERRUPT=1)))
    found.append(('writes that take nothing', lambda: of_output(program, few, EMPTY=1)))
    text = stored(SMALL).graph.strip()
    found.append(('beginnings of a graph', lambda: of_cut_texts(program, text)))
    return found + [('beginnings of a graph behind a byte that is no text', lambda: of_cut_texts(program, text, b'\xff'))]


def rows_of_tables(program):
    """Returns the rows of failed allocations in the program that prints tables."""
    found = []
    for name in OF_TABLES:
        found.append(('memory, tables, ' + name, lambda case=stored_tables(name): of_memory(program, case)))
        found.append(('memory from there on, tables, ' + name, lambda case=stored_tables(name): of_memory(program, case, REST=1)))
    return found


def steps_of(output):
    """Returns the steps of the program that calls the library: the name of each, and the lines with its result."""
    steps = []
    for line in output.decode('utf-8', 'replace').splitlines():
        if line.startswith(' ') and steps:
            steps[-1][1].append(line)
        else:
            steps.append((line, []))
    return steps


def parts_of(lines):
    """Returns the result of a call, and the table of each module that is stored then."""
    parts = [[]]
    for line in lines:
        if line.startswith('  module '):
            parts.append([])
        parts[-1].append(line)
    return parts


def is_refused(step, got, wanted):
    """Returns whether a step reports a failed allocation, with each module that it needs whole or absent, in their order."""
    (answer, *modules), (_, *needed) = parts_of(got), parts_of(wanted)
    return answer == ['  out of memory'] and modules == (needed[:len(modules)] if step == STORING else needed)


def of_calls(program, step, **how):
    """Checks an allocation that fails in one step: this step alone may report it."""
    want = Outcome(0, stored_calls(), b'')
    steps, met = steps_of(want.output), set()

    def is_wanted(_, got):
        found = steps_of(got.output)
        met.add(len(parts_of(dict(found).get(step, ()))))
        return got == want or (got.status == 0 and not got.error and len(found) == len(steps) and all(
            name == wanted_name and (lines == wanted or name == step and is_refused(step, lines, wanted))
            for (name, lines), (wanted_name, wanted) in zip(found, steps)))
    wrong = program.row(Case(CALLS, CALLS, None, [], b'', want), is_wanted, REFUSED='memory', STEP=step, UNTIL=1, **how)
    whole = len(parts_of(dict(steps)[step]))
    return wrong or ([] if step != STORING or met >= set(range(1, whole)) else ['not each beginning of the modules was met'])


def of_views(program):
    """Checks that with all allocations failing, the calls that need none give their results, and that they allocate nothing."""
    got, refused = program.run([], b'', REFUSED='memory', STEP=VIEWS, NUMBER=1, REST=1)
    return [] if got == Outcome(0, stored_calls(), b'') and not refused else [('memory was asked for: ' if refused else '') + show(got)]


def rows_of_calls(program):
    """Returns the rows of failed allocations in calls of the library."""
    found = []
    for step in STEPS:
        found.append(('memory, call, ' + step, lambda step=step: of_calls(program, step)))
        found.append(('memory up to its end, call, ' + step, lambda step=step: of_calls(program, step, REST=1)))
    return found + [('all memory, calls that take none', lambda: of_views(program))]


def unread_pipe():
    """Returns the end for writing of a pipe whose reader is gone."""
    reads, writes = os.pipe()
    os.close(reads)
    return writes


def opened(path, flags):
    return lambda: os.open(path, flags)


def streams_of(folder):
    """Returns streams that fail: a name, the descriptor, how it is opened (None: it is closed), and the line on standard error."""
    return [('answers to a full device', 1, opened('/dev/full', os.O_WRONLY), NO_OUTPUT),
            ('answers to a pipe that nobody reads', 1, unread_pipe, NO_OUTPUT),
            ('answers to a stream that is closed', 1, None, NO_OUTPUT),
            ('queries of a folder', 0, opened(folder, os.O_RDONLY), NO_INPUT),
            ('queries of a stream that is closed', 0, None, NO_INPUT),
            ('queries of a stream that is for writing', 0, opened('/dev/null', os.O_WRONLY), NO_INPUT)]


def of_stream(program, place, opening, error):
    """Returns what is wrong if standard input or output is a stream that fails: the status is 6, and no answer is written."""
    case = stored(ALL_FORMS)
    write(program.folder, 'queries', case.given)
    with open(os.path.join(program.folder, 'queries'), 'rb') as queries:
        streams = {'stdin': queries}
        held = opening() if opening else None
        if opening:
            streams[('stdin', 'stdout')[place]] = held
        close = None if opening else lambda: os.close(place)
        got = runner.run(program.path, [program.graph(case.graph)], preexec_fn=close, **streams)
    if opening:
        os.close(held)
    return [] if got == Outcome(6, b'', error) else [show(got)]


def folder_as_graph(program):
    got, _ = program.run([program.folder], b'')
    return [] if got == NO_GRAPH else [show(got)]


def main(words):
    paths = runner.programs(words, (*PROGRAMS, CALLS), '%s is not there: `rt ci` builds it')
    ensure(['cc'])
    with tempfile.TemporaryDirectory(prefix='refusing-') as folder, ThreadPoolExecutor(os.cpu_count()) as pool:
        programs = [Program(path, folder) for path in paths]
        program, *_ = programs
        checks = [row for rows, it in zip((rows_of, rows_of_tables, rows_of_calls), programs) for row in rows(it)]
        found = list(zip([name for name, _ in checks], pool.map(lambda check: check[1](), checks)))
        found += [(name, of_stream(program, *rest)) for name, *rest in streams_of(folder)]
        found.append(('a folder as graph', folder_as_graph(program)))
    return runner.report(found)


if __name__ == '__main__':
    sys.exit(main(sys.argv[1:]))
