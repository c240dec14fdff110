"""Prints a difference, and stores its files."""
import os

from differ.running import STRICT, Difference, first_difference

LINES = 40


def shown(data: 'bytes | None', limit=6000) -> str:
    if data is None:
        return '(no line)'
    text = data.decode('utf-8', 'backslashreplace')
    return text if len(text) <= limit else '%s .. (%d characters)' % (text[:limit], len(text))


def named(seed, case) -> str:
    return 'seed %d (%s%s)' % (seed, case.what, ', ' + STRICT if case.strict else '')


def in_short(seed, case, found: Difference) -> str:
    """Returns a difference as one line."""
    if found.what != 'output':
        sides = [(it.status, it.error.decode('utf-8', 'backslashreplace').strip()) for it in found[1:]]
        return '%s: %s: program %s %s, model %s %s' % (named(seed, case), found.what, *sides[0], *sides[1])
    line, _, _ = first_difference(case.lines, found.program.output, found.model.output)
    return '%s: the answer to %s' % (named(seed, case), shown(line, 200))


def in_full(seed, case, graph, lines, found: Difference) -> str:
    told = ['%s: %s differs' % (named(seed, case), found.what), 'graph:    ' + shown(graph)]
    if found.what != 'output':
        told += ['line:     ' + shown(line) for line in lines[:1]]
        for name, side in zip(('program', 'model'), found[1:]):
            told.append('%-9s status %s, error %s, output %s' % (name + ':', side.status, shown(side.error, 600),
                                                                 shown(side.output, 600)))
        return '\n'.join(told)
    if len(lines) > 1:
        told += ['all of:   ' + shown(line) for line in lines[:LINES]]
    line, theirs, ours = first_difference(lines, found.program.output, found.model.output)
    return '\n'.join(told + ['query:    ' + shown(line), 'program:  ' + shown(theirs), 'model:    ' + shown(ours)])


def keep(folder, seed, case, graph, lines) -> None:
    """Writes the small case and the whole one."""
    os.makedirs(folder, exist_ok=True)
    texts = {'graph.json': graph, 'queries': b''.join(line + b'\n' for line in lines),
             'whole.graph.json': case.graph, 'whole.queries': b''.join(line + b'\n' for line in case.lines)}
    for name, data in texts.items():
        with open(os.path.join(folder, 'seed-%d.%s' % (seed, name)), 'wb') as file:
            file.write(data)
