"""Reads and writes the text of wrong/mutants, the file of a crate's mutants: a section each, sorted by the files that they change and by their names.

A section begins with a line 'mutant: NAME' and ends at an empty line. Each other line is a key, a colon and a text: `file`, `in`, `impl` and `shown` at
most once, and pairs of `old` and `new`."""
import re
from dataclasses import dataclass

# the file of a crate
FILE = 'wrong/mutants'
# the keys that a section has at most once
NAMED = ('file', 'in', 'impl', 'shown')
LINE = re.compile(r'(mutant|file|in|impl|shown|old|new):(?: (.*))?')


class BadMutants(SystemExit):
    """A file of mutants that can't be read. Its text has a line for each fault, with its place. A program that doesn't catch it prints that and fails."""


@dataclass(frozen=True)
class Mutant:
    """A section: its name, the number of its first line, the lines below that, what its keys name, and its pairs of an old and a new text."""

    name: str
    line: int
    lines: tuple
    named: dict
    pairs: tuple

    def order(self):
        """Returns by what sections are sorted."""
        return self.named['file'], self.name


def sections_of(text):
    """Yields each section: the number of its first line, from 1, and its lines."""
    held = []
    for number, line in enumerate([*text.split('\n'), ''], 1):
        if line.strip():
            held.append(line)
        elif held:
            yield number - len(held), held
            held = []


def fault_of_pairs(parts):
    """Returns the number of the first line, from 0, that belongs to no pair, and what is wrong with it; None if there is none."""
    old = None
    for at, (key, value) in enumerate(parts):
        if key == 'old' and old is None and value:
            old = at
        elif key == 'new' and old is not None:
            old = None
        elif key in ('old', 'new') or old is not None:
            return at, "a line 'old:' with a text and a line 'new:' follow each other"
    return None if old is None else (old, "no line 'new:' follows")


def fault_of(parts):
    """Returns the number of the first wrong line of a section, from 0, and what is wrong with it; None if nothing is. `parts` has a key and a text for
    each line, or None for one that has no such form."""
    if None in parts:
        return parts.index(None), 'no line of a mutant: a key, a colon, a space and a text'
    keys = [key for key, _ in parts]
    again = next((at for at, key in enumerate(keys) if key in ('mutant', *NAMED) and key in keys[:at]), None)
    if keys[0] != 'mutant' or not re.fullmatch(r'\w+', parts[0][1]):
        return 0, "a section begins with a line 'mutant: NAME'"
    if again is not None:
        return again, "a second line '%s:' in a section; an empty line ends one" % keys[again]
    if not dict(parts).get('file'):
        return 0, 'it names no file'
    if 'old' not in keys and not ('in' in keys and 'impl' in keys):
        return 0, 'it has no pair of an old and a new text'
    return fault_of_pairs(parts)


def mutant_of(number, lines, parts):
    """Returns the mutant of a section without a fault."""
    named = {key: '' for key in NAMED} | {key: value.strip() for key, value in parts if key in NAMED}
    olds, news = ([value for key, value in parts if key == it] for it in ('old', 'new'))
    return Mutant(parts[0][1], number, tuple(lines[1:]), named, tuple(zip(olds, news)))


def parsed(path, text):
    """Returns the mutants of a file by their names, in its order. Raises BadMutants if a section is malformed or a name stands twice."""
    found, faults = {}, []
    for number, lines in sections_of(text):
        parts = [(it[1], it[2] or '') if it else None for it in map(LINE.fullmatch, lines)]
        fault = fault_of(parts)
        mutant = None if fault else mutant_of(number, lines, parts)
        if mutant and mutant.name in found:
            fault = 0, 'a second mutant %s: the first is in line %d' % (mutant.name, found[mutant.name].line)
        if fault:
            faults.append('%s:%d: %s' % (path, number + fault[0], fault[1]))
        else:
            found[mutant.name] = mutant
    if faults:
        raise BadMutants('\n'.join(faults))
    return found


def text_of(mutants):
    """Returns the text of a file with these mutants."""
    return '\n'.join(''.join(line + '\n' for line in ('mutant: ' + it.name, *it.lines)) for it in sorted(mutants, key=Mutant.order))


def with_shown(text, mutant, shown):
    """Returns the text of a file in which the section of a mutant ends with what shows it wrong."""
    lines = text.split('\n')
    lines.insert(mutant.line + len(mutant.lines), 'shown: ' + shown)
    return '\n'.join(lines)


def misplaced(mutants):
    """Returns the mutants that stand below one that belongs below them."""
    return [after for own, after in zip(mutants, mutants[1:]) if own.order() > after.order()]
