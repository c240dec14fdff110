"""The parts of generated files: their first lines, indented lines, comments, and lines that aren't too long."""
import re

MARK = 'Generated from tools/kinds/kinds.txt by tools/kinds.py --write. Do not edit.'

# the most characters of a line of code, of a line of a clause, and of a line of contracts
CODE, CLAUSE, CONTRACTS = 120, 100, 160

IMPORT = re.compile(r'((?:ghost )?use [^{]+\{)(.+)(\};?)')
IN_BRACKETS = re.compile(r'\([^()]*\)')


def code(doc, *parts):
    """Returns a file of code: the mark, what the file is, and its parts, each some lines, with an empty line between them. `rt fmt` breaks what this
    doesn't: it leaves imports of contracts and clauses as they are."""
    return fitted(code_line, apart(['// ' + MARK, '//! ' + doc], *parts))


def contracts(doc, *parts):
    """Returns a file of contracts: the mark, what the file is with the lines that belong to it, and its parts."""
    return fitted(contract_line, apart(['-- ' + MARK, *('-- ' + it for it in doc.split('\n')), *parts[0]], *parts[1:]))


def fitted(broken, lines):
    """Returns lines, each that is too long as several."""
    return [part for line in lines for part in broken(line)]


def code_line(line):
    """Returns a line of code as lines: an import of contracts as several, and a clause broken."""
    if line.lstrip().startswith('ensures ') and len(line) > CLAUSE:
        return clause_lines(line)
    return import_lines(line, CODE) if line.startswith('ghost use ') and len(line) > CODE else [line]


def contract_line(line):
    """Returns a line of contracts as lines: an import as several, and the row of a list broken after its `=` and its items."""
    if len(line) <= CONTRACTS or line.startswith('--'):
        return [line]
    if line.startswith('use '):
        return import_lines(line, CONTRACTS)
    head, _, row = line.partition(' = ')
    *items, last, end = row.split(' ∷ ')
    return [head + ' =', *filled([*items, last + ' ∷ ' + end], CONTRACTS - 4, '    %s', ' ∷ ', ' ∷')]


def clause_lines(line):
    """Returns a clause in two lines: broken before its outermost `≡`, or else before its last argument in parentheses."""
    outside, shorter = None, line
    while outside != shorter:
        outside, shorter = shorter, IN_BRACKETS.sub(lambda found: '_' * len(found[0]), shorter)
    at = outside.index(' ≡ ') if ' ≡ ' in outside else outside.rindex(' __')
    return [line[:at], ' ' * (len(line) - len(line.lstrip()) + 4) + line[at + 1 :]]


def import_lines(line, most):
    """Returns an import as several, each with some of its names."""
    head, names, end = IMPORT.fullmatch(line).groups()
    return filled(names.split(', '), most - len(head + end), head + '%s' + end, ', ', '')


def filled(items, most, form, between, after):
    """Returns lines of this form with as many of the items as fit; `after` follows those of a line that isn't the last."""
    lines = [items[0]]
    for it in items[1:]:
        longer = lines[-1] + between + it
        lines = [*lines[:-1], longer] if len(longer + after) <= most else [*lines, it]
    return [form % (it + after) for it in lines[:-1]] + [form % lines[-1]]


def apart(*parts):
    """Returns parts with an empty line between them, and the end of the last line."""
    lines = []
    for part in parts:
        lines += ['', *part]
    return [*lines[1:], '']


def uses(*paths):
    return ['use %s' % it for it in paths]


def space_all(indent, lines):
    return [' ' * indent + it for it in lines]


def sentence(comment):
    """Returns a comment as a sentence."""
    return comment[0].upper() + comment[1:].rstrip('.') + '.'


def clause(comment):
    """Returns a comment as a part of a sentence."""
    return comment[0].lower() + comment[1:].rstrip('.')
