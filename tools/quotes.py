#!/usr/bin/env python3
"""Generates the quotes of docs/CALLING.md from the sources, and compares them.

    python3 tools/quotes.py            compares
    python3 tools/quotes.py --write    writes the quotes

The block of Rust is the file of the example, crates/library_example/src/main.rt. The block of contracts has lines of crates, and below each the
functions that are quoted, by their heads: this list is taken from the document, all else from src/. In a quote `S` is the value of `self` or `root` at the
call, and `S'` at the return. Lifetimes are left out, and so are the clauses that many calls share (`ALIKE`). A line for each quote that differs; the
last line is 'N passed, M failed'.
"""
import os
import re
import sys

from tested import told
from wrong.crates import TOP, Crate, libraries_of, read, write

PAGE, EXAMPLE = 'docs/CALLING.md', 'crates/library_example/src/main.rt'
# names of clauses that aren't quoted, and terms whose clauses aren't quoted either
ALIKE, OF_LISTS = {'grown', 'only', 'enough', 'stores'}, 'AreExportListsCorrectAndUnique'

RUST = re.compile(r'(?<=```rust\n).*?(?=```)', re.S)
CONTRACTS = re.compile(r'(?<=```text\n)\w+\n  fn .*?(?=```)', re.S)
HEAD = re.compile(r'  fn (?:(\w+|<\w+ as \w+>)::)?(\w+)\(')
OF_TRAIT = re.compile(r'<(\w+) as (\w+)>')
LIFETIMES = ((re.compile(r"<'\w+(?:, '\w+)*>"), ''), (re.compile(r"&'\w+ "), '&'), (re.compile(r"'\w+, "), ''))
STATES = ((re.compile(r'\b(?:self|root)\.(?:old|now|entry)\b'), 'S'), (re.compile(r'\b(?:self|root)\.new\b'), "S'"))


def replaced(text, pairs):
    for pattern, other in pairs:
        text = pattern.sub(other, text)
    return text


def is_meant(it, owner, name):
    """Returns whether this is the function of this type, or a function without one. For the `impl` of a trait the type is the trait, or `<TYPE as
    TRAIT>`."""
    impl = OF_TRAIT.fullmatch(owner)
    if impl:
        return it.path[-1] == name and len(it.path) > 1 and it.path[-2] == impl[1] + impl[2]
    holder = it.trait or (it.path[-2] if len(it.path) > 1 else '')
    return it.path[-1] == name and (holder == owner if owner else not holder[:1].isupper())


def head_of(crate, owner, name):
    """Returns the text from a function's name to its body; None unless the crate has exactly one such function."""
    found = [it for it in crate.functions if is_meant(it, owner, name)]
    if len(found) != 1:
        return ''
    lines = crate.texts[found[0].file].split('\n')[found[0].first : found[0].last + 1]
    end = next(n for n, it in enumerate(lines) if it.strip() == '{' or it.endswith(' {') and n == 0)
    return ' '.join(it.strip() for it in [*lines[:end], lines[end].rstrip('{')] if not it.strip().startswith('//'))


def quote_of(crate, owner, name):
    """Returns the lines that quote a function: its head, and its clauses."""
    text = head_of(crate, owner, name)
    if not text:
        return ['  fn %s(' % '::'.join(filter(None, (owner, name))), '    is not in this crate']
    head, *clauses = re.split(r' (?=(?:ensures|requires) )', text)
    head = re.sub(r'^(?:pub )?fn \w+(?:<[^(]*>)?\( ?', '', replaced(head.strip(), LIFETIMES)).replace(', )', ')')
    lines = ['  fn %s(%s' % ('::'.join(filter(None, (owner, name))), head)]
    for clause in clauses:
        word, called, body = re.fullmatch(r'(\w+) (?:(\w+) )?\{ (.*) \}', clause.strip()).groups()
        if called not in ALIKE and OF_LISTS not in body:
            lines.append('    %s%s: %s' % (word, ' ' + called if called else '', replaced(body, STATES)))
    return lines


def contracts(top, block):
    """Returns a block of contracts as the sources have it."""
    libraries, crate, lines = libraries_of(top), None, []
    for line in block.split('\n'):
        found = HEAD.match(line)
        if re.fullmatch(r'\w+', line):
            crate = Crate(top, line, libraries)
            lines.append(line)
        elif found:
            lines += quote_of(crate, found[1] or '', found[2])
    return '\n'.join(lines) + '\n'


def made(top, page):
    """Returns the document with its quotes as the sources have them."""
    example = read(os.path.join(top, EXAMPLE))
    page = RUST.sub(lambda _: example, page, 1)
    return CONTRACTS.sub(lambda it: contracts(top, it[0]), page, 1)


def checks(top):
    """Yields the quotes, as found in the document and as the sources have them."""
    page = read(os.path.join(top, PAGE))
    wanted = made(top, page)
    for name, pattern in (('the example', RUST), ('contracts', CONTRACTS)):
        found, want = (pattern.search(it) for it in (page, wanted))
        yield '%s: %s' % (PAGE, name), bool(found), True
        if found:
            lines, others = found[0].split('\n'), want[0].split('\n')
            differ = [it for it in lines if it not in others], [it for it in others if it not in lines]
            yield '%s: %s: lines that differ' % (PAGE, name), *differ
            yield '%s: %s: order' % (PAGE, name), lines == others or differ != ([], []), True


def main():
    if '--write' in sys.argv[1:]:
        path = os.path.join(TOP, PAGE)
        write(path, made(TOP, read(path)))
    return told(checks(TOP))


if __name__ == '__main__':
    sys.exit(main())
