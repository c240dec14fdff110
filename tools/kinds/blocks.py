"""The blocks of the table's text."""
import re
from dataclasses import dataclass

HEAD = re.compile(r'(enum|kind|set|category|field) (\w+)((?:, [a-z]+(?: [a-z]+)? \w+)*)(?:: (.+))?')


class BadTable(Exception):
    """A line of the table that can't be read, or that says what can't be."""


@dataclass(frozen=True)
class Block:
    """A block: its sort, its name, the rest of its first line, its comment, and its further lines, each with its number."""

    line: int
    what: str
    name: str
    said: dict
    comment: str
    lines: tuple


def said(line, text):
    """Returns the words of a head after the name, as `read by string`: each by its words but the last."""
    pairs = [part.rsplit(' ', 1) for part in text.split(', ')[1:]]
    if len(dict(pairs)) < len(pairs):
        raise BadTable('line %d says something twice:%s' % (line, text[1:]))
    return dict(pairs)


def block_of(found):
    """Returns the block of some lines, each with its number."""
    (line, head), *rest = found
    match = HEAD.fullmatch(head)
    if not match:
        raise BadTable('line %d is no first line of a block: %s' % (line, head))
    what, name, more, comment = match.groups()
    return Block(line, what, name, said(line, more), comment or '', tuple((n, it.strip()) for n, it in rest))


def blocks_of(text):
    """Returns the blocks of a text, without comments that begin with `#` in the first column."""
    groups = [[]]
    for line, words in enumerate(text.split('\n'), 1):
        if words.startswith('#') or not words.strip():
            groups.append([])
        elif words.startswith(' ') and not groups[-1]:
            raise BadTable('line %d is of no block: %s' % (line, words.strip()))
        elif not words.startswith(' '):
            groups.append([(line, words)])
        else:
            groups[-1].append((line, words))
    return [block_of(group) for group in groups if group]
