#!/usr/bin/env python3
"""Checks the names in the sources: no identifier has a word that was replaced by the field's word (`WORDS`).

    python3 tools/words.py [FOLDER]            the sources, *.rt and *.antt, of this repository or of another directory
    python3 tools/words.py --table [FOLDER]    a row for each identifier that fails: it and its crates, and nothing else

An identifier is split at `_`, at `-` and where a capital begins a word: `IsTold`, `told_in` and `in-Told` have the word `told`. Comments,
strings and imports from the kit are left out.

A word that stays has a row in tools/words.txt: an identifier or a word, where (`*`, or crates with blanks between them), and why, with commas between
the three. `=rest` is the identifier `rest` alone, and `rest` each identifier with this word. What fails: an identifier with such a word and no row, a row that no identifier uses or that can't be read, and more than `ROWS` rows.
A line for each; the last line is 'N passed, M failed'.
"""
import os
import re
import sys

from tested import report
from wrong.crates import TOP, files_below, libraries_of, read

ROWS = 40
WORDS = frozenset('''
tell tells telling told ask asks asking asked own owns owned owner owners owning met meets meeting unmet way ways
trail trails trailing stretch stretches lead leads offer offers offered offering others above turn turns turned taken taking wanted wanting
behind rest rests nowhere keep kept keeping held lent lends lending stand stands standing stood plain plains odd stop stops stopped folder folders
'''.split())
LIST = os.path.join('tools', 'words.txt')

# quotes and comments, which have no names
APART = {'.rt': re.compile(r'b?r(#+)".*?"\1|b?"(?:[^"\\]|\\.)*"|b?\'(?:[^\'\\]|\\[^\']*)\'|//[^\n]*|/\*.*?\*/', re.S),
         '.antt': re.compile(r'"(?:[^"\\\n]|\\.)*"|(?<!\S)--[^\n]*|\{-.*?-\}', re.S)}
IMPORT = re.compile(r'^\s*(?:pub )?(?:ghost )?use (?:Rattle\.)?(\w+)((?:[.:]|\{[^}]*\}|[^;{}\n])*);?$', re.M)
NAME = re.compile(r"[^\W\d][\w'-]*")
PART = re.compile(r'[A-Z]+(?![a-z])|[A-Z]?[a-z]+')


def words_in(name):
    """Returns the listed words of an identifier."""
    return {it.lower() for it in PART.findall(name)} & WORDS


def names_in(ending, text, crates):
    """Returns the identifiers of a file with a listed word, except for those that it imports from the kit."""
    text, of_kit = APART[ending].sub(' ', text), set()

    def own(found):
        if found[1] in crates or found[1] in ('crate', 'self', 'super'):
            return found[0]
        of_kit.update(NAME.findall(found[2]))
        return ''
    text = IMPORT.sub(own, text)
    return {it for it in NAME.findall(text) if words_in(it)} - of_kit


def identifiers(top):
    """Returns each identifier of the sources with a listed word, and the crates that have it."""
    found, crates = {}, set(libraries_of(top))
    for crate in sorted(crates):
        for part in ('src', 'specs', 'proofs'):
            for path, text in files_below(os.path.join(top, 'crates', crate), part):
                ending = os.path.splitext(path)[1]
                for name in names_in(ending, text, crates) if ending in APART else ():
                    found.setdefault(name, set()).add(crate)
    return found


def listed(top):
    """Returns the rows of the list: a name, where it is allowed, and why; and the lines that can't be read."""
    rows, bad = [], []
    path = os.path.join(top, LIST)
    for line in read(path).splitlines() if os.path.exists(path) else ():
        parts = [it.strip() for it in line.split(',', 2)]
        if line.strip() and not line.startswith('#'):
            is_right = len(parts) == 3 and all(parts)
            rows += [tuple(parts)] if is_right else []
            bad += [] if is_right else [line]
    return rows, bad


def stays(row, name, crate):
    """Returns whether a row allows a word of this identifier in a crate."""
    key, where, _ = row
    return (key.lstrip('=') == name or key in words_in(name)) and (where == '*' or crate in where.split())


def left(rows, found):
    """Returns for each identifier the crates in which it has a word without a row, and the rows that are used."""
    without, used = {}, set()
    for name, crates in found.items():
        for crate in crates:
            mine = [it for it in rows if stays(it, name, crate)]
            used.update(mine)
            if not any(it[0].lstrip('=') == name for it in mine) and not words_in(name) <= {it[0] for it in mine}:
                without.setdefault(name, set()).add(crate)
    return without, used


def told(top):
    """Returns how much is right, and a line for each fault."""
    found, (rows, bad) = identifiers(top), listed(top)
    without, used = left(rows, found)
    lines = ['%s: %s: %s' % (name, ', '.join(sorted(words_in(name))), ' '.join(sorted(crates))) for name, crates in sorted(without.items())]
    lines += ['%s: no identifier uses this row: %s' % (LIST, ', '.join(it)) for it in rows if it not in used]
    lines += ['%s: not a name, where and why: %s' % (LIST, it) for it in bad]
    lines += ['%s: %d rows, over %d' % (LIST, len(rows), ROWS)] if len(rows) > ROWS else []
    return len(found) - len(without) + len(used), lines


def main(argv):
    top = os.path.abspath(next((it for it in argv if it != '--table'), TOP))
    if '--table' in argv:
        for name, crates in sorted(left(listed(top)[0], identifiers(top))[0].items()):
            print('%s\t%s' % (name, ' '.join(sorted(crates))))
        return 0
    return report(*told(top))


if __name__ == '__main__':
    sys.exit(main(sys.argv[1:]))
