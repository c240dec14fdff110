#!/usr/bin/env python3
"""Checks the style of the documents and of doc comments, and runs the console blocks of the documents.

    python3 tools/docs.py                   this repository, with the program that SYMQ names or that is built here
    python3 tools/docs.py --text            without running console blocks: no program is needed
    python3 tools/docs.py --text FOLDER     another directory, with its README.md, docs/ and crates/

The checks of the documents, which are all files *.md:

    a sentence has at most 35 words; a cell of a table, an item of a list and a heading end one; a list of names in code is one word
    a relative link, and a path in code such as `tools/docs.py`, names a file, and `#part` a heading
    all documents have at most 2,900 lines together
    docs/ARCHITECTURE.md has at most 250 lines
    docs/DEFINITIONS.md has at most 60 notions, and each definition that it names exists
    each clause and each mutant that docs/PROVED.md names exists, and the trusted definitions have about as many lines as it says
    the quotes of docs/CALLING.md are those of the sources, as tools/quotes.py makes them
    each console block prints what it shows when it is run

No doc comment in crates/*/src begins with 'What'. A console block has a command after `$`, `symdir ..`, `make run FOLDER=..` or `./symq graph.json`, and
then what it prints; lines that begin with a bracket are queries, each with its answer below. The graph is the json block above the command, and without a
command that of examples/shapes.
A line for each fault; the last line is 'N passed, M failed'.
"""
import argparse
import os
import re
import subprocess
import sys
import tempfile

import quotes
from set_up import ensure
from tested import told
from wrong.clauses import ensures, has_law, words_of_clause
from wrong.crates import Crate, libraries_of

TOP = os.path.dirname(os.path.dirname(os.path.abspath(__file__)))
WORDS, LINES, MAP_LINES, NOTIONS = 35, 2900, 250, 60
# by how much of itself a count of lines may differ from what a document says
NEAR = 0.05
# documents with a length limit of their own
MAP, GLOSSARY, PROMISES = 'docs/ARCHITECTURE.md', 'docs/DEFINITIONS.md', 'docs/PROVED.md'
# files of specs/ that needn't be trusted, and lines that don't count
UNTRUSTED, SILENT = {'inner', 'laws', 'declared', 'Lib.antt', 'inner.antt', 'laws.antt'}, ('--', 'use ', 'unfolding')
LEFT_OUT = {'node_modules', 'out', 'target', '.git', '__pycache__'}
FOLDERS = 'bench|bindings|crates|docs|evidence|examples|symdir|tests|tools'

FENCE = re.compile(r'\s*```')
ITEM = re.compile(r'^\s*(?:[-*]|\d+\.)\s+')
CODE = re.compile(r'`[^`]*`')
LINK = re.compile(r'\[([^]]*)\]\(([^)\s]+)\)')
END = re.compile(r'(?<=[.!?])[\'")*]*\s+(?=[\'"(*]*[A-Z0-9@])')
PATH = re.compile(r'(?:%s)/[\w./-]*\.(?:antt|c|h|js|json|md|mjs|py|rs|rt|sh|txt)' % FOLDERS)
PLACEHOLDER = re.compile(r'/out/|\b(?:CRATE|EDIT|FUNCTION|MODULE|NAME)\b')
# the command by which `make run` prints
RUN = '$ make run FOLDER='
BLOCK = re.compile(r'^```(json|console)\n(.*?)^```', re.S | re.M)


def read(path):
    with open(path, encoding='utf-8') as file:
        return file.read()


def files_below(top, ending):
    """Returns the files below a directory with this ending, by their relative paths, in order."""
    found = []
    for folder, folders, names in os.walk(top):
        folders[:] = sorted(it for it in folders if it not in LEFT_OUT)
        found += [os.path.relpath(os.path.join(folder, it), top) for it in sorted(names) if it.endswith(ending)]
    return found


def paragraphs(text):
    """Yields each paragraph, item, heading and cell with the number of its first line; blocks of code are left out."""
    held, begin, fenced = [], 0, False
    for number, line in enumerate([*text.split('\n'), ''], 1):
        apart = line.startswith(('|', '#')) or ITEM.match(line) or not line.strip() or FENCE.match(line)
        if (apart or fenced) and held:
            yield begin, ' '.join(held)
            held = []
        if FENCE.match(line):
            fenced = not fenced
        elif fenced or not line.strip():
            continue
        elif line.startswith('|'):
            yield from ((number, cell.strip()) for cell in CODE.sub(lambda it: it[0].replace('|', '/'), line).strip('|').split('|'))
        elif line.startswith('#'):
            yield number, line.strip('# ')
        else:
            begin = begin if held else number
            held.append(ITEM.sub('', line).strip())


def sentences(paragraph):
    """Returns the sentences of a paragraph, in which `@` stands for code, and for a list of names in code."""
    text = LINK.sub(r'\1', CODE.sub('@', paragraph)).replace('**', '')
    return [it for it in END.split(re.sub(r'@(?:,? (?:and|or) @|, @)+', '@', text)) if it.strip()]


def words_of(sentence):
    return [it for it in sentence.split() if re.search(r'[\w@]', it)]


def long_sentences(text):
    """Returns the sentences with too many words, each after its line and its count."""
    found = [(number, it) for number, paragraph in paragraphs(text) for it in sentences(paragraph)]
    return ['%d: %d words: %s' % (n, len(words_of(it)), it) for n, it in found if len(words_of(it)) > WORDS]


def anchors(text):
    """Returns the names by which the headings of a document are linked."""
    heads = [it.strip('# ') for it in re.sub(r'^```.*?^```', '', text, flags=re.S | re.M).split('\n') if it.startswith('#')]
    return {re.sub(r'[^\w\- ]', '', it.lower()).replace(' ', '-') for it in heads}


def broken_links(top, name, text):
    """Returns the relative links and the paths in code that are broken."""
    plain, found = re.sub(r'^```.*?^```', '', text, flags=re.S | re.M), []
    for _, target in LINK.findall(CODE.sub('@', plain)):
        file, _, part = target.partition('#')
        path = os.path.join(top, os.path.dirname(name), file) if file else os.path.join(top, name)
        if re.match(r'\w+:', target):
            continue
        if not os.path.exists(path) or part and part not in anchors(read(path)):
            found.append(target)
    for path in (it.strip('`') for it in CODE.findall(plain)):
        if PATH.fullmatch(path) and not PLACEHOLDER.search(path) and not os.path.exists(os.path.join(top, path)):
            found.append(path)
    return found


def lines_in(text):
    return text.count('\n')


def wrong_comments(text):
    """Returns the first lines of doc comments that begin with 'What', each after its number."""
    lines = text.split('\n')
    heads = [(n, it.strip()) for n, it in enumerate(lines) if it.strip().startswith('///') and not (n and lines[n - 1].strip().startswith('///'))]
    return ['%d: %s' % (n + 1, it) for n, it in heads if re.match(r'/// What\b', it)]


def trusted_lines(top):
    """Returns how many lines of definitions a reader of contracts trusts."""
    files = [it for it in files_below(os.path.join(top, 'crates'), '.antt') if '/specs/' in it and not UNTRUSTED & set(it.split('/'))]
    lines = [line.strip() for it in files for line in read(os.path.join(top, 'crates', it)).split('\n')]
    return sum(bool(it) and not it.startswith(SILENT) for it in lines)


def promises(top, text):
    """Yields each clause and each mutant of the rows of promises, with whether it exists."""
    libraries, crates, mutants = libraries_of(top), {}, {}
    for row in re.findall(r'^\| .* \| (`\w+::.*) \| (`.*`) \|$', text, re.M):
        for clause in re.findall(r'`([^`]*)`', row[0]):
            name, path, last = words_of_clause(clause)
            own = crates.setdefault(name, Crate(top, name, libraries)) if name in libraries else None
            yield clause, bool(own and path and (ensures(own, path, last, False) or has_law(own, path, last)))
        for mutant in re.findall(r'`([^`]*)`', row[1]):
            name, _, edit = mutant.partition('/')
            if name not in mutants:
                mutants[name] = Crate(top, name, libraries).names() if name in libraries else []
            yield mutant, edit in mutants[name]


def definitions(top, text):
    """Yields each definition that the glossary names, with whether it exists."""
    for crate, file, name in re.findall(r'`(\w+)::(\w+) (\w+)`', text):
        path = os.path.join(top, 'crates', crate, 'specs', file + '.antt')
        form = r'^(?:  )?(?:abbrev |unfoldable )?pub (?:record |data )?%s\b' % name
        yield '%s::%s %s' % (crate, file, name), os.path.exists(path) and bool(re.search(form, read(path), re.M))


def first_below(top, paths):
    return next((it for it in (os.path.join(top, path) for path in paths) if os.path.exists(it)), '')


class Blocks:
    """Runs the console blocks of the documents of a directory."""

    def __init__(self, top):
        self.top = top
        self.symq = os.environ.get('SYMQ') or first_below(top, ('symq', 'crates/symq/out/symq'))

    def symdir(self, words):
        command = ['node', os.path.join(self.top, 'symdir', 'bin', 'symdir.js'), *words]
        environment = {**os.environ, 'SYMQ': self.symq} if self.symq else None
        return subprocess.run(command, cwd=self.top, env=environment, stdout=subprocess.PIPE, text=True, check=False).stdout

    def answers(self, graph, strict, queries):
        """Returns what the program answers to queries on the text of a graph, or on the graph of the example if there is none."""
        with tempfile.TemporaryDirectory() as folder:
            path = os.path.join(folder, 'graph.json')
            if graph:
                with open(path, 'w', encoding='utf-8') as file:
                    file.write(graph)
            else:
                self.symdir(['graph', 'examples/shapes', '-o', path])
            text = ''.join(it + '\n' for it in queries)
            command = [self.symq, *(['--strict'] if strict else []), path]
            return subprocess.run(command, input=text, stdout=subprocess.PIPE, text=True, check=False).stdout.splitlines()

    def printed(self, block, graph):
        """Returns the lines of a block as they would be if it were run."""
        lines, made, strict, asked = block.rstrip('\n').split('\n'), [], False, ''
        while lines:
            line = lines.pop(0)
            if line.startswith('['):
                queries = [line, *lines[1::2]]
                answers, lines = self.answers(asked, strict, queries), []
                made += [it for pair in zip(queries, answers) for it in pair]
            elif line.startswith(('$ symdir ', RUN)):
                words = ['api', line[len(RUN):]] if line.startswith(RUN) else line.split()[2:]
                made += [line, *self.symdir(words).splitlines()]
                while lines and not lines[0].startswith('$'):
                    lines.pop(0)
            elif re.fullmatch(r'\$ (\./)?symq (--strict )?graph\.json', line):
                strict, asked = '--strict' in line, graph
                made.append(line)
            else:
                made.append('no command of symdir or symq: %s' % line)
        return made

    def checks(self, name, text):
        graph = ''
        for language, block in BLOCK.findall(text):
            graph = block if language == 'json' else graph
            if language == 'console':
                yield '%s: %s' % (name, block.split('\n')[0]), self.printed(block, graph), block.rstrip('\n').split('\n')


def text_checks(top):
    """Yields the checks of the texts, with what is found and what is expected."""
    documents = {name: read(os.path.join(top, name)) for name in files_below(top, '.md')}
    for name, text in documents.items():
        yield '%s: sentences over %d words' % (name, WORDS), long_sentences(text), []
        yield '%s: links' % name, broken_links(top, name, text), []
    total = sum(map(lines_in, documents.values()))
    yield 'lines of all documents', total, min(total, LINES)
    if MAP in documents:
        yield 'lines of ' + MAP, lines_in(documents[MAP]), min(lines_in(documents[MAP]), MAP_LINES)
    if GLOSSARY in documents:
        notions = len(re.findall(r'^\| \*\*', documents[GLOSSARY], re.M))
        yield 'notions of ' + GLOSSARY, notions, min(notions, NOTIONS)
        text = documents[GLOSSARY].replace('`crate::File name`', '')
        yield GLOSSARY + ': definitions that are not there', [it for it, is_there in definitions(top, text) if not is_there], []
    if quotes.PAGE in documents:
        yield from quotes.checks(top)
    if PROMISES in documents:
        yield PROMISES + ': clauses and mutants that are not there', [it for it, is_there in promises(top, documents[PROMISES]) if not is_there], []
        said, lines = re.findall(r'about ([\d,]+) lines without comments', documents[PROMISES]), trusted_lines(top)
        is_near = len(said) == 1 and abs(int(said[0].replace(',', '')) - lines) <= NEAR * lines
        yield PROMISES + ': lines of trusted definitions', said, said if is_near else ['{:,}'.format(lines)]
    for name in files_below(os.path.join(top, 'crates'), '.rt'):
        yield 'crates/%s: doc comments' % name, wrong_comments(read(os.path.join(top, 'crates', name))), []


def checks(top, with_blocks):
    yield from text_checks(top)
    blocks = Blocks(top)
    if with_blocks:
        yield 'a program to run: SYMQ, ./symq or crates/symq/out/symq', bool(blocks.symq), True
    if with_blocks and blocks.symq:
        ensure(['node', 'tsc'])
        for name in files_below(top, '.md'):
            yield from blocks.checks(name, read(os.path.join(top, name)))


def main():
    parser = argparse.ArgumentParser(description='Checks how the documents are written, and runs what they show.')
    parser.add_argument('--text', action='store_true', help='runs no console blocks')
    parser.add_argument('folder', nargs='?', default=TOP, help='the repository')
    given = parser.parse_args()
    return told(checks(given.folder, not given.text))


if __name__ == '__main__':
    sys.exit(main())
