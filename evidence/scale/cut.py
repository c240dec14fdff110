#!/usr/bin/env python3
"""Cuts a graph, and lines of queries on it, by packages into shards, and puts the answers of the shards together.

    python3 evidence/scale/cut.py cut GRAPH LINES FOLDER [--megabytes 100] [--depth 1]
    python3 evidence/scale/cut.py join FOLDER > ANSWERS

`cut` writes FOLDER/graphs/K.json and FOLDER/lines/K for each shard K, and FOLDER/order. Between the two FOLDER/answers/K
has to be written for each, by running the program. `join` prints a line for each of LINES, in their order.

A module's package is named by the part after the last `node_modules/` of its specifier, or else by the first --depth parts of
its path; a name that begins with `@` has a part more. A shard takes packages in their order in the graph while its text has
at most --megabytes. Besides its packages' modules it has each module that they reach: by resolutions (it has all resolutions of
its modules), by `types`, and by redirects. So an answer on a module of its packages is that of the whole graph.
"""
import argparse
import json
import os
import re
import sys


def compact(value) -> bytes:
    return json.dumps(value, separators=(',', ':'), ensure_ascii=False).encode()


class Whole:
    """A graph, with the text of each module and the specifiers that each names."""

    def __init__(self, graph: dict, depth: int = 1):
        self.depth = depth
        self.texts = {it['specifier']: compact(it) for it in graph.get('modules') or []}
        self.redirects = dict(graph.get('redirects') or [])
        self.types = {it['specifier']: it['types'] for it in graph.get('modules') or [] if it.get('types') is not None}
        self.resolutions = {}
        for referrer, text, to in graph.get('resolutions') or []:
            self.resolutions.setdefault(referrer, []).append((text, to))

    def named(self, specifier: str) -> str:
        return self.redirects.get(specifier, specifier)

    def names(self, module: str) -> 'list[str]':
        """Returns the specifiers that a module names."""
        types = [self.types[module]] if module in self.types else []
        return [to for _, to in self.resolutions.get(module, [])] + types

    def reached(self, modules, known=frozenset()) -> 'set[str]':
        """Returns the modules, all that they reach, and what is known already, which is closed."""
        found, left = set(known), list(modules)
        while left:
            module = left.pop()
            if module not in found and module in self.texts:
                found.add(module)
                left += map(self.named, self.names(module))
        return found

    def package(self, specifier: str) -> str:
        path = re.sub(r'^[a-z+.-]+:/*', '', specifier)
        _, installed, below = path.rpartition('node_modules/')
        parts, depth = below.split('/'), 1 if installed else self.depth
        return installed + '/'.join(parts[:depth + parts[0].startswith('@')])

    def packages(self) -> 'dict[str, list[str]]':
        found = {}
        for it in self.texts:
            found.setdefault(self.package(it), []).append(it)
        return found

    def size(self, modules) -> int:
        return sum(len(self.texts[it]) for it in modules)

    def shards(self, megabytes: float, closed: bool = True) -> 'list[tuple[list[str], set[str]]]':
        """Returns for each shard the modules of its packages, and all of its modules."""
        found = []
        for modules in self.packages().values():
            own, held = found[-1] if found else ([], set())
            more = self.reached(modules, held) if closed else held.union(modules)
            if found and self.size(more) <= 1e6 * megabytes:
                found[-1] = own + modules, more
            else:
                found.append((modules, self.reached(modules) if closed else set(modules)))
        return found or [([], set())]

    def text(self, held: 'set[str]') -> bytes:
        """Returns the graph of these modules, with their resolutions and with each redirect from what they name or to one of them."""
        modules = [it for it in self.texts if it in held]
        resolutions = [[it, text, to] for it in modules for text, to in self.resolutions.get(it, [])]
        named = held.union(*map(self.names, modules))
        redirects = [[a, b] for a, b in self.redirects.items() if a in named or b in held]
        return b'{"modules":[%s],"redirects":%s,"resolutions":%s}' % (
            b','.join(self.texts[it] for it in modules), compact(redirects), compact(resolutions))


def module_of(line: bytes) -> 'str | None':
    """Returns the specifier of a query, or of the query whose inputs are queried; None for a line that is no query."""
    try:
        query = json.loads(line)
    except ValueError:
        return None
    if isinstance(query, list) and len(query) == 2 and query[0] == 'inputs':
        query = query[1]
    is_query = isinstance(query, list) and len(query) > 1 and isinstance(query[1], str)
    return query[1] if is_query else None


def lines_of(whole: Whole, shards, lines: 'list[bytes]') -> 'list[int]':
    """Returns the shard of each line; the first for lines that are on no module."""
    at = {module: k for k, (own, _) in enumerate(shards) for module in own}
    specifiers = map(module_of, lines)
    return [0 if it is None else at.get(whole.named(it), 0) for it in specifiers]


def split_lines(data: bytes) -> 'list[bytes]':
    return data.split(b'\n')[:-1]


def write(path: str, data: bytes) -> None:
    with open(path, 'wb') as file:
        file.write(data)


def read(path: str) -> bytes:
    with open(path, 'rb') as file:
        return file.read()


def cut(whole: Whole, lines: 'list[bytes]', folder: str, megabytes: float, closed: bool = True) -> 'list[int]':
    """Writes the shards. Returns the size of each one's graph in bytes."""
    for it in ('graphs', 'lines', 'answers'):
        os.makedirs(os.path.join(folder, it), exist_ok=True)
    shards, sizes = whole.shards(megabytes, closed), []
    order = lines_of(whole, shards, lines)
    for k, (_, held) in enumerate(shards):
        text = whole.text(held)
        sizes.append(len(text))
        write(os.path.join(folder, 'graphs', '%d.json' % k), text)
        mine = [line for line, at in zip(lines, order) if at == k]
        write(os.path.join(folder, 'lines', str(k)), b''.join(it + b'\n' for it in mine))
    write(os.path.join(folder, 'order'), b''.join(b'%d\n' % it for it in order))
    return sizes


def join(folder: str) -> 'list[bytes]':
    """Returns the answers in the order of the lines. A `ValueError` says which shard's are missing, too few or too many."""
    order = [int(it) for it in split_lines(read(os.path.join(folder, 'order')))]
    answers = {}
    for k in sorted(set(order)):
        path = os.path.join(folder, 'answers', str(k))
        if not os.path.exists(path):
            raise ValueError('%s: not there' % path)
        answers[k] = split_lines(read(path))
        if len(answers[k]) != order.count(k):
            raise ValueError('%s: %d answers to %d lines' % (path, len(answers[k]), order.count(k)))
    each = {k: iter(it) for k, it in answers.items()}
    return [next(each[k]) for k in order]


def main() -> int:
    p = argparse.ArgumentParser(description=__doc__, formatter_class=argparse.RawDescriptionHelpFormatter)
    what = p.add_subparsers(dest='what', required=True)
    it = what.add_parser('cut')
    it.add_argument('graph')
    it.add_argument('lines')
    it.add_argument('folder')
    it.add_argument('--megabytes', type=float, default=100)
    it.add_argument('--depth', type=int, default=1, help='parts of a path that name a package')
    what.add_parser('join').add_argument('folder')
    a = p.parse_args()
    if a.what == 'join':
        try:
            sys.stdout.buffer.write(b''.join(it + b'\n' for it in join(a.folder)))
        except ValueError as error:
            print(error, file=sys.stderr)
            return 1
        return 0
    whole = Whole(json.loads(read(a.graph)), a.depth)
    sizes = cut(whole, split_lines(read(a.lines)), a.folder, a.megabytes)
    print('%d packages, %d shards; megabytes: %s' % (len(whole.packages()), len(sizes), ' '.join('%.1f' % (it / 1e6) for it in sizes)))
    return 0


if __name__ == '__main__':
    sys.exit(main())
