"""Makes a differing case small: fewer lines, modules, nodes and fields, or a shorter text."""
import copy
import time

from differ.running import Program, first_difference
from graphs.broken import child_fields
from graphs.texts import compact

ROUNDS = 6
# the optional fields of modules and nodes
MODULE_KEYS = ('types', 'tree', 'declaration')
KEPT_KEYS = ('kind', 'range')


def smaller_list(items, differs, ends_at) -> list:
    """Drops as much of a list as possible while the case differs: halves, quarters, down to single items."""
    size = max(1, len(items) // 2)
    while items and time.monotonic() < ends_at:
        at, changed = 0, False
        while at < len(items) and time.monotonic() < ends_at:
            fewer = items[:at] + items[at + size:]
            if differs(fewer):
                items, changed = fewer, True
            else:
                at += size
        if size == 1 and not changed:
            break
        size = max(1, size // 2)
    return items


def without_orphans(tree: dict) -> 'dict | None':
    """Returns the tree without the nodes that can't be reached from node 0, renumbered. It is None if children don't come after their parents, or if
    nothing would be dropped."""
    nodes, children = tree['nodes'], []
    for at, node in enumerate(nodes):
        mine = [child for name, form in child_fields(node)
                for child in (node[name] if form == 'child*' else [node[name]])]
        if any(type(child) is not int or not at < child < len(nodes) for child in mine):
            return None
        children.append(mine)
    kept = {0}
    for at in range(len(nodes)):
        kept.update(children[at] if at in kept else ())
    if len(kept) == len(nodes):
        return None
    numbers, found = {old: new for new, old in enumerate(sorted(kept))}, []
    for at in sorted(kept):
        node = dict(nodes[at])
        for name, form in child_fields(node):
            node[name] = [numbers[child] for child in node[name]] if form == 'child*' else numbers[node[name]]
        found.append(node)
    return dict(tree, nodes=found)


class Shrinking:
    """Changes the value of a graph, as long as it differs and there is time."""

    def __init__(self, value, differs, ends_at):
        self.value, self.differs, self.ends_at = value, differs, ends_at

    def attempt(self, change) -> bool:
        """Makes a change to a copy, and keeps it if the copy still differs."""
        if time.monotonic() >= self.ends_at:
            return False
        changed = copy.deepcopy(self.value)
        try:
            change(changed)
        except (KeyError, IndexError, TypeError, AttributeError):
            return False
        if changed == self.value or not self.differs(changed):
            return False
        self.value = changed
        return True

    def drop(self, *path) -> bool:
        def change(value):
            for key in path[:-1]:
                value = value[key]
            value.pop(path[-1])
        return self.attempt(change)

    def run(self):
        for _ in range(ROUNDS):
            before = compact(self.value)
            for key in ('resolutions', 'redirects', 'modules'):
                self.fewer(key)
            for at in range(len(self.value.get('modules') or [])):
                self.module(at)
            if compact(self.value) == before or time.monotonic() >= self.ends_at:
                break
        return self.value

    def fewer(self, key) -> None:
        if type(self.value.get(key)) is not list:
            return
        items = smaller_list(self.value[key], lambda it: self.differs(dict(self.value, **{key: it})), self.ends_at)
        self.value = dict(self.value, **{key: items})
        if not items:
            self.drop(key)

    def module(self, at) -> None:
        for key in MODULE_KEYS:
            self.drop('modules', at, key)
        self.drop('modules', at, 'tree', 'declaration')
        number = 0
        while number < self.size(at) and time.monotonic() < self.ends_at:
            self.node(at, number)
            number += 1

        def fewer_nodes(value):
            tree = without_orphans(value['modules'][at]['tree'])
            value['modules'][at]['tree'] = tree or value['modules'][at]['tree']

        def no_text(value):
            value['modules'][at]['text'] = ''
            for node in value['modules'][at]['tree']['nodes']:
                node['range'] = [0, 0]

        self.attempt(fewer_nodes)
        self.attempt(no_text)

    def size(self, at) -> int:
        """Returns how many nodes a module has, if it has a tree."""
        try:
            nodes = self.value['modules'][at]['tree']['nodes']
        except (KeyError, IndexError, TypeError):
            return 0
        return len(nodes) if type(nodes) is list else 0

    def node(self, at, number) -> None:
        path = ('modules', at, 'tree', 'nodes', number)
        node = self.value['modules'][at]['tree']['nodes'][number]
        for name, field in list(node.items()) if type(node) is dict else ():
            if name in KEPT_KEYS:
                continue
            for place in reversed(range(len(field))) if type(field) is list and name != 'sym' else ():
                self.drop(*path, name, place)
            self.drop(*path, name)


def shrink(program: Program, case, seconds: float):
    """Returns the text of a smaller graph, and lines, with the same kind of difference by the same rules."""
    ends_at, first = time.monotonic() + seconds, program.difference(case.graph, case.lines, case.strict)

    def differs(graph, lines):
        found = program.difference(graph, lines, case.strict)
        return found is not None and found.what == first.what

    graph, lines = case.graph, case.lines
    if first.what == 'output':
        line, _, _ = first_difference(lines, first.program.output, first.model.output)
        lines = [line] if line is not None and differs(graph, [line]) else lines
    elif differs(graph, []):
        lines = []
    lines = smaller_list(lines, lambda it: differs(graph, it), ends_at)
    if case.value is not None and differs(compact(case.value), lines):
        value = Shrinking(case.value, lambda it: differs(compact(it), lines), ends_at).run()
        graph = compact(value)
        return graph, smaller_list(lines, lambda it: differs(graph, it), ends_at)
    pieces = [graph[at:at + 1] for at in range(len(graph))]
    return b''.join(smaller_list(pieces, lambda it: differs(b''.join(it), lines), ends_at)), lines
