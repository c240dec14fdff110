"""Converts nested nodes to a tree: a flat list in which each child comes after its parent."""
import random

from rules.kinds import FIELDS


def children_of(node: dict) -> 'list[dict]':
    """Returns the nested children of a node, in the order of its fields."""
    found = []
    for name, form, _ in FIELDS[node['kind']]:
        value = node.get(name)
        if value is not None and form.startswith('child'):
            found.extend(value if type(value) is list else [value])
    return found


def _flat(rng, roots, order) -> 'list[dict]':
    """Returns the nodes from the roots on, depth first, breadth first or in any order; the first root comes first."""
    found, waiting, first = [], list(roots), True
    while waiting:
        if order == 'any' and found:
            at = rng.randrange(len(waiting))
        else:
            at = len(waiting) - 1 if order == 'depth' and not first else 0
        first = False
        node = waiting.pop(at)
        found.append(node)
        children = children_of(node)
        waiting.extend(children[::-1] if order == 'depth' else children)
    return found


def _is_left_out(rng, value) -> bool:
    """Returns whether an absent or empty field is left out, since both have the same meaning."""
    if value is None:
        return rng.random() < 0.9
    return (value == [] and rng.random() < 0.25) or (value is False and rng.random() < 0.7)


def _numbered(rng, node, numbers, places) -> dict:
    start, end = sorted((rng.choice(places), rng.choice(places)))
    found = {'kind': node['kind'], 'range': [start, end]}
    for name, form, _ in FIELDS[node['kind']]:
        value = node.get(name)
        if value is not None and form.startswith('child'):
            value = [numbers[id(child)] for child in value] if type(value) is list else numbers[id(value)]
        if value == [] and rng.random() < 0.25:
            value = None
        if not _is_left_out(rng, value):
            found[name] = value
    return found


def nodes_of(rng: random.Random, root: dict, text: str, orphans=()) -> 'list[dict]':
    """Returns the list of nodes of a nested root, and of orphans, with ranges that fit the text."""
    data = text.encode()
    places = [at for at in range(len(data) + 1) if at == len(data) or data[at] & 0xC0 != 0x80]
    order = rng.choice(['depth', 'breadth', 'any'])
    flat = _flat(rng, [root, *orphans], order)
    numbers = {id(node): at for at, node in enumerate(flat)}
    return [_numbered(rng, node, numbers, places) for node in flat]


def plain_nodes(*roots: dict) -> 'list[dict]':
    """Returns a program, and these roots as orphans after it, depth first, all in the empty range."""
    flat = [{'kind': 'Program'}]
    for root in roots:
        flat += _flat(None, [root], 'depth')
    numbers, found = {id(node): at for at, node in enumerate(flat)}, []
    for node in flat:
        plain = {'kind': node['kind'], 'range': [0, 0]}
        for name, form, _ in FIELDS[node['kind']]:
            value = node.get(name)
            if value is not None and form.startswith('child'):
                value = [numbers[id(child)] for child in value] if type(value) is list else numbers[id(value)]
            if value is not None:
                plain[name] = value
        found.append(plain)
    return found


def module_of(specifier: str, *items: dict, rng=None, text='') -> dict:
    """Returns a module of nested statements."""
    root = {'kind': 'Program', 'body': list(items)}
    nodes = nodes_of(rng or random.Random(specifier), root, text)
    return {'specifier': specifier, 'kind': 'esm', 'text': text, 'tree': {'nodes': nodes}}
