"""The inputs of a query: the specifiers that it looks up, each with what the graph has under it."""
from rules.queries import Query
from rules.root import Module, Root

ON_EXPORTS, ON_DEFINITIONS = ('exports', 'names'), ('paths', 'definitions', 'leaves', 'resolve')


def followed(query: Query, module: Module) -> 'list[str]':
    """Returns the specifiers written in a module that a query follows: those of `export *`, then of imports and re-exports by symbols."""
    found = list(module.stars) if query.form in ON_EXPORTS + ON_DEFINITIONS else []
    if query.form in ON_DEFINITIONS:
        found += [it.source for symbol in module.table.symbols for it in symbol.declarations if it.kind == 'file']
    return found


def requested(root: Root, query: Query) -> 'list[str]':
    """Returns the specifiers that a query requests, in order: its own, that of an import type, and then for each what its module requests."""
    found = {query.specifier: None}
    for specifier in _growing(found):
        module = root.module_from_specifier(specifier)
        if module is None:
            continue
        texts = followed(query, module)
        if specifier == query.specifier and query.form == 'resolve' and query.asked[0][0] == 'import':
            texts.insert(0, query.asked[0][1])
        targets = [root.graph.resolve_dependency(text, module.specifier) for text in texts]
        found.update(dict.fromkeys(it for it in targets if it is not None))
    return list(found)


def _growing(found: dict):
    """Yields the keys of a dictionary in order of insertion, while others are inserted."""
    at = 0
    while at < len(found):
        for specifier in list(found)[at:]:
            at += 1
            yield specifier


def looked_up(root: Root, query: Query) -> 'list[str]':
    """Returns the specifiers that a query looks up: the requested ones, then those that only types dependencies lead to."""
    found = dict.fromkeys(requested(root, query))
    for specifier in _growing(found):
        module = root.graph.get(specifier)
        if module is not None and module.types is not None:
            found[module.types] = None
    return list(found)


def input_value(root: Root, specifier: str) -> dict:
    module = root.graph.get(specifier)
    if module is None:
        return {'found': 'absent', 'specifier': specifier}
    if module.specifier == specifier:
        return {'found': 'module', 'specifier': specifier}
    return {'found': 'redirect', 'module': module.specifier, 'specifier': specifier}


def inputs_value(root: Root, query: Query) -> dict:
    return {'inputs': [input_value(root, it) for it in looked_up(root, query)]}
