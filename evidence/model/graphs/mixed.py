"""Random graphs of few modules with everything in them: trees, redirects, types dependencies, resolutions."""
from graphs.numbering import nodes_of
from graphs.statements import Statements
from graphs.trees import Maker, style_of
from graphs.vocabulary import JSON_SOURCES, SOURCES, SPECIFIERS, TEXTS
from rules.kinds import ALL_KINDS

NAMES = [['a', 'b'], ['a', 'b', 'c'], ['a', 'N', 'f', 'prototype']]


def tree_value(rng, style, names, shaped, text) -> dict:
    orphans = []
    if shaped:
        root = {'kind': 'Program', 'body': Statements(rng, names, style['texts']).some(1, 2, 3, 4, 5, 7)}
    else:
        maker = Maker(rng, style)
        root = maker.make('Program')
        if rng.random() < 0.1:
            orphans = [maker.make(rng.choice([kind for kind in ALL_KINDS if kind != 'ExportDefaultSpecifier']))]
    tree = {'nodes': nodes_of(rng, root, text, orphans)}
    if rng.random() < 0.25:
        tree['declaration'] = rng.random() < 0.8
    return tree


def module_value(rng, specifier, specifiers, style, names, shaped) -> dict:
    kind = rng.choices(['esm', 'json', 'external'], [30, 2, 1])[0]
    module = {'specifier': specifier, 'kind': kind}
    if kind == 'json':
        module['text'] = rng.choice(JSON_SOURCES)
    if kind != 'esm':
        return module
    module['text'] = rng.choice(SOURCES)
    if rng.random() >= (0.04 if shaped else 0.1):
        module['tree'] = tree_value(rng, style, names, shaped, module['text'])
    elif rng.random() < 0.5:
        module['tree'] = None
    if rng.random() < (0.05 if shaped else 0.12):
        module['types'] = rng.choice(specifiers + ['r', 'x'])
    return module


def redirects_value(rng, specifiers) -> 'list[list[str]]':
    sources = rng.sample(['r', 'x'] + specifiers, rng.choice([1, 1, 2]))
    found = {source: rng.choice(specifiers + ['absent']) for source in sources}
    return [[source, target] for source, target in found.items() if target not in found]


def resolutions_value(rng, specifiers) -> 'list[list[str]]':
    found = []
    for referrer in specifiers + (['nobody'] if rng.random() < 0.1 else []):
        for text in TEXTS:
            likely = rng.random()
            if likely < 0.72:
                own = text[2:] in specifiers and rng.random() < 0.5
                found.append([referrer, text, text[2:] if own else rng.choice(specifiers)])
            elif likely < 0.78:
                found.append([referrer, text, rng.choice(['r', 'x', 'absent'])])
    rng.shuffle(found)
    return found


def graph_value(rng) -> dict:
    """Returns an accepted graph."""
    style, shaped = style_of(rng), rng.random() < 0.55
    specifiers = rng.sample(SPECIFIERS, rng.choice([1, 2, 3, 3, 4, 5, 6]))
    names = rng.choice(NAMES)
    graph = {'modules': [module_value(rng, it, specifiers, style, names, shaped) for it in specifiers]}
    if rng.random() < 0.3:
        graph['redirects'] = redirects_value(rng, specifiers)
    graph['resolutions'] = resolutions_value(rng, specifiers)
    return graph
