"""Webs of `export *`, for shared names: each module has `export *` from several others and on a ring from all of them. Several modules export most of
a few names. A longer chain is often less than the short one."""
from graphs.numbering import module_of
from graphs.vocabulary import export_all, export_from, ident, import_named, number, variable

NAMES = ['a', 'b', 'c', 'd', 'e', 'f']
# the first resolves to the next module of the ring, the others to any
RING, TEXTS = './ring', ['./0', './1', './2']


def _statements(rng, names, likely) -> 'list[dict]':
    """Returns at least two statements `export *`, and some of the names, a few of them re-exported."""
    texts = [RING] + rng.sample(TEXTS, rng.choice([1, 2, 2, 3]))
    found = [export_all(text) for text in texts]
    for name in names:
        if rng.random() < likely:
            found.append(variable(name) if rng.random() < 0.9 else export_from(name, rng.choice(texts)))
    if rng.random() < 0.5:
        found.append({'kind': 'ExportDefaultExpr', 'expr': number()})
    if rng.random() < 0.2:
        imported = import_named(rng.choice(texts), names + ['default'])
        for specifier in imported['specifiers']:
            name = specifier['local']['sym'][0]
            specifier.update(local=ident('i' + name), imported=name)
        found.append(imported)
    rng.shuffle(found)
    return found


def graph_value(rng) -> dict:
    """Returns an accepted graph."""
    specifiers = ['m%d' % at for at in range(rng.randint(5, 6))]
    rng.shuffle(specifiers)
    names, likely = NAMES[:rng.randint(4, 6)], rng.choice([0.4, 0.5, 0.6])
    modules = [module_of(it, *_statements(rng, names, likely), rng=rng) for it in specifiers]
    if rng.random() < 0.2:
        rng.choice(modules)['types'] = rng.choice(specifiers)
    resolutions = [[it, RING, specifiers[at - 1]] for at, it in enumerate(specifiers)]
    resolutions += [[it, text, rng.choice(specifiers)] for it in specifiers for text in TEXTS if rng.random() < 0.95]
    return {'modules': modules, 'resolutions': resolutions}
