"""Many modules with `export *`, names and little else, for exports along chains of them."""
from graphs.numbering import module_of
from graphs.vocabulary import export_all, export_from, ident, import_named, namespace, number, variable


def _statements(rng, names, texts, stars) -> 'list[dict]':
    found = [export_all(rng.choice(texts)) for _ in range(rng.choice(stars))]
    for _ in range(rng.choice([0, 0, 1, 2])):
        specifier = {'kind': 'ExportSpecifier', 'orig': ident(rng.choice(names)), 'exported': rng.choice(names)}
        found.append({'kind': 'ExportNamed', 'specifiers': [specifier]})
    if rng.random() < 0.5:
        found.append(variable(rng.choice(names[:2])))
    if 'default' in names and rng.random() < 0.5:
        default = {'kind': 'ExportDefaultExpr', 'expr': number()}
        found.append(rng.choice([default, default, export_from('default', rng.choice(texts))]))
    if rng.random() < 0.6:
        imported = import_named(rng.choice(texts), names)
        for specifier, name in zip(imported['specifiers'], names):
            specifier.update(local=ident('i' + name), imported=name)
        imported['specifiers'].append({'kind': 'ImportNamespace', 'local': ident('ns')})
        found.append(imported)
    rng.shuffle(found)
    if found and rng.random() < 0.1:
        found[0] = namespace('N', found[:1])
    return found


def graph_value(rng) -> dict:
    """Returns an accepted graph. In half of the graphs each module has `export *` from many others, so that names have many exporters."""
    dense = rng.random() < 0.5
    count = rng.randint(4 if dense else 2, 9)
    specifiers = ['m%d' % at for at in range(count)]
    names = ['a', 'b', 'c', 'd'][:rng.randint(1, 2 if dense else 4)] + (['default'] if rng.random() < 0.6 else [])
    texts = ['./%d' % at for at in range(count if dense else rng.choice([2, 4, count]))]
    modules = []
    for specifier in specifiers:
        module = module_of(specifier, *_statements(rng, names, texts, [1, 2, 3, 3] if dense else [0, 1, 1, 2, 3]), rng=rng)
        if rng.random() < 0.08:
            module['types'] = rng.choice(specifiers)
        if rng.random() < 0.05:
            del module['tree']
        modules.append(module)
    likely = 0.95 if dense else rng.choice([0.6, 0.9, 1.0])
    resolutions = [[referrer, text, rng.choice(specifiers)] for referrer in specifiers for text in texts
                   if rng.random() < likely]
    return {'modules': modules, 'resolutions': resolutions}
