"""Graphs of one form and any size."""
from graphs.numbering import module_of
from graphs.vocabulary import export_all, export_from, ident, import_named, namespace, variable


def _row(count, statement):
    """Returns modules in a row: the last exports `n` locally, and each other has the statement on the next."""
    modules = [module_of('m%d' % at, statement('./next')) for at in range(count - 1)]
    modules.append(module_of('m%d' % (count - 1), variable('n')))
    return modules, [['m%d' % at, './next', 'm%d' % (at + 1)] for at in range(count - 1)]


def ring(count):
    """Returns modules each with one `export *` from the next, the last from the first, which exports `n` locally."""
    modules = [module_of('m0', variable('n'), export_all('./next'))]
    modules += [module_of('m%d' % at, export_all('./next')) for at in range(1, count)]
    resolutions = [['m%d' % at, './next', 'm%d' % ((at + 1) % count)] for at in range(count)]
    return modules, resolutions, [['exports', 'm0'], ['exports', 'm%d' % (count // 2)]]


def stars(count):
    """Returns modules each with one `export *` from the next; the last alone exports `n` locally."""
    return *_row(count, export_all), [['exports', 'm0']]


def imports(count):
    """Returns modules of which each but the last re-exports `n` by its name."""
    queries = [[form, 'm0', 1] for form in ('definitions', 'leaves', 'paths')]
    return *_row(count, lambda text: export_from('n', text)), queries


def fan(count):
    """Returns one module with a statement `export *` for each of the others, which export a name each and one that all have."""
    modules = [module_of('m', *[export_all('./k%d' % at) for at in range(count)])]
    modules += [module_of('k%d' % at, variable('v%d' % at), variable('shared')) for at in range(count)]
    modules.append(module_of('q', import_named('./m', ['v0', 'v%d' % (count - 1), 'shared', 'absent'])))
    resolutions = [['m', './k%d' % at, 'k%d' % at] for at in range(count)] + [['q', './m', 'm']]
    return modules, resolutions, [['exports', 'm']] + [['paths', 'q', at] for at in (1, 2, 3, 4)]


def wide(count):
    """Returns one module of declarations, all exported."""
    queries = [['exports', 'm'], ['paths', 'm', count], ['symbol', 'm', 'v%d' % (count - 1), 1], ['name', 'm', count],
               ['deps', 'm', count, 'all']]
    return [module_of('m', *[variable('v%d' % at) for at in range(count)])], [], queries


def members(count):
    """Returns a class of this many static members and as many others."""
    body = [{'kind': 'ClassProp', 'is_static': is_static, 'key': {'kind': 'IdentName', 'name': 'v%d' % at}}
            for at in range(count) for is_static in (True, False)]
    declaration = {'kind': 'ClassDecl', 'ident': ident('K'), 'class': {'kind': 'Class', 'body': body}}
    queries = [['exports', 'm'], ['name', 'm', 2 * count], ['paths', 'm', 1]]
    return [module_of('m', {'kind': 'ExportDecl', 'decl': declaration})], [], queries


def deep(count):
    """Returns a tree of this depth, at most 4096: a name within others."""
    inner = ident('x')
    for _ in range(count - 3):
        inner = {'kind': 'Other', 'children': [inner]}
    queries = [['deps', 'm', 1, 'all'], ['exports', 'm'], ['paths', 'm', 1]]
    return [module_of('m', {'kind': 'ExportDefaultExpr', 'expr': inner})], [], queries


def parts(count):
    """Returns nested namespaces, with a query on all parts at once."""
    inner = variable('x')
    for at in reversed(range(count)):
        inner = namespace('N%d' % at, [inner])
        inner = {'kind': 'ExportDecl', 'decl': inner} if at else inner
    names = ['N%d' % at for at in range(1, count)] + ['x']
    return [module_of('m', inner)], [], [['resolve', 'm', ['qualified', 'N0', 1, names]], ['name', 'm', count + 1]]


FORMS = {form.__name__: form for form in (ring, stars, imports, fan, wide, members, deep, parts)}


def large(form: str, count: int) -> 'tuple[dict, list]':
    """Returns the value of a graph of a form and a size, and queries on it."""
    modules, resolutions, queries = FORMS[form](count)
    return {'modules': modules, 'resolutions': resolutions}, queries
