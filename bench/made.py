"""Generates graphs for measuring: of many modules, of one large module, of webs, rows and nests; each of any size n."""
import json


class Tree:
    """A tree whose nodes are added a parent before its children. Each has its own range in a text of spaces."""

    def __init__(self):
        self.nodes = []
        self.add('Program')

    def add(self, kind, **fields):
        at = len(self.nodes)
        self.nodes.append(dict(kind=kind, range=[at, at + 1], **fields))
        return at

    def module(self, specifier, body):
        self.nodes[0]['body'] = body
        return {'specifier': specifier, 'kind': 'esm', 'text': ' ' * len(self.nodes), 'tree': {'nodes': self.nodes}}


def function(tree, name):
    at = tree.add('ExportDecl')
    decl = tree.add('FnDecl')
    ident = tree.add('Ident', sym=[name, 1])
    rest = tree.add('Function')
    tree.nodes[rest]['body'] = tree.add('Other')
    tree.nodes[decl].update(ident=ident, function=rest)
    tree.nodes[at]['decl'] = decl
    return at


def variable(tree, name):
    at = tree.add('ExportDecl')
    decl = tree.add('VarDecl')
    declarator = tree.add('VarDeclarator')
    tree.nodes[declarator]['name'] = tree.add('BindingIdent', sym=[name, 1])
    tree.nodes[decl]['decls'] = [declarator]
    tree.nodes[at]['decl'] = decl
    return at


def method(tree, name, is_static):
    at = tree.add('ClassMethod', method_kind='method', is_static=is_static)
    key = tree.add('IdentName', name=name)
    rest = tree.add('Function')
    tree.nodes[rest]['body'] = tree.add('Other')
    tree.nodes[at].update(key=key, function=rest)
    return at


def declarations(specifier, n):
    tree = Tree()
    return tree.module(specifier, [(function if i % 2 else variable)(tree, 'name%d' % i) for i in range(n)])


def class_of(n):
    """Returns a class of n members, half of them static, each name twice."""
    tree = Tree()
    at = tree.add('ExportDecl')
    decl = tree.add('ClassDecl')
    ident = tree.add('Ident', sym=['C', 1])
    rest = tree.add('Class')
    tree.nodes[at]['decl'] = decl
    tree.nodes[decl].update({'ident': ident, 'class': rest})
    tree.nodes[rest]['body'] = [method(tree, 'name%d' % (i // 4), bool(i % 2)) for i in range(n)]
    return {'modules': [tree.module('m', [at])]}


def interface_of(n):
    tree = Tree()
    at = tree.add('TsInterfaceDecl')
    tree.nodes[at]['id'] = tree.add('Ident', sym=['I', 1])
    body = []
    for i in range(n):
        member = tree.add('TsPropertySignature')
        tree.nodes[member]['key'] = tree.add('Ident', sym=['name%d' % i, 0])
        body.append(member)
    tree.nodes[at]['body'] = body
    return {'modules': [tree.module('m', [at])]}


def references_of(n):
    """Returns an alias of n references: names, names with parts, imported names, and names after a `typeof`."""
    tree = Tree()
    at = tree.add('TsTypeAliasDecl')
    tree.nodes[at].update(id=tree.add('Ident', sym=['T', 1]), type_ann=tree.add('Type'))
    children = [reference(tree, i) for i in range(n)]
    tree.nodes[tree.nodes[at]['type_ann']]['children'] = children
    return {'modules': [tree.module('m', [at])]}


def reference(tree, i):
    if i % 4 == 1:
        at = tree.add('TsQualifiedName', right='right%d' % i)
        tree.nodes[at]['left'] = tree.add('Ident', sym=['left%d' % i, 1])
        return at
    if i % 4 == 2:
        at = tree.add('TsImportType', arg='./module%d' % i)
        tree.nodes[at]['qualifier'] = tree.add('Ident', sym=['name%d' % i, 1])
        return at
    if i % 4 == 3:
        at = tree.add('TsTypeQuery')
        tree.nodes[at]['expr_name'] = tree.add('Ident', sym=['name%d' % i, 1])
        return at
    return tree.add('Ident', sym=['name%d' % i, 1])


def web(specifiers, names):
    """Returns modules that each export some names locally, and have `export *` from all the others."""
    modules = []
    for specifier in specifiers:
        tree = Tree()
        body = [variable(tree, '%s_%d' % (specifier, i)) for i in range(names)]
        body += [tree.add('ExportAll', src=it) for it in specifiers if it != specifier]
        modules.append(tree.module(specifier, body))
    return modules


def webs_of(n):
    """Returns n modules in webs of ten, each of which exports five names locally."""
    webs = [['m%d' % i for i in range(at, at + 10)] for at in range(0, n, 10)]
    resolutions = [[m, it, it] for specifiers in webs for m in specifiers for it in specifiers if it != m]
    return {'modules': [it for specifiers in webs for it in web(specifiers, 5)], 'resolutions': resolutions}


def sharing_of(n):
    """Returns n modules in tens: a module with `export *` from nine others, which each export the same five names."""
    modules = []
    for at in range(0, n, 10):
        first, owners = Tree(), ['m%d' % i for i in range(at + 1, at + 10)]
        modules.append(first.module('m%d' % at, [first.add('ExportAll', src=it) for it in owners]))
        for specifier in owners:
            tree = Tree()
            modules.append(tree.module(specifier, [variable(tree, 'name%d' % i) for i in range(5)]))
    return resolved(modules)


def taking(specifier, statement, name, src):
    """Returns a module that imports or re-exports a name from a specifier."""
    tree = Tree()
    at = tree.add(statement, src=src)
    tree.nodes[at]['specifiers'] = [tree.add(name)]
    key = 'local' if name == 'ImportNamed' else 'orig'
    tree.nodes[at + 1][key] = tree.add('Ident', sym=['name', 1])
    return tree.module(specifier, [at])


def passing(specifier, src):
    return taking(specifier, 'ExportNamed', 'ExportSpecifier', src)


def owner(specifier):
    tree = Tree()
    return tree.module(specifier, [variable(tree, 'name')])


def resolved(modules):
    """Returns a graph in which each specifier in a module resolves to the module with this specifier."""
    texts = [(m, node['src']) for m in modules for node in m['tree']['nodes'] if 'src' in node]
    return {'modules': modules, 'resolutions': [[m['specifier'], text, text] for m, text in texts]}


def row_of(n):
    """Returns n modules in a row, each of which re-exports a name from the next; the last exports it locally."""
    return resolved([passing('m%d' % i, 'm%d' % (i + 1)) for i in range(n - 1)] + [owner('m%d' % (n - 1))])


def candidates_of(n):
    """Returns an import of a name from a module with n statements `export *`. Each but the last resolves to a module that re-exports the name from a
    module that re-exports it from there."""
    tree = Tree()
    stars = [tree.add('ExportAll', src=it) for it in ['to%d' % i for i in range(n - 1)] + ['last']]
    modules = [taking('first', 'Import', 'ImportNamed', 'middle'), tree.module('middle', stars), owner('last')]
    for i in range(n - 1):
        modules += [passing('to%d' % i, 'fro%d' % i), passing('fro%d' % i, 'to%d' % i)]
    return resolved(modules)


def namespaces(tree, n):
    """Returns a namespace `N`, and n more of that name, each exported by the one around it."""
    outer = decl = tree.add('TsModuleDecl')
    tree.nodes[decl]['id'] = tree.add('Ident', sym=['N', 1])
    for k in range(n):
        block, export, inner = tree.add('TsModuleBlock'), tree.add('ExportDecl'), tree.add('TsModuleDecl')
        tree.nodes[decl]['body'] = block
        tree.nodes[block]['body'] = [export]
        tree.nodes[export]['decl'] = inner
        tree.nodes[inner]['id'] = tree.add('Ident', sym=['N', k + 2])
        decl = inner
    return outer


def alias(tree, name, first, parts):
    """Returns an alias of a name with this number of parts `N` after it."""
    at = tree.add('TsImportEqualsDecl')
    tree.nodes[at]['id'] = tree.add('Ident', sym=[name, 1])
    names = [tree.add('TsQualifiedName', right='N') for _ in range(parts)] + [tree.add('Ident', sym=[first, 1])]
    for left, right in zip(names, names[1:]):
        tree.nodes[left]['left'] = right
    tree.nodes[at]['entity'] = names[0]
    return at


def aliases_of(n):
    """Returns n aliases in a chain, each of the next one with one part, the last of the outermost of nested namespaces."""
    tree = Tree()
    aliases = [alias(tree, 'A%d' % k, 'A%d' % (k + 1) if k + 1 < n else 'N', 1) for k in range(n)]
    return {'modules': [tree.module('m', aliases + [namespaces(tree, n)])]}


def parts_of(n):
    """Returns an alias of a name with n parts, of nested namespaces."""
    tree = Tree()
    return {'modules': [tree.module('m', [alias(tree, 'A', 'N', n), namespaces(tree, n)])]}


def nest_of(n):
    """Returns namespaces nested n deep."""
    tree = Tree()
    return {'modules': [tree.module('m', [namespaces(tree, n - 1)])]}


def hub_of(n):
    """Returns n modules in webs of ten, a module with an `export *` for each web, and an import of a name that a web in the middle exports, along one
    `export *` of that module."""
    graph = webs_of(n)
    hub, middle = Tree(), Tree()
    webs = [hub.add('ExportAll', src='m%d' % at) for at in range(0, n, 10)]
    star = middle.add('ExportAll', src='hub')
    first = taking('first', 'Import', 'ImportNamed', 'middle')
    first['tree']['nodes'][-1]['sym'] = ['m%d_0' % (n // 20 * 10), 1]
    added = resolved([first, middle.module('middle', [star]), hub.module('hub', webs)])
    return {key: added[key] + graph[key] for key in ('modules', 'resolutions')}


# a graph's name, its n, its generator, the queries beyond the stages, and the multiples of n
MADE = [
    ('many modules', 2000, lambda n: {'modules': [declarations('m%d' % i, 20) for i in range(n)]}, (), (1, 2)),
    ('one module of declarations', 50000, lambda n: {'modules': [declarations('m', n)]}, (), (1, 2)),
    ('one class of members', 20000, class_of, (), (1, 2)),
    ('one interface of members', 20000, interface_of, (), (1, 2)),
    ('one alias of references', 20000, references_of, ('depend',), (1, 2)),
    ('webs of ten modules', 2000, webs_of, ('export',), (1, 2, 4)),
    ('re-exports in a row', 10000, row_of, ('path',), (1, 2)),
    ('candidates of an import', 10000, candidates_of, ('path',), (1, 2)),
    ('aliases in a chain', 600, aliases_of, ('path', 'ends'), (1, 2)),
    ('an alias of many parts', 600, parts_of, ('path', 'ends'), (1, 2)),
    ('namespaces in a nest', 600, nest_of, ('call',), (1, 2)),
    ('one name of webs', 20000, hub_of, ('name', 'whole'), (1, 2)),
]


def line(*query):
    return json.dumps(query).encode() + b'\n'


def write(path, graph):
    with open(path, 'w') as f:
        json.dump(graph, f, separators=(',', ':'), ensure_ascii=False)
