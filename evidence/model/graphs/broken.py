"""Graphs with a fault in a tree, in a list of the graph, in one field, or in any value."""
from graphs.vocabulary import SOURCES
from rules.kinds import ALL_KINDS, FIELDS

# by type of field, wrong values
WRONG = {
    'text': [None, 1, [], {}, True], 'text?': [1, [], {}, False], 'bool': [0, 1, 'true', []],
    'Id': [None, 'a', ['a'], ['a', 1, 2], [1, 'a'], ['a', 4294967296], ['a', -1], ['a', None], ['a', 1.0]],
    'ACC': ['', 'static', 'Public', 1, False, []],
    'MKIND': [None, '', 'get', 'constructor', 0, 'Method'],
    'child': [None, -1, 4294967296, 4294967295, '1', [1], 1.0, True],
    'child?': [-1, 4294967296, 4294967295, '1', [], 1.0, False],
    'child*': [1, {}, '', [None], ['1'], [[1]], [-1], [4294967296], [1.0], False],
}
WRONG_LISTS = [None, {}, 1, 'x', False, [1], [None], [[]], [['a']], [['a', 'b', 'c', 'd']], [['a', 1]], [['a', 'b', None]]]
WRONG_MODULES = [None, 1, [], {}, '', 'x', True, 'esm', 'json', 'external', 'wasm', 1.5]
WRONG_RANGES = [None, [], [0], [0, 0, 0], [0, None], ['0', '0'], 0, {}, [0, -1], [0, 18446744073709551615],
                [0, 18446744073709551616], [0, 0.0]]
WRONG_KINDS = [None, 'program', 'Plain', 'TsNamespaceExportDecl', 'Invalid', 1, '']
ANY_VALUES = [None, True, False, 0, 1, -1, 1.0, 1e30, 4294967295, 4294967296, 18446744073709551615, 18446744073709551616, '',
              'x', 'esm', 'json', 'external', 'Other', 'private', 'method', [], [0, 0], ['a', 1], ['a'], {}, {'kind': 'Other'},
              [None], [[]]]

# statements that break a rule, or barely don't; children are numbered from the first node of the statement on
STATEMENTS = [
    [{'kind': 'ExportDecl', 'decl': 1}, {'kind': 'UsingDecl'}],
    [{'kind': 'ExportNamed', 'specifiers': [1]}, {'kind': 'ExportSpecifier', 'orig': 2}, {'kind': 'Str', 'value': 'a'}],
    [{'kind': 'ExportNamed', 'specifiers': [1]}, {'kind': 'ExportNamespace', 'name': 'a'}],
    [{'kind': 'ExportNamed', 'src': './a', 'specifiers': [1, 3]}, {'kind': 'ExportSpecifier', 'orig': 2},
     {'kind': 'Str', 'value': 'a'}, {'kind': 'ExportNamespace', 'name': 'b'}],
    [{'kind': 'ExportNamed', 'src': './a', 'specifiers': [1]}, {'kind': 'ExportDefaultSpecifier', 'local': 2},
     {'kind': 'Ident', 'sym': ['a', 1]}],
    [{'kind': 'TsImportEqualsDecl', 'id': 1}, {'kind': 'Ident', 'sym': ['a', 1]}],
    [{'kind': 'TsImportEqualsDecl', 'id': 1, 'entity': 2, 'external': './a'}, {'kind': 'Ident', 'sym': ['a', 1]},
     {'kind': 'Ident', 'sym': ['b', 1]}],
    [{'kind': 'Other', 'children': [1]}, {'kind': 'TsParamProp', 'param': 2}, {'kind': 'AssignPat', 'left': 3, 'right': 4},
     {'kind': 'ArrayPat'}, {'kind': 'Num', 'text': '1'}],
    [{'kind': 'Other', 'children': [1]}, {'kind': 'ExportAll', 'src': './a'}],
    [{'kind': 'Other', 'children': [1]}, {'kind': 'Program'}],
    [{'kind': 'ExportDefaultDecl', 'decl': 1}, {'kind': 'FnDecl', 'ident': 2, 'function': 3}, {'kind': 'Ident', 'sym': ['a', 1]},
     {'kind': 'Function'}],
]


def child_fields(node) -> 'list[tuple[str, str]]':
    """Returns the fields of a node that have children."""
    return [(name, form) for name, form, _ in FIELDS.get(node.get('kind'), ())
            if form.startswith('child') and node.get(name) not in (None, [])]


def _other_child(rng, nodes) -> None:
    """Replaces or adds a child by one that doesn't exist, comes before its parent, or has another parent, too."""
    places = [(at, name, form) for at, node in enumerate(nodes) for name, form in child_fields(node)]
    if not places:
        return
    at, name, form = rng.choice(places)
    other = rng.choice([0, at, len(nodes), 4294967295, rng.randrange(len(nodes)), rng.randrange(len(nodes)),
                        min(at + 1, len(nodes))])
    if form != 'child*':
        nodes[at][name] = other
    elif rng.random() < 0.5:
        nodes[at][name].insert(rng.randint(0, len(nodes[at][name])), rng.choice(nodes[at][name] + [other]))
    else:
        nodes[at][name][rng.randrange(len(nodes[at][name]))] = other


def _other_range(rng, node, text) -> None:
    size = len(text.encode())
    node['range'] = rng.choice([[rng.randint(0, size + 1), rng.randint(0, size + 1)], [0, size + 1], [size, size],
                                [size + 1, size + 1], [0, 1]])
    if rng.random() < 0.1:
        node['range'][1] = 18446744073709551615


def _other_kind(rng, node) -> None:
    """Replaces the kind by another kind with the same fields, or by `Other`."""
    fields = [it[:2] for it in FIELDS[node['kind']]]
    node['kind'] = rng.choice([kind for kind in ALL_KINDS if [it[:2] for it in FIELDS[kind]] == fields])
    if rng.random() < 0.3:
        node['kind'] = 'Other'


def _add_statement(rng, nodes) -> None:
    base = len(nodes)
    for part in rng.choice(STATEMENTS):
        added = {'range': [0, 0]}
        for key, value in part.items():
            if type(value) is int:
                value += base
            elif type(value) is list and key != 'sym':
                value = [child + base for child in value]
            added[key] = value
        nodes.append(added)
    blocks = [node for node in nodes[:base] if node['kind'] in ('Program', 'TsModuleBlock')]
    if blocks:
        block = rng.choice(blocks)
        block['body'] = (block.get('body') or []) + [base]


def _add_depth(rng, nodes) -> None:
    base, count = len(nodes), rng.choice([4093, 4094, 4095, 4096, 4097])
    nodes += [{'kind': 'Other', 'range': [0, 0], 'children': [base + at + 1] if at + 1 < count else []}
              for at in range(count)]
    if rng.random() < 0.7:
        nodes[0]['body'] = (nodes[0].get('body') or []) + [base]


def _add_orphan(rng, nodes) -> None:
    if rng.random() < 0.5:
        nodes.append({'kind': rng.choice(['ExportAll', 'Program', 'TsModuleBlock', 'Other']), 'src': './a', 'range': [0, 0]})
        return
    nodes.append({'kind': 'ExportDefaultSpecifier', 'range': [0, 0], 'local': len(nodes) + 1})
    nodes.append({'kind': 'Ident', 'range': [0, 0], 'sym': ['a', 1]})


def break_tree(rng, value) -> None:
    """Makes a fault, or by chance none, in some tree."""
    trees = [module for module in value['modules'] if module.get('tree') and module['tree']['nodes']]
    if not trees:
        return
    module = rng.choice(trees)
    nodes = module['tree']['nodes']
    at, other = rng.randrange(len(nodes)), rng.randrange(len(nodes))
    how = rng.choice(['child', 'child', 'child', 'range', 'range', 'kind', 'kind', 'empty', 'root', 'statement', 'statement',
                      'deep', 'orphan', 'orphan', 'swap', 'text'])
    if how == 'child':
        _other_child(rng, nodes)
    elif how == 'range':
        _other_range(rng, nodes[at], module['text'])
    elif how == 'kind':
        _other_kind(rng, nodes[at])
    elif how == 'empty':
        module['tree']['nodes'] = []
    elif how == 'root':
        nodes[0]['kind'] = rng.choice(['Program', 'TsModuleBlock', 'Other'])
    elif how == 'swap':
        nodes[at], nodes[other] = nodes[other], nodes[at]
    elif how == 'text':
        module['text'] = rng.choice(SOURCES)
    else:
        {'statement': _add_statement, 'deep': _add_depth, 'orphan': _add_orphan}[how](rng, nodes)


def break_graph(rng, value) -> None:
    """Repeats a specifier, a redirect or a resolution, or adds a redirect to one."""
    how, modules = rng.choice(['specifier', 'redirect', 'redirects', 'resolution', 'all']), value['modules']
    if how in ('specifier', 'all') and modules:
        twice = dict(rng.choice(modules))
        if rng.random() < 0.5:
            twice = {'specifier': twice['specifier'], 'kind': 'external'}
        modules.insert(rng.randint(0, len(modules)), twice)
    redirects = value.setdefault('redirects', [])
    if how in ('redirect', 'all'):
        for _ in range(2):
            redirects.insert(rng.randint(0, len(redirects)), ['r', rng.choice(['a', 'b'])])
    if how in ('redirects', 'all'):
        source = rng.choice(['q', 'a', 'b'])
        for pair in [[source, source]] if rng.random() < 0.3 else [[source, 't'], ['s', source]]:
            redirects.insert(rng.randint(0, len(redirects)), pair)
    if how in ('resolution', 'all'):
        resolutions = value.setdefault('resolutions', [])
        referrer, text, target = rng.choice(resolutions or [['a', './a', 'a']])
        twice = [referrer, text, rng.choice([target, 'absent'])]
        resolutions.insert(rng.randint(0, len(resolutions)), twice)
        if len(resolutions) == 1:
            resolutions.append(twice)


def _break_module(rng, module) -> None:
    key = rng.choice(['specifier', 'kind', 'kind', 'text', 'text', 'types', 'tree', 'declaration', 'nodes'])
    wrong = rng.choice(WRONG_MODULES)
    if key in ('declaration', 'nodes'):
        if type(module.get('tree')) is dict:
            module['tree'][key] = wrong
    elif wrong is None and rng.random() < 0.5:
        module.pop(key, None)
    else:
        module[key] = wrong


def _break_node(rng, node) -> None:
    how, fields = rng.random(), FIELDS.get(node.get('kind'), ())
    if how < 0.15:
        node['range'] = rng.choice(WRONG_RANGES)
    elif how < 0.25:
        node['kind'] = rng.choice(WRONG_KINDS)
    elif fields:
        rare = [it for it in fields if it[1] in ('ACC', 'MKIND', 'Id', 'bool')]
        name, form, _ = rng.choice(rare if rare and rng.random() < 0.5 else fields)
        node[name] = rng.choice(WRONG[form])
        if rng.random() < 0.1:
            node.pop(name)


def break_field(rng, value) -> None:
    """Gives one field of the graph, of a module or of a node a wrong value, or by chance a valid one."""
    how, modules = rng.random(), value['modules']
    nodes = [node for module in modules if module.get('tree') for node in module['tree']['nodes']]
    if how < 0.12:
        value[rng.choice(['modules', 'redirects', 'resolutions'])] = rng.choice(WRONG_LISTS)
    elif how < 0.4 and modules:
        _break_module(rng, rng.choice(modules))
    elif nodes:
        _break_node(rng, rng.choice(nodes))


def _places(value) -> list:
    found, stack = [], [value]
    while stack:
        at = stack.pop()
        keys = at if type(at) is dict else range(len(at)) if type(at) is list else ()
        for key in keys:
            found.append((at, key))
            stack.append(at[key])
    return found


def break_form(rng, value) -> None:
    """Replaces, removes or repeats one value in the JSON."""
    places = _places(value)
    if not places:
        return
    at, key = rng.choice(places)
    how = rng.random()
    if how < 0.2:
        del at[key]
    elif how < 0.35 and type(at) is list:
        at.insert(key, at[key])
    elif how < 0.5 and type(at) is dict:
        added = rng.choice(['extra', 'kind', 'range', 'text', 'types', 'tree', 'src', 'body'])
        at[added] = rng.choice([1.5, {'x': [1.0]}, -1, None, 3, 'x', []])
    else:
        at[key] = rng.choice(ANY_VALUES)
