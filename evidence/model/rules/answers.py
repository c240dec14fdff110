"""The line that answers a query, and the result of a whole run."""
from rules.checker import check_graph
from rules.exports import exports
from rules.faults import BAD_QUERY_LINE, BadQuery, FormatFault, GraphFault, SymbolsFault
from rules.inputs import inputs_value
from rules.json_text import text_of
from rules.paths import End, Link, Search, Unresolved, definition_paths, ends
from rules.queries import Query, read_query
from rules.raw_graph import read_graph
from rules.root import Root
from rules.symbols import full_name


def reference_value(reference) -> list:
    if reference[0] == 'import':
        return list(reference)
    kind, name, *parts = reference
    return [kind, name[0], name[1], *parts]


def leaf_value(leaf):
    if isinstance(leaf, End):
        value = {'decl': list(leaf.at), 'end': leaf.declaration.range[1], 'module': leaf.module.specifier}
        if leaf.declaration.kind == 'file':
            value['star'] = leaf.declaration.source
        value['start'] = leaf.declaration.range[0]
        value['symbol'] = leaf.symbol
        return value
    if not isinstance(leaf, Unresolved):
        return {'import_type': leaf.specifier}
    value = {'kind': leaf.kind, 'module': leaf.module.specifier}
    if leaf.kind == 'id':
        value['name'], value['parts'], value['scope'] = leaf.name[0], leaf.parts, leaf.name[1]
    else:
        value['name'], value['parts'] = leaf.name, leaf.parts
    return value


def path_text(path) -> str:
    if not isinstance(path, Link):
        return text_of(leaf_value(path))
    return '{"decl":[%d,%d],"module":%s,"next":%s,"parts":%s,"symbol":%d}' % (
        *path.at, text_of(path.module.specifier), paths_text(path.next), text_of(path.parts), path.symbol)


def paths_text(paths) -> str:
    return '[' + ','.join(path_text(path) for path in paths) + ']'


def owner_value(owner):
    return {'chain': owner.statements(), 'module': owner.module.specifier, 'symbol': owner.symbol}


def exports_value(root, module):
    found = exports(root, module)
    value = {'exports': [{'chain': it.statements(), 'module': it.module.specifier, 'name': name, 'symbol': it.symbol}
                         for name, it in found.resolved.items()]}
    if root.strict:
        value['shared'] = [{'name': name, 'owners': [owner_value(it) for it in owners]}
                           for name, owners in found.shared.items()]
    value['unresolved'] = [[it.specifier, text] for it, text in found.unresolved]
    return value


# constructors and index signatures, which have no names
NAMELESS = ('%%dg_ctor%%', '%%dg_index%%')


def names_value(root, module):
    """Returns each exported name, and after it each name that its symbol exports itself."""
    found = []
    for name, it in exports(root, module).resolved.items():
        members = [member for member in it.module.table.symbols[it.symbol].exports if member not in NAMELESS]
        found += [[name]] + [[name, member] for member in members]
    return {'names': found}


def dependencies_value(symbol, mode):
    return {'deps': [[[reference_value(reference), namespace]
                      for reference, namespace in declaration.dependencies(mode == 'all')]
                     for declaration in symbol.declarations]}


def answer(root: Root, query: Query) -> str:
    """Returns the answer's text, or raises a SymbolsFault."""
    if query.for_inputs:
        return text_of(inputs_value(root, query))
    module = root.module_from_specifier(query.specifier)
    if module is None:
        return 'null'
    form, asked = query.form, query.asked
    if form == 'module':
        return text_of({'module': module.specifier})
    if form == 'exports':
        return text_of(exports_value(root, module))
    if form == 'names':
        return text_of(names_value(root, module))
    if form == 'symbol':
        return text_of({'symbol': module.table.names.get(asked)})
    if form == 'resolve':
        return '{"entries":%s}' % paths_text(Search(root).resolve(module, asked[0]))
    symbol = root.symbol(module, asked[0])
    if form == 'name':
        return text_of({'name': full_name(module.table, asked[0])})
    if form == 'deps':
        return text_of(dependencies_value(symbol, asked[1]))
    found = definition_paths(root, module, asked[0])
    if form == 'definitions':
        found = [leaf for leaf in ends(found) if isinstance(leaf, End)]
    elif form == 'leaves':
        found = ends(found)
    return '{"%s":%s}' % (form, paths_text(found))


def answer_line(root: Root, line: bytes) -> str:
    """Returns the line that answers a line, without its end."""
    try:
        return answer(root, read_query(line))
    except BadQuery:
        return BAD_QUERY_LINE
    except SymbolsFault as fault:
        return fault.line()


def lines_of(data: bytes) -> 'list[bytes]':
    lines = data.split(b'\n')
    return lines[:-1] if not lines[-1] else lines


def run(graph: bytes, lines: 'list[bytes]', strict=False) -> 'tuple[int, bytes, bytes]':
    """Returns the result of the program for the text of a graph and lines: its status, standard output and standard error."""
    try:
        root = Root(check_graph(read_graph(graph)), strict=strict)
    except (FormatFault, GraphFault) as fault:
        return (4 if isinstance(fault, FormatFault) else 5), b'', (fault.line() + '\n').encode()
    return 0, b''.join(answer_line(root, line).encode() + b'\n' for line in lines), b''
