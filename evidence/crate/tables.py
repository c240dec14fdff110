"""The model's tables in the form in which `crate-symq` answers `["table",SPECIFIER]`."""
import json

from rules.declarations import MEMBERS, TYPES, VALUES, DeclarationNode
from rules.raw_graph import RawModule
from rules.root import Root

TESTS = {'class': 'Class', 'function': 'Fn', 'interface': 'TsInterface', 'namespace': 'TsModule', 'var': 'Var',
         'ctor': 'Constructor', 'module': 'Module'}


def tests_of(node: DeclarationNode) -> 'list[str]':
    """Returns the tests that hold of a declaration's node, in the order in which the crate's program has them."""
    found = [name for name, form in TESTS.items() if node.form == form]
    found += ['export keyword'] if node.how in ('export', 'default') else []
    is_member = node.form in MEMBERS
    found += ['decl'] if not is_member and node.form != 'Module' else []
    found += ['member'] if is_member else []
    found += ['private'] if node.is_private_member() else []
    return found + (['body'] if node.has_body() else [])


def namespaces_of(node: 'DeclarationNode | None') -> 'list[bool]':
    """Returns whether a declaration is a value, and whether it is a type."""
    form = None if node is None else node.form
    return [form not in TYPES, form not in VALUES]


def declaration_value(declaration) -> dict:
    node = declaration.node if declaration.is_definition() and declaration.node.form != 'Json' else None
    kind = {'target': lambda: ['target', list(declaration.name)],
            'qualified': lambda: ['qualified', list(declaration.name), declaration.parts],
            'file': lambda: ['file', declaration.name, declaration.source],
            'definition': lambda: ['def']}[declaration.kind]()
    return {'kind': kind, 'range': list(declaration.range), 'form': node and node.form, 'name': declaration.maybe_name(),
            'overloads': declaration.overload, 'tests': [] if node is None else tests_of(node),
            'namespaces': namespaces_of(node)}


def symbol_value(symbol) -> dict:
    return {'number': symbol.number, 'parent': symbol.parent, 'exports': [list(it) for it in symbol.exports.items()],
            'children': list(symbol.children), 'members': list(symbol.members),
            'decls': [declaration_value(it) for it in symbol.declarations]}


def table_value(root: Root, specifier: str):
    """Returns the table of the module that the specifier resolves to; None if there is none."""
    module = root.module_from_specifier(specifier)
    if module is None:
        return None
    raw: RawModule = root.graph.by_specifier[module.specifier]
    return {'stars': None if raw.kind == 'json' else module.stars,
            'symbols': [symbol_value(it) for it in module.table.symbols]}


def table_differs(root: Root, specifier: str, line: bytes) -> bool:
    return json.loads(line) != table_value(root, specifier)
