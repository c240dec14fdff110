"""Rows of graphs that are too large to be written out: the graphs are generated, and the answers given by their rule."""
from graphs.large import large


def line_of(count) -> dict:
    """Returns a module whose tree is one line of this many nodes."""
    nodes = [{'kind': 'Program', 'range': [0, 0], 'body': [1]}]
    nodes += [{'kind': 'Other', 'range': [0, 0], 'children': [at + 1] if at + 1 < count else []} for at in range(1, count)]
    return {'modules': [{'specifier': 's', 'kind': 'esm', 'text': '', 'tree': {'nodes': nodes}}]}


def one_statement(number, text, *nodes) -> dict:
    """Returns a module of this text, which is one statement."""
    program = {'kind': 'Program', 'range': [0, len(text)], 'body': [1]}
    return {'specifier': 'm%d' % number, 'kind': 'esm', 'text': text, 'tree': {'nodes': [program, *nodes]}}


def passed_on(count) -> dict:
    """Returns modules in a row: the last exports `n` locally, and each other re-exports it from the next."""
    modules = [one_statement(at, 'export { n } from "./next";',
                             {'kind': 'ExportNamed', 'range': [0, 27], 'specifiers': [2], 'src': './next'},
                             {'kind': 'ExportSpecifier', 'range': [9, 10], 'orig': 3},
                             {'kind': 'Ident', 'range': [9, 10], 'sym': ['n', 1]}) for at in range(count - 1)]
    modules.append(one_statement(count - 1, 'export const n = 1;',
                                 {'kind': 'ExportDecl', 'range': [0, 19], 'decl': 2},
                                 {'kind': 'VarDecl', 'range': [7, 19], 'decls': [3]},
                                 {'kind': 'VarDeclarator', 'range': [13, 18], 'name': 4, 'init': 5},
                                 {'kind': 'BindingIdent', 'range': [13, 14], 'sym': ['n', 1]},
                                 {'kind': 'Num', 'range': [17, 18], 'text': '1'}))
    return {'modules': modules, 'resolutions': [['m%d' % at, './next', 'm%d' % (at + 1)] for at in range(count - 1)]}


def nested(count) -> str:
    """Returns the text of a graph without modules, in which lists and objects are nested this deep."""
    return '{"modules":[],"extra":' + '[' * (count - 1) + ']' * (count - 1) + '}'


def exported(module, chain) -> dict:
    return {'exports': [{'chain': chain, 'module': module, 'name': 'n', 'symbol': 1}], 'unresolved': []}


def large_rows() -> 'list[dict]':
    definition = {'decl': [1, 0], 'end': 18, 'module': 'm499', 'start': 13, 'symbol': 1}
    row = [['m%d' % at, './next'] for at in range(3999)]
    return [
        {'name': 'a ring of 10,000 modules', 'graph': large('ring', 10000)[0],
         'asked': [[['exports', 'm0'], exported('m0', [])]],
         'calls': [{'call': 'exports', 'module': 'm0', 'steps': 10000}, {'call': 'stored', 'expect': 10000}]},
        {'name': 'a row of 4,000 modules', 'graph': large('stars', 4000)[0],
         'asked': [[['exports', 'm0'], exported('m3999', row)]]},
        {'name': 'a row of 500 re-exports of a name', 'graph': passed_on(500),
         'asked': [[['definitions', 'm0', 1], {'definitions': [definition]}]]},
        {'name': 'a tree as deep as may be', 'graph': line_of(4096),
         'asked': [[['exports', 's'], {'exports': [], 'unresolved': []}]]},
        {'name': 'a tree that is too deep', 'graph': line_of(4097), 'status': 5,
         'error': 'symq: graph refused: 7 s 7 4096'},
        {'name': 'a text nested as deep as may be', 'text': nested(127), 'asked': [[['exports', 's'], None]]},
        {'name': 'a text that is nested too deep', 'text': nested(128), 'status': 4, 'error': 'symq: not a graph: json'},
    ]
