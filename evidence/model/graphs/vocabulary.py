"""The few names, texts and specifiers of random graphs, so that they refer to each other."""

NAMES = ['a', 'b', 'c', 'A', 'N', 'f']
ODD_NAMES = ['default', 'prototype', 'g', 'M', 'é', '', 'a"b', 'x y', '%%dg_ctor%%', '%%dg_index%%', 'K', 'p', '\u200c',
             '𝒳1', 'a\u200d', '\n', '\\']
SPECIFIERS = ['a', 'b', 'c', 'd', 'e', 'j', 'x']
TEXTS = ['./a', './b', './c', './d', './e', './j', './x', './é']
SOURCES = ['', 'export const a = 1;', 'é', 'xéy𝒳z "\\ ', ' \u00a0é\u2003\n' * 2, '  {}\n', '0123456789' * 4]
JSON_SOURCES = ['{}', '  {}\n', '  \n', '', '\u00a0\u2028{"é":1}\u3000\ufeff', '\ufeff ', '\u200b']

# names that are identifiers, or barely none
IDENTIFIERS = ['', '$', '_', '1a', 'a1', 'a-b', 'a b', 'if', 'é', '𝒳1', '\u200ca', 'a\u200c', 'a\u200d', '\u0301a', 'a\u0301',
               '·', 'a·', 'ª', '℘', 'a℘', '$1', '_\u200d', '９', 'a９', '\u2118', '\U0001F600', 'a\U0001F600', 'prototype',
               'default', '\U00031350', 'a\U0001E08F', '\U0001E08F', 'a\u200c\u200d$', '\u309b', 'a\u309b', 'a\u30fb',
               '\u30fb', 'a\u2028']


def ident(name, scope=1):
    return {'kind': 'Ident', 'sym': [name, scope]}


def number(text='1'):
    return {'kind': 'Num', 'text': text}


def variable(name, exported=True):
    """Returns `export const NAME`, as nested nodes."""
    binding = {'kind': 'BindingIdent', 'sym': [name, 1]}
    declaration = {'kind': 'VarDecl', 'decls': [{'kind': 'VarDeclarator', 'name': binding}]}
    return {'kind': 'ExportDecl', 'decl': declaration} if exported else declaration


def export_all(text):
    return {'kind': 'ExportAll', 'src': text}


def export_from(name, text):
    return {'kind': 'ExportNamed', 'src': text, 'specifiers': [{'kind': 'ExportSpecifier', 'orig': ident(name)}]}


def import_named(text, names):
    specifiers = [{'kind': 'ImportNamed', 'local': ident(name)} for name in names]
    return {'kind': 'Import', 'src': text, 'specifiers': specifiers}


def namespace(name, body, **more):
    return dict({'kind': 'TsModuleDecl', 'id': ident(name), 'body': {'kind': 'TsModuleBlock', 'body': body}}, **more)


def property_of(target, key, plain=True, value=None):
    """Returns the statement `TARGET.KEY = VALUE`, with a key as a node."""
    left = {'kind': 'Member', 'obj': target, 'prop': key}
    return {'kind': 'ExprStmt', 'expr': {'kind': 'Assign', 'plain': plain, 'left': left, 'right': value or number()}}
