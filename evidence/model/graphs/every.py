"""Every small case: each field of each kind with each wrong value, absent and null; each kind in each child field; the rules on more than one node;
all ranges over a text of characters of one to four bytes; depths around the limit."""
from itertools import product

from graphs.broken import WRONG, WRONG_RANGES
from graphs.cases import Case
from graphs.numbering import plain_nodes
from graphs.queries import BAD_LINES
from graphs.texts import FIXED_TEXTS, compact
from rules.kinds import ACCESSIBILITIES, ALL_KINDS, CATEGORIES, FIELDS, METHOD_KINDS

# kinds that are simple as children; the first allowed one is used
PLAIN = ['Ident', 'BindingIdent', 'IdentName', 'Type', 'Class', 'Function', 'TsModuleBlock', 'VarDecl', 'FnExpr', 'TsTypeAnn',
         'TsTypeParamDecl', 'TsTypeParamInstantiation']
EXPORTS = [b'["module","m"]', b'["exports","m"]']


def least(kind, full=False) -> dict:
    """Returns a node of a kind with no more than it must have, or with one child for each field, as nested nodes."""
    node = {'kind': kind}
    for name, form, allowed in FIELDS[kind]:
        if form == 'child' or (full and form in ('child?', 'child*')):
            child = least(next((it for it in PLAIN if it in allowed), None) or sorted(allowed)[0])
            node[name] = [child] if form == 'child*' else child
        elif form == 'text' or (full and form == 'text?'):
            node[name] = 'a'
        elif form in ('Id', 'MKIND'):
            node[name] = {'Id': ['a', 1], 'MKIND': 'method'}[form]
        elif full and form in ('bool', 'ACC'):
            node[name] = {'bool': True, 'ACC': 'private'}[form]
    if kind == 'TsImportEqualsDecl':
        node['entity'] = least('Ident')
        node.pop('external', None)
    return node


def case_of_modules(modules, what, lines=()) -> Case:
    value = {'modules': modules}
    return Case(what, compact(value), list(lines), value)


def case_of(nodes, what, text='', lines=()) -> Case:
    return case_of_modules([{'specifier': 'm', 'kind': 'esm', 'text': text, 'tree': {'nodes': nodes}}], what, lines)


def _values_of(kind, form) -> list:
    """Returns the values for a field: wrong ones, and unusual valid ones."""
    if form == 'range':
        return WRONG_RANGES + [[0, 1], None]
    if form == 'kind':
        return [None, kind.lower(), kind + ' ', 1, []]
    further = {'ACC': ACCESSIBILITIES, 'MKIND': METHOD_KINDS, 'Id': ([ 'a', 4294967295], ['', 0])}
    return WRONG[form] + list(further.get(form, ())) + [None]


def fields_of_nodes():
    for kind in ALL_KINDS:
        whole = plain_nodes(least(kind, True))
        for name, form, _ in FIELDS[kind] + [('range', 'range', None), ('kind', 'kind', None)]:
            for value in _values_of(kind, form):
                yield case_of([whole[0], dict(whole[1], **{name: value}), *whole[2:]], 'form %s.%s' % (kind, name))
            without = {key: value for key, value in whole[1].items() if key != name}
            yield case_of([whole[0], without, *whole[2:]], 'form %s.%s absent' % (kind, name))


def fields_of_modules():
    values = [None, 1, 'x', [], {}, True, {'nodes': 1}, {'declaration': 1}, {'declaration': None, 'nodes': None}]
    whole = {'specifier': 'm', 'text': '', 'types': 'm', 'tree': {'nodes': [{'kind': 'Program', 'range': [0, 0]}]}}
    for kind, absent in product(('esm', 'json', 'external', 'wasm'), (None, 'text', 'types', 'tree', 'specifier', 'kind')):
        changed = [dict(whole, kind=kind)]
        changed += [dict(whole, kind=kind, **{key: value})
                    for key, value in product(('specifier', 'text', 'types', 'tree'), values)]
        changed += [dict(whole, kind=value) for value in values]
        for module in changed:
            module.pop(absent, None)
            yield case_of_modules([module], 'module', EXPORTS)


def texts():
    for text in FIXED_TEXTS:
        yield Case('text', text, list(BAD_LINES), None)


def kinds_of_children():
    for kind in ALL_KINDS:
        for name, form, _ in FIELDS[kind]:
            for child in ALL_KINDS if form.startswith('child') else ():
                node = least(kind)
                node[name] = [least(child)] if form == 'child*' else least(child)
                if kind == 'ExportNamed':
                    yield case_of(plain_nodes(dict(node, src='./a')), 'shape with src')
                yield case_of(plain_nodes(node), 'shape %s.%s %s' % (kind, name, child), lines=EXPORTS)


def rules():
    for original, source, more in product(('Ident', 'Str'), (None, './a'), ((), ('ExportNamespace',))):
        specifiers = [*map(least, more), least('ExportSpecifier'), {'kind': 'ExportSpecifier', 'orig': least(original)}]
        yield case_of(plain_nodes({'kind': 'ExportNamed', 'specifiers': specifiers, 'src': source}), 'rule')
    for entity, external in product((None, 'TsQualifiedName'), (None, './a', '')):
        node = dict(least('TsImportEqualsDecl'), external=external)
        node['entity'] = None if entity is None else least(entity)
        yield case_of(plain_nodes(node), 'rule')
    for left in sorted(CATEGORIES['PAT']):
        for parent, field in (('TsParamProp', 'param'), ('Other', 'children')):
            pattern = {'kind': 'AssignPat', 'left': least(left), 'right': least('Num')}
            yield case_of(plain_nodes({'kind': parent, field: [pattern] if field == 'children' else pattern}), 'rule')


def ranges():
    text = 'aé€𝒳'
    for start, end in product(range(len(text.encode()) + 2), repeat=2):
        yield case_of([{'kind': 'Program', 'range': [start, end]}], 'range', text)


def depths():
    """Yields trees in one line, of the program or of an orphan."""
    for count, first in product((4094, 4095, 4096, 4097), (0, 1)):
        last = count + first - 1
        nodes = [{'kind': 'Other', 'range': [0, 0], 'children': [at + 1] if at < last else []} for at in range(1, last + 1)]
        program = {'kind': 'Program', 'range': [0, 0], 'body': [1] if first == 0 else []}
        yield case_of([program, *nodes], 'depth', lines=EXPORTS)


def every_case() -> 'list[Case]':
    """Returns all cases, three in ten by strict rules."""
    makers = (fields_of_nodes, fields_of_modules, texts, kinds_of_children, rules, ranges, depths)
    return [case.by(at % 10 < 3) for at, case in enumerate(case for maker in makers for case in maker())]
