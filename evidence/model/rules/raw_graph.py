"""Converts a JSON value to an unchecked graph: modules, trees, redirects, resolutions."""
from rules import kinds
from rules.faults import BAD_FORM, FormatFault
from rules.json_text import U32, has_not_whole, read_json


class Node:
    """A node of a tree: its kind, its range in bytes, and its fields by name; a child is its number."""
    __slots__ = ('kind', 'start', 'end', 'fields')

    def __init__(self, kind: str, start: int, end: int, fields: dict):
        self.kind, self.start, self.end, self.fields = kind, start, end, fields


class Tree:
    """The nodes of a module, and whether it is a declaration file."""
    __slots__ = ('declaration', 'nodes')

    def __init__(self, declaration: bool, nodes: 'list[Node]'):
        self.declaration, self.nodes = declaration, nodes


class RawModule:
    """A module of kind 'esm', 'json' or 'external'; text, tree and types may be None."""
    __slots__ = ('specifier', 'kind', 'text', 'tree', 'types')

    def __init__(self, specifier, kind, text=None, tree=None, types=None):
        self.specifier, self.kind, self.text, self.tree, self.types = specifier, kind, text, tree, types

    def has_symbols(self) -> bool:
        return self.kind == 'json' or (self.kind == 'esm' and self.tree is not None)


class RawGraph:
    """Modules, redirects as (from, to), and resolutions as (referrer, text, specifier)."""
    __slots__ = ('modules', 'redirects', 'resolutions')

    def __init__(self, modules, redirects, resolutions):
        self.modules, self.redirects, self.resolutions = modules, redirects, resolutions


def _bad_form():
    return FormatFault(BAD_FORM)


def _of_type(value, wanted):
    if type(value) is not wanted:
        raise _bad_form()
    return value


def _text(value) -> str:
    return _of_type(value, str)


def _optional_text(value):
    return None if value is None else _text(value)


def _list(value) -> list:
    return [] if value is None else _of_type(value, list)


def _flag(value) -> bool:
    return False if value is None else _of_type(value, bool)


def _place(value) -> int:
    return _of_type(value, int)


def _number(value) -> int:
    if _of_type(value, int) > U32:
        raise _bad_form()
    return value


def _exactly(value, count: int) -> list:
    if len(_of_type(value, list)) != count:
        raise _bad_form()
    return value


def _name_and_scope(value) -> 'tuple[str, int]':
    name, scope = _exactly(value, 2)
    return (_text(name), _number(scope))


def _one_of(value, allowed):
    if _text(value) not in allowed:
        raise _bad_form()
    return value


READERS = {
    'child': _number,
    'child?': lambda value: None if value is None else _number(value),
    'child*': lambda value: [_number(item) for item in _list(value)],
    'text': _text,
    'text?': _optional_text,
    'bool': _flag,
    'Id': _name_and_scope,
    'ACC': lambda value: None if value is None else _one_of(value, kinds.ACCESSIBILITIES),
    'MKIND': lambda value: _one_of(value, kinds.METHOD_KINDS),
}


def _node(value) -> Node:
    kind = _text(_of_type(value, dict).get('kind'))
    if kind not in kinds.FIELDS:
        raise _bad_form()
    start, end = _exactly(value.get('range'), 2)
    fields = {name: READERS[form](value.get(name)) for name, form, _ in kinds.FIELDS[kind]}
    return Node(kind, _place(start), _place(end), fields)


def _tree(value):
    if value is None:
        return None
    nodes = [_node(item) for item in _list(_of_type(value, dict).get('nodes'))]
    return Tree(_flag(value.get('declaration')), nodes)


def _module(value) -> RawModule:
    specifier, kind = _text(_of_type(value, dict).get('specifier')), _text(value.get('kind'))
    if kind == 'esm':
        tree, types = _tree(value.get('tree')), _optional_text(value.get('types'))
        return RawModule(specifier, kind, _text(value.get('text')), tree, types)
    if kind == 'json':
        return RawModule(specifier, kind, _text(value.get('text')))
    if kind == 'external':
        return RawModule(specifier, kind)
    raise _bad_form()


def _texts(value, count: int) -> tuple:
    return tuple(_text(item) for item in _exactly(value, count))


def graph_of_value(value) -> RawGraph:
    """Returns the graph that a JSON value describes; raises a refusal if it describes none."""
    _of_type(value, dict)
    return RawGraph([_module(item) for item in _list(value.get('modules'))],
                    [_texts(item, 2) for item in _list(value.get('redirects'))],
                    [_texts(item, 3) for item in _list(value.get('resolutions'))])


def read_graph(data: bytes) -> RawGraph:
    """Returns the graph that the bytes of a file describe."""
    value = read_json(data)
    if has_not_whole(value):
        raise _bad_form()
    return graph_of_value(value)
