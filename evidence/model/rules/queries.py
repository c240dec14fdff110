"""Reads query lines."""
from typing import NamedTuple

from rules.faults import BadQuery, FormatFault
from rules.json_text import U32, read_json


class Query(NamedTuple):
    """A query: its form, its specifier, its other items, and whether its inputs are queried."""
    form: str
    specifier: str
    asked: tuple
    for_inputs: bool = False


def _text(value) -> str:
    if type(value) is not str:
        raise BadQuery()
    return value


def _number(value) -> int:
    if type(value) is not int or value > U32:
        raise BadQuery()
    return value


def _mode(value) -> str:
    if _text(value) not in ('types', 'all'):
        raise BadQuery()
    return value


def _items(value, count=None) -> list:
    if type(value) is not list or (count is not None and len(value) != count):
        raise BadQuery()
    return value


def _parts(value) -> 'list[str]':
    return [_text(part) for part in _items(value)]


def _reference(value) -> tuple:
    kind = _text(_items(value)[0]) if _items(value) else None
    if kind == 'id':
        _, name, scope = _items(value, 3)
        return ('id', (_text(name), _number(scope)))
    if kind == 'qualified':
        _, name, scope, parts = _items(value, 4)
        return ('qualified', (_text(name), _number(scope)), _parts(parts))
    if kind == 'import':
        _, text, parts = _items(value, 3)
        return ('import', _text(text), _parts(parts))
    raise BadQuery()


# by form, the function that reads the items after the specifier
FORMS = {'module': (), 'exports': (), 'names': (), 'symbol': (_text, _number), 'name': (_number,), 'deps': (_number, _mode),
         'paths': (_number,), 'definitions': (_number,), 'leaves': (_number,), 'resolve': (_reference,)}
# the forms with a specifier alone, and those with a symbol's number as well
OF_A_MODULE, OF_A_SYMBOL = ([form for form, read in FORMS.items() if read == items] for items in ((), (_number,)))


def query_of_value(value) -> Query:
    if type(value) is list and len(value) == 2 and value[0] == 'inputs':
        return _query_on_module(value[1])._replace(for_inputs=True)
    return _query_on_module(value)


def _query_on_module(value) -> Query:
    items = _items(value)
    if len(items) < 2 or _text(items[0]) not in FORMS or len(FORMS[items[0]]) != len(items) - 2:
        raise BadQuery()
    asked = tuple(read(item) for read, item in zip(FORMS[items[0]], items[2:]))
    return Query(items[0], _text(items[1]), asked)


def read_query(line: bytes) -> Query:
    try:
        value = read_json(line)
    except FormatFault:
        raise BadQuery()
    return query_of_value(value)
