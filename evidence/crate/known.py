"""The known differences between the crate and `symq`, and how random graphs avoid them."""
import copy
import os
import re

from graphs.broken import child_fields
from rules.faults import BadQuery
from rules.identifiers import is_identifier
from rules.kinds import CATEGORIES, FIELDS
from rules.queries import read_query
from rules.symbols import WHITE_SPACE

PANIC = b'{"fault":"panic"}'

# the forms of queries that the program over the crate reads: those that the crate has a call for, and its own `table`
QUERIES = os.path.join(os.path.dirname(os.path.abspath(__file__)), 'program', 'src', 'query.rs')
with open(QUERIES, encoding='utf-8') as file:
    CRATE_FORMS = set(re.findall(r'^        \("(\w+)", \[.*\]\) => Query::', file.read(), re.M))

# the fields of kinds that have a pattern
PATTERN_FIELDS = {(kind, name) for kind, fields in FIELDS.items() for name, _, allowed in fields
                  if allowed and 'ExprPat' in allowed and allowed != CATEGORIES['ANY']}


def is_own(line) -> bool:
    """Returns whether a line is a query that the crate has no call for."""
    try:
        query = read_query(line)
        return query.for_inputs or query.form not in CRATE_FORMS
    except BadQuery:
        return False


def trees(value) -> 'list[list[dict]]':
    """Returns the lists of nodes of a graph's modules."""
    return [module['tree']['nodes'] for module in value['modules'] if module.get('tree')]


def has_opaque_pattern(value) -> bool:
    """Returns whether a pattern is `Other`: the crate has no such pattern, and visits it with expressions alone."""
    for nodes in trees(value):
        for node in nodes:
            for name, form in child_fields(node):
                children = node[name] if form == 'child*' else [node[name]]
                if (node['kind'], name) in PATTERN_FIELDS and any(nodes[child]['kind'] == 'Other' for child in children):
                    return True
    return False


def _older_letters(value):
    """Replaces letters of identifiers that are newer than the tables of Python 3.11 and of Debian's `unicode-ident` by plain ones."""
    if type(value) is list:
        return [_older_letters(item) for item in value]
    if type(value) is dict:
        return {key: _older_letters(item) for key, item in value.items()}
    if type(value) is not str or value.isascii():
        return value
    return ''.join('x' if it > '\x7f' and it not in '\u200c\u200d' and is_identifier('a' + it) != ('a' + it).isidentifier()
                   else it for it in value)


def without_known(value) -> dict:
    """Returns the graph without JSON texts of white space alone, newer letters, and types dependencies on a redirect's source."""
    value = copy.deepcopy(value)
    sources = {source for source, _ in value.get('redirects') or []}
    for module in value['modules']:
        if module['kind'] == 'json' and not module['text'].strip(WHITE_SPACE):
            module['text'] = '{}'
        if module.get('types') in sources:
            del module['types']
        if module.get('tree'):
            module['tree'] = _older_letters(module['tree'])
    return value


def without_recursion(value) -> dict:
    """Returns the graph without types dependencies and aliases of names, on which the crate is known to recurse without end."""
    value = copy.deepcopy(value)
    for module in value['modules']:
        module.pop('types', None)
    for nodes in trees(value):
        for node in nodes:
            if type(node.get('body')) is list:
                node['body'] = [child for child in node['body'] if nodes[child]['kind'] != 'TsImportEqualsDecl'
                                or nodes[child].get('entity') is None]
    return value
