"""Generates the methods that return the children of a node by the names of their fields, the functions of kinds that they call, and their functions
of contracts."""
from dataclasses import dataclass

from .lines import CLAUSE, code, filled, space_all
from .tree import SPECS, enum_names


@dataclass(frozen=True)
class Named:
    """A name of fields that hold children, or lists of them: its method, its function of contracts, its function of kinds, which has the match, and
    the fields with their kinds."""

    field: str
    method: str
    contract: str
    function: str
    of: tuple

    def is_list(self):
        return self.of[0][1].is_list()


# names of lists that are no plurals
VERBS = ('implements', 'extends')


def contract_of(table, name, is_list):
    """Returns the function of contracts of a name of fields: `body_child_of`, and of lists `member_children_of`."""
    if name in table.in_contracts:
        return table.in_contracts[name] + '_of'
    singular = name[:-1] if name.endswith('s') and name not in VERBS else name
    return singular + '_children_of' if is_list else name + '_child_of'


def named_of(table):
    """Returns the names of fields that hold children, in the order of the table. If a name of lists is one of single children, too, the latter have a
    method of their own."""
    found = {}
    for kind in table.kinds():
        for it in kind.children():
            found.setdefault((it.name, it.is_list()), []).append((kind, it))
    made = []
    for (name, is_list), of in found.items():
        method = name + '_node' if not is_list and (name, True) in found else name
        function = (table.in_contracts.get(name, name) if method == name else method) + '_of_kind'
        made.append(Named(name, method, contract_of(table, name, is_list), function, tuple(of)))
    return made


def contract_lines(named):
    """Returns the function of contracts of a name."""
    result, none = ('List ℕ', '[]') if named.is_list() else ('Option ℕ', 'None')
    given = {'many': 'child.items', 'one': 'Some child', 'optional': 'child'}
    rows = []
    for kind, field in named.of:
        places = ' '.join('child' if it is field else '_' for it in kind.fields)
        row = (named.contract, kind.enum, kind.enum, kind.name, places, given[field.sort.children])
        rows.append('%s (Kind.%s (%s.%s %s)) = %s' % row)
    return ['abbrev pub %s : Kind → %s' % (named.contract, result), *rows, '%s _ = %s' % (named.contract, none)]


def contract_named(table):
    """Returns the functions of contracts of all names, as parts of a file."""
    return [contract_lines(it) for it in named_of(table)]


def arm_line(enum, of):
    """Returns the arm of the kinds of one enum whose field is of one sort."""
    name, sort = of[0][1].name, of[0][1].sort.children
    value = {'one': 'Some(*%s)', 'optional': '*%s', 'many': '%s'}[sort] % name
    return '        Kind::%s(%s) => %s,' % (enum, ' | '.join(kind.pattern([name]) for kind, _ in of), value)


def arms_lines(table, named):
    """Returns the arms of the match of a name: for each enum the kinds that have the field, and then those that may have it."""
    lines = []
    for enum in table.enums:
        for sort in ('one', 'optional', 'many'):
            of = [it for it in named.of if it[0].enum == enum.name and it[1].sort.children == sort]
            lines += [arm_line(enum.name, of)] if of else []
    return [*lines, '        _ => %s,' % ('&[]' if named.is_list() else 'None')]


def whose(named):
    """Returns the kinds of a name, as its comments list them."""
    kinds = ['`%s`' % kind.name for kind, _ in named.of]
    return ('an ' if kinds[0][1] in 'AEIOU' else 'a ') + kinds[0] if len(kinds) == 1 else ', '.join(kinds)


def function_lines(table, named):
    """Returns the function of kinds of a name."""
    result, clause = ('&[NodeId]', 'result.now') if named.is_list() else ('Option<NodeId>', 'result')
    return ['pub(crate) fn %s(kind: &Kind) -> %s' % (named.function, result), '    ensures { %s ≡ %s kind.now }' % (clause, named.contract), '{',
            '    match kind {', *arms_lines(table, named), '    }', '}']


def functions_file(table):
    """Returns the functions of kinds of all names."""
    ghosts = ['ghost use Rattle.std.specs.Prelude.{◌≡◌};', use_line(table)]
    brought = [enum_names(table, 'crate::tree', 'NodeId')]
    doc = 'The fields of a kind that hold children, by their names: of a kind without the field none.'
    return code(doc, ghosts, brought, *(function_lines(table, it) for it in named_of(table)))


def method_lines(named):
    """Returns the method of a name."""
    if named.is_list():
        clause = 'result.now ≡ child_list_in_field (node_view self.entry) %s' % named.contract
        result, body = "&'a [NodeId]", ['kind_fields::%s(self.kind())' % named.function]
    else:
        clause = 'option_map node_view result ≡ child_in_field (node_view self.entry) %s' % named.contract
        body = ['let child = kind_fields::%s(self.kind());' % named.function, 'NodeRef::node_in(self.tree, child)']
        result = "Option<NodeRef<'a>>"
    doc = filled(('Returns the `%s` of %s.' % (named.field, whose(named))).split(' '), CLAUSE - 8, '    /// %s', ' ', '')
    return [*doc, '    pub fn %s(self) -> %s' % (named.method, result),
            '        ensures { %s }' % clause, '    {', *space_all(8, body), '    }']


COMMENT = (
    '/// Each gives the child of that field: none where the kind lacks the field, where the field is',
    '/// empty, or where the tree has no node of that number, which no checked tree has. Of a field',
    '/// that is a list the numbers are given: none where the kind lacks it.',
)


def methods_lines(table):
    """Returns the methods of all names."""
    lines = []
    for named in named_of(table):
        lines += ['', *method_lines(named)]
    return [*COMMENT, "impl<'a> NodeRef<'a> {", *lines[1:], '}']


def use_line(table):
    """Returns the line that imports the functions of contracts of all names."""
    return 'ghost use %sFields.{%s};' % (SPECS, ', '.join(it.contract for it in named_of(table)))


def methods_file(table):
    """Returns the file with the methods of all names."""
    ghosts = ['ghost use Rattle.std.specs.Prelude.{◌≡◌};', 'ghost use Rattle.std.specs.Option.{option_map};',
              'ghost use %sNodeRefs.{node_view, child_in_field, child_list_in_field};' % SPECS, use_line(table)]
    brought = ['use crate::tree::arena::NodeId;', 'use crate::tree::kind_fields;', 'use crate::tree::node_ref::NodeRef;']
    return code('The children of a node by the names of their fields.', ghosts, brought, methods_lines(table))
