"""Generates the tree: the enums of kinds and their names, in the code and in contracts."""
from .lines import code, space_all, uses

SPECS, DECLARED = 'Rattle.symbols_ast.specs.', 'Rattle.symbols_ast.specs.declared.tree.'


def enum_names(table, within='crate::tree::kinds', *others):
    """Returns the enums of kinds, that of all of them, and other names, as a file of code imports them."""
    return 'use %s::{%s};' % (within, ', '.join(sorted([*(it.name for it in table.enums), 'Kind', *others])))


def enum_uses(table, *others):
    """Returns the lines of a file of contracts that import the enums of kinds and that of all of them."""
    return uses(*(DECLARED + 'kinds.%s.{%s}' % (name, name) for name in [*(it.name for it in table.enums), 'Kind']), *others)


def enum_lines(enum):
    """Returns an enum, with the fields of its kinds."""
    lines = ['/// ' + enum.comment, '#[derive(Drop)]', 'pub enum %s {' % enum.name]
    for kind in enum.kinds:
        fields = ['%s: %s,' % (it.name, it.sort.rust) for it in kind.fields]
        lines += space_all(4, ['/// ' + kind.comment, kind.name + ' {', *space_all(4, fields), '},'])
    return [*lines, '}']


def kinds_file(table):
    """Returns the file with the enums of kinds, and the enum of all enums."""
    rows = ['    %s(%s),' % (it.name, it.name) for it in table.enums]
    whole = ['/// The kind of a node, with its fields.', '#[derive(Drop)]', 'pub enum Kind {', *rows, '}']
    brought = ['use crate::tree::arena::{Id, NodeId};', 'use crate::tree::member_kinds::{Accessibility, MethodKind};']
    return code('The kinds of nodes, each with its fields.', brought, *(enum_lines(it) for it in table.enums), whole)


def asked_lines(table, method, promise):
    """Returns the method of all kinds that calls a method of the kind's enum."""
    arms = ['            Kind::%s(%s) => %s.%s(),' % (it.name, it.small(), it.small(), method) for it in table.enums]
    return ['        ensures { %s }' % promise, '    {', '        match self {', *arms, '        }', '    }', '}']


def name_of_lines(enum):
    """Returns the method that names a kind of an enum."""
    arms = ['            %s::%s { .. } => KindName::%s,' % (enum.name, it.name, it.name) for it in enum.kinds]
    promise = 'ensures { result ≡ %s_kind_name self.now }' % enum.small()
    return ['impl %s {' % enum.name, '    fn name(&self) -> KindName', '        ' + promise, '    {', '        match self {',
            *arms, '        }', '    }', '}']


def names_file(table):
    """Returns the file with the enum of names, and the methods that name kinds."""
    brought = ', '.join(['kind_name', *(it.small() + '_kind_name' for it in table.enums)])
    ghosts = ['ghost use Rattle.std.specs.Prelude.{◌≡◌};', 'ghost use %sKinds.{%s};' % (SPECS, brought)]
    names = ['/// The name of a kind: the kind without its fields.', '#[derive(Clone, Copy, Debug, PartialEq, Eq, Hash)]', 'pub enum KindName {',
             *('    %s,' % it.name for it in table.kinds()), '}']
    asked = ['impl Kind {', '    /// Returns the name of the kind.', '    pub fn name(&self) -> KindName',
             *asked_lines(table, 'name', 'result ≡ kind_name self.now')]
    return code('The names of the kinds.', ghosts, [enum_names(table)], names, *(name_of_lines(it) for it in table.enums), asked)


def contract_names_lines(enum):
    """Returns the function of contracts that names a kind of an enum."""
    name = enum.small() + '_kind_name'
    rows = ['%s (%s.%s%s) = Name.%s' % (name, enum.name, it.name, ' _' * len(it.fields), it.name) for it in enum.kinds]
    return ['abbrev pub %s : %s → KindName' % (name, enum.name), *rows]


def by_enum_lines(table, name, result, of):
    """Returns a function of contracts that calls the function of the kind's enum, which is named after the enum and `of`."""
    rows = ['%s (Kind.%s k) = %s_%s k' % (name, it.name, it.small(), of) for it in table.enums]
    return ['abbrev pub %s : Kind → %s' % (name, result), *rows]


def contract_names(table):
    """Returns the functions of contracts that name kinds, as parts of a file."""
    whole = ['-- the kind without its fields', *by_enum_lines(table, 'kind_name', 'KindName', 'kind_name')]
    return [*(contract_names_lines(it) for it in table.enums), whole]
