"""Generates the fields that hold children, of each kind in order, each with its category: in the code and in contracts."""
from .child_fields import contract_named
from .lines import code, contracts, uses
from .tree import DECLARED, SPECS, asked_lines, by_enum_lines, enum_names, enum_uses

# the functions of contracts that make a field, by the sort of its children
MADE = {'one': 'field_of_one_child', 'optional': 'field_of_optional_child', 'many': 'field_of_children'}


def arm_line(kind):
    """Returns the arm of a kind, in the method that returns its fields."""
    calls = ['%s(Category::%s, %s)' % (it.sort.children, it.category, it.name) for it in kind.children()]
    return '            %s => slots![%s],' % (kind.pattern([it.name for it in kind.children()]), ', '.join(calls))


def fields_lines(enum):
    """Returns the method that returns the fields of a kind of an enum."""
    clause = 'ensures { field_views result ≡ %s_fields self.now }' % enum.small()
    return ['impl %s {' % enum.name, "    fn fields(&self) -> Fields<'_>", '        ' + clause, '    {', '        match self {',
            *(arm_line(kind) for kind in enum.kinds), '        }', '    }', '}']


def fields_file(table):
    """Returns the file with the methods that return the fields of kinds."""
    names = ', '.join(['fields', *(it.small() + '_fields' for it in table.enums)])
    ghosts = ['ghost use Rattle.std.specs.Prelude.{◌≡◌, ◌∷◌, [], OnOk, ◌++◌};', 'ghost use Rattle.std.specs.List.{flat_map};',
              'ghost use %sFields.{%s};' % (SPECS, names),
              'ghost use %sFieldViews.{field_view, field_views, %s};' % (SPECS, ', '.join(MADE.values()))]
    brought = ['use crate::tree::categories::Category;', 'use crate::tree::field::{many, one, optional, slots, Fields};', enum_names(table)]
    asked = ['impl Kind {', '    /// Returns the fields that hold children, in their order.', "    pub fn fields(&self) -> Fields<'_>",
             *asked_lines(table, 'fields', 'field_views result ≡ fields self.now')]
    doc = 'The fields of each kind that hold children, and which kinds may stand there.'
    return code(doc, ghosts, brought, *(fields_lines(it) for it in table.enums), asked)


def row_of(name, kind):
    """Returns the row of a kind, in the function of contracts that has its fields."""
    given = [it.name if it.sort.children else '_' for it in kind.fields]
    views = ['%s Category.%s %s%s ∷ ' % (MADE[it.sort.children], it.category, it.name, '.items' if it.is_list() else '') for it in kind.children()]
    return '%s (%s.%s %s) = %s[]' % (name, kind.enum, kind.name, ' '.join(given), ''.join(views))


def contract_fields_lines(enum):
    """Returns the function of contracts that has the fields of a kind of an enum."""
    name = enum.small() + '_fields'
    return ['abbrev pub %s : %s → List FieldView' % (name, enum.name), *(row_of(name, it) for it in enum.kinds)]


def contract_fields_file(table):
    """Returns the functions of contracts that have the fields of kinds."""
    brought = [*uses('Rattle.std.specs.Prelude.{ℕ, List, [], ◌∷◌, Option, Some, None}', DECLARED + 'categories.Category.{Category}'),
               *enum_uses(table, SPECS + 'FieldViews.{FieldView, %s}' % ', '.join(MADE.values()))]
    doc = """The fields that hold children: of each kind in their order, each with the category that may stand there; and by their names, of a kind
without the field none."""
    listed = [*(contract_fields_lines(it) for it in table.enums), by_enum_lines(table, 'fields', 'List FieldView', 'fields')]
    return contracts(doc, brought, *listed, *contract_named(table))
