"""Generates the reader of graphs: its functions, a file for each enum, and its contracts on keys, sorts and kinds' names."""
from .lines import clause, code, contracts, space_all, uses
from .sorts import SORTS
from .tree import DECLARED, SPECS, by_enum_lines, enum_uses

# the most letters of the names of fields that are read one by one
SHORT = 18

USES = (
    'Rattle.std.specs.Prelude.{option_map}',
    'Rattle.symbols_ast.specs.declared.tree.names.KindName.TheVariants as Name',
    'Rattle.symq_reader.specs.inner.Objects.{object_data}',
    'Rattle.symq_reader.specs.inner.Reading.{IsReadResult}',
    'Rattle.symq_reader.specs.KindShapes.{read_as_kind}',
)


def call_of(field):
    """Returns the call that reads a field."""
    return '%s(%sobject, "%s")?' % (field.sort.call, 'alloc, ' if field.sort.memory else '', field.key)


def asks(kind):
    """Returns whether the function that reads the kind needs an allocator."""
    return any(it.sort.memory for it in kind.fields)


def are_read_apart(kind):
    """Returns whether the fields are read one by one: few with short names, of which none but the last shadows the name of the object."""
    names = [it.name for it in kind.fields]
    return len(names) <= 2 and len(', '.join(names)) <= SHORT and not {'alloc', 'object'} & set(names[:-1])


def body_lines(kind):
    """Returns the body of the function that reads a kind, with fields that are read one by one or in their places."""
    if are_read_apart(kind):
        names = ', '.join(it.name for it in kind.fields)
        lets = ['let %s = %s;' % (it.name, call_of(it)) for it in kind.fields]
        return [*lets, 'Ok(%s::%s { %s })' % (kind.enum, kind.name, names)]
    places = ['%s: %s,' % (it.name, call_of(it)) for it in kind.fields]
    return ['Ok(%s::%s {' % (kind.enum, kind.name), *space_all(4, places), '})']


def head_line(start, given, result):
    """Returns the head of a function."""
    return '%s(%s) -> Result<%s, FormatFault>' % (start, ', '.join(given), result)


def kind_lines(enum, kind):
    """Returns the function that reads a kind."""
    said = ['/// The kind that the text calls `%s`.' % kind.text] if kind.text != kind.name else []
    if kind.is_first:
        said.append('/// Tried before all other kinds, by `kinds`.')
    given = ["object: &Object<'_, '_>"]
    head = head_line(('pub(crate) fn ' if kind.is_first else 'fn ') + kind.reader, ['alloc: Global', *given] if asks(kind) else given, enum.name)
    promise = 'ensures { IsReadResult %s_name_and_field_values result (read_as_kind Name.%s (object_data object.now)) }' % (enum.small(), kind.name)
    return [*said, head, '    ' + promise, '{', *space_all(4, body_lines(kind)), '}']


def chosen_lines(enum):
    """Returns the function that reads the kind of a name, if it is one of the enum."""
    name, given = enum.small(), ['alloc: Global', 'kind: &str', "object: &Object<'_, '_>"]
    head = head_line('pub(crate) fn ' + name, given, 'Option<%s>' % enum.name)
    arms = []
    for it in enum.kinds:
        arms.append('        "%s" => some_kind(%s(%sobject)),' % (it.text, it.reader, 'alloc, ' if asks(it) else ''))
    promise = 'ensures { IsReadResult (option_map %s_name_and_field_values) result (read_%s kind.now (object_data object.now)) }' % (name, name)
    return ['/// ' + enum.reader, '#[tactic(auto, unfolding(crate::specs::KindShapesTable::read_%s))]' % name, head,
            '    ' + promise, '{', '    match kind {', *arms, '        _ => Ok(None),', '    }', '}']


def enum_file(enum):
    """Returns the file of an enum."""
    name = enum.small()
    ghosts = [*USES, 'Rattle.symq_reader.specs.KindShapesTable.{read_%s, %s_name_and_field_values}' % (name, name)]
    words = any(it.sort.call.startswith('member_keywords::') for kind in enum.kinds for it in kind.fields)
    brought = ['use crate::faults::FormatFault;', 'use crate::fields::{self, Object};', *(['use crate::member_keywords;'] if words else []),
               'use crate::kinds::some_kind;', 'use std::alloc::Global;', 'use symbols_ast::tree::%s;' % enum.name]
    functions = [kind_lines(enum, kind) for kind in enum.kinds]
    return code(enum.comment, ['ghost use %s;' % it for it in ghosts], brought, *functions, chosen_lines(enum))


def fields_of_lines(table):
    """Returns the function of contracts that has each kind's fields by key and sort."""
    lines = ['abbrev pub json_fields_of_kind : KindName → List (List ℕ × JsonFieldSort)']
    for enum in table.enums:
        lines.append('-- ' + clause(enum.comment))
        for kind in enum.kinds:
            fields = ['(codes "%s", %s) ∷ ' % (it.key, it.sort.contract) for it in kind.fields]
            lines.append('json_fields_of_kind Name.%s = %s[]' % (kind.name, ''.join(fields)))
    return lines


def texts_lines(enum):
    """Returns the list of contracts that has the names of an enum's kinds."""
    name = enum.small() + '_kind_names_by_text'
    rows = ['    (codes "%s", Name.%s) ∷' % (it.text, it.name) for it in enum.kinds]
    return ['abbrev pub %s : List (List ℕ × KindName)' % name, name + ' =', *rows, '    []']


def slots_lines(enum):
    """Returns the function of contracts that has the values of the fields of an enum's kinds, by key."""
    name, rows = enum.small() + '_field_values', []
    for kind in enum.kinds:
        slots = ['(codes "%s", %s) ∷ ' % (it.key, it.sort.held % it.name) for it in kind.fields]
        rows.append('%s (%s.%s %s) = %s[]' % (name, enum.name, kind.name, ' '.join(it.name for it in kind.fields), ''.join(slots)))
    return ['abbrev pub %s : %s → List (List ℕ × JsonFieldValue)' % (name, enum.name), *rows]


def chosen_contract_lines(enum):
    """Returns the function of contracts that reads the kind of a name, if it is one of the enum."""
    name = enum.small()
    return ['unfoldable pub read_%s : List ℕ → Data → Option (Option KindNameAndFieldValues)' % name,
            'read_%s t d = read_if_kind_named (kind_name_by_text %s_kind_names_by_text t) d' % (name, name)]


def shape_lines(enum):
    """Returns the function of contracts that has a kind of an enum as it is read."""
    name = enum.small()
    return ['abbrev pub %s_name_and_field_values : %s → KindNameAndFieldValues' % (name, enum.name),
            '%s_name_and_field_values k = record { name = %s_kind_name k; slots = %s_field_values k }' % (name, name, name)]


def kind_table_file(table):
    """Returns the file of contracts with each kind's fields and name."""
    sorts = ', '.join(it.contract for it in SORTS.values())
    brought = uses('Rattle.std.specs.Prelude.{ℕ, List, [], ◌∷◌, codes}', DECLARED + 'names.KindName.{KindName}',
                   DECLARED + 'names.KindName.TheVariants as Name', 'Rattle.symq_reader.specs.Kinds.{JsonFieldSort, %s}' % sorts)
    doc = """The kinds as the text of a graph has them: each kind's fields by key and sort, and the text of each kind, by the enum that has
the kind. KindShapesTable has these keys and sorts in this order once more, beside the fields of the tree's kinds: a reading
function is proved only where the two lists have the same."""
    return contracts(doc, brought, fields_of_lines(table), *(texts_lines(it) for it in table.enums))


def kind_shapes_table_file(table):
    """Returns the file of contracts with the values of each kind's fields."""
    held = ', '.join(it.held.split()[0] for it in SORTS.values())
    texts, names = (', '.join(it.small() + end for it in table.enums) for end in ('_kind_names_by_text', '_kind_name'))
    brought = uses('Rattle.std.specs.Prelude.{ℕ, List, [], ◌∷◌, Option, option_map, codes, string_bytes}', 'Rattle.serde_json.specs.Data.{Data}',
                   SPECS + 'Kinds.{%s}' % names)
    brought += enum_uses(table, 'Rattle.symq_reader.specs.Kinds.{JsonFieldValue, %s, kind_name_by_text}' % held, 'Rattle.symq_reader.specs.KindTable.{%s}' % texts,
                         'Rattle.symq_reader.specs.KindShapes.{KindNameAndFieldValues, read_if_kind_named, identifier_view}')
    doc = """The kinds as they are read, by the enum that has them: each field of the tree's kinds under its key. The names in a row stand
for the fields by place alone. It is the reading function that ties a key to a field, since it names both: where two names
of a row are swapped, it is not proved."""
    lists = [make(it) for make in (chosen_contract_lines, slots_lines, shape_lines) for it in table.enums]
    return contracts(doc, brought, *lists, by_enum_lines(table, 'kind_name_and_field_values', 'KindNameAndFieldValues', 'name_and_field_values'))
