"""The sorts of fields: their forms in the code, in its contracts, and in a document."""
from dataclasses import dataclass


@dataclass(frozen=True)
class Sort:
    """A sort: its name in the table, its type in Rust, and its name and variable in the contracts of the reader. It also has the function that reads
    it, whether that needs an allocator, and its mark and word in a document. The word of a child is its category. A sort that holds children also
    has the function that makes a field of them."""

    name: str
    rust: str
    contract: str
    held: str
    call: str
    memory: bool
    mark: str
    word: str = ''
    children: str = ''


ALL = (
    Sort('child', 'NodeId', 'child', 'holds_child %s', 'fields::child', False, '', children='one'),
    Sort('optional child', 'Option<NodeId>', 'optional_child', 'holds_optional_child %s',
         'fields::optional_child', False, '?', children='optional'),
    Sort('children', 'Vec<NodeId>', 'children', 'holds_children %s.items', 'fields::children', True, '*', children='many'),
    Sort('text', 'String', 'text', 'holds_text (string_bytes %s)', 'fields::text', True, '', 'text'),
    Sort('optional text', 'Option<String>', 'optional_text', 'holds_optional_text (option_map string_bytes %s)',
         'fields::optional_text', True, '?', 'text'),
    Sort('flag', 'bool', 'flag', 'holds_flag %s', 'fields::flag', False, '?', 'flag'),
    Sort('identifier', 'Id', 'identifier', 'holds_identifier (identifier_view %s)', 'fields::identifier', True, '', 'name'),
    Sort('accessibility', 'Option<Accessibility>', 'accessibility', 'holds_accessibility %s',
         'member_keywords::accessibility', False, '?', 'access'),
    Sort('method kind', 'MethodKind', 'method_kind', 'holds_method_kind %s', 'member_keywords::method_kind', False, '', 'method kind'),
)

SORTS = {it.name: it for it in ALL}
