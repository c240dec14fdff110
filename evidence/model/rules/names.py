"""Names of nodes: of keys, of parts after a name, of assigned properties, and those that a pattern binds."""
from rules.identifiers import is_identifier

Name = 'tuple[str, int]'  # a text and its scope


def name_of_expression_key(nodes, number: int) -> 'str | None':
    key = nodes[number]
    if key.kind == 'Ident':
        return key.fields['sym'][0]
    if key.kind == 'Str':
        return key.fields['value']
    if key.kind in ('Num', 'BigInt'):
        return key.fields['text']
    return None


def name_of_key(nodes, number: int) -> 'str | None':
    """Returns the name of a member's key; a BigInt has none."""
    key = nodes[number]
    if key.kind == 'IdentName':
        return key.fields['name']
    if key.kind == 'Str':
        return key.fields['value']
    if key.kind == 'Num':
        return key.fields['text']
    if key.kind == 'Computed':
        return name_of_expression_key(nodes, key.fields['expr'])
    if key.kind == 'PrivateName':
        return '#' + key.fields['name']
    return None


def assigned_property(nodes, number: int):
    """Returns the name of the object and the property of an assignment as `f.p = 1` or `f["p"] = 1`; None for any other node."""
    assignment = nodes[number]
    if assignment.kind != 'Assign' or not assignment.fields['plain']:
        return None
    member = nodes[assignment.fields['left']]
    if member.kind != 'Member':
        return None
    target, key = nodes[member.fields['obj']], nodes[member.fields['prop']]
    if target.kind != 'Ident':
        return None
    if key.kind == 'IdentName':
        name = key.fields['name']
    elif key.kind == 'Computed' and nodes[key.fields['expr']].kind == 'Str':
        name = nodes[key.fields['expr']].fields['value']
    else:
        return None
    return (target.fields['sym'], name) if is_identifier(name) else None


def entity_name(nodes, number: int):
    """Returns the leftmost name and the parts after it."""
    parts, node = [], nodes[number]
    while node.kind == 'TsQualifiedName':
        parts.insert(0, node.fields['right'])
        node = nodes[node.fields['left']]
    return node.fields['sym'], parts


def member_chain(nodes, number: int):
    """Returns the leftmost name and the parts of a chain as `a.b["c"].#d`; None for any other node."""
    parts, node = [], nodes[number]
    while node.kind == 'Member':
        key = nodes[node.fields['prop']]
        if key.kind == 'IdentName':
            parts.insert(0, key.fields['name'])
        elif key.kind == 'PrivateName':
            parts.insert(0, '#' + key.fields['name'])
        elif nodes[key.fields['expr']].kind == 'Str':
            parts.insert(0, nodes[key.fields['expr']].fields['value'])
        else:
            return None
        node = nodes[node.fields['obj']]
    return (node.fields['sym'], parts) if node.kind == 'Ident' else None


# by kind of pattern, the field of the patterns within it
WITHIN = {'ArrayPat': 'elems', 'ObjectPat': 'props', 'RestPat': 'arg', 'KeyValuePatProp': 'value',
          'AssignPatProp': 'key', 'AssignPat': 'left'}


def bound_names(nodes, number: int) -> 'list[int]':
    """Returns the nodes of the names that a pattern binds, in order."""
    found, stack = [], [number]
    while stack:
        number = stack.pop()
        node = nodes[number]
        if node.kind == 'BindingIdent':
            found.append(number)
        elif node.kind in WITHIN:
            within = node.fields[WITHIN[node.kind]]
            stack.extend(reversed(within) if type(within) is list else [within])
    return found
