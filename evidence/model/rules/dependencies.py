"""The dependencies of a declaration: the references on the open edges from it, each in the namespace of the last mark."""
from rules.kinds import BEGIN, CATEGORIES, EDGES, SIG_EDGES
from rules.names import entity_name, member_chain

MARKS = {'T': 'type', 'V': 'value', 'B': 'both'}
SIGNATURE_KINDS, TYPE_KINDS = CATEGORIES['SIG'], CATEGORIES['TYPE']
ASSERTIONS = ('TsAsExpr', 'TsTypeAssertion')


def is_annotated(nodes, number: int) -> bool:
    """Returns whether a pattern has an annotation, for an initial value after it."""
    pattern = nodes[number]
    while pattern.kind == 'AssignPat':
        pattern = nodes[pattern.fields['left']]
    return pattern.fields.get('type_ann') is not None


class Walk:
    """The open edges from one node: each step is a node, the mark so far, and how it is visited, which is 'plain', 'signature', 'self' (it is the
    reference) or 'chain'."""

    def __init__(self, nodes, expressions: bool):
        self.nodes, self.expressions = nodes, expressions

    def steps(self, number: int, edges, mark) -> list:
        found = []
        for edge in edges:
            found += self.steps_of(number, edge, mark)
        return found

    def steps_of(self, number, edge, mark) -> list:
        if edge.special == 'begin':
            return self.steps(number, EDGES[edge.into], mark)
        if edge.special == 'P':
            return [(at, mark, 'plain') for at in self.parameter(number)]
        if edge.special in ('self', 'chain'):
            return [(number, mark, edge.special)]
        node = self.nodes[number]
        children = node.fields[edge.field]
        if children is None or self.is_closed(node, edge, children):
            return []
        children = children if type(children) is list else [children]
        if edge.into is not None:
            return [step for child in children for step in self.steps(child, EDGES[edge.into], mark)]
        return [self.step_to(node, edge, child, mark) for child in children]

    def parameter(self, number) -> 'list[int]':
        """Returns for a parameter property its annotation, or an assertion as its initial value."""
        parameter = self.nodes[self.nodes[number].fields['param']]
        if parameter.kind != 'AssignPat':
            return [] if parameter.fields['type_ann'] is None else [parameter.fields['type_ann']]
        annotation, value = self.nodes[parameter.fields['left']].fields['type_ann'], parameter.fields['right']
        if annotation is not None:
            return [annotation]
        return [value] if self.nodes[value].kind in ASSERTIONS else []

    def is_closed(self, node, edge, children) -> bool:
        fields = node.fields
        if edge.special == 'computed':
            return not fields['computed']
        if edge.special == 'arrow':
            return fields['return_type'] is not None or fields['is_block']
        if edge.guard == 'e':
            return not self.expressions
        if edge.guard != 'i':
            return False
        pattern = {'VarDeclarator': 'name', 'AssignPat': 'left'}.get(node.kind)
        if fields['type_ann'] is not None if pattern is None else is_annotated(self.nodes, fields[pattern]):
            return True
        return not self.expressions and self.nodes[children].kind not in ASSERTIONS

    def step_to(self, node, edge, child, mark):
        kind, signature = self.nodes[child].kind, edge.sig
        if edge.mark == 'C':
            mark = 'value' if kind == 'Computed' else mark
        elif edge.mark is not None:
            mark = MARKS[edge.mark]
        if edge.special == 'list':
            mark = 'type' if kind in TYPE_KINDS else 'value' if kind == 'Computed' else mark
            signature = node.kind == 'Type' and kind in SIGNATURE_KINDS
        elif edge.special == 'rest':
            signature = kind == 'RestPat'
        return (child, mark, 'signature' if signature else 'plain')


def reference(nodes, number: int):
    """Returns the reference of a node: ('id', name), ('qualified', name, parts) or ('import', text, parts)."""
    node = nodes[number]
    if node.kind == 'Ident':
        return ('id', node.fields['sym'])
    if node.kind == 'TsQualifiedName':
        return ('qualified',) + entity_name(nodes, number)
    parts = []
    if node.fields['qualifier'] is not None:
        name, behind = entity_name(nodes, node.fields['qualifier'])
        parts = [name[0]] + behind
    return ('import', node.fields['arg'], parts)


def begin(declaration) -> int:
    """Returns the node whose edges a declaration begins with."""
    field = {'Class': 'class', 'Fn': 'function'}.get(declaration.form)
    return declaration.at if field is None else declaration.node().fields[field]


def dependencies(declaration, expressions: bool) -> list:
    """Returns the references of a declaration in the order of their paths, each with its namespace."""
    nodes = declaration.tree.nodes
    walk, found = Walk(nodes, expressions), []
    edges = BEGIN[declaration.form]
    stack = walk.steps(begin(declaration), edges, None)[::-1] if edges else []
    while stack:
        number, mark, how = stack.pop()
        if how == 'self':
            found.append((reference(nodes, number), mark or 'value'))
        elif how == 'chain':
            chain = member_chain(nodes, number)
            if chain is not None:
                found.append((('qualified',) + chain, mark or 'value'))
            else:
                fields = nodes[number].fields
                stack += [(fields['prop'], mark, 'plain'), (fields['obj'], mark, 'plain')]
        else:
            kind = nodes[number].kind
            edges = SIG_EDGES[kind] if how == 'signature' and kind in SIG_EDGES else EDGES[kind]
            stack += walk.steps(number, edges, mark)[::-1]
    return found
