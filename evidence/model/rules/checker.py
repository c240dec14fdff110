"""The checker: which graphs are refused, and with which fault, the first in the stated order."""
from rules.faults import GraphFault
from rules.graph import ModuleGraph
from rules.json_text import U32
from rules.kinds import CHILD_FIELDS
from rules.raw_graph import Node, RawGraph, Tree

MAX_DEPTH = 4096


def children_of(node: Node) -> 'list[int]':
    """Returns the children in the order of the fields, lists in order."""
    found = []
    for name, form, _ in CHILD_FIELDS[node.kind]:
        value = node.fields[name]
        if form == 'child*':
            found.extend(value)
        elif value is not None:
            found.append(value)
    return found


def _stands_outside_its_category(nodes: 'list[Node]', node: Node) -> bool:
    for name, form, allowed in CHILD_FIELDS[node.kind]:
        value = node.fields[name]
        children = value if form == 'child*' else [] if value is None else [value]
        if any(nodes[child].kind not in allowed for child in children):
            return True
    return False


def _is(nodes: 'list[Node]', number: int, kind: str) -> bool:
    """Returns whether the node has the kind; a missing grandchild has none."""
    return number < len(nodes) and nodes[number].kind == kind


def _breaks_a_rule(nodes: 'list[Node]', node: Node) -> bool:
    """Returns whether a node breaks a rule of form that categories don't express. The children of the node are known to exist."""
    fields = node.fields
    if node.kind == 'ExportDefaultSpecifier':
        return True
    if node.kind == 'ExportNamed' and fields['src'] is None:
        named = [nodes[child] for child in fields['specifiers']]
        return any(it.kind == 'ExportNamespace' or _is(nodes, it.fields['orig'], 'Str') for it in named)
    if node.kind == 'TsImportEqualsDecl':
        return (fields['entity'] is None) == (fields['external'] is None)
    if node.kind == 'TsParamProp':
        parameter = nodes[fields['param']]
        return parameter.kind == 'AssignPat' and not _is(nodes, parameter.fields['left'], 'BindingIdent')
    return False


def _is_in_text(node: Node, data: bytes) -> bool:
    """Returns whether the range is one of the text, with both ends between two characters."""
    def stands_between(place):
        return place == len(data) or data[place] & 0xC0 != 0x80
    return node.start <= node.end <= len(data) and stands_between(node.start) and stands_between(node.end)


def check_tree(tree: Tree, text: str, max_depth=MAX_DEPTH) -> 'tuple | None':
    """Returns the first fault of a tree, in the order of its nodes: its number, and the node if it names one."""
    nodes, data = tree.nodes, text.encode('utf-8')
    if not nodes or nodes[0].kind != 'Program':
        return (1,)
    if len(nodes) > U32:
        return (2,)
    taken, depth = bytearray(len(nodes)), [1] * len(nodes)
    for number, node in enumerate(nodes):
        children = children_of(node)
        if any(not number < child < len(nodes) for child in children):
            return (3, number)
        for child in children:
            if taken[child]:
                return (4, number)
            taken[child] = 1
            depth[child] = depth[number] + 1
        if not _is_in_text(node, data):
            return (5, number)
        if _stands_outside_its_category(nodes, node) or _breaks_a_rule(nodes, node):
            return (6, number)
        if depth[number] > max_depth:
            return (7, number)
    return None


def _check_twice(number: int, keys) -> None:
    met = set()
    for key in keys:
        if key in met:
            raise GraphFault(number, *key)
        met.add(key)


def check_graph(raw: RawGraph) -> ModuleGraph:
    """Returns the graph, or raises a refusal by its first fault."""
    if len(raw.modules) > U32:
        raise GraphFault(2)
    _check_twice(3, [(module.specifier,) for module in raw.modules])
    _check_twice(4, [(source,) for source, _ in raw.redirects])
    sources = {source for source, _ in raw.redirects}
    for source, target in raw.redirects:
        if target in sources:
            raise GraphFault(5, source)
    _check_twice(6, [(referrer, text) for referrer, text, _ in raw.resolutions])
    for module in raw.modules:
        if module.kind == 'esm' and module.tree is not None:
            fault = check_tree(module.tree, module.text)
            if fault is not None:
                raise GraphFault(7, module.specifier, *fault)
    return ModuleGraph(raw)
