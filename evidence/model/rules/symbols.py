"""The symbols of one module: their declarations, tables and fully qualified names."""
from rules.declarations import DeclarationNode


class Declaration:
    """The form of a declaration, by `kind`: 'target' (another name of the module: `name`), 'qualified' (a name with `parts`), 'file' (`name` of the
    module that the specifier `source` resolves to; None for all of it) or 'definition' (`node`)."""
    __slots__ = ('kind', 'node', 'name', 'parts', 'source', 'range', 'overload')

    def __init__(self, kind, range_, node=None, name=None, parts=(), source=None):
        self.kind, self.range, self.node = kind, range_, node
        self.name, self.parts, self.source = name, list(parts), source
        self.overload = False

    def is_definition(self) -> bool:
        return self.kind == 'definition'

    def is_end(self) -> bool:
        """Returns whether paths end here: at a definition, or at all exports of a file."""
        return self.is_definition() or (self.kind == 'file' and self.name is None)

    def maybe_name(self) -> 'str | None':
        return self.node.maybe_name() if self.is_definition() else None

    def is_class(self) -> bool:
        return self.is_definition() and self.node.is_class()

    def is_function(self) -> bool:
        return self.is_definition() and self.node.is_function()

    def has_body(self) -> bool:
        return self.is_definition() and self.node.has_body()

    def dependencies(self, expressions: bool) -> list:
        return self.node.dependencies(expressions) if self.is_definition() else []


class Symbol:
    """A symbol by its number. `exports` has the first position of a name with its last symbol; `children` and `members` are ordered sets of numbers;
    the two maps of names have the first of each."""
    __slots__ = ('number', 'parent', 'declarations', 'exports', 'children', 'members', 'child_names', 'member_names')

    def __init__(self, number: int, parent: 'int | None'):
        self.number, self.parent, self.declarations = number, parent, []
        self.exports, self.children, self.members = {}, {}, {}
        self.child_names, self.member_names = {}, {}

    def maybe_name(self) -> 'str | None':
        return self.declarations[0].maybe_name()


class Table:
    """The symbols of a module, the symbol of each name of a scope, and the statements `export *`, each a specifier and its node."""
    __slots__ = ('symbols', 'names', 'stars')

    def __init__(self):
        self.symbols, self.names, self.stars = [], {}, []


def is_overload(before: 'list[Declaration]', added: Declaration) -> bool:
    """Returns the flag of a declaration that comes after those of its symbol: one with a body, of a function after a function, of a constructor or of
    a method."""
    if not before or not added.is_definition():
        return False
    node = added.node
    if node.is_function():
        return node.has_body() and before[-1].is_function()
    return (node.is_constructor() or node.is_method()) and node.has_body()


def full_name(table: Table, number: int) -> 'str | None':
    """Returns the name along the path from the module to the symbol, as `A.prototype.m` or `I["m"]`; None if one on it has no name, and for the
    module itself."""
    text, below, symbol = '', None, table.symbols[number]
    while symbol.parent is not None:
        name = symbol.maybe_name()
        if name is None:
            return None
        if not text:
            text = name
        elif below in symbol.members:
            is_class = symbol.declarations[0].is_class()
            text = name + ('.prototype.' + text if is_class else '["' + text.replace('"', '\\"') + '"]')
        else:
            text = name + '.' + text
        below, symbol = symbol.number, table.symbols[symbol.parent]
    return text or None


WHITE_SPACE = ''.join(map(chr, [9, 10, 11, 12, 13, 32, 0x85, 0xA0, 0x1680, *range(0x2000, 0x200B),
                                0x2028, 0x2029, 0x202F, 0x205F, 0x3000]))


def json_range(text: str) -> 'tuple[int, int]':
    """Returns the range of a JSON text in bytes, without white space around it; one of white space alone is at its end."""
    size = len(text.encode('utf-8'))
    left = len(text.lstrip(WHITE_SPACE).encode('utf-8'))
    return (size, size) if not left else (size - left, len(text.rstrip(WHITE_SPACE).encode('utf-8')))


def json_table(text: str) -> Table:
    """Returns the table of a JSON module, which has two symbols: itself, and its export `default`."""
    table = Table()
    for number, parent in ((0, None), (1, 0)):
        symbol = Symbol(number, parent)
        symbol.declarations.append(Declaration('definition', json_range(text), DeclarationNode(None, 'Json', None)))
        table.symbols.append(symbol)
    table.symbols[0].exports['default'] = 1
    table.symbols[0].children[1] = None
    return table
