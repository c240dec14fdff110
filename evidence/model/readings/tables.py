"""The table of a module as filters over the list of its events."""
from readings.events import Events
from rules.symbols import Table

DECLARING = ('declare', 'alias', 'fresh', 'default', 'member', 'expando')


def _fields(declaration) -> tuple:
    """All that a declaration says."""
    node = declaration.node
    spoken = None if node is None else (node.form, node.how, node.at, node.ident)
    return (declaration.kind, declaration.range, declaration.name, declaration.parts, declaration.source, spoken)


class TableByEvents:
    """The results of the filters over the events before the event number `end`; each of the lists by its definition."""

    def __init__(self, tree):
        self.events = Events(tree).list
        self.symbol, self.is_new, self.parent = [], [], []
        for at in range(len(self.events)):
            symbol, is_new, parent = self.symbol_of(at)
            self.symbol.append(symbol)
            self.is_new.append(is_new)
            self.parent += [parent] if is_new else []

    def declarations(self, symbol, end) -> list:
        return [event.declaration for at, event in enumerate(self.events[:end])
                if event.form in DECLARING and self.symbol[at] == symbol and (event.form != 'alias' or self.is_new[at])]

    def named(self, name, end) -> 'int | None':
        """Returns the symbol that a name of a scope resolves to."""
        for at in reversed(range(end)):
            if self.events[at].form in ('declare', 'alias', 'map') and self.events[at].name == name:
                return self.symbol[at]
        return None

    def _adds_to(self, at, symbol) -> bool:
        """Returns whether the event adds a static member or a property that is new to the symbol."""
        event = self.events[at]
        if event.form == 'expando':
            return self.is_new[at] and self.parent[self.symbol[at]] == symbol
        return event.form == 'member' and event.is_static and self.is_new[at] and self.symbol[event.holder] == symbol

    def exports(self, symbol, end) -> dict:
        found = {}
        for at, event in enumerate(self.events[:end]):
            if event.form == 'export' and self.symbol[event.holder] == symbol:
                found[event.name] = self.symbol[event.of]
            elif event.form == 'default' and self.symbol[event.holder] == symbol:
                found['default'] = self.symbol[at]
            elif self._adds_to(at, symbol) and event.declaration.maybe_name() is not None:
                found[event.declaration.maybe_name()] = self.symbol[at]
        return found

    def children(self, symbol, end) -> 'list[int]':
        found = {}
        for at, event in enumerate(self.events[:end]):
            if event.form == 'child' and self.symbol[event.holder] == symbol:
                found[self.symbol[event.of]] = None
            elif self._adds_to(at, symbol):
                found[self.symbol[at]] = None
            elif event.form == 'default' and self.is_new[at] and event.declaration.is_definition() \
                    and self.symbol[event.holder] == symbol:
                found[self.symbol[at]] = None
        return list(found)

    def members(self, symbol, end) -> 'list[int]':
        return [self.symbol[at] for at, event in enumerate(self.events[:end]) if event.form == 'member'
                and not event.is_static and self.is_new[at] and self.symbol[event.holder] == symbol]

    def _of_name(self, symbols, name, end):
        """Returns the first of the symbols with this name."""
        return next((it for it in symbols if self.declarations(it, end)[0].maybe_name() == name), None)

    def static(self, parent, name, end) -> 'int | None':
        found = self.exports(parent, end).get(name)
        return self._of_name(self.children(parent, end), name, end) if found is None else found

    def symbol_of(self, at):
        """Returns the symbol of an event, whether it is new, and the parent of a new one."""
        event = self.events[at]
        holder, found = None if event.holder is None else self.symbol[event.holder], None
        if event.form in ('export', 'child', 'star'):
            return None, False, None
        if event.form == 'map':
            return self.symbol[event.of], False, None
        if event.form in ('declare', 'alias'):
            found = self.named(event.name, at)
        elif event.form == 'default':
            found = self.exports(holder, at).get('default')
        elif event.form == 'member' and event.name is not None:
            found = self.static(holder, event.name, at) if event.is_static \
                else self._of_name(self.members(holder, at), event.name, at)
        elif event.form == 'expando':
            holder = self.named(event.name[0], at)
            if holder is None or not any(it.is_function() for it in self.declarations(holder, at)):
                return None, False, None
            found = self.static(holder, event.name[1], at)
        return (len(self.parent), True, holder) if found is None else (found, False, None)

    def overload(self, before, declaration) -> bool:
        if not before or not declaration.is_definition() or not declaration.has_body():
            return False
        node = declaration.node
        return (node.is_function() and before[-1].is_function()) or node.is_constructor() or node.is_method()

    def check(self, table: Table) -> None:
        """Checks that the table is the result of the filters, and satisfies the laws of tables."""
        end = len(self.events)
        assert len(table.symbols) == len(self.parent), 'symbols'
        for symbol in table.symbols:
            mine = self.declarations(symbol.number, end)
            assert symbol.parent == self.parent[symbol.number], ('parent', symbol.number)
            assert [_fields(it) for it in mine] == [_fields(it) for it in symbol.declarations], ('declarations', symbol.number)
            flags = [self.overload(mine[:at], it) for at, it in enumerate(mine)]
            assert flags == [it.overload for it in symbol.declarations], ('overloads', symbol.number)
            assert list(self.exports(symbol.number, end).items()) == list(symbol.exports.items()), ('exports', symbol.number)
            assert self.children(symbol.number, end) == list(symbol.children), ('children', symbol.number)
            assert self.members(symbol.number, end) == list(symbol.members), ('members', symbol.number)
            assert mine and (symbol.parent is None) == (symbol.number == 0), ('laws', symbol.number)
            assert symbol.parent is None or symbol.parent < symbol.number, ('laws', symbol.number)
        names = {event.name: self.symbol[at] for at, event in enumerate(self.events)
                 if event.form in ('declare', 'alias', 'map')}
        assert names == table.names, 'names'
        assert [it.of for it in self.events if it.form == 'star'] == [number for _, number in table.stars], 'stars'
