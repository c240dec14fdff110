"""Checks whether the rules derive a list of paths for a symbol, with parts appended one after the other."""
from readings.relations import Relations, leaf_of
from rules.paths import End, Link, Unresolved


class Derivations:
    """The check; `changes` are the lists of appended parts, from the first on."""

    def __init__(self, relations: Relations):
        self.relations, self.root = relations, relations.root

    def is_derived(self, paths, module, symbol, changes) -> bool:
        """Returns whether there is at most one path for each declaration, in their order."""
        declarations, last = module.table.symbols[symbol].declarations, -1
        for path in paths:
            if isinstance(path, Unresolved) or path.module is not module or path.at[0] != symbol \
                    or not last < path.at[1] < len(declarations):
                return False
            last = path.at[1]
            if not self.is_path(path, module, symbol, last, changes):
                return False
        return True

    def is_path(self, path, module, symbol, place, changes) -> bool:
        declaration = module.table.symbols[symbol].declarations[place]
        if declaration.is_end():
            return self.is_end(path, module, symbol, place, changes)
        if not isinstance(path, Link) or not path.next:
            return False
        if list(path.parts) != list(changes[-1] if changes else declaration.parts):
            return False
        if declaration.kind == 'target':
            number = module.table.names.get(declaration.name)
            return number is not None and path.symbol == number and self.is_derived(path.next, module, number, changes)
        return path.symbol == symbol and self.leads_on(path.next, module, declaration, changes)

    def is_end(self, path, module, symbol, place, changes) -> bool:
        """Returns whether it is a path to a definition or a file: itself, and with parts its result."""
        leaf = ('end', module.number, symbol, place)
        if not changes:
            return isinstance(path, End) and leaf_of(path) == leaf
        end, goal = self.relations.outcome(leaf, tuple(changes[0]))
        if end is not None and end[0] == 'end':
            return self.is_end(path, module, symbol, place, changes[1:])
        if not isinstance(path, Link) or path.symbol != symbol or list(path.parts) != list(changes[-1]) or not path.next:
            return False
        if goal is None:
            return [leaf_of(it) for it in path.next] == [end]
        target, number, rest = goal
        return self.is_derived(path.next, target, number, ([rest] if rest else []) + changes[1:])

    def leads_on(self, paths, module, declaration, changes) -> bool:
        """Returns whether the path after an alias or an import of a name is derived."""
        leaves = [leaf_of(it) for it in paths]
        if declaration.kind == 'qualified':
            number, parts = module.table.names.get(declaration.name), tuple(declaration.parts)
            if number is None:
                return leaves == [('unresolved', module.number, 'id', declaration.name, parts)]
            return self.is_derived(paths, module, number, ([parts] if parts else []) + changes)
        target, name = self.root.dependency(declaration.source, module), declaration.name
        if target is None:
            return leaves == [('unresolved', module.number, 'specifier', declaration.source, ())]
        if name in target.own_exports():
            return self.is_derived(paths, target, target.own_exports()[name], changes)
        return leaves == [('unresolved', target.number, 'part', name, ())] or \
            any(self.is_derived(paths, owner, number, changes) for owner, number in self.relations.candidates(target, name))
