"""Finds where a symbol is defined, and resolves references: paths along other names, parts, imports and `export *`.

A path is a `Link` with further paths, or a leaf: an `End`, an `Unresolved`, or the `Module` of an import type without parts.
"""
from typing import NamedTuple

from rules.exports import export_of
from rules.root import Module, Root
from rules.symbols import Declaration, Symbol


class Link(NamedTuple):
    """A declaration with paths after it: `at` is the symbol and the index of the declaration there, `symbol` the one that is reported."""
    module: Module
    symbol: int
    at: 'tuple[int, int]'
    parts: 'list[str]'
    next: list


class End(NamedTuple):
    """A declaration at which a path ends."""
    module: Module
    symbol: int
    at: 'tuple[int, int]'
    declaration: Declaration


class Unresolved(NamedTuple):
    """What is unresolved: `kind` is 'id' (`name` a name of a scope), 'specifier' or 'part'."""
    module: Module
    kind: str
    name: object
    parts: 'list[str]'


class Search:
    """One search, in which each symbol is expanded once, and no alias takes part in resolving itself."""

    def __init__(self, root: Root):
        self.root, self.met, self.resolving = root, set(), set()

    def paths(self, module: Module, symbol: Symbol) -> list:
        key = (module.number, symbol.number)
        if key in self.met:
            return []
        self.met.add(key)
        found = []
        for index, declaration in enumerate(symbol.declarations):
            path = self.path(module, (symbol.number, index), declaration)
            found += [] if path is None else [path]
        return found

    def path(self, module, at, declaration) -> 'Link | End | None':
        if declaration.is_end():
            return End(module, at[0], at, declaration)
        told, following = at[0], []
        if declaration.kind == 'target':
            number = module.table.names.get(declaration.name)
            if number is not None:
                told, following = number, self.paths(module, module.table.symbols[number])
        elif declaration.kind == 'qualified':
            following = self.alias(module, at, declaration)
        else:
            following = self.imported(module, declaration)
        return Link(module, told, at, declaration.parts, following) if following else None

    def alias(self, module, at, declaration) -> list:
        number = module.table.names.get(declaration.name)
        if number is None:
            return [Unresolved(module, 'id', declaration.name, declaration.parts)]
        key = (module.number, at)
        if key in self.resolving:
            return []
        self.resolving.add(key)
        outer, self.met = self.met, set()
        found = self.walk(module, module.table.symbols[number], declaration.parts)
        self.met = outer
        self.resolving.discard(key)
        return found

    def imported(self, module, declaration) -> list:
        """Returns the export that an import resolves to: of the module's local exports, or of the first of its statements `export *` under which the
        name resolves to anything. By strict rules `default` is one of its local exports alone."""
        name, target = declaration.name, self.root.dependency(declaration.source, module)
        if target is None:
            return [Unresolved(module, 'specifier', declaration.source, [])]
        number = target.own_exports().get(name)
        if number is not None:
            return self.paths(target, target.table.symbols[number])
        for text in target.stars if self.root.passes_on(name) else ():
            behind = self.root.dependency(text, target)
            entry = None if behind is None else export_of(self.root, behind, name)
            found = [] if entry is None else self.paths(entry.module, entry.module.table.symbols[entry.symbol])
            if found:
                return found
        return [Unresolved(target, 'part', name, [])]

    def walk(self, module, symbol, parts) -> list:
        """Returns the paths to a symbol with remaining parts."""
        found = self.paths(module, symbol)
        return self.under(found, parts) if parts else found

    def under(self, paths, parts) -> list:
        return [path for path in (self.path_under(it, parts) for it in paths) if path is not None]

    def path_under(self, path, parts):
        """Returns the path when parts follow its target."""
        if isinstance(path, Unresolved):
            return path
        if isinstance(path, Link):
            following = self.under(path.next, parts)
        elif path.declaration.kind == 'file':
            target = self.root.dependency(path.declaration.source, path.module)
            following = self.exported(target, parts) if target is not None \
                else [Unresolved(path.module, 'specifier', path.declaration.source, parts)]
        else:
            number = path.module.table.symbols[path.symbol].exports.get(parts[0])
            if number is not None:
                following = self.walk(path.module, path.module.table.symbols[number], parts[1:])
            elif parts[0] == 'prototype' and path.declaration.is_class():
                return path
            else:
                following = [Unresolved(path.module, 'part', parts[0], parts)]
        return Link(path.module, path.symbol, path.at, parts, following) if following else None

    def exported(self, module, parts) -> list:
        """Returns the paths to the first part, as an export of the module, with the remaining parts."""
        entry = export_of(self.root, module, parts[0])
        if entry is None:
            return [Unresolved(module, 'part', parts[0], parts)]
        return self.walk(entry.module, entry.module.table.symbols[entry.symbol], parts[1:])

    def resolve(self, module, reference) -> list:
        """Resolves a reference: ('id', name), ('qualified', name, parts) or ('import', text, parts)."""
        if reference[0] == 'import':
            _, text, parts = reference
            target = self.root.dependency(text, module)
            if target is None:
                return [Unresolved(module, 'specifier', text, parts)]
            return self.exported(target, parts) if parts else [target]
        parts = reference[2] if reference[0] == 'qualified' else []
        number = module.table.names.get(reference[1])
        if number is None:
            return [Unresolved(module, 'id', reference[1], parts)]
        return self.walk(module, module.table.symbols[number], parts)


def definition_paths(root: Root, module: Module, number: int) -> list:
    return Search(root).paths(module, root.symbol(module, number))


def ends(paths) -> list:
    """Returns the leaves from left to right."""
    found, stack = [], paths[::-1]
    while stack:
        path = stack.pop()
        if isinstance(path, Link):
            stack += path.next[::-1]
        else:
            found.append(path)
    return found
