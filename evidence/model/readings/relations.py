"""Computes the leaves of a symbol, with or without parts after it: the least relations closed under the rules, by iteration
until nothing is added.

A leaf is ('end', module, symbol, index of the declaration) or ('unresolved', module, kind, name, parts), with modules by
their numbers. A goal is a module, a symbol and the parts after it."""
from readings.chains import exports_by_chains
from rules.paths import End, Unresolved
from rules.root import Module, Root


def leaf_of(path):
    if isinstance(path, End):
        return ('end', path.module.number, path.symbol, path.at[1])
    if isinstance(path, Unresolved):
        return ('unresolved', path.module.number, path.kind, path.name, tuple(path.parts))
    return None


class Relations:
    """The relations over all modules of a root, which are stored already."""

    def __init__(self, root: Root):
        self.root, self._entries = root, {}

    def entry(self, module: Module, name: str):
        """Returns the exporter and the symbol of an exported name."""
        if module.number not in self._entries:
            resolved, _ = exports_by_chains(self.root, module)
            self._entries[module.number] = {exported: (self.root.modules[self.root.numbers[owner]], number)
                                            for exported, _, owner, number in resolved}
        return self._entries[module.number].get(name)

    def candidates(self, module: Module, name: str) -> list:
        """Returns the exporters of a name after each statement `export *`, in order; by strict rules none of `default`."""
        if self.root.strict and name == 'default':
            return []
        targets = [self.root.dependency(text, module) for text in module.stars]
        found = [self.entry(target, name) for target in targets if target is not None]
        return [it for it in found if it is not None]

    def declarations(self, module, symbol) -> list:
        return module.table.symbols[symbol].declarations

    def leads(self, module, symbol, place, first_candidate=False):
        """Returns the targets of a declaration: leaves, and goals whose leaves are its own. Of the candidates of an import either all are included,
        with the open part beside them, or the first alone."""
        declaration = self.declarations(module, symbol)[place]
        if declaration.is_end():
            return [('end', module.number, symbol, place)], []
        if declaration.kind in ('target', 'qualified'):
            number, parts = module.table.names.get(declaration.name), tuple(declaration.parts)
            if number is not None:
                return [], [(module, number, parts)]
            is_alias = declaration.kind == 'qualified'
            return ([('unresolved', module.number, 'id', declaration.name, parts)] if is_alias else []), []
        target, name = self.root.dependency(declaration.source, module), declaration.name
        if target is None:
            return [('unresolved', module.number, 'specifier', declaration.source, ())], []
        if name in target.own_exports():
            return [], [(target, target.own_exports()[name], ())]
        found = [(owner, number, ()) for owner, number in self.candidates(target, name)]
        is_open = not (first_candidate and found)
        return ([('unresolved', target.number, 'part', name, ())] if is_open else []), \
            (found[:1] if first_candidate else found)

    def outcome(self, leaf, parts):
        """Returns the result of a leaf with parts after it: a leaf, or a goal."""
        if leaf[0] == 'unresolved':
            return leaf, None
        module, symbol, part = self.root.modules[leaf[1]], leaf[2], parts[0]
        declaration = self.declarations(module, symbol)[leaf[3]]
        if declaration.kind == 'file':
            target = self.root.dependency(declaration.source, module)
            if target is None:
                return ('unresolved', module.number, 'specifier', declaration.source, parts), None
            entry = self.entry(target, part)
            if entry is None:
                return ('unresolved', target.number, 'part', part, parts), None
            return None, (*entry, parts[1:])
        number = module.table.symbols[symbol].exports.get(part)
        if number is not None:
            return None, (module, number, parts[1:])
        if part == 'prototype' and declaration.is_class():
            return leaf, None
        return ('unresolved', module.number, 'part', part, parts), None

    def step(self, goal, leaves_of, first_candidate) -> frozenset:
        """Returns the leaves of a goal, by those of the goals that it depends on."""
        module, symbol, parts = goal
        found = set()
        if parts:
            for leaf in leaves_of((module, symbol, ())):
                end, further = self.outcome(leaf, parts)
                found |= {end} if further is None else leaves_of(further)
            return frozenset(found)
        for place in range(len(self.declarations(module, symbol))):
            leaves, goals = self.leads(module, symbol, place, first_candidate)
            found.update(leaves)
            for further in goals:
                found |= leaves_of(further)
        return frozenset(found)

    def leaves(self, module, symbol, parts=(), first_candidate=False) -> frozenset:
        """Returns all leaves of a goal: the least solution."""
        first = (module, symbol, parts)
        found, users, waiting = {first: frozenset()}, {}, [first]
        while waiting:
            goal = waiting.pop()

            def leaves_of(asked):
                users.setdefault(asked, set()).add(goal)
                if asked not in found:
                    found[asked] = frozenset()
                    waiting.append(asked)
                return found[asked]

            leaves = self.step(goal, leaves_of, first_candidate)
            if leaves != found[goal]:
                found[goal] = leaves
                waiting.extend(users.get(goal, ()))
        return found[first]

    def first_reach(self, module, symbol) -> set:
        """Returns the leaves that are reached without an alias, by the first candidate of each import."""
        met, waiting, found = {(module, symbol)}, [(module, symbol)], set()
        while waiting:
            at = waiting.pop()
            for place, declaration in enumerate(self.declarations(*at)):
                leaves, goals = self.leads(*at, place, True)
                found.update(leaves)
                for target, number, _ in goals if declaration.kind != 'qualified' else ():
                    if (target, number) not in met:
                        met.add((target, number))
                        waiting.append((target, number))
        return found
