"""The checks of the model on one graph, by strict rules or Deno's. Each raises AssertionError with what is wrong, and counts its checks."""
from collections import Counter

from readings.chains import exports_by_chains, least_chains, shared_by_chains, simple_chains
from readings.derivations import Derivations
from readings.reach import Reach
from readings.relations import Relations, leaf_of
from readings.tables import TableByEvents
from rules.exports import export_of, exports
from rules.graph import ModuleGraph
from rules.paths import Link, Search, Unresolved, definition_paths, ends
from rules.root import Root, Steps


def check_tables(graph: ModuleGraph, counts: Counter) -> None:
    """Checks that each table is the result of the filters over the events."""
    for module in graph.modules:
        if module.kind == 'esm' and module.tree is not None:
            TableByEvents(module.tree).check(graph.table(module))
            counts['tables'] += 1


def export_told(found) -> tuple:
    return found.statements(), found.module.specifier, found.symbol


def exports_told(root, start, steps=None) -> tuple:
    """Returns the model's results for a module: its exports, the shared names, and the unresolved statements."""
    resolved, shared, unresolved = exports(root, start, steps)
    return ([(name, *export_told(it)) for name, it in resolved.items()],
            [(name, [export_told(it) for it in owners]) for name, owners in shared.items()],
            [[it.specifier, text] for it, text in unresolved])


def count_shared(shared, chains, counts: Counter) -> None:
    """Counts shared names, those of three exporters or more, and those where the least chain to an exporter isn't the shortest, so that a search by
    length would find another one first."""
    shortest = {}
    for chain in chains:
        shortest[chain.end.specifier] = min(len(chain.places), shortest.get(chain.end.specifier, len(chain.places)))
    for _, owners in shared:
        counts['shared names'] += 1
        counts['shared names, three owners or more'] += len(owners) > 2
        counts['shared names, a least chain not the shortest'] += any(len(told) > shortest[it] for told, it, _ in owners)


def check_exports(graph: ModuleGraph, strict: bool, counts: Counter) -> None:
    """Checks that exports, shared names, unresolved statements, stored modules and steps are those of all simple chains; and that the first three are
    the same if all modules are stored, in another order."""
    full = Root(graph, strict=strict)
    for module in reversed(graph.modules):
        full.module_from_specifier(module.specifier)
    for module in graph.modules:
        root, steps = Root(graph, strict=strict), Steps()
        start = root.module_from_specifier(module.specifier)
        if start is None:
            continue
        resolved, shared, unresolved = told = exports_told(root, start, steps)
        stored = set(root.numbers)
        by_chains, chains = exports_by_chains(root, start), simple_chains(root, start)
        assert resolved == by_chains[0], ('exports', module.specifier)
        assert unresolved == by_chains[1], ('unresolved', module.specifier)
        least = least_chains(chains)
        owned = shared_by_chains(start, least, [name for name, *_ in by_chains[0]]) if strict else []
        assert shared == owned, ('shared', module.specifier)
        count_shared(owned, chains, counts)
        assert stored == {it.end.specifier for it in least.values()}, ('stored', module.specifier)
        assert steps.count == sum(len(it.end.stars) for it in least.values()), ('steps', module.specifier)
        assert told == exports_told(full, full.module_from_specifier(module.specifier)), ('all stored', module.specifier)
        counts['exports'] += 1
        for name in sorted({name for name, *_ in resolved} | {'default', 'no such name'}):
            check_one_name(Root(graph, strict=strict), module.specifier, name, resolved, least)


def check_one_name(root, specifier, name, told, least) -> None:
    """Checks that one name is the entry of the exports, and that no more statements are visited than come before it."""
    start, steps = root.module_from_specifier(specifier), Steps()
    found = export_of(root, start, name, steps)
    after = set(root.numbers)
    wanted = [it for it in told if it[0] == name]
    assert bool(wanted) == (found is not None), ('one name', start.specifier, name)
    statements = [(chain.places + (place,), chain.end, text) for chain in least.values()
                  for place, text in enumerate(chain.end.stars)]
    if found is not None:
        assert wanted == [(name, *export_told(found))], ('one name', name)
        end = next(it.places for it in least.values() if it.end.specifier == found.module.specifier)
        statements = [it for it in statements if it[0] <= end]
    elif name == 'default':
        statements = []
    assert steps.count == len(statements), ('steps of one name', start.specifier, name)
    targets = [root.dependency(text, module) for _, module, text in statements]
    stored = {start.specifier} | {it.specifier for it in targets if it is not None}
    assert after == stored, ('stored for one name', start.specifier, name)


def open_parts(paths) -> list:
    """Returns the unresolved parts that don't come after an alias."""
    found = []
    for path in paths:
        if isinstance(path, Unresolved) and path.kind == 'part':
            found.append(path)
        elif isinstance(path, Link) and path.module.table.symbols[path.at[0]].declarations[path.at[1]].kind != 'qualified':
            found += open_parts(path.next)
    return found


class PathChecks:
    """The checks of paths over a root in which all modules are stored."""

    def __init__(self, graph: ModuleGraph, strict: bool, rng, counts: Counter):
        self.root, self.rng, self.counts = Root(graph, strict=strict), rng, counts
        for module in graph.modules:
            self.root.module_from_specifier(module.specifier)
        self.relations = Relations(self.root)
        self.derivations = Derivations(self.relations)

    def check(self) -> None:
        for module in list(self.root.modules):
            exported = {name for symbol in module.table.symbols for name in symbol.exports}
            names = sorted(exported | {'prototype', 'a'})
            for number in range(len(module.table.symbols)):
                self.check_symbol(module, number)
            for name, number in module.table.names.items():
                for _ in range(4):
                    self.check_reference(module, name, number, self.rng.choices(names, k=self.rng.choice([1, 1, 2, 2, 3])))
            for name in list(module.own_exports())[:3]:
                self.check_import(module, [name] + self.rng.choices(names, k=self.rng.choice([0, 1, 2])))

    def check_symbol(self, module, number) -> None:
        paths, what = definition_paths(self.root, module, number), ('paths', module.specifier, number)
        given = [leaf_of(leaf) for leaf in ends(paths)]
        assert self.relations.first_reach(module, number) <= set(given), ('first reach',) + what
        reach = self.check_list(paths, module, number, (), what)
        if not reach.has_alias:
            self.counts['without an alias'] += 1
            definitions = [leaf for leaf in given if leaf[0] == 'end']
            assert len(definitions) == len(set(definitions)), ('given twice',) + what
        for path in open_parts(paths):
            for owner, symbol in self.relations.candidates(path.module, path.name):
                self.counts['open parts'] += 1
                assert self.relations.first_reach(owner, symbol) <= set(given), ('open part',) + what

    def check_reference(self, module, name, number, parts) -> None:
        paths, what = Search(self.root).resolve(module, ('qualified', name, parts)), ('reference', module.specifier, name, parts)
        given = {leaf_of(leaf) for leaf in ends(paths)}
        for leaf in self.relations.first_reach(module, number):
            end, _ = self.relations.outcome(leaf, tuple(parts))
            assert end is None or end in given, ('first outcome',) + what
        self.check_list(paths, module, number, tuple(parts), what)

    def check_import(self, module, parts) -> None:
        owner, number = self.relations.entry(module, parts[0])
        paths = Search(self.root).exported(module, parts)
        self.check_list(paths, owner, number, tuple(parts[1:]), ('import', module.specifier, parts))

    def check_list(self, paths, module, number, parts, what) -> Reach:
        """Checks that the list is derived, that each leaf of it is in the relation, and that none is lost if the search doesn't revisit itself."""
        given = {leaf_of(leaf) for leaf in ends(paths)}
        assert self.derivations.is_derived(paths, module, number, [parts] if parts else []), ('derivation',) + what
        assert given <= self.relations.leaves(module, number, parts), ('leaves',) + what
        reach = Reach(self.relations, module, number, parts)
        if reach.meets_itself or reach.has_two_rests:
            self.counts['meeting themselves'] += 1
        else:
            self.counts['lists'] += 1
            assert self.relations.leaves(module, number, parts, True) <= given, ('lost',) + what
        return reach
