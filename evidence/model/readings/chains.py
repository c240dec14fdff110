"""Exports by all simple chains, enumerated and sorted."""
from typing import NamedTuple

from rules.root import Module, Root


class Chain(NamedTuple):
    """The positions of the statements `export *`, the module at the end, and the statements as (module, specifier)."""
    places: 'tuple[int, ...]'
    end: Module
    statements: tuple

    def told(self) -> 'list[list[str]]':
        return [[module.specifier, text] for module, text in self.statements]


def simple_chains(root: Root, start: Module) -> 'list[Chain]':
    """Returns all chains from a module that visit no module twice, in chain order."""
    found, waiting = [Chain((), start, ())], [(Chain((), start, ()), (start,))]
    while waiting:
        chain, met = waiting.pop()
        for place, text in enumerate(chain.end.stars):
            target = root.dependency(text, chain.end)
            if target is not None and all(target is not it for it in met):
                longer = Chain(chain.places + (place,), target, chain.statements + ((chain.end, text),))
                found.append(longer)
                waiting.append((longer, met + (target,)))
    return sorted(found, key=lambda it: it.places)


def least_chains(chains: 'list[Chain]') -> 'dict[int, Chain]':
    """Returns the least chain of each reached module, by its number."""
    found = {}
    for chain in chains:
        if chain.end.number not in found or chain.places < found[chain.end.number].places:
            found[chain.end.number] = chain
    return found


def exports_by_chains(root: Root, start: Module):
    """Returns the exports of a module as (name, chain, exporter, symbol), in chain order and in the order of the exporter's exports; and the
    unresolved statements, in chain order."""
    chains, owned = simple_chains(root, start), {}
    for chain in chains:
        for place, (name, number) in enumerate(chain.end.own_exports().items()):
            if not chain.places or name != 'default':
                owned.setdefault(name, []).append((chain.places, place, chain, number))
    entries = sorted((min(found, key=lambda it: it[0]) + (name,) for name, found in owned.items()), key=lambda it: it[:2])
    resolved = [(name, chain.told(), chain.end.specifier, number) for _, _, chain, number, name in entries]
    unresolved = sorted((chain.places + (place,), [chain.end.specifier, text]) for chain in least_chains(chains).values()
                        for place, text in enumerate(chain.end.stars) if root.dependency(text, chain.end) is None)
    return resolved, [told for _, told in unresolved]


def shared_by_chains(start: Module, least: 'dict[int, Chain]', exported: 'list[str]') -> list:
    """Returns the names that the module doesn't export locally and two or more reached modules do, in the order of the exports. Each has (chain,
    exporter, symbol) of every exporter, by its least chain, in chain order."""
    ordered, found = sorted(least.values(), key=lambda it: it.places), []
    for name in exported:
        owners = [(it.told(), it.end.specifier, it.end.own_exports()[name]) for it in ordered if name in it.end.own_exports()]
        if name not in start.own_exports() and len(owners) > 1:
            found.append((name, owners))
    return found
