"""The exports of a module: its local exports, and those along `export *`, each by its least simple chain."""
from typing import NamedTuple

from rules.root import Module, Root, Steps


class Export:
    """The exporting module of a name and its symbol there, and the chain of statements to it. A chain is None, or the chain before, the referring
    module and the specifier."""
    __slots__ = ('chain', 'module', 'symbol')

    def __init__(self, chain, module: Module, symbol: int):
        self.chain, self.module, self.symbol = chain, module, symbol

    def statements(self) -> 'list[list[str]]':
        found, chain = [], self.chain
        while chain is not None:
            chain, referrer, text = chain
            found.append([referrer.specifier, text])
        return found[::-1]


def reached(root: Root, start: Module, steps: Steps, unresolved: list, wanted=None):
    """Returns the modules that are reached along `export *`, each with its least chain, in the order of these chains, and the unresolved statements.
    The search ends at a module after the first that has the wanted name."""
    met, found = {start.number}, [(None, start)]
    stack = [[None, start, 0]]
    while stack:
        chain, module, place = top = stack[-1]
        if place == len(module.stars):
            stack.pop()
            continue
        top[2], text = place + 1, module.stars[place]
        target = root.dependency(text, module, steps)
        if target is None:
            unresolved.append((module, text))
        elif target.number not in met:
            met.add(target.number)
            found.append(((chain, module, text), target))
            if wanted in target.own_exports():
                return found
            stack.append([(chain, module, text), target, 0])
    return found


class Exports(NamedTuple):
    """The exports by name, the shared names with all their exporters, and the unresolved statements as (module, specifier)."""
    resolved: 'dict[str, Export]'
    shared: 'dict[str, list[Export]]'
    unresolved: list


def exports(root: Root, start: Module, steps: 'Steps | None' = None) -> Exports:
    """Returns the exports of a module. `default` is exported by its module alone. By strict rules a name is shared that the module doesn't export
    locally and two or more reached modules do; by Deno's rules none is."""
    owners, unresolved = {}, []
    for chain, module in reached(root, start, steps or Steps(), unresolved):
        for name, number in module.own_exports().items():
            if name != 'default' or module is start:
                owners.setdefault(name, []).append(Export(chain, module, number))
    resolved = {name: found[0] for name, found in owners.items()}
    shared = {name: found for name, found in owners.items()
              if root.strict and name not in start.own_exports() and len(found) > 1}
    return Exports(resolved, shared, unresolved)


def export_of(root: Root, start: Module, name: str, steps: 'Steps | None' = None) -> 'Export | None':
    """Returns the export with one name. No more modules are stored than it takes."""
    if name in start.own_exports():
        return Export(None, start, start.own_exports()[name])
    if name == 'default':
        return None
    chain, module = reached(root, start, steps or Steps(), [], name)[-1]
    number = module.own_exports().get(name)
    return None if number is None else Export(chain, module, number)
