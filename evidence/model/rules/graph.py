"""Resolves specifiers in an accepted graph."""
from rules.builder import table_of
from rules.raw_graph import RawGraph, RawModule


class ModuleGraph:
    """A graph without faults. Tables of symbols are computed once and cached."""

    def __init__(self, raw: RawGraph):
        self.modules = raw.modules
        self.by_specifier = {module.specifier: module for module in raw.modules}
        self.redirects = dict(raw.redirects)
        self.resolutions = {(referrer, text): target for referrer, text, target in raw.resolutions}
        self._stands_for, self._tables = {}, {}

    def get(self, specifier: str) -> 'RawModule | None':
        """Returns the module of a specifier, after one redirect."""
        return self.by_specifier.get(self.redirects.get(specifier, specifier))

    def resolve_dependency(self, text: str, referrer: str) -> 'str | None':
        return self.resolutions.get((referrer, text))

    def types_chain(self, specifier: str) -> 'list[RawModule]':
        """Returns the longest list of different modules that begins with that of the specifier, each followed by the module of its types dependency."""
        found, met = [], set()
        module = self.get(specifier)
        while module is not None and module.specifier not in met:
            met.add(module.specifier)
            found.append(module)
            module = self.get(module.types) if module.types is not None else None
        return found

    def stands_for(self, specifier: str) -> 'RawModule | None':
        """Returns the last module of the types chain that has symbols."""
        if specifier not in self._stands_for:
            last = None
            for module in self.types_chain(specifier):
                last = module if module.has_symbols() else last
            self._stands_for[specifier] = last
        return self._stands_for[specifier]

    def table(self, module: RawModule):
        """Returns the symbols of a module that has some."""
        if module.specifier not in self._tables:
            self._tables[module.specifier] = table_of(module)
        return self._tables[module.specifier]
