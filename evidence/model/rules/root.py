"""The stored modules of a graph: each once, when it is first queried, within limits."""
from rules.faults import TOO_MANY_MODULES, TOO_MANY_SYMBOLS, UNKNOWN_MODULE, UNKNOWN_SYMBOL, SymbolsFault
from rules.graph import ModuleGraph
from rules.json_text import U32
from rules.raw_graph import RawModule
from rules.symbols import Symbol, Table


class Steps:
    """How many resolutions of statements `export *` were looked up."""

    def __init__(self):
        self.count = 0


class Module:
    """A stored module, by its number."""
    __slots__ = ('number', 'specifier', 'table', 'stars')

    def __init__(self, number: int, module: RawModule, table: Table):
        self.number, self.specifier, self.table = number, module.specifier, table
        self.stars = [text for text, _ in table.stars]

    def own_exports(self) -> 'dict[str, int]':
        return self.table.symbols[0].exports


class Root:
    """The stored part of a graph, and whether it is queried by strict rules or by Deno's."""

    def __init__(self, graph: ModuleGraph, max_modules=U32, max_symbols=U32, strict=False):
        self.graph, self.max_modules, self.max_symbols, self.strict = graph, max_modules, max_symbols, strict
        self.modules, self.numbers = [], {}

    def passes_on(self, name: str) -> bool:
        """Returns whether an import finds the name through `export *` of the module that it names."""
        return name != 'default' or not self.strict

    def has_analyzed(self, specifier: str) -> bool:
        return specifier in self.numbers

    def module_from_specifier(self, specifier: str) -> 'Module | None':
        """Returns the module that the specifier resolves to, and stores it if it wasn't."""
        module = self.graph.stands_for(specifier)
        if module is None:
            return None
        if module.specifier in self.numbers:
            return self.modules[self.numbers[module.specifier]]
        if len(self.modules) >= self.max_modules:
            raise SymbolsFault(TOO_MANY_MODULES)
        table = self.graph.table(module)
        if len(table.symbols) > self.max_symbols:
            raise SymbolsFault(TOO_MANY_SYMBOLS, module.specifier)
        stored = Module(len(self.modules), module, table)
        self.modules.append(stored)
        self.numbers[module.specifier] = stored.number
        return stored

    def module(self, number: int) -> Module:
        if not 0 <= number < len(self.modules):
            raise SymbolsFault(UNKNOWN_MODULE)
        return self.modules[number]

    def symbol(self, module: Module, number: int) -> Symbol:
        if number >= len(module.table.symbols):
            raise SymbolsFault(UNKNOWN_SYMBOL)
        return module.table.symbols[number]

    def dependency(self, text: str, module: Module, steps: 'Steps | None' = None) -> 'Module | None':
        """Returns the module that a specifier in a module resolves to."""
        if steps is not None:
            steps.count += 1
        specifier = self.graph.resolve_dependency(text, module.specifier)
        return None if specifier is None else self.module_from_specifier(specifier)
