"""Queries on a graph: every form, on every symbol and every name, in any order; the inputs of some; and lines that are no queries."""
import json
import random

from graphs.vocabulary import NAMES, ODD_NAMES, TEXTS
from rules.graph import ModuleGraph
from rules.queries import OF_A_MODULE, OF_A_SYMBOL
from rules.raw_graph import graph_of_value

# the forms with a symbol's number alone that are asked of each symbol; others are asked of some
OF_EACH_SYMBOL = ('name', 'paths')

BAD_LINES = [
    b'', b' ', b'[]', b'null', b'{"exports":"a"}', b'["exports"]', b'["exports","a",1]',
    b'["exports",1]', b'["Exports","a"]', b'["name","a"]', b'["name","a",1.0]', b'["name","a",-0]',
    b'["name","a",-1]', b'["name","a",4294967296]', b'["name","a",4294967295]',
    b'["name","a",18446744073709551616]', b'["name","a",1e1]', b'["name","a","1"]',
    b'["deps","a",0]', b'["deps","a",0,"both"]', b'["deps","a",0,"types"]', b'["deps","a",0,"all","x"]',
    b'["symbol","a","a"]', b'["symbol","a","a",4294967295]', b'["symbol","a","a",4294967296]',
    b'["symbol","a","a",null]', b'["resolve","a",["id","a"]]', b'["resolve","a",["id","a",1,[]]]',
    b'["resolve","a",["qualified","a",1]]', b'["resolve","a",["qualified","a",1,["x",1]]]',
    b'["resolve","a",["qualified","a",1,null]]', b'["resolve","a",["import","./a"]]',
    b'["resolve","a",["import","./a",["a"]],1]', b'["resolve","a",[]]', b'["resolve","a",null]',
    b'["resolve","a",["other","a"]]', b'["exports","\xff"]', b'\xef\xbb\xbf["exports","a"]',
    b'["exports","\\ud800"]', b'["exports","\\u0061"]', b' [ "exports" , "a" ]\t\r', b'["exports","a"]x',
    b'["exports","a"', b'["exports",\'a\']', b'["exports","a",]', b'["exports","\x01"]',
    b'["exports","a\x7f"]', b'[' * 127 + b']' * 127, b'[' * 128 + b']' * 128, b'["exports","\\ud83d\\ude00"]',
    b'["exports",NaN]', b'["paths","a",1e400]', b'["\\u0065xports","a"]', b'["paths","a",01]',
    b'["paths","a",0]', b'\x00', b'["exports","a"]\x0b', b'["names","a"]', b'["names"]', b'["names","a",0]',
    b'["leaves","a",0]', b'["definitions","a",0,0]', b'["module","a","b"]']

BAD_INPUTS = [
    b'["inputs"]', b'["inputs","a"]', b'["inputs",["exports","a"],1]', b'["inputs",["inputs",["exports","a"]]]', b'["inputs",["exports"]]',
    b'["inputs",null]', b'["inputs",["exports","a",1]]', b'["Inputs",["exports","a"]]', b'["inputs",["paths","a"]]', b'[["inputs"],["exports","a"]]',
    b'["\\u0069nputs",["exports","a"]]', b' [ "inputs" , [ "module" , "a" ] ] ', b'["inputs",["resolve","a",["import","./a",["a",1]]]]',
    b'["inputs",["resolve","a",["id","a",1]]]', b'["inputs",["symbol","a","a",1]]', b'["inputs",["deps","a",0,"all"]]', b'["inputs",["a","b"]]']


class Asking:
    """Makes the queries on the modules of a graph."""

    def __init__(self, rng, value):
        self.rng, self.raw = rng, graph_of_value(value)
        self.graph = ModuleGraph(self.raw)
        tables = [self.graph.table(it) for it in self.raw.modules if it.has_symbols()]
        exported = sorted({name for table in tables for symbol in table.symbols for name in symbol.exports})
        self.parts = (exported or ['a']) + ['prototype', 'a', 'default']

    def some_parts(self, first, *counts) -> 'list[str]':
        """Returns parts after a name; the first is often one that occurs after it in the graph."""
        rng, found = self.rng, [self.rng.choice(self.parts) for _ in range(self.rng.choice(counts))]
        if found and first and rng.random() < 0.6:
            found[0] = rng.choice(first)
        return found

    def queries(self) -> list:
        found = []
        asked = [module.specifier for module in self.raw.modules] + [source for source, _ in self.raw.redirects]
        for specifier in asked + (['absent'] if self.rng.random() < 0.3 else []):
            found += [[form, specifier] for form in OF_A_MODULE]
            module = self.graph.stands_for(specifier)
            if module is None:
                found += [['paths', specifier, 0], ['symbol', specifier, 'a', 1]]
            else:
                found += self.on_module(specifier, module)
        return found

    def on_module(self, specifier, module) -> list:
        rng, table, found = self.rng, self.graph.table(module), []
        names = list(table.names) + ([(rng.choice(NAMES + ODD_NAMES), 1)] if rng.random() < 0.2 else [])
        for number in range(len(table.symbols) + (rng.random() < 0.3)):
            found += [['name', specifier, number], ['deps', specifier, number, 'types'],
                      ['deps', specifier, number, 'all'], ['paths', specifier, number]]
            if rng.random() < 0.2:
                found += [[form, specifier, number] for form in OF_A_SYMBOL if form not in OF_EACH_SYMBOL]
        for name, scope in names:
            found.append(['symbol', specifier, name, scope])
            known = table.names.get((name, scope))
            first = [] if known is None else list(table.symbols[known].exports)
            for _ in range(2):
                parts = self.some_parts(first, 0, 1, 1, 2, 2, 3)
                found.append(['resolve', specifier, ['qualified', name, scope, parts]])
            if rng.random() < 0.3:
                found.append(['resolve', specifier, ['id', name, scope]])
        return found + self.imports(specifier, module)

    def imports(self, specifier, module) -> list:
        texts = [text for referrer, text, _ in self.raw.resolutions if referrer == module.specifier]
        found = []
        for text in self.rng.sample(texts, min(3, len(texts))) + [self.rng.choice(TEXTS)]:
            target = self.graph.stands_for(self.graph.resolve_dependency(text, module.specifier) or '')
            first = list(self.graph.table(target).symbols[0].exports) if target else []
            found.append(['resolve', specifier, ['import', text, self.some_parts(first, 0, 1, 1, 2, 3)]])
        return found


def line_of(rng, query) -> bytes:
    separators = rng.choice([(',', ':'), (', ', ': ')])
    return json.dumps(query, ensure_ascii=rng.random() < 0.2, separators=separators).encode()


def inputs_lines(asked) -> 'list[bytes]':
    """Returns lines that query the inputs of some of the queries, and now and then one that is hard to read. They depend on the queries alone."""
    rng = random.Random(json.dumps(asked))
    lines = [line_of(rng, ['inputs', query]) for query in rng.sample(asked, min(12, len(asked)))]
    return lines + [rng.choice(BAD_INPUTS) for _ in range(rng.choice([0, 0, 0, 1]))]


def query_lines(rng, value, limit=160) -> 'list[bytes]':
    """Returns at most this many queries on an accepted graph, among them some lines that are no queries; and after them the inputs of some."""
    asked = Asking(rng, value).queries()
    rng.shuffle(asked)
    lines = [line_of(rng, query) for query in asked[:limit]]
    for _ in range(rng.choice([0, 0, 2, 6])):
        lines.insert(rng.randint(0, len(lines)), rng.choice(BAD_LINES))
    if lines and rng.random() < 0.1:
        line = bytearray(rng.choice(lines) or b' ')
        line[rng.randrange(len(line))] = rng.randrange(256)
        lines.append(bytes(line).replace(b'\n', b' '))
    return lines + inputs_lines(asked[:limit])
