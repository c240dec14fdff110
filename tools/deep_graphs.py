"""Graphs of long chains with queries, each with the answer that follows from how the graph is built.

Each function of `LONG` and `WIDE` takes the number of links of its chain. A link is a module, whose specifier `x` resolves to the next one, or a statement of
the module `m`. In texts that are repeated `#` is the number of the link, and `@` that of the next. No answer comes from a program: that of a chain is
put together link by link, as its graph is.
"""
import json
from itertools import chain
from typing import Iterator, NamedTuple


class Question(NamedTuple):
    """A query with its answer, by Deno's rules and by strict rules."""

    query: str
    answer: str
    strict: str


class Shape(NamedTuple):
    """A graph, in pieces of its text, and questions on it."""

    graph: Iterator[str]
    questions: 'list[Question]'


def compact(value):
    return json.dumps(value, separators=(',', ':'))


# ---- graphs

MODULE = '{"specifier":"%s","kind":"esm","text":"","tree":{"nodes":[%s]}}'
# The number of the first node of a repeated statement. Its other nodes are numbered from there on, too, until the statement is repeated.
BASE = 10 ** 9


def node(kind, **fields):
    return compact({'kind': kind, 'range': [0, 0], **fields})


def ident(name, scope=1, kind='Ident'):
    return node(kind, sym=[name, scope])


# Each returns the nodes of a statement, the first of which has this number.

def variable(number, name='n', scope=1):
    """`export var NAME`"""
    declarator = node('VarDeclarator', name=number + 3)
    return [node('ExportDecl', decl=number + 1), node('VarDecl', decls=[number + 2]), declarator, ident(name, scope, 'BindingIdent')]


def namespace(number, name):
    """`namespace NAME { export var p }`"""
    return [node('TsModuleDecl', id=number + 1, body=number + 2), ident(name, 0), node('TsModuleBlock', body=[number + 3]), *variable(number + 3, 'p', 0)]


def star(number, source='x'):
    """`export * from "SOURCE"`"""
    return [node('ExportAll', src=source)]


def star_of_nothing(number):
    return star(number, 'nothing')


def re_export(number, name='n', source='x'):
    """`export { NAME as n } from "SOURCE"`"""
    return [node('ExportNamed', specifiers=[number + 1], src=source), node('ExportSpecifier', orig=number + 2, exported='n'), ident(name)]


def re_export_of_itself(number):
    return re_export(number, source='nothing')


def import_as(number, local, name='n', source='x'):
    """`import { NAME as LOCAL } from "SOURCE"`"""
    return [node('Import', specifiers=[number + 1], src=source), node('ImportNamed', local=number + 2, imported=name), ident(local)]


def import_one(number):
    """`import { n0 as n } from "ends"`"""
    return import_as(number, 'n', 'n#', 'ends')


def export_n(number):
    """`export { n }`"""
    return [node('ExportNamed', specifiers=[number + 1]), node('ExportSpecifier', orig=number + 2), ident('n')]


def import_n(number):
    return import_as(number, 'n')


def import_a(number):
    return import_as(number, 'a')


def alias_of_a(number):
    """`export import n = a`"""
    return [node('TsImportEqualsDecl', id=number + 1, entity=number + 2, is_export=True), ident('n'), ident('a')]


def variable_of_link(number):
    return variable(number, 'n#')


def alias_of_next(number):
    """`import A0 = A1`"""
    return [node('TsImportEqualsDecl', id=number + 1, entity=number + 2), ident('A#'), ident('A@')]


def namespace_of_link(number):
    """`namespace N0 { export import p = N1.p }`"""
    member = [node('TsImportEqualsDecl', id=number + 4, entity=number + 5, is_export=True), ident('p', '@').replace('"@"', '@')]
    return [node('TsModuleDecl', id=number + 1, body=number + 2), ident('N#', 0), node('TsModuleBlock', body=[number + 3]), *member,
            node('TsQualifiedName', left=number + 6, right='p'), ident('N@', 0)]


def module(specifier, *statements):
    """Returns the text of a module of these statements."""
    nodes, body = [], []
    for statement in statements:
        body.append(1 + len(nodes))
        nodes += statement(1 + len(nodes))
    return MODULE % (specifier, ','.join([node('Program', body=body), *nodes]))


def each(text, numbers):
    """Yields a repeated text for each of these numbers."""
    return (text.replace('#', str(it)).replace('@', str(it + 1)) for it in numbers)


def separated(texts):
    """Yields texts with a comma between them."""
    return (text if place == 0 else ',' + text for place, text in enumerate(texts))


def graph(modules, resolutions=()):
    """Yields a graph of modules and resolutions, which are texts."""
    return chain(['{"modules":['], separated(modules), ['],"resolutions":['], separated(resolutions), [']}'])


def row(count, link, *others, resolutions=()):
    """Yields a graph of a module for each link, other modules, the resolutions of `x` from each link to the next, and other resolutions."""
    return graph(chain(each(link, range(count)), others), chain(each('["m#","x","m@"]', range(count)), map(compact, resolutions)))


def many(specifier, statement, count, *last):
    """Returns the text of a module of a statement for each link, which is repeated, and of others."""
    nodes = statement(BASE)
    size, text = len(nodes), ','.join(nodes)

    def numbered(repeated, first):
        for place in range(1, size):
            repeated = repeated.replace(str(BASE + place), str(first + place))
        return repeated

    first = range(1, 1 + size * count, size)
    texts, heads = map(numbered, each(text, range(count)), first), [*first]
    for it in last:
        heads.append(1 + size * len(heads))
        texts = chain(texts, it(heads[-1]))
    return MODULE % (specifier, ','.join(chain([node('Program', body=heads)], texts)))


# The module `q`, which imports `n` from `m0`.
Q, Q_TO_FIRST = module('q', import_n), ['q', 'x', 'm0']


def owner(number, *statements):
    """Returns the module of this number, which exports the variable `n`."""
    return module('m%d' % number, variable, *statements)


# ---- answers

def end(specifier, symbol=1):
    """Returns the end of a path at the only declaration of a symbol."""
    return '{"decl":[%s,0],"end":0,"module":"%s","start":0,"symbol":%s}' % (symbol, specifier, symbol)


def before(specifier, symbol=1, index=0):
    """Returns the text of a link by a declaration of a symbol, up to its next paths."""
    return '{"decl":[%s,%d],"module":"%s","next":[' % (symbol, index, specifier)


def after(symbol=1, parts=''):
    """Returns the text of a link after its next paths."""
    return '],"parts":[%s],"symbol":%s}' % (parts, symbol)


def within(numbers, opening, inner, closing):
    """Returns the inner text within the first text for each of these numbers and, in reverse, the last one."""
    return ''.join(chain(each(opening, numbers), [inner], each(closing, reversed(numbers))))


def same(query, answer):
    return Question(compact(query), answer, answer)


def listed(form, *texts):
    return '{"%s":[%s]}' % (form, ','.join(texts))


def of_symbol(specifier, symbol, paths, *ends):
    """Returns questions on the paths of a symbol, which all end at definitions: these ends."""
    forms = [('paths', [paths]), ('definitions', ends), ('leaves', ends)]
    return [same([form, specifier, symbol], listed(form, *texts)) for form, texts in forms]


def import_type_specifier_is_followed(specifier, reference, entries):
    return same(['resolve', specifier, reference], listed('entries', entries))


def of_exports(specifier, name, exporter, symbol=1, statements=''):
    """Returns questions on a module's exports and public names, if it exports one name, which nothing else shares."""
    export = '{"exports":[{"chain":[%s],"module":"%s","name":"%s","symbol":%d}],' % (statements, exporter, name, symbol)
    exports = Question(compact(['exports', specifier]), export + '"unresolved":[]}', export + '"shared":[],"unresolved":[]}')
    return [exports, same(['names', specifier], '{"names":[["%s"]]}' % name)]


def of_q(paths, entries, *ends):
    """Returns questions on `n` in the module `q`, whose import has these paths after it, and on what it takes."""
    path = before('q') + paths + after()
    return [*of_symbol('q', 1, path, *ends), import_type_specifier_is_followed('q', ['id', 'n', 1], path), import_type_specifier_is_followed('q', ['import', 'x', ['n']], entries)]


# ---- shapes

def stars(count):
    """Each module has `export *` from the next, the last the name."""
    last, statements = 'm%d' % count, ','.join(each('["m#","x"]', range(count)))
    made = row(count, module('m#', star), owner(count), Q, resolutions=[Q_TO_FIRST])
    return Shape(made, [*of_exports('m0', 'n', last, statements=statements), *of_q(end(last), end(last), end(last))])


def ring_of_stars(count):
    """The same, and the last module has `export *` from the first."""
    last, questions = 'm%d' % count, stars(count).questions
    made = row(count, module('m#', star), owner(count, star), Q, resolutions=[[last, 'x', 'm0'], Q_TO_FIRST])
    return Shape(made, [*questions, *of_exports(last, 'n', last)])


def re_exports(count):
    """Each module re-exports the name from the next."""
    path = within(range(count), before('m#'), end('m%d' % count), after())
    made = row(count, module('m#', re_export), owner(count))
    reference = import_type_specifier_is_followed('m0', ['import', 'x', ['n']], within(range(1, count), before('m#'), end('m%d' % count), after()))
    return Shape(made, [*of_symbol('m0', 1, path, end('m%d' % count)), *of_exports('m0', 'n', 'm0'), reference])


def ring_of_re_exports(count):
    """Each module re-exports the name from the next, the last from the first: nothing is resolved, and nothing unresolved."""
    made = row(count, module('m#', re_export), module('m%d' % count, re_export), resolutions=[['m%d' % count, 'x', 'm0']])
    return Shape(made, [same([form, 'm0', 1], listed(form)) for form in ('paths', 'definitions', 'leaves')] + of_exports('m0', 'n', 'm0'))


def types(count):
    """The types of each module are in the next."""
    last = 'm%d' % count
    made = row(count, module('m#', variable).replace('"tree"', '"types":"m@","tree"'), owner(count), Q, resolutions=[Q_TO_FIRST])
    named = same(['module', 'm0'], '{"module":"%s"}' % last)
    return Shape(made, [named, *of_exports('m0', 'n', last), *of_q(end(last), end(last), end(last))])


def imports(count):
    """Each module imports the name from the next, and exports an alias of it."""
    path = within(range(count), before('m#', 2) + before('m#'), end('m%d' % count), after() + after(2))
    made = row(count, module('m#', import_a, alias_of_a), owner(count))
    reference = import_type_specifier_is_followed('m0', ['id', 'n', 1], path)
    return Shape(made, [*of_symbol('m0', 2, path, end('m%d' % count)), *of_exports('m0', 'n', 'm0', 2), reference])


def candidates(count):
    """Each module has `export *` from `nothing`, whose name resolves to nothing, and from a module that re-exports the name from the next."""
    links = each(module('m#', star_of_nothing, star) + ',' + module('k#', re_export), range(count))
    modules = chain(links, [owner(count), module('nothing', re_export_of_itself), Q])
    own = each('["m#","x","k#"],["k#","x","m@"],["m#","nothing","nothing"]', range(count))
    made = graph(modules, chain(own, map(compact, [['nothing', 'nothing', 'nothing'], Q_TO_FIRST])))
    path = before('q') + within(range(count), before('k#'), end('m%d' % count), after()) + after()
    first, second = ('{"chain":[["m0","%s"]],"module":"%s",' % it for it in (('nothing', 'nothing'), ('x', 'k0')))
    export = '{"exports":[%s"name":"n","symbol":1}],' % first
    shared = '"shared":[{"name":"n","owners":[%s"symbol":1},%s"symbol":1}]}],' % (first, second)
    exports = Question(compact(['exports', 'm0']), export + '"unresolved":[]}', export + shared + '"unresolved":[]}')
    names = same(['names', 'm0'], '{"names":[["n"]]}')
    return Shape(made, [exports, names, *of_symbol('q', 1, path, end('m%d' % count)), import_type_specifier_is_followed('q', ['id', 'n', 1], path)])


def merged(count):
    """Each module imports the name twice: from the next, and from the module `ends`, which has a variable for each."""
    ends = many('ends', variable_of_link, count)
    resolutions = each('["m#","x","m@"],["m#","ends","ends"]', range(count))
    made = graph(chain(each(module('m#', import_n, import_one, export_n), range(count)), [owner(count), ends]), resolutions)
    second = before('m#', index=1) + end('ends', '@') + after()
    path = within(range(count), before('m#', 2) + before('m#'), end('m%d' % count), after() + ',' + second + after())
    leaves = [end('m%d' % count), *each(end('ends', '@'), reversed(range(count)))]
    return Shape(made, [*of_symbol('m0', 2, path, *leaves), *of_exports('m0', 'n', 'm0', 2)])


def aliases(count):
    """Each statement of a module is an alias of the next, the last a variable."""
    made = graph([many('m', alias_of_next, count, lambda it: variable(it, 'A%d' % count))])
    path = within(range(count), before('m', '@'), end('m', count + 1), after('@'))
    reference = import_type_specifier_is_followed('m', ['id', 'A0', 1], path)
    return Shape(made, [*of_symbol('m', 1, path, end('m', count + 1)), *of_exports('m', 'A%d' % count, 'm', count + 1), reference])


def members(count):
    """Each statement is a namespace with an alias of a member of the next: `namespace N0 { export import p = N1.p }`; the last has a variable."""
    made = graph([many('m', namespace_of_link, count, lambda it: namespace(it, 'N%d' % count))])
    last = 2 + 2 * count
    path = within(range(1, last - 1), before('m', '@'), end('m', last), after('@', '"p"'))
    whole = before('m', 1) + path + after(1, '"p"')
    exports = Question(compact(['exports', 'm']), '{"exports":[],"unresolved":[]}', '{"exports":[],"shared":[],"unresolved":[]}')
    reference = import_type_specifier_is_followed('m', ['qualified', 'N0', 0, ['p']], whole)
    return Shape(made, [*of_symbol('m', 2, path, end('m', last)), exports, same(['names', 'm'], '{"names":[]}'), reference])


# A link of the latter takes more nodes, or the chain is like one of the former.
LONG, WIDE = (stars, re_exports, types, aliases), (ring_of_stars, ring_of_re_exports, imports, candidates, merged, members)
