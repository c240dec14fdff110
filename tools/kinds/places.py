"""Lists the files, and the parts of the page on graphs, that are generated from the table."""
from functools import partial

from . import categories, child_fields, documents, fields, reader, symdir, tree
from .formatted import laid
from .regions import END, MARKED, Compared, Region

SYNTAX, TREE = 'crates/symbols_ast/specs/', 'crates/symbols_ast/src/tree/'
READER, KINDS = 'crates/symq_reader/specs/', 'crates/symq_reader/src/kinds/'
GRAPH, SYMDIR = 'docs/GRAPH.md', 'symdir/lib/check/kinds.js'


def code_files(table):
    """Returns the files of code, each with its lines, which aren't formatted yet."""
    made = {'kinds': tree.kinds_file, 'names': tree.names_file, 'categories': categories.categories_file, 'fields': fields.fields_file,
            'child_fields': child_fields.methods_file, 'kind_fields': child_fields.functions_file}
    files = {TREE + name + '.rt': make(table) for name, make in made.items()}
    return {**files, **{KINDS + it.small() + 's.rt': reader.enum_file(it) for it in table.enums}}


def contract_files(table):
    """Returns the files of contracts, each with its lines."""
    made = {SYNTAX + 'Kinds': categories.contract_kinds_file, SYNTAX + 'Fields': fields.contract_fields_file,
            READER + 'KindTable': reader.kind_table_file, READER + 'KindShapesTable': reader.kind_shapes_table_file}
    return {name + '.antt': make(table) for name, make in made.items()}


def of_files(table):
    """Yields the files that are generated as a whole."""
    for name, lines in {**laid(code_files(table)), **contract_files(table)}.items():
        yield Region(name, 'text', '', END, lambda stands, lines=lines: lines)


def of_graph_page(table):
    """Yields the tables of the page on graphs."""
    yield Region(GRAPH, 'count', documents.begin('count'), MARKED, partial(documents.count_lines, table))
    yield Region(GRAPH, 'categories', documents.begin('categories'), MARKED, lambda stands: documents.Categories(table, stands).made())
    for enum in table.enums:
        name = 'kinds of ' + enum.name
        yield Region(GRAPH, name, documents.begin(name), MARKED, partial(documents.kinds_lines, enum))


def regions_of(table):
    """Returns all generated parts."""
    return [*of_files(table), *of_graph_page(table)]


def compared_with(table):
    """Returns all parts that are compared, and not written."""
    return [Compared(SYMDIR, 'fields', partial(symdir.of_fields, table)), Compared(SYMDIR, 'categories', partial(symdir.of_categories, table))]
