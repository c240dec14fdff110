"""Statements of the kinds that paths follow, with few names, so that they refer to each other."""
from graphs.vocabulary import (IDENTIFIERS, export_all, ident, namespace, number, property_of, variable)


class Statements:
    """Makes statements, in one of several mixtures."""

    def __init__(self, rng, names, texts):
        self.rng, self.names, self.texts = rng, names, texts
        self.forms = [self.imported, self.exported, self.declaration, self.exported_name, self.exported_from, self.star,
                      self.alias, self.default, self.property, self.function]
        self.weights = [rng.choice([0, 1, 1, 3]) for _ in self.forms]
        self.weights[1] += 1
        self.odd = rng.random() < 0.25
        if self.odd:
            self.weights[8] = self.weights[9] = 4
        elif rng.random() < 0.2:
            # aliases of aliases, visited on several paths
            self.weights = [1, 2, 1, 3, 0, 0, 6, 3, 0, 0]

    def some(self, *counts) -> 'list[dict]':
        return [self.item() for _ in range(self.rng.choice(counts))]

    def item(self) -> dict:
        return self.rng.choices(self.forms, self.weights)[0]()

    def name(self) -> str:
        return self.rng.choice(self.names)

    def other_name(self) -> 'str | None':
        return self.rng.choice([None, 'default'] + self.names)

    def ident(self) -> dict:
        return ident(self.name())

    def entity(self) -> dict:
        found = self.ident()
        for _ in range(self.rng.choice([0, 1, 1, 2])):
            found = {'kind': 'TsQualifiedName', 'left': found, 'right': self.name()}
        return found

    def body(self):
        return self.rng.choice([None, {'kind': 'Other'}])

    def imported(self) -> dict:
        specifier = self.rng.choice([{'kind': 'ImportNamed', 'local': self.ident(), 'imported': self.other_name()},
                                     {'kind': 'ImportDefault', 'local': self.ident()},
                                     {'kind': 'ImportNamespace', 'local': self.ident()}])
        return {'kind': 'Import', 'src': self.rng.choice(self.texts), 'specifiers': [specifier]}

    def exported(self) -> dict:
        return {'kind': 'ExportDecl', 'decl': self.declaration()}

    def declaration(self) -> dict:
        forms = [self.variable, self.function, self.class_, self.interface, self.namespace, self.dotted_namespace]
        return self.rng.choice(forms)()

    def variable(self) -> dict:
        return variable(self.name(), False)

    def function(self) -> dict:
        return {'kind': 'FnDecl', 'ident': self.ident(), 'function': {'kind': 'Function', 'body': self.body()}}

    def class_(self) -> dict:
        key = {'kind': 'IdentName', 'name': self.name()}
        member = {'kind': 'ClassProp', 'key': key, 'is_static': self.rng.random() < 0.6}
        return {'kind': 'ClassDecl', 'ident': self.ident(), 'class': {'kind': 'Class', 'body': [member]}}

    def interface(self) -> dict:
        key = {'kind': 'Str', 'value': self.rng.choice(self.names + ['a"b', '"', 'x'])}
        return {'kind': 'TsInterfaceDecl', 'id': self.ident(), 'body': [{'kind': 'TsPropertySignature', 'key': key}]}

    def namespace(self) -> dict:
        return namespace(self.name(), self.some(0, 1, 2, 3), declare=self.rng.random() < 0.4)

    def dotted_namespace(self) -> dict:
        block = {'kind': 'TsModuleBlock', 'body': self.some(0, 1, 2)}
        inner = {'kind': 'TsNamespaceDecl', 'id': self.ident(), 'body': block}
        return {'kind': 'TsModuleDecl', 'id': self.ident(), 'body': inner}

    def exported_name(self) -> dict:
        specifier = {'kind': 'ExportSpecifier', 'orig': self.ident(), 'exported': self.other_name()}
        return {'kind': 'ExportNamed', 'specifiers': [specifier]}

    def exported_from(self) -> dict:
        original = ident(self.rng.choice(self.names + ['default']))
        specifier = self.rng.choice([{'kind': 'ExportSpecifier', 'orig': original, 'exported': self.other_name()},
                                     {'kind': 'ExportNamespace', 'name': self.name()}])
        return {'kind': 'ExportNamed', 'src': self.rng.choice(self.texts), 'specifiers': [specifier]}

    def star(self) -> dict:
        return export_all(self.rng.choice(self.texts))

    def alias(self) -> dict:
        return {'kind': 'TsImportEqualsDecl', 'id': self.ident(), 'is_export': self.rng.random() < 0.5,
                'entity': self.entity()}

    def default(self) -> dict:
        expression = self.rng.choice([self.ident(), number()])
        named = {'kind': 'FnExpr', 'ident': self.rng.choice([None, self.ident()]), 'function': {'kind': 'Function'}}
        return self.rng.choice([{'kind': 'ExportDefaultExpr', 'expr': expression},
                                {'kind': 'TsExportAssignment', 'expr': expression},
                                {'kind': 'ExportDefaultDecl', 'decl': named}])

    def property(self) -> dict:
        name = self.rng.choice(IDENTIFIERS if self.odd else self.names)
        key = {'kind': 'IdentName', 'name': name}
        if self.rng.random() < 0.2:
            key = {'kind': 'Computed', 'expr': {'kind': 'Str', 'value': name}}
        return property_of(self.ident(), key, self.rng.random() < 0.85, self.ident())
