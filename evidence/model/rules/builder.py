"""Builds the table of a module's symbols, in one pass over its tree."""
from rules.declarations import DeclarationNode
from rules.names import assigned_property, bound_names, entity_name
from rules.raw_graph import RawModule, Tree
from rules.symbols import Declaration, Symbol, Table, is_overload, json_table

# by kind of declaration, the form of its node
FORMS = {'ClassDecl': 'Class', 'FnDecl': 'Fn', 'VarDecl': 'Var', 'UsingDecl': 'UsingVar', 'TsInterfaceDecl': 'TsInterface',
         'TsTypeAliasDecl': 'TsTypeAlias', 'TsEnumDecl': 'TsEnum', 'TsModuleDecl': 'TsModule', 'ClassExpr': 'Class',
         'FnExpr': 'Fn'}


def table_of(module: RawModule) -> Table:
    """Returns the table of a module that has symbols."""
    if module.kind == 'json':
        return json_table(module.text)
    return Builder(module.tree).run()


class Filling:
    """The steps that fill a table. A holder is the symbol in which something is declared."""

    def __init__(self):
        self.table = Table()
        self.symbols, self.names = self.table.symbols, self.table.names

    def new(self, parent: 'int | None', declaration: Declaration) -> Symbol:
        symbol = Symbol(len(self.symbols), parent)
        self.symbols.append(symbol)
        self.add(symbol, declaration)
        return symbol

    def add(self, symbol: Symbol, declaration: Declaration) -> Symbol:
        declaration.overload = is_overload(symbol.declarations, declaration)
        symbol.declarations.append(declaration)
        return symbol

    def declare(self, name, declaration: Declaration, holder: Symbol) -> Symbol:
        """Declares a name of a scope: one symbol of the module, even if it is declared again."""
        number = self.names.get(name)
        if number is not None:
            return self.add(self.symbols[number], declaration)
        symbol = self.new(holder.number, declaration)
        self.names[name] = symbol.number
        return symbol

    def child(self, holder: Symbol, symbol: Symbol) -> None:
        if symbol.number not in holder.children:
            holder.children[symbol.number] = None
            name = symbol.maybe_name()
            if name is not None:
                holder.child_names.setdefault(name, symbol.number)

    def default(self, holder: Symbol, declaration: Declaration) -> Symbol:
        number = holder.exports.get('default')
        if number is not None:
            return self.add(self.symbols[number], declaration)
        symbol = self.new(holder.number, declaration)
        holder.exports['default'] = symbol.number
        if declaration.is_definition():
            self.child(holder, symbol)
        return symbol

    def place_member(self, holder: Symbol, declaration: Declaration, is_static: bool) -> None:
        """Adds a member: a static one is an export and a child of its class, any other a member; members of one name are one symbol."""
        name = declaration.maybe_name()
        known = None
        if name is not None:
            known = holder.exports.get(name, holder.child_names.get(name)) if is_static else holder.member_names.get(name)
        if known is not None:
            self.add(self.symbols[known], declaration)
            return
        symbol = self.new(holder.number, declaration)
        if not is_static:
            holder.members[symbol.number] = None
            if name is not None:
                holder.member_names.setdefault(name, symbol.number)
            return
        if name is not None:
            holder.exports[name] = symbol.number
        self.child(holder, symbol)


class Builder(Filling):
    """The pass over a tree."""

    def __init__(self, tree: Tree):
        Filling.__init__(self)
        self.tree, self.nodes = tree, tree.nodes

    def run(self) -> Table:
        module = self.new(None, self.definition('Module', 0, 0))
        self.items(self.nodes[0].fields['body'], module, self.tree.declaration)
        return self.table

    def range(self, number: int) -> 'tuple[int, int]':
        return (self.nodes[number].start, self.nodes[number].end)

    def name(self, number: int):
        return self.nodes[number].fields['sym']

    def definition(self, form, at, stands_at, how='plain', ident=None) -> Declaration:
        node = DeclarationNode(self.tree, form, at, how, ident)
        return Declaration('definition', self.range(stands_at), node)

    def target(self, number: int, stands_at: int) -> Declaration:
        return Declaration('target', self.range(stands_at), name=self.name(number))

    def file(self, name, source, stands_at) -> Declaration:
        return Declaration('file', self.range(stands_at), name=name, source=source)

    def items(self, body, holder, ambient) -> None:
        for number in body:
            node = self.nodes[number]
            if node.kind in FORMS:
                exported = ambient and holder.parent is not None
                self.declaration(number, number, 'plain', holder, ambient, exported)
            elif node.kind == 'ExportDecl':
                self.declaration(node.fields['decl'], number, 'export', holder, ambient, True)
            elif node.kind in WALKS:
                WALKS[node.kind](self, number, node.fields, holder)

    def walk_import(self, _, fields, holder) -> None:
        for number in fields['specifiers']:
            specifier = self.nodes[number]
            local = self.name(specifier.fields['local'])
            name = {'ImportNamed': specifier.fields.get('imported'), 'ImportDefault': 'default'}.get(specifier.kind)
            if specifier.kind == 'ImportNamed' and name is None:
                name = local[0]
            self.declare(local, self.file(name, fields['src'], number), holder)

    def walk_export_named(self, _, fields, holder) -> None:
        for number in fields['specifiers']:
            specifier = self.nodes[number]
            if specifier.kind == 'ExportNamespace':
                name, declaration = specifier.fields['name'], self.file(None, fields['src'], number)
            else:
                name, declaration = self.exported(specifier, fields['src'], number)
            holder.exports[name] = self.new(holder.number, declaration).number

    def exported(self, specifier, source, number) -> 'tuple[str, Declaration]':
        """Exports a specifier: of the module itself, or of what the specifier `source` resolves to."""
        original = self.nodes[specifier.fields['orig']]
        text = original.fields['sym'][0] if original.kind == 'Ident' else original.fields['value']
        as_name = specifier.fields['exported']
        if source is None:
            declaration = self.target(specifier.fields['orig'], number)
        else:
            declaration = self.file(text, source, number)
        return text if as_name is None else as_name, declaration

    def walk_export_default(self, number, fields, holder) -> None:
        inner = self.nodes[fields['decl']]
        declaration = self.definition(FORMS[inner.kind], fields['decl'], number, 'default')
        symbol = self.default(holder, declaration)
        name = inner.fields['id' if inner.kind == 'TsInterfaceDecl' else 'ident']
        if name is not None:
            self.names[self.name(name)] = symbol.number
        self.fill(fields['decl'], symbol)

    def walk_default_expression(self, number, fields, holder) -> None:
        if not self.default_name(fields['expr'], holder):
            self.default(holder, self.definition('ExportDefaultExpr', number, number, 'default'))

    def walk_export_assignment(self, _, fields, holder) -> None:
        self.default_name(fields['expr'], holder)

    def default_name(self, number, holder) -> bool:
        """Exports a name as `default`, if the expression is one."""
        if self.nodes[number].kind != 'Ident':
            return False
        self.default(holder, self.target(number, number))
        return True

    def walk_export_all(self, number, fields, _) -> None:
        self.table.stars.append((fields['src'], number))

    def walk_import_equals(self, number, fields, holder) -> None:
        """Declares an alias of a name with parts or of a file; if the name is known, nothing is declared."""
        name = self.name(fields['id'])
        known = self.names.get(name)
        if known is None:
            if fields['entity'] is not None:
                leftmost, parts = entity_name(self.nodes, fields['entity'])
                declaration = Declaration('qualified', self.range(number), name=leftmost, parts=parts)
            else:
                declaration = self.file('default', fields['external'], number)
            known = self.declare(name, declaration, holder).number
        if fields['is_export']:
            holder.exports[name[0]] = known

    def walk_expression(self, _, fields, __) -> None:
        """Declares a property for an assignment to a property of a function."""
        found = assigned_property(self.nodes, fields['expr'])
        number = None if found is None else self.names.get(found[0])
        if number is None:
            return
        symbol = self.symbols[number]
        if any(it.is_function() for it in symbol.declarations):
            self.place_member(symbol, self.definition('ExpandoProperty', fields['expr'], fields['expr']), True)

    def declaration(self, at, statement, how, holder, ambient, exported) -> None:
        """Declares the declaration at `at`, which the statement holds or is."""
        node = self.nodes[at]
        form, fields = FORMS[node.kind], node.fields
        if form in ('Var', 'UsingVar'):
            self.variables(form, fields['decls'], how, holder, exported)
            return
        name = self.nodes[fields['ident' if form in ('Class', 'Fn') else 'id']]
        if name.kind == 'Str':
            return
        symbol = self.declare(name.fields['sym'], self.definition(form, at, statement, how), holder)
        if form == 'TsModule':
            self.namespace(at, symbol, ambient or fields['declare'])
        else:
            self.fill(at, symbol)
        self.hold(holder, symbol, name.fields['sym'], exported)

    def variables(self, form, declarators, how, holder, exported) -> None:
        for declarator in declarators:
            for ident in bound_names(self.nodes, self.nodes[declarator].fields['name']):
                declaration = self.definition(form, declarator, declarator, how, ident)
                symbol = self.declare(self.name(ident), declaration, holder)
                self.hold(holder, symbol, self.name(ident), exported)

    def hold(self, holder, symbol, name, exported) -> None:
        self.child(holder, symbol)
        if exported:
            holder.exports[name[0]] = symbol.number

    def namespace(self, at, symbol, ambient) -> None:
        """Declares the body of a namespace; each further name of `namespace A.B` is exported by the one before."""
        body = self.nodes[at].fields['body']
        if body is None:
            return
        while self.nodes[body].kind == 'TsNamespaceDecl':
            fields = self.nodes[body].fields
            inner = self.declare(self.name(fields['id']), self.definition('TsModule', at, body), symbol)
            self.hold(symbol, inner, self.name(fields['id']), True)
            symbol, body = inner, fields['body']
        self.items(self.nodes[body].fields['body'], symbol, ambient)

    def fill(self, at, symbol) -> None:
        """Declares the members of a class or of an interface."""
        node = self.nodes[at]
        if node.kind == 'TsInterfaceDecl':
            members = node.fields['body']
        elif node.kind in ('ClassDecl', 'ClassExpr'):
            members = self.nodes[node.fields['class']].fields['body']
        else:
            return
        for number in members:
            member = self.nodes[number]
            if member.kind == 'Other':
                continue
            is_static = member.kind == 'Constructor' or member.fields.get('is_static', False)
            self.place_member(symbol, self.definition(member.kind, number, number), is_static)
            for parameter in member.fields['params'] if member.kind == 'Constructor' else []:
                if self.nodes[parameter].kind == 'TsParamProp':
                    self.place_member(symbol, self.definition('ClassParamProp', parameter, parameter), False)


# by kind of statement, its function; the kinds of declarations and `ExportDecl` apart
WALKS = {'Import': Builder.walk_import, 'ExportNamed': Builder.walk_export_named,
         'ExportDefaultDecl': Builder.walk_export_default, 'ExportDefaultExpr': Builder.walk_default_expression,
         'TsExportAssignment': Builder.walk_export_assignment, 'ExportAll': Builder.walk_export_all,
         'TsImportEqualsDecl': Builder.walk_import_equals, 'ExprStmt': Builder.walk_expression}
