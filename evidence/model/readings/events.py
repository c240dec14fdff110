"""The events of a tree, derived from the tree alone: each is a form, the event of its holder, and what is declared."""
from rules.declarations import DeclarationNode
from rules.names import assigned_property, entity_name
from rules.raw_graph import Tree
from rules.symbols import Declaration

FORMS = {'ClassDecl': 'Class', 'FnDecl': 'Fn', 'TsInterfaceDecl': 'TsInterface', 'TsTypeAliasDecl': 'TsTypeAlias',
         'TsEnumDecl': 'TsEnum', 'TsModuleDecl': 'TsModule', 'ClassExpr': 'Class', 'FnExpr': 'Fn'}
NAME_FIELDS = {'ClassDecl': 'ident', 'FnDecl': 'ident', 'ClassExpr': 'ident', 'FnExpr': 'ident'}
WITHIN = {'ArrayPat': 'elems', 'ObjectPat': 'props', 'RestPat': 'arg', 'KeyValuePatProp': 'value', 'AssignPatProp': 'key',
          'AssignPat': 'left', 'ExprPat': (), 'Other': ()}


class Event:
    """An event: `form` is fresh, declare, alias, map, default, member, expando, export, child or star; `holder` the number of the event that declared
    the holder; `name` a name of a scope, or a text of exports and members; `of` the referenced event."""
    __slots__ = ('form', 'holder', 'name', 'declaration', 'of', 'is_static')

    def __init__(self, form, holder, name=None, declaration=None, of=None, is_static=False):
        self.form, self.holder, self.name, self.declaration = form, holder, name, declaration
        self.of, self.is_static = of, is_static


class Events:
    """Lists the events of a tree."""

    def __init__(self, tree: Tree):
        self.tree, self.nodes, self.list = tree, tree.nodes, []
        self.emit('fresh', None, declaration=self.definition('Module', 0, 0))
        self.items(self.nodes[0].fields['body'], 0, tree.declaration)

    def emit(self, form, holder, **more) -> int:
        self.list.append(Event(form, holder, **more))
        return len(self.list) - 1

    def range(self, number):
        return (self.nodes[number].start, self.nodes[number].end)

    def definition(self, form, at, stands_at, how='plain', ident=None):
        return Declaration('definition', self.range(stands_at), DeclarationNode(self.tree, form, at, how, ident))

    def name(self, number):
        return self.nodes[number].fields['sym']

    def items(self, body, holder, ambient) -> None:
        for number in body:
            kind, fields = self.nodes[number].kind, self.nodes[number].fields
            if kind == 'ExportDecl':
                self.declaration(fields['decl'], number, 'export', holder, ambient)
            elif kind in FORMS or kind in ('VarDecl', 'UsingDecl'):
                self.declaration(number, number, 'plain', holder, ambient)
            elif kind != 'Other':
                getattr(self, 'on_' + kind)(number, fields, holder)

    def on_Import(self, _, fields, holder) -> None:
        for number in fields['specifiers']:
            specifier = self.nodes[number]
            local = self.name(specifier.fields['local'])
            imported = specifier.fields.get('imported')
            name = {'ImportNamed': local[0] if imported is None else imported, 'ImportDefault': 'default',
                    'ImportNamespace': None}[specifier.kind]
            declaration = Declaration('file', self.range(number), name=name, source=fields['src'])
            self.emit('declare', holder, name=local, declaration=declaration)

    def on_ExportNamed(self, _, fields, holder) -> None:
        for number in fields['specifiers']:
            specifier, source = self.nodes[number], fields['src']
            if specifier.kind == 'ExportNamespace':
                declaration = Declaration('file', self.range(number), source=source)
                event = self.emit('fresh', holder, declaration=declaration)
                self.emit('export', holder, name=specifier.fields['name'], of=event)
                continue
            original, exported = self.nodes[specifier.fields['orig']], specifier.fields['exported']
            text = original.fields['sym'][0] if original.kind == 'Ident' else original.fields['value']
            if source is None:
                declaration = Declaration('target', self.range(number), name=original.fields['sym'])
            else:
                declaration = Declaration('file', self.range(number), name=text, source=source)
            event = self.emit('fresh', holder, declaration=declaration)
            self.emit('export', holder, name=text if exported is None else exported, of=event)

    def on_ExportDefaultDecl(self, number, fields, holder) -> None:
        inner = self.nodes[fields['decl']]
        definition = self.definition(FORMS[inner.kind], fields['decl'], number, 'default')
        event = self.emit('default', holder, declaration=definition)
        name = inner.fields[NAME_FIELDS.get(inner.kind, 'id')]
        if name is not None:
            self.emit('map', holder, name=self.name(name), of=event)
        self.members(fields['decl'], event)

    def on_ExportDefaultExpr(self, number, fields, holder) -> None:
        if self.nodes[fields['expr']].kind == 'Ident':
            self.on_TsExportAssignment(number, fields, holder)
        else:
            self.emit('default', holder, declaration=self.definition('ExportDefaultExpr', number, number, 'default'))

    def on_TsExportAssignment(self, _, fields, holder) -> None:
        if self.nodes[fields['expr']].kind == 'Ident':
            target = Declaration('target', self.range(fields['expr']), name=self.name(fields['expr']))
            self.emit('default', holder, declaration=target)

    def on_ExportAll(self, number, _, holder) -> None:
        self.emit('star', holder, of=number)

    def on_TsImportEqualsDecl(self, number, fields, holder) -> None:
        name = self.name(fields['id'])
        if fields['entity'] is not None:
            leftmost, parts = entity_name(self.nodes, fields['entity'])
            declaration = Declaration('qualified', self.range(number), name=leftmost, parts=parts)
        else:
            declaration = Declaration('file', self.range(number), name='default', source=fields['external'])
        event = self.emit('alias', holder, name=name, declaration=declaration)
        if fields['is_export']:
            self.emit('export', holder, name=name[0], of=event)

    def on_ExprStmt(self, _, fields, holder) -> None:
        found = assigned_property(self.nodes, fields['expr'])
        if found is not None:
            definition = self.definition('ExpandoProperty', fields['expr'], fields['expr'])
            self.emit('expando', holder, name=found, declaration=definition)

    def declaration(self, at, statement, how, holder, ambient) -> None:
        kind, fields = self.nodes[at].kind, self.nodes[at].fields
        # the holder is the program exactly for event 0
        exported = how == 'export' or (ambient and holder != 0)
        if kind in ('VarDecl', 'UsingDecl'):
            form = 'Var' if kind == 'VarDecl' else 'UsingVar'
            for declarator in fields['decls']:
                for ident in self.bound(self.nodes[declarator].fields['name']):
                    definition = self.definition(form, declarator, declarator, how, ident)
                    event = self.emit('declare', holder, name=self.name(ident), declaration=definition)
                    self.hold(holder, event, self.name(ident), exported)
            return
        name = fields[NAME_FIELDS.get(kind, 'id')]
        if self.nodes[name].kind == 'Str':
            return
        definition = self.definition(FORMS[kind], at, statement, how)
        event = self.emit('declare', holder, name=self.name(name), declaration=definition)
        if kind == 'TsModuleDecl':
            self.namespace(at, event, ambient)
        else:
            self.members(at, event)
        self.hold(holder, event, self.name(name), exported)

    def hold(self, holder, event, name, exported) -> None:
        self.emit('child', holder, of=event)
        if exported:
            self.emit('export', holder, name=name[0], of=event)

    def namespace(self, at, holder, ambient) -> None:
        body = self.nodes[at].fields['body']
        while body is not None and self.nodes[body].kind == 'TsNamespaceDecl':
            name = self.name(self.nodes[body].fields['id'])
            event = self.emit('declare', holder, name=name, declaration=self.definition('TsModule', at, body))
            self.emit('export', holder, name=name[0], of=event)
            self.emit('child', holder, of=event)
            holder, body = event, self.nodes[body].fields['body']
        if body is not None:
            self.items(self.nodes[body].fields['body'], holder, ambient or self.nodes[at].fields['declare'])

    def bound(self, number) -> 'list[int]':
        """Returns the nodes of the names that a pattern binds."""
        pattern = self.nodes[number]
        if pattern.kind == 'BindingIdent':
            return [number]
        if WITHIN[pattern.kind] == ():
            return []
        within = pattern.fields[WITHIN[pattern.kind]]
        return [name for child in (within if type(within) is list else [within]) for name in self.bound(child)]

    def members(self, at, holder) -> None:
        node = self.nodes[at]
        if node.kind == 'TsInterfaceDecl':
            for number in node.fields['body']:
                self.member(self.nodes[number].kind, number, holder, bool(self.nodes[number].fields.get('is_static')))
        if node.kind not in ('ClassDecl', 'ClassExpr'):
            return
        for number in self.nodes[node.fields['class']].fields['body']:
            kind, fields = self.nodes[number].kind, self.nodes[number].fields
            if kind != 'Other':
                self.member(kind, number, holder, kind == 'Constructor' or bool(fields.get('is_static')))
            for parameter in fields['params'] if kind == 'Constructor' else ():
                if self.nodes[parameter].kind == 'TsParamProp':
                    self.member('ClassParamProp', parameter, holder, False)

    def member(self, form, number, holder, is_static) -> None:
        definition = self.definition(form, number, number)
        self.emit('member', holder, name=definition.maybe_name(), declaration=definition, is_static=is_static)
