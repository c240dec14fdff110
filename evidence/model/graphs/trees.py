"""Random trees of all kinds of nodes, as nested nodes."""
from graphs.vocabulary import NAMES, ODD_NAMES, TEXTS, property_of
from rules.kinds import CATEGORIES, FIELDS

ITEM_WEIGHTS = {
    'Import': 5, 'ExportDecl': 9, 'ExportNamed': 8, 'ExportDefaultDecl': 4, 'ExportDefaultExpr': 4, 'ExportAll': 7,
    'TsImportEqualsDecl': 6, 'TsExportAssignment': 2, 'ExprStmt': 5, 'ClassDecl': 5, 'FnDecl': 7, 'VarDecl': 5,
    'UsingDecl': 2, 'TsInterfaceDecl': 4, 'TsTypeAliasDecl': 3, 'TsEnumDecl': 2, 'TsModuleDecl': 8, 'Other': 1}
DECLARATION_WEIGHTS = {'ClassDecl': 5, 'FnDecl': 6, 'VarDecl': 5, 'TsInterfaceDecl': 4, 'TsTypeAliasDecl': 3, 'TsEnumDecl': 2,
                       'TsModuleDecl': 8}
EXPRESSION_WEIGHTS = {'Ident': 8, 'Member': 6, 'Str': 2, 'Num': 2, 'BigInt': 1, 'Assign': 2, 'FnExpr': 1, 'ClassExpr': 1,
                      'Arrow': 2, 'TsAsExpr': 3, 'TsTypeAssertion': 2, 'Other': 2}
PATTERN_WEIGHTS = {'BindingIdent': 10, 'ArrayPat': 2, 'ObjectPat': 3, 'RestPat': 2, 'AssignPat': 3, 'ExprPat': 1, 'Other': 1}
WEIGHTS = [('EXPORTED', DECLARATION_WEIGHTS), ('ITEM', ITEM_WEIGHTS), ('EXPR', EXPRESSION_WEIGHTS), ('PAT', PATTERN_WEIGHTS)]

# by category, the kinds that end a tree which is large enough
SMALL = {'EXPR': ['Ident', 'Ident', 'Num', 'Str'], 'PAT': ['BindingIdent'], 'SIG': ['BindingIdent'], 'TYPE': ['Type'],
         'KEY': ['IdentName', 'Str'], 'ENTITY': ['Ident'], 'ANY': ['Ident', 'Other']}
SMALL_KINDS = frozenset(['Ident', 'Num', 'Str', 'BigInt', 'BindingIdent', 'Type', 'Other', 'IdentName', 'PrivateName', 'Class',
                         'Function', 'TsTypeParam', 'TsEnumMember', 'TsModuleBlock', 'Constructor', 'TsIndexSignature',
                         'ImportNamed', 'TsTypeParamDecl', 'TsTypeParamInstantiation', 'TsImportType', 'TsCallSignatureDecl',
                         'ArrayPat', 'ObjectPat'])
DEPTH = 14


def style_of(rng) -> dict:
    """Returns how large a tree is, how unusual its names are, their scopes, and the specifiers that it imports from."""
    return {'budget': rng.choice([15, 40, 80, 160]), 'items': rng.choice([2, 5, 9]), 'odd_names': rng.choice([0.0, 0.05, 0.3]),
            'scope_1': rng.choice([1.0, 1.0, 0.85]), 'texts': rng.sample(TEXTS, rng.choice([2, 4, 8]))}


class Maker:
    """Makes nodes until the budget of its style is used up, and then small ones."""

    def __init__(self, rng, style):
        self.rng, self.budget, self.style = rng, style['budget'], style

    def name(self) -> str:
        return self.rng.choice(ODD_NAMES if self.rng.random() < self.style['odd_names'] else NAMES)

    def name_and_scope(self) -> list:
        in_scope_1 = self.rng.random() < self.style['scope_1']
        return [self.name(), 1 if in_scope_1 else self.rng.choice([0, 2, 4294967295])]

    def text(self, kind, field) -> str:
        rng = self.rng
        if field in ('src', 'arg', 'external'):
            return rng.choice(self.style['texts'])
        if kind in ('Num', 'BigInt'):
            return rng.choice(['1', '0', '2.5', '1e3'])
        if field in ('imported', 'exported') and rng.random() < 0.25:
            return 'default'
        if kind == 'Str' and rng.random() < 0.1:
            return rng.choice(self.style['texts'])
        return self.name()

    def pick(self, weights) -> str:
        return self.rng.choices(list(weights), list(weights.values()))[0]

    def choose(self, allowed) -> str:
        """Returns a kind that is allowed there."""
        small = self.budget <= 0
        for category, weights in WEIGHTS:
            if allowed == CATEGORIES[category] and not (small and category in SMALL):
                return self.pick(weights)
        if small:
            for category, kinds in SMALL.items():
                if allowed == CATEGORIES[category]:
                    return self.rng.choice(kinds)
            if allowed & SMALL_KINDS:
                return self.rng.choice(sorted(allowed & SMALL_KINDS))
        return self.rng.choice(sorted(allowed - {'ExportDefaultSpecifier'}))

    def count(self, field, kind, depth) -> int:
        """Returns the length of a list of children."""
        rng = self.rng
        if kind == 'Program':
            return rng.randint(0, self.style['items'])
        if self.budget <= 0 or depth > DEPTH:
            return 0
        if field == 'body':
            return rng.randint(0, 4)
        if field == 'decls':
            return rng.choice([1, 1, 1, 2, 0])
        if field == 'specifiers':
            return rng.choice([1, 1, 2, 2, 3, 0])
        return rng.choice([0, 0, 1, 1, 2])

    def child(self, allowed, depth) -> dict:
        return self.make(self.choose(allowed), depth + 1)

    def make(self, kind, depth=0) -> dict:
        self.budget -= 1
        if kind == 'ExprStmt' and self.rng.random() < 0.7:
            return self.assigned_property()
        node = {'kind': kind}
        for name, form, allowed in FIELDS[kind]:
            node[name] = self.value(kind, name, form, allowed, depth)
        if kind in RULES:
            RULES[kind](self, node, depth)
        return node

    def value(self, kind, name, form, allowed, depth):
        rng = self.rng
        if form == 'child':
            return self.child(allowed, depth)
        if form == 'child?':
            return self.optional_child(kind, name, allowed, depth)
        if form == 'child*':
            return [self.child(allowed, depth) for _ in range(self.count(name, kind, depth))]
        if form == 'text' or (form == 'text?' and rng.random() < 0.5):
            return self.text(kind, name)
        if form == 'bool':
            return rng.random() < (0.8 if name == 'plain' else 0.35)
        if form == 'Id':
            return self.name_and_scope()
        if form == 'ACC':
            return rng.choice([None, None, 'public', 'protected', 'private'])
        return rng.choice(['method', 'method', 'getter', 'setter']) if form == 'MKIND' else None

    def optional_child(self, kind, name, allowed, depth):
        likely = {'body': 0.6, 'type_ann': 0.4, 'init': 0.6}.get(name, 0.35)
        if self.budget > 0 and depth < DEPTH and self.rng.random() < likely:
            return self.child(allowed, depth)
        if name == 'body' and kind in ('Function', 'Constructor') and self.rng.random() < 0.5:
            return {'kind': 'Other'}
        return None

    def assigned_property(self) -> dict:
        rng = self.rng
        if rng.random() < 0.7:
            key = {'kind': 'IdentName', 'name': self.name()}
        else:
            key = {'kind': 'Computed', 'expr': {'kind': 'Str', 'value': self.name()}}
        value = self.make(self.choose(CATEGORIES['EXPR']), 3)
        return property_of({'kind': 'Ident', 'sym': self.name_and_scope()}, key, rng.random() < 0.9, value)

    def keep_exports(self, node, depth) -> None:
        """Keeps only specifiers of names if there is no specifier to export from."""
        if node['src'] is not None:
            return
        node['specifiers'] = [it if it['kind'] == 'ExportSpecifier' else self.make('ExportSpecifier', depth + 1)
                              for it in node['specifiers']]
        for specifier in node['specifiers']:
            if specifier['orig']['kind'] == 'Str':
                specifier['orig'] = {'kind': 'Ident', 'sym': self.name_and_scope()}

    def keep_one_source(self, node, depth) -> None:
        """Gives an `import A =` either an entity or a specifier."""
        if self.rng.random() < 0.35:
            node['entity'], node['external'] = None, self.text('TsImportEqualsDecl', 'external')
        else:
            node['entity'] = node['entity'] or self.child(CATEGORIES['ENTITY'], depth)
            node['external'] = None

    def keep_binding(self, node, depth) -> None:
        """Makes a parameter property with an initial value bind a name."""
        parameter = node['param']
        if parameter['kind'] == 'AssignPat' and parameter['left']['kind'] != 'BindingIdent':
            parameter['left'] = self.make('BindingIdent', depth + 1)


# by kind, the functions for the rules that categories don't express
RULES = {'ExportNamed': Maker.keep_exports, 'TsImportEqualsDecl': Maker.keep_one_source, 'TsParamProp': Maker.keep_binding}
