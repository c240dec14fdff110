"""One module of declarations with much in them, for the dependencies of a declaration: nearly all fields are there, and each name is different."""
from graphs.numbering import module_of
from graphs.trees import DEPTH, Maker
from graphs.vocabulary import TEXTS, ident
from rules.kinds import CATEGORIES

ANY = sorted(CATEGORIES['ANY'] - {'ExportDefaultSpecifier'})


class Declarations(Maker):
    """Makes declarations that hold one node of some kind each."""

    def __init__(self, rng):
        Maker.__init__(self, rng, {'budget': 0, 'items': 3, 'odd_names': 0.02, 'scope_1': 1.0, 'texts': TEXTS})
        self.serial = 0

    def name(self) -> str:
        self.serial += 1
        return 'n%d' % self.serial

    def count(self, field, kind, depth) -> int:
        return 0 if self.budget <= 0 or depth > DEPTH else self.rng.choice([1, 1, 2])

    def rich(self, kind, budget) -> dict:
        self.budget = budget
        return self.make(kind, 1)

    def any_of(self, category, budget) -> dict:
        return self.rich(self.rng.choice(sorted(CATEGORIES[category])), budget)

    def any(self, budget) -> dict:
        return self.rich(self.rng.choice(ANY), budget)

    def maybe(self, node):
        return self.rng.choice([None, node])

    def some(self, least, most, make, *words) -> 'list[dict]':
        return [make(*words) for _ in range(self.rng.randint(least, most))]

    def annotation(self) -> dict:
        return {'kind': 'TsTypeAnn', 'ty': {'kind': 'Type', 'children': [self.any(12)]}}

    def binding(self) -> dict:
        return {'kind': 'BindingIdent', 'sym': [self.name(), 1], 'type_ann': self.maybe(self.annotation())}

    def function(self) -> dict:
        return {'kind': 'Function', 'params': self.some(0, 2, self.any_of, 'PAT', 12), 'body': self.maybe(self.any(5)),
                'return_type': self.maybe(self.annotation()), 'type_params': self.maybe(self.rich('TsTypeParamDecl', 8))}

    def key(self) -> dict:
        return self.rich(self.rng.choice(sorted(CATEGORIES['KEY']) + ['Computed']), 6)

    def parameter(self) -> dict:
        value = self.rich(self.rng.choice(['TsAsExpr', 'TsTypeAssertion', 'Ident']), 6)
        left = {'kind': 'BindingIdent', 'sym': [self.name(), 1],
                'type_ann': self.rng.choice([None, None, self.annotation()])}
        own = {'kind': 'TsParamProp', 'param': {'kind': 'AssignPat', 'left': left, 'right': value}}
        return self.rng.choice([self.any_of('PAT', 12), self.rich('TsParamProp', 8), own])

    def member(self) -> dict:
        rng = self.rng
        form = rng.choice(['Constructor', 'ClassMethod', 'ClassProp', 'AutoAccessor', 'TsIndexSignature'])
        if form == 'Constructor':
            return {'kind': form, 'params': self.some(0, 3, self.parameter)}
        if form == 'ClassMethod':
            return {'kind': form, 'key': self.key(), 'function': self.function(), 'method_kind': 'method',
                    'is_static': rng.random() < 0.5}
        if form == 'TsIndexSignature':
            return self.rich(form, 10)
        key = self.key()
        if form == 'AutoAccessor':
            key = rng.choice([key, {'kind': 'PrivateName', 'name': 'x'}])
        return {'kind': form, 'key': key, 'type_ann': self.maybe(self.annotation()), 'value': self.any_of('EXPR', 10)}

    def pattern(self) -> dict:
        rng = self.rng
        return rng.choice([self.any_of('PAT', 12), self.binding(),
                           {'kind': 'ArrayPat', 'elems': [self.binding(), self.any_of('PAT', 12)]},
                           {'kind': 'AssignPat', 'left': self.binding(), 'right': self.any_of('EXPR', 10)}])

    def class_(self) -> dict:
        body = {'kind': 'Class', 'super_class': self.maybe(self.any_of('EXPR', 10)),
                'super_type_params': self.maybe(self.rich('TsTypeParamInstantiation', 6)),
                'implements': self.some(0, 2, self.rich, 'TsExprWithTypeArgs', 8), 'body': self.some(0, 4, self.member)}
        return {'kind': 'ClassDecl', 'ident': ident(self.name()), 'class': body}

    def item(self) -> dict:
        form = self.rng.choice(['alias', 'default', 'variable', 'variable', 'class', 'function', 'interface', 'enum'])
        name = ident(self.name())
        if form == 'alias':
            return {'kind': 'TsTypeAliasDecl', 'id': name, 'type_ann': {'kind': 'Type', 'children': [self.any(25)]}}
        if form == 'default':
            return {'kind': 'ExportDefaultExpr', 'expr': {'kind': 'Other', 'children': [self.any(25)]}}
        if form == 'variable':
            declarator = {'kind': 'VarDeclarator', 'name': self.pattern(), 'init': self.any_of('EXPR', 10)}
            return {'kind': 'VarDecl', 'decls': [declarator]}
        if form == 'class':
            return self.class_()
        if form == 'function':
            return {'kind': 'FnDecl', 'ident': name, 'function': self.function()}
        if form == 'interface':
            return {'kind': 'TsInterfaceDecl', 'id': name, 'extends': self.some(0, 2, self.rich, 'TsExprWithTypeArgs', 8),
                    'body': self.some(0, 3, self.any_of, 'ELEMENT', 12)}
        return {'kind': 'TsEnumDecl', 'id': name, 'members': self.some(0, 3, self.rich, 'TsEnumMember', 8)}


def graph_value(rng) -> dict:
    made = Declarations(rng)
    return {'modules': [module_of('m', *made.some(1, 6, made.item), rng=rng)]}
