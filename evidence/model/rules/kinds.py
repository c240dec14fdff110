"""The kinds of nodes as data: fields with their categories, edges of the
dependency search with guards and marks, and where the search begins.

Each row of KIND_ROWS is (kind, fields, edges).

fields:  name: TYPE, ..   where TYPE is one of
           text  text?  bool  Id  ACC  MKIND     plain values
           CAT   CAT?   CAT*                     children of a category
         and CAT is a category, a kind, or kinds parted by "/".
edges:   field            an edge to each child of the field
         field:T :V :B    the edge marks Type, Value, Both
         field:C          the edge marks Value where the child is `Computed`
         field[e]         open only with expressions
         field[i]         closed under an annotation, else open for assertions
                          in both modes and for the rest only with expressions
         field(S)         the child is in the signature form
         self             the node itself is a reference
         chain            the node is a reference if it is a chain, else obj, prop
         P                the rule for parameter properties
         field{computed}  only where the field `computed` is true
         field{arrow}     only without return_type and where not is_block
         children{list}   the rule for the children of `Type` and `Other`
"""

KIND_ROWS = [
    ('Program', 'body: ITEM*', ''),
    ('Import', 'specifiers: ImportNamed/ImportDefault/ImportNamespace*, src: text', ''),
    ('ImportNamed', 'local: Ident, imported: text?', ''),
    ('ImportDefault', 'local: Ident', ''),
    ('ImportNamespace', 'local: Ident', ''),
    ('ExportDecl', 'decl: EXPORTED', ''),
    ('ExportNamed', 'specifiers: ExportSpecifier/ExportNamespace*, src: text?', ''),
    ('ExportSpecifier', 'orig: Ident/Str, exported: text?', ''),
    ('ExportNamespace', 'name: text', ''),
    ('ExportDefaultSpecifier', 'local: Ident', ''),
    ('ExportDefaultDecl', 'decl: ClassExpr/FnExpr/TsInterfaceDecl', ''),
    ('ExportDefaultExpr', 'expr: EXPR', ''),
    ('TsExportAssignment', 'expr: EXPR', ''),
    ('ExportAll', 'src: text', ''),
    ('TsImportEqualsDecl', 'is_export: bool, id: Ident, entity: ENTITY?, external: text?', ''),
    ('ExprStmt', 'expr: EXPR', 'expr'),
    ('ClassDecl', 'ident: Ident, class: Class', 'ident, class'),
    ('ClassExpr', 'ident: Ident?, class: Class', 'ident, class'),
    ('Class', 'type_params: TP?, super_class: EXPR?, super_type_params: TA?, '
              'implements: TsExprWithTypeArgs*, body: MEMBER*',
     'type_params, super_class, super_type_params, implements'),
    ('FnDecl', 'ident: Ident, function: Function', 'ident, function'),
    ('FnExpr', 'ident: Ident?, function: Function', 'ident, function'),
    ('Function', 'type_params: TP?, params: PAT*, return_type: ANN?, body: ANY?',
     'type_params, params, return_type'),
    ('VarDecl', 'decls: VarDeclarator*', 'decls'),
    ('UsingDecl', 'decls: VarDeclarator*', 'decls'),
    ('VarDeclarator', 'name: PAT, init: EXPR?', 'name, init[i]'),
    ('TsInterfaceDecl', 'id: Ident, type_params: TP?, extends: TsExprWithTypeArgs*, body: ELEMENT*',
     'type_params, extends'),
    ('TsTypeAliasDecl', 'id: Ident, type_params: TP?, type_ann: TYPE', 'type_params, type_ann:T'),
    ('TsEnumDecl', 'id: Ident, members: TsEnumMember*', 'members'),
    ('TsEnumMember', 'init: EXPR?', 'init'),
    ('TsModuleDecl', 'id: Ident/Str, declare: bool, body: TsModuleBlock/TsNamespaceDecl?', ''),
    ('TsNamespaceDecl', 'id: Ident, body: TsModuleBlock/TsNamespaceDecl', ''),
    ('TsModuleBlock', 'body: ITEM*', ''),
    ('Constructor', 'params: PAT/TsParamProp*, body: ANY?, accessibility: ACC', ''),
    ('TsParamProp', 'param: BindingIdent/AssignPat, accessibility: ACC', 'P'),
    ('ClassMethod', 'key: KEY, function: Function, method_kind: MKIND, is_static: bool, accessibility: ACC', ''),
    ('ClassProp', 'key: KEY, type_ann: ANN?, value: EXPR?, is_static: bool, accessibility: ACC', ''),
    ('AutoAccessor', 'key: KEY/PrivateName, type_ann: ANN?, value: EXPR?, is_static: bool, accessibility: ACC', ''),
    ('TsIndexSignature', 'params: SIG*, type_ann: ANN?, is_static: bool', 'params(S), type_ann'),
    ('TsCallSignatureDecl', 'type_params: TP?, params: SIG*, type_ann: ANN?',
     'type_params, params(S), type_ann'),
    ('TsConstructSignatureDecl', 'type_params: TP?, params: SIG*, type_ann: ANN?',
     'type_params, params(S), type_ann'),
    ('TsPropertySignature', 'key: EXPR, computed: bool, type_ann: ANN?', 'key:V{computed}, type_ann'),
    ('TsGetterSignature', 'key: EXPR, computed: bool, type_ann: ANN?', 'key:V{computed}, type_ann'),
    ('TsSetterSignature', 'key: EXPR, computed: bool, param: SIG', 'key:V{computed}, param(S)'),
    ('TsMethodSignature', 'key: EXPR, computed: bool, type_params: TP?, params: SIG*, type_ann: ANN?',
     'key:V{computed}, type_params, params(S), type_ann'),
    ('TsTypeParamDecl', 'params: TsTypeParam*', 'params'),
    ('TsTypeParam', 'constraint: TYPE?, default: TYPE?', 'constraint:T, default:T'),
    ('TsTypeParamInstantiation', 'params: TYPE*', 'params:T'),
    ('TsTypeAnn', 'ty: TYPE', 'ty:T'),
    ('TsExprWithTypeArgs', 'expr: EXPR, type_args: TA?', 'type_args, expr:B'),
    ('TsAsExpr', 'expr: EXPR, ty: TYPE', 'ty:T'),
    ('TsTypeAssertion', 'expr: EXPR, ty: TYPE', 'ty:T'),
    ('TsTypeQuery', 'expr_name: ENTITY/TsImportType, type_args: TA?', 'expr_name:V, type_args'),
    ('TsImportType', 'arg: text, qualifier: ENTITY?, type_args: TA?', 'self, type_args'),
    ('TsTupleElement', 'label: PAT?, ty: TYPE', 'ty:T'),
    ('TsQualifiedName', 'left: ENTITY, right: text', 'self'),
    ('Ident', 'sym: Id', 'self'),
    ('Member', 'obj: EXPR, prop: IdentName/PrivateName/Computed', 'chain'),
    ('IdentName', 'name: text', ''),
    ('PrivateName', 'name: text', ''),
    ('Str', 'value: text', ''),
    ('Num', 'text: text', ''),
    ('BigInt', 'text: text', ''),
    ('Computed', 'expr: EXPR', 'expr'),
    ('Assign', 'plain: bool, left: EXPR/BindingIdent, right: EXPR', 'left, right'),
    ('Arrow', 'type_params: TP?, params: PAT*, return_type: ANN?, is_block: bool, body: ANY',
     'type_params, params, return_type, body{arrow}'),
    ('BindingIdent', 'sym: Id, type_ann: ANN?', 'type_ann'),
    ('ArrayPat', 'elems: PAT*, type_ann: ANN?', 'type_ann'),
    ('ObjectPat', 'props: KeyValuePatProp/AssignPatProp/RestPat*, type_ann: ANN?', 'type_ann'),
    ('RestPat', 'arg: PAT, type_ann: ANN?', 'type_ann'),
    ('KeyValuePatProp', 'key: KEY, value: PAT', 'key:C, value'),
    ('AssignPatProp', 'key: BindingIdent, value: EXPR?', 'key, value'),
    ('AssignPat', 'left: PAT, right: EXPR', 'left, right[i]'),
    ('ExprPat', 'expr: EXPR', 'expr[e]'),
    ('Type', 'children: ANY*', 'children{list}'),
    ('Other', 'children: ANY*', 'children{list}'),
]

# The signature form of four kinds (what they lead to is in the plain form,
# but for a `RestPat` among the props).
SIGNATURE_ROWS = {
    'ArrayPat': 'elems, type_ann',
    'ObjectPat': 'props{rest}, type_ann',
    'RestPat': 'arg, type_ann',
    'BindingIdent': 'type_ann',
}

# The start of the search, by the form of the declaration's node.
BEGIN_ROWS = {
    'Module': '', 'TsModule': '', 'Json': '',
    'Class': '@Class', 'Fn': '@Function', 'TsInterface': '@TsInterfaceDecl',
    'TsTypeAlias': '@TsTypeAliasDecl', 'TsEnum': '@TsEnumDecl',
    'Var': '@VarDeclarator', 'UsingVar': '@VarDeclarator',
    'ExportDefaultExpr': 'expr',
    'AutoAccessor': 'type_ann',
    'ClassMethod': 'key:C[e], function@Function',
    'ClassProp': 'key:C[e], type_ann, value[i]',
    'ClassParamProp': 'P',
    'Constructor': 'params',
    'ExpandoProperty': 'right[e]',
    'TsIndexSignature': '@TsIndexSignature',
    'TsCallSignatureDecl': '@TsCallSignatureDecl',
    'TsConstructSignatureDecl': '@TsConstructSignatureDecl',
    'TsPropertySignature': '@TsPropertySignature',
    'TsGetterSignature': '@TsGetterSignature',
    'TsSetterSignature': '@TsSetterSignature',
    'TsMethodSignature': '@TsMethodSignature',
}

ALL_KINDS = [row[0] for row in KIND_ROWS]

_DECL = ['ClassDecl', 'FnDecl', 'VarDecl', 'UsingDecl', 'TsInterfaceDecl',
         'TsTypeAliasDecl', 'TsEnumDecl', 'TsModuleDecl']
_STMT = ['ExprStmt'] + _DECL + ['Other']
_ITEM = _STMT + ['Import', 'ExportDecl', 'ExportNamed', 'ExportDefaultDecl',
                 'ExportDefaultExpr', 'ExportAll', 'TsImportEqualsDecl',
                 'TsExportAssignment']
_SIG = ['BindingIdent', 'ArrayPat', 'ObjectPat', 'RestPat']

CATEGORIES = {
    'DECL': _DECL,
    'EXPORTED': [kind for kind in _DECL if kind != 'UsingDecl'],
    'STMT': _STMT,
    'ITEM': _ITEM,
    'EXPR': ['Ident', 'Member', 'Str', 'Num', 'BigInt', 'Assign', 'FnExpr',
             'ClassExpr', 'Arrow', 'TsAsExpr', 'TsTypeAssertion', 'Other'],
    'KEY': ['IdentName', 'Str', 'Num', 'BigInt', 'Computed'],
    'ENTITY': ['Ident', 'TsQualifiedName'],
    'SIG': _SIG,
    'PAT': _SIG + ['AssignPat', 'ExprPat', 'Other'],
    'TYPE': ['Type', 'TsTypeQuery', 'TsImportType'],
    'MEMBER': ['Constructor', 'ClassMethod', 'ClassProp', 'TsIndexSignature',
               'AutoAccessor', 'Other'],
    'ELEMENT': ['TsCallSignatureDecl', 'TsConstructSignatureDecl',
                'TsPropertySignature', 'TsGetterSignature',
                'TsSetterSignature', 'TsMethodSignature', 'TsIndexSignature'],
    'TP': ['TsTypeParamDecl'],
    'TA': ['TsTypeParamInstantiation'],
    'ANN': ['TsTypeAnn'],
}
CATEGORIES['ANY'] = [k for k in ALL_KINDS
                     if k != 'Program' and not (k in _ITEM and k not in _STMT)]
CATEGORIES = {k: frozenset(v) for k, v in CATEGORIES.items()}

ACCESSIBILITIES = ('public', 'protected', 'private')
METHOD_KINDS = ('method', 'getter', 'setter')
VALUE_TYPES = ('text', 'text?', 'bool', 'Id', 'ACC', 'MKIND')


def expand(cat):
    """Returns the set of kinds of a category."""
    out = set()
    for part in cat.split('/'):
        if part in CATEGORIES:
            out |= CATEGORIES[part]
        else:
            assert part in ALL_KINDS, part
            out.add(part)
    return frozenset(out)


def parse_fields(text):
    """Returns a list of (name, type, allowed): type 'child', 'child?', 'child*' with
    the allowed kinds, or one of VALUE_TYPES with None."""
    out = []
    for part in filter(None, (p.strip() for p in text.split(','))):
        name, ty = (x.strip() for x in part.split(':'))
        if ty in VALUE_TYPES:
            out.append((name, ty, None))
        elif ty[-1] in '?*':
            out.append((name, 'child' + ty[-1], expand(ty[:-1])))
        else:
            out.append((name, 'child', expand(ty)))
    return out


class Edge:
    __slots__ = ('field', 'mark', 'guard', 'sig', 'special', 'into')

    def __init__(self, text):
        self.field = self.mark = self.guard = self.special = self.into = None
        self.sig = False
        if text in ('self', 'chain', 'P'):
            self.special = text
            return
        if text.startswith('@'):
            self.special, self.into = 'begin', text[1:]
            return
        t = text
        if '@' in t:
            t, self.into = t.split('@')
        if t.endswith('}'):
            t, s = t[:-1].split('{')
            self.special = s
        if t.endswith('(S)'):
            t, self.sig = t[:-3], True
        if t.endswith(']'):
            t, g = t[:-1].split('[')
            self.guard = g
        if ':' in t:
            t, self.mark = t.split(':')
        self.field = t


def parse_edges(text):
    return [Edge(p.strip()) for p in text.split(',') if p.strip()]


FIELDS = {k: parse_fields(f) for k, f, _ in KIND_ROWS}
EDGES = {k: parse_edges(e) for k, _, e in KIND_ROWS}
SIG_EDGES = {k: parse_edges(e) for k, e in SIGNATURE_ROWS.items()}
BEGIN = {k: parse_edges(e) for k, e in BEGIN_ROWS.items()}
CHILD_FIELDS = {k: [(n, t, a) for n, t, a in fs if t.startswith('child')]
                for k, fs in FIELDS.items()}
assert len(ALL_KINDS) == len(set(ALL_KINDS))
