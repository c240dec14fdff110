"""The node of a declaration: its name, its tests, and its namespaces."""
from rules.dependencies import dependencies
from rules.names import assigned_property, name_of_expression_key, name_of_key

MEMBERS = ('AutoAccessor', 'ClassMethod', 'ClassProp', 'ClassParamProp', 'Constructor', 'ExpandoProperty',
           'TsIndexSignature', 'TsCallSignatureDecl', 'TsConstructSignatureDecl', 'TsPropertySignature',
           'TsGetterSignature', 'TsSetterSignature', 'TsMethodSignature')
MADE_NAMES = {'Constructor': '%%dg_ctor%%', 'TsIndexSignature': '%%dg_index%%',
              'TsCallSignatureDecl': '%%dg_call%%', 'TsConstructSignatureDecl': '%%dg_construct%%'}
VALUES = ('Var', 'UsingVar', 'Fn', 'ExportDefaultExpr', 'ExpandoProperty')
TYPES = ('TsInterface', 'TsTypeAlias')


class DeclarationNode:
    """The node of a declaration. `form` is the form of what is declared: 'Module', 'Class', 'Fn', 'Var', 'UsingVar', 'TsEnum',
    'TsInterface', 'TsModule', 'TsTypeAlias', 'ExportDefaultExpr', 'Json' or one of MEMBERS. `how` is 'plain', 'export' or
    'default'. `at` is the number of the node with the relevant fields: the declarator of a variable, the declaration or
    expression of a class or function. `ident` is the node of the name that a variable's pattern binds."""
    __slots__ = ('tree', 'form', 'how', 'at', 'ident')

    def __init__(self, tree, form, at, how='plain', ident=None):
        self.tree, self.form, self.at, self.how, self.ident = tree, form, at, how, ident

    def node(self):
        return self.tree.nodes[self.at]

    def maybe_name(self) -> 'str | None':
        form = self.form
        if form in ('Module', 'ExportDefaultExpr', 'Json'):
            return None
        if form in MADE_NAMES:
            return MADE_NAMES[form]
        return self._declared_name() if form not in MEMBERS else self._member_name()

    def _declared_name(self):
        nodes = self.tree.nodes
        if self.form in ('Var', 'UsingVar'):
            return nodes[self.ident].fields['sym'][0]
        number = self.node().fields['ident' if self.form in ('Class', 'Fn') else 'id']
        if number is None:
            return None
        name = nodes[number]
        return name.fields['sym'][0] if name.kind == 'Ident' else name.fields['value']

    def _member_name(self):
        nodes, fields = self.tree.nodes, self.node().fields
        if self.form in ('AutoAccessor', 'ClassMethod', 'ClassProp'):
            return name_of_key(nodes, fields['key'])
        if self.form == 'ExpandoProperty':
            return assigned_property(nodes, self.at)[1]
        if self.form == 'ClassParamProp':
            parameter = nodes[fields['param']]
            if parameter.kind == 'AssignPat':
                parameter = nodes[parameter.fields['left']]
            return parameter.fields['sym'][0]
        return name_of_expression_key(nodes, fields['key'])

    def is_class(self) -> bool:
        return self.form == 'Class'

    def is_function(self) -> bool:
        return self.form == 'Fn'

    def is_constructor(self) -> bool:
        return self.form == 'Constructor'

    def is_module(self) -> bool:
        return self.form == 'Module'

    def is_method(self) -> bool:
        return self.form == 'ClassMethod' and self.node().fields['method_kind'] == 'method'

    def is_private_member(self) -> bool:
        if self.form not in MEMBERS or self.form == 'ExpandoProperty':
            return False
        fields = self.node().fields
        if fields.get('accessibility') == 'private':
            return True
        return self.form == 'AutoAccessor' and self.tree.nodes[fields['key']].kind == 'PrivateName'

    def has_body(self) -> bool:
        if self.form in ('Module', 'Class', 'TsEnum', 'TsInterface'):
            return True
        if self.form in ('Fn', 'ClassMethod'):
            return self.tree.nodes[self.node().fields['function']].fields['body'] is not None
        return self.form in ('TsModule', 'Constructor') and self.node().fields['body'] is not None

    def dependencies(self, expressions: bool):
        return [] if self.form == 'Json' else dependencies(self, expressions)
