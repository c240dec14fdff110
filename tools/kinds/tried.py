"""Data for the tests of the table of kinds: changes of files and of the table, and the output then."""
from .places import GRAPH, KINDS, READER, SYMDIR, SYNTAX, TREE

# a spoilt text in a file, and the parts that differ then
SPOILT = [
    ('a field is renamed', TREE + 'kinds.rt',
     ('        init: Option<NodeId>,\n    },\n    /// `namespace', '        value: Option<NodeId>,\n    },\n    /// `namespace'),
     'text'),
    ('a field is left out', TREE + 'kinds.rt', ('        kind: MethodKind,\n', ''), 'text'),
    ('a field is of another sort', TREE + 'kinds.rt', ('        imported: Option<String>', '        imported: String'), 'text'),
    ('two fields are swapped', TREE + 'kinds.rt',
     ('        obj: NodeId,\n        prop: NodeId,', '        prop: NodeId,\n        obj: NodeId,'), 'text'),
    ('a comment is another', TREE + 'kinds.rt', ('/// A type parameter.', '/// Type parameters.'), 'text'),
    ('the comment of an enum is another', TREE + 'kinds.rt', ('/// Types and what', '/// Types, and what'), 'text'),
    ('an enum is left out', TREE + 'kinds.rt', ('    Pat(Pat),\n', ''), 'text'),
    ('a name is left out', TREE + 'names.rt', ('    BigInt,\n', ''), 'text'),
    ('a kind has another name', TREE + 'names.rt', ('=> KindName::FnExpr', '=> KindName::FnDecl'), 'text'),
    ('another enum is asked', TREE + 'names.rt', ('=> decl.name()', '=> item.name()'), 'text'),
    ('a kind of contracts has another name', SYNTAX + 'Kinds.antt', ('= Name.Arrow', '= Name.Assign'), 'text'),
    ('a kind of contracts has a field more', SYNTAX + 'Kinds.antt', ('Ty.TsAsExpr _ _', 'Ty.TsAsExpr _ _ _'), 'text'),
    ('another enum is asked in contracts', SYNTAX + 'Kinds.antt', ('= pat_kind_name k', '= ty_kind_name k'), 'text'),
    ('a set lacks a kind', TREE + 'categories.rt', ('                | KindName::Computed\n', ''), 'text'),
    ('a set is of others', TREE + 'categories.rt', ('self.is_property_key() ||', 'self.is_ts_entity_name() ||'), 'text'),
    ('a category allows another kind', TREE + 'categories.rt', ('(name, KindName::TsTypeAnn)', '(name, KindName::Plain)'), 'text'),
    ('a category is left out', TREE + 'categories.rt', ('    /// A type parameter.\n    TypeParam,\n', ''), 'text'),
    ('a function is not brought', TREE + 'categories.rt', ('is_type, ', ''), 'text'),
    ('a set of contracts has a kind more', SYNTAX + 'Kinds.antt', ('is_property_key _', 'is_property_key Name.Arrow = true\nis_property_key _'), 'text'),
    ('a category of contracts allows another kind', SYNTAX + 'Kinds.antt',
     ('category_allows_kind Category.Class Name.Class ', 'category_allows_kind Category.Class Name.Other '), 'text'),
    ('a field has another category', TREE + 'fields.rt', ('one(Category::AssignLeft, left)', 'one(Category::Pattern, left)'),
     'text'),
    ('a field is optional', TREE + 'fields.rt', ('one(Category::MemberProp', 'optional(Category::MemberProp'), 'text'),
    ('a field that holds children is left out', TREE + 'fields.rt', ('                optional(Category::ModuleBody, body)\n', ''),
     'text'),
    ('a field of contracts has another category', SYNTAX + 'Fields.antt', ('field_of_one_child Category.ParamPropPattern', 'field_of_one_child Category.Pattern'),
     'text'),
    ('a method asks for another field', TREE + 'child_fields.rt', ('kind_fields::left_of_kind(', 'kind_fields::right_of_kind('), 'text'),
    ('a method of another name', TREE + 'child_fields.rt', ('pub fn body_node', 'pub fn block'), 'text'),
    ('a match of kinds lacks a kind', TREE + 'kind_fields.rt', ('            | Pat::ArrayPat { type_ann, .. }\n', ''), 'text'),
    ('a function of kinds is not brought', TREE + 'kind_fields.rt', ('prop_children_of, ', ''), 'text'),
    ('a child stands in another place', SYNTAX + 'Fields.antt',
     ('Item.TsImportEqualsDecl _ child _ _', 'Item.TsImportEqualsDecl _ _ child _'), 'text'),
    ('another field is read', KINDS + 'members.rt', ('"method_kind"', '"kind"'), 'text'),
    ('a text is another', KINDS + 'pats.rt', ('"Type" =>', '"Plain" =>'), 'text'),
    ('a function is read for another kind', KINDS + 'tys.rt', ('some_kind(ts_as_expr(', 'some_kind(ts_type_assertion('), 'text'),
    ('a key of contracts is another', READER + 'KindTable.antt', ('codes "super_class"', 'codes "super"'), 'text'),
    ('a sort of contracts is another', READER + 'KindTable.antt', ('(codes "declare", flag)', '(codes "declare", child)'), 'text'),
    ('a text of contracts is another', READER + 'KindTable.antt', ('codes "Type"', 'codes "Plain"'), 'text'),
    ('two names of a row are swapped', READER + 'KindShapesTable.antt',
     ('Item.TsImportEqualsDecl is_export id', 'Item.TsImportEqualsDecl id is_export'), 'text'),
    ('another list of texts is read', READER + 'KindShapesTable.antt', ('kind_name_by_text ty_kind_names_by_text t', 'kind_name_by_text pat_kind_names_by_text t'), 'text'),
    ('a shape has other fields', READER + 'KindShapesTable.antt', ('slots = expr_field_values k', 'slots = pat_field_values k'), 'text'),
    ('a shape is of another enum', READER + 'KindShapesTable.antt', ('= expr_name_and_field_values k', '= pat_name_and_field_values k'), 'text'),
    ('a field of the page may be absent', GRAPH, ('`src` text |\n| `TsImp', '`src?` text |\n| `TsImp'), 'kinds of Item'),
    ('two kinds of the page are swapped', GRAPH,
     ('| `Num` | a number; its text | `text` text |\n| `BigInt` | a big integer; its text | `text` text |\n',
      '| `BigInt` | a big integer; its text | `text` text |\n| `Num` | a number; its text | `text` text |\n'), 'kinds of Expr'),
    ('a category of the page has a kind more', GRAPH, ('| Entity | `Ident`,', '| Entity | `Ident`, `Str`,'), 'categories'),
    ('the page counts otherwise', GRAPH, ('\nAll ', '\nAll 1'), 'count'),
    ('a category stands twice', GRAPH,
     ('| TypeParam | `TsTypeParam` |\n', '| TypeParam | `TsTypeParam` |\n| TypeParam | `TsTypeParam` |\n'), 'categories'),
    ('a row with one cell', GRAPH, ('| Annotation | `TsTypeAnn` |\n', '| Annotation |\n'), 'categories'),
    ('the last row of the page is gone', GRAPH, ('| Annotation | `TsTypeAnn` |\n', ''), 'categories'),
    ('a category of one kind is left out', GRAPH, ('VarDeclarator | the kind', 'VarDecl | the kind'), 'categories'),
    ('fewer are said to be in a set', GRAPH, ('the eight that', 'the seven that'), 'categories'),
    ('a line has a space at its end', TREE + 'kinds.rt', ('        sym: Id,\n    },', '        sym: Id, \n    },'), 'text'),
]

# a spoilt text so that a part isn't found, and the output then
LOST = [
    ('the first line is another', GRAPH, ('--write: categories -->', '--write: sorts -->'),
     'categories: 0 lines are <!-- generated from tools/kinds/kinds.txt by tools/kinds.py --write: categories -->'),
    ('the first line stands twice', GRAPH, ('\n<!-- generated from tools/kinds/kinds.txt by tools/kinds.py --write: count -->', 2 * (
        '\n<!-- generated from tools/kinds/kinds.txt by tools/kinds.py --write: count -->')),
     'count: 2 lines are <!-- generated from tools/kinds/kinds.txt by tools/kinds.py --write: count -->'),
    ('a last line is gone', GRAPH, ('category refers to children by number.\n<!-- end -->', 'category refers to children by number.'),
     'count: ends in a part behind it'),
    ('the last line of all is gone', GRAPH, ('| Annotation | `TsTypeAnn` |\n<!-- end -->', '| Annotation | `TsTypeAnn` |'),
     'categories: no line behind it is <!-- end -->'),
]

PAGES = (GRAPH, SYMDIR)

# a change of the table, and the files in which something differs then
CHANGED = [
    ('a text', ('    imported: optional text', '    original: optional text'),
     (TREE + 'kinds.rt', KINDS + 'items.rt', READER + 'KindTable.antt', READER + 'KindShapesTable.antt', *PAGES)),
    ('a child', ('    label: optional child', '    tag: optional child'), (TREE + 'kinds.rt', TREE + 'fields.rt', TREE + 'child_fields.rt',
      TREE + 'kind_fields.rt', SYNTAX + 'Fields.antt', KINDS + 'tys.rt', READER + 'KindTable.antt',
      READER + 'KindShapesTable.antt', *PAGES)),
    ('a key', ('under method_kind', 'under sort'), (KINDS + 'members.rt', READER + 'KindTable.antt', READER + 'KindShapesTable.antt', *PAGES)),
    ('a sort', ('    declare: flag', '    declare: text'),
     (TREE + 'kinds.rt', KINDS + 'decls.rt', READER + 'KindTable.antt', READER + 'KindShapesTable.antt', *PAGES)),
    ('a sort of children', ('    super_class: optional child', '    super_class: child'), (TREE + 'kinds.rt', TREE + 'fields.rt',
      TREE + 'kind_fields.rt', SYNTAX + 'Fields.antt', KINDS + 'decls.rt', READER + 'KindTable.antt',
      READER + 'KindShapesTable.antt', *PAGES)),
    ('the category of a field',
     ('    init: optional child of Expression\n\nkind TsModuleDecl', '    init: optional child of Key\n\nkind TsModuleDecl'),
     (TREE + 'fields.rt', SYNTAX + 'Fields.antt', *PAGES)),
    ('a set', ('    Ident, TsQualifiedName', '    Ident, Str, TsQualifiedName'),
     (TREE + 'categories.rt', SYNTAX + 'Kinds.antt', *PAGES)),
    ('a set that is unnamed in the page', ('ExportAll, TsImportEqualsDecl, TsExportAssignment', 'ExportAll, TsImportEqualsDecl'),
     (TREE + 'categories.rt', SYNTAX + 'Kinds.antt', *PAGES)),
    ('the order of a set', ('    Ident, TsQualifiedName', '    TsQualifiedName, Ident'),
     (TREE + 'categories.rt', SYNTAX + 'Kinds.antt')),
    ('the comment of a set', ('set Element, tested by type_element: elements', 'set Element, tested by type_element: parts'), (TREE + 'categories.rt', SYNTAX + 'Kinds.antt')),
    ('the comment of a category', ('Annotation: A type annotation.', 'Annotation: An annotation.'), (TREE + 'categories.rt',)),
    ('the comment of a kind', ('TsTypeAnn, tried first: A type annotation.', 'TsTypeAnn, tried first: An annotation.'), (TREE + 'kinds.rt',)),
    ('the comment of an enum', ('enum Pat: Patterns, other types', 'enum Pat: Patterns, types'),
     (TREE + 'kinds.rt', KINDS + 'pats.rt', READER + 'KindTable.antt')),
    ('the comment of a function', ('reader: The expression of', 'reader: An expression of'), (KINDS + 'exprs.rt',)),
    ('a text in graphs', ('written Type', 'written Kind'), (KINDS + 'pats.rt', READER + 'KindTable.antt', *PAGES)),
    ('a function', ('read by number', 'read by num'), (KINDS + 'exprs.rt',)),
    ('a kind that is tried first', ('kind TsTypeQuery:', 'kind TsTypeQuery, tried first:'), (KINDS + 'tys.rt',)),
    ('a name in contracts', ('in contracts: children_field', 'in contracts: children_there'),
     (TREE + 'child_fields.rt', TREE + 'kind_fields.rt', SYNTAX + 'Fields.antt')),
]

# a change of the table, and why it is no table then
BAD = [
    ('a word that is no block', ('kind Program:', 'sort Program:'),
     'is no first line of a block: sort Program: The whole module. It is node 0.'),
    ('a line of no block', ('kind Program: The whole module. It is node 0.\n', ''), 'is of no block: body: children of Item'),
    ('a kind without an enum',
     ('enum Item: Items of a module, their parts, and statements.\n    reader: The item of a kind\'s text; none where no item has it.\n',
      ''), 'a kind stands behind its enum'),
    ('an unknown sort', ('    is_export: flag', '    is_export: bool'), 'is no field: is_export: bool'),
    ('a text with a category', ('    is_export: flag', '    is_export: flag of Item'),
     'a field has a category where it holds children, and nowhere else: is_export: flag of Item'),
    ('a child without a category', ('    entity: optional child of Entity', '    entity: optional child'),
     'a field has a category where it holds children, and nowhere else: entity: optional child'),
    ('an unknown category', ('    orig: child of ExportOrig', '    orig: child of Orig'),
     'ExportSpecifier.orig: there is no category Orig'),
    ('a category of no field', ('    orig: child of ExportOrig', '    orig: child of Ident'), 'category ExportOrig is of no field'),
    ('an unknown kind', ('    Ident, TsQualifiedName', '    Ident, TsName'), 'Entity: there is no kind TsName'),
    ('an unknown kind that a set lacks', ('    but UsingDecl', '    but Using'), 'ExportedDeclaration: there is no kind Using'),
    ('an unknown set', ('    all of Signature', '    all of Signatures'), 'set Pattern: no set Signatures stands before it'),
    ('a set of itself', ('    all of Signature', '    all of Pattern'), 'set Pattern: no set Pattern stands before it'),
    ('a set of no form', ('    but UsingDecl', '    but UsingDecl\n    Str'), 'set ExportedDeclaration is of no form that is known'),
    ('a set with more than it can say', ('    none of ItemOnly\n', '    none of ItemOnly\n    all of Key\n'),
     'set Any is of no form that is known'),
    ('a set of two without some', ('    all of Declaration\n    but', '    all of Declaration\n    all of Key\n    but'),
     'set ExportedDeclaration is of no form that is known'),
    ('a kind twice in a set', ('    Ident, TsQualifiedName', '    Ident, TsQualifiedName, Ident'), 'Entity: Ident stands twice'),
    ('a kind twice in a category', ('    TsModuleBlock, TsNamespaceDecl', '    TsModuleBlock, TsModuleBlock'),
     'ModuleBody: TsModuleBlock stands twice'),
    ('a category of another set', ('    TsModuleBlock, TsNamespaceDecl', '    TsModuleBlock\n    all of Key'),
     'a category names kinds alone, or it is of a set: ModuleBody'),
    ('a set of nothing', ('    Ident, TsQualifiedName\n', ''), 'set Entity is of no form that is known'),
    ('a set that is another', ('    all of Declaration\n    but UsingDecl', '    all of Declaration'),
     'set ExportedDeclaration is of no form that is known'),
    ('a category with a set and kinds', ('category Key\n', 'category Key\n    Str\n'),
     'category Key has its kinds here, or in the set of its name'),
    ('a category without kinds', ('    ImportNamed, ImportDefault, ImportNamespace\n', ''),
     'category ImportSpecifier has its kinds here, or in the set of its name'),
    ('a category without a comment', ('category Class: A class without its name.', 'category Class'),
     'category Class has no comment'),
    ('a kind without a comment', ('kind ExprStmt: An expression as a statement.', 'kind ExprStmt'), 'kind ExprStmt has no comment'),
    ('a kind twice', ('kind BigInt: ', 'kind Num: '), 'kind Num stands twice'),
    ('a text twice', ('written Type', 'written Other'), 'two kinds are written Other'),
    ('a function twice', ('read by string', 'read by number'), 'two kinds of Expr are read by number'),
    ('a field twice', ('    is_block: flag', '    params: flag'), 'Arrow has two fields params'),
    ('a key twice', ('under method_kind', 'under function'), 'ClassMethod has two values under the key function'),
    ('a key that each node has', (', under method_kind', ''), 'ClassMethod has two values under the key kind'),
    ('a kind without a field', ('    init: optional child of Expression\n\nkind TsModuleDecl', '\nkind TsModuleDecl'),
     'TsEnumMember has no field'),
    ('six fields with children', ('    super_class:', '    own: child of Class\n    super_class:'),
     'Class has more than 5 fields that hold children'),
    ('a word behind a name', ('kind Str, read by string', 'kind Str, told by string'), 'kind Str: nothing is called told by'),
    ('a value of another name', ('    in contracts: children_field', '    in clauses: children_field'),
     'field children: nothing is called in clauses'),
    ('a value twice', ('    in contracts: children_field', '    in contracts: children_field\n    in contracts: children'),
     'field children: in contracts stands twice'),
    ('a kind that is tried last', ('TsTypeAnn, tried first', 'TsTypeAnn, tried last'), 'kind TsTypeAnn: a kind is tried first, or as all others'),
    ('a word twice', ('kind Str, read by string', 'kind Str, read by string, read by str'),
     'says something twice: read by string, read by str'),
    ('an enum without a reader', ("    reader: The member of a kind's text; none where no member has it.\n", ''),
     'enum Member has no reader'),
    ('a line without a value', ('    in contracts: children_field', '    children_field'), 'has no value: children_field'),
    ('a list that is none', ('    Ident, TsQualifiedName', '    Ident TsQualifiedName'), 'is no list of names: Ident TsQualifiedName'),
    ('a field of no kind', ('field children', 'field child'), 'no field that holds children is called child'),
]

# a change of the table of symdir, and the output then
OF_SYMDIR = [
    ('a mark', ("src? text'", "src text'"),
     'fields: ExportNamed: there specifiers* ExportSpecifier, src text, in the table specifiers* ExportSpecifier, src? text'),
    ('a kind less', ("  RestPat: 'arg Pattern, type_ann? Annotation',\n", ''),
     'fields: RestPat: there None, in the table arg Pattern, type_ann? Annotation'),
    ('a kind more', ("  Other: 'children* Any',\n", "  Other: 'children* Any',\n  More: 'children* Any',\n"),
     'fields: More: there children* Any, in the table None'),
    ('a category', ("  Annotation: 'TsTypeAnn',", "  Annotation: 'TsTypeAnn, Type',"),
     "categories: Annotation: there ['TsTypeAnn', 'Type'], in the table ['TsTypeAnn']"),
    ('a category in another', ("  QueryName: '+Entity,", "  QueryName: 'Entity,"),
     "categories: QueryName: there ['Entity', 'TsImportType'], in the table ['Ident', 'TsImportType', 'TsQualifiedName']"),
]

# kinds that are new, one with fields of all sorts and one with a long name
NEW_KINDS = """
kind TsSatisfiesExpression, written Satisfies, read by satisfies: `expr satisfies ty`.
    expr: child of Expression
    ty: child of Type
    how: optional child of Reason
    notes: children of Reason
    mark: identifier
    sort: method kind, under method_kind
    access: accessibility
    said: optional text
    is_sure: flag

kind Valued: What has a value.
    object: text
    key: optional child of Key

kind TsSatisfiesExpressionOfConstructorParam: A long one.
    how: child of Cause
    value: flag
"""

NEW_CATEGORIES = """
set Cause: causes
    all of ExportedDeclaration
    all of ConstructorParam
    TsSatisfiesExpression

category Cause

category Reason: Why it is so.
    Str, Ident, Member, BigInt, Computed, TsSatisfiesExpression
"""

# the lines of files for the new kinds, in the layout of `rt fmt`
MADE = [
    (TREE + 'kinds.rt', """    /// `expr satisfies ty`.
    TsSatisfiesExpression {
        expr: NodeId,
        ty: NodeId,
        how: Option<NodeId>,
        notes: Vec<NodeId>,
        mark: Id,
        sort: MethodKind,
        access: Option<Accessibility>,
        said: Option<String>,
        is_sure: bool,
    },
"""),
    (TREE + 'names.rt', """            Pat::TsSatisfiesExpression { .. } => KindName::TsSatisfiesExpression,
            Pat::Valued { .. } => KindName::Valued,
            Pat::TsSatisfiesExpressionOfConstructorParam { .. } =>
                KindName::TsSatisfiesExpressionOfConstructorParam,
"""),
    (SYNTAX + 'Kinds.antt', 'pat_kind_name (Pat.TsSatisfiesExpression _ _ _ _ _ _ _ _ _) = Name.TsSatisfiesExpression\n'),
    (TREE + 'fields.rt', """            Pat::TsSatisfiesExpression {
                expr,
                ty,
                how,
                notes,
                ..
            } => slots![
                one(Category::Expression, expr),
                one(Category::Type, ty),
                optional(Category::Reason, how),
                many(Category::Reason, notes)
            ],
            Pat::Valued { key, .. } => slots![optional(Category::Key, key)],
            Pat::TsSatisfiesExpressionOfConstructorParam { how, .. } => slots![one(
                Category::Cause,
                how
            )],
"""),
    (SYNTAX + 'Fields.antt', 'pat_fields (Pat.TsSatisfiesExpression expr ty how notes _ _ _ _ _) =\n    field_of_one_child Category.Expression expr ∷ '
     'field_of_one_child Category.Type ty ∷ field_of_optional_child Category.Reason how ∷\n    field_of_children Category.Reason notes.items ∷ []\n'),
    (TREE + 'child_fields.rt', """    /// Returns the `how` of `TsSatisfiesExpression`, `TsSatisfiesExpressionOfConstructorParam`.
    pub fn how(self) -> Option<NodeRef<'a>>
        ensures { option_map node_view result ≡ child_in_field (node_view self.entry) how_child_of }
    {
        let child = kind_fields::how_of_kind(self.kind());
        NodeRef::node_in(self.tree, child)
    }

    /// Returns the `notes` of a `TsSatisfiesExpression`.
    pub fn notes(self) -> &'a [NodeId]
        ensures { result.now ≡ child_list_in_field (node_view self.entry) note_children_of }
    {
        kind_fields::notes_of_kind(self.kind())
    }
"""),
    (TREE + 'kind_fields.rt', """pub(crate) fn how_of_kind(kind: &Kind) -> Option<NodeId>
    ensures { result ≡ how_child_of kind.now }
{
    match kind {
        Kind::Pat(Pat::TsSatisfiesExpressionOfConstructorParam { how, .. }) => Some(*how),
        Kind::Pat(Pat::TsSatisfiesExpression { how, .. }) => *how,
        _ => None,
    }
}

pub(crate) fn notes_of_kind(kind: &Kind) -> &[NodeId]
    ensures { result.now ≡ note_children_of kind.now }
{
    match kind {
        Kind::Pat(Pat::TsSatisfiesExpression { notes, .. }) => notes,
        _ => &[],
    }
}
"""),
    (TREE + 'child_fields.rt', 'arg_child_of, children_field_of, how_child_of};\nghost use Rattle.symbols_ast.specs.Fields.{note_children_of};\n'),
    (SYNTAX + 'Fields.antt', """abbrev pub how_child_of : Kind → Option ℕ
how_child_of (Kind.Pat (Pat.TsSatisfiesExpression _ _ child _ _ _ _ _ _)) = child
how_child_of (Kind.Pat (Pat.TsSatisfiesExpressionOfConstructorParam child _)) = Some child
how_child_of _ = None
"""),
    (TREE + 'categories.rt', """        self.is_exportable_declaration()
            || self.is_constructor_param()
            || matches!(self, KindName::TsSatisfiesExpression)
"""),
    (TREE + 'categories.rt', """            Category::Reason => matches!(
                name,
                KindName::Str
                    | KindName::Ident
                    | KindName::Member
                    | KindName::BigInt
                    | KindName::Computed
                    | KindName::TsSatisfiesExpression
            ),
"""),
    (SYNTAX + 'Kinds.antt', """-- causes
abbrev pub is_cause : KindName → Bool
is_cause Name.TsSatisfiesExpression = true
is_cause k = is_exportable_declaration k || is_constructor_param k
"""),
    (SYNTAX + 'Kinds.antt', 'category_allows_kind Category.Reason Name.TsSatisfiesExpression = true\ncategory_allows_kind Category.Reason _ = false\n'),
    (KINDS + 'pats.rt', """/// The kind that the text calls `Satisfies`.
fn satisfies(alloc: Global, object: &Object<'_, '_>) -> Result<Pat, FormatFault>
    ensures { IsReadResult pat_name_and_field_values result
        (read_as_kind Name.TsSatisfiesExpression (object_data object.now)) }
{
    Ok(Pat::TsSatisfiesExpression {
        expr: fields::child(object, "expr")?,
        ty: fields::child(object, "ty")?,
        how: fields::optional_child(object, "how")?,
        notes: fields::children(alloc, object, "notes")?,
        mark: fields::identifier(alloc, object, "mark")?,
        sort: member_keywords::method_kind(object, "method_kind")?,
        access: member_keywords::accessibility(object, "access")?,
        said: fields::optional_text(alloc, object, "said")?,
        is_sure: fields::flag(object, "is_sure")?,
    })
}
"""),
    (KINDS + 'pats.rt', """fn valued(alloc: Global, object: &Object<'_, '_>) -> Result<Pat, FormatFault>
    ensures { IsReadResult pat_name_and_field_values result
        (read_as_kind Name.Valued (object_data object.now)) }
{
    Ok(Pat::Valued {
        object: fields::text(alloc, object, "object")?,
        key: fields::optional_child(object, "key")?,
    })
}
"""),
    (KINDS + 'pats.rt', """    let how = fields::child(object, "how")?;
    let value = fields::flag(object, "value")?;
    Ok(Pat::TsSatisfiesExpressionOfConstructorParam { how, value })
"""),
    (KINDS + 'pats.rt', """        "TsSatisfiesExpressionOfConstructorParam" => some_kind(
            ts_satisfies_expression_of_constructor_param(object),
        ),
"""),
    (KINDS + 'pats.rt', 'use crate::member_keywords;\n'),
    (READER + 'KindTable.antt', '    (codes "Satisfies", Name.TsSatisfiesExpression) ∷\n'),
    (READER + 'KindShapesTable.antt', '(Pat.TsSatisfiesExpression expr ty how notes mark sort access said is_sure) =\n'
     '    (codes "expr", holds_child expr) ∷ (codes "ty", holds_child ty) ∷ (codes "how", holds_optional_child how) ∷ '
     '(codes "notes", holds_children notes.items) ∷\n'
     '    (codes "mark", holds_identifier (identifier_view mark)) ∷ (codes "method_kind", holds_method_kind sort) ∷ '
     '(codes "access", holds_accessibility access) ∷\n'
     '    (codes "said", holds_optional_text (option_map string_bytes said)) ∷ (codes "is_sure", holds_flag is_sure) ∷ []\n'),
    (GRAPH, '| `Satisfies` | `expr satisfies ty` | `expr` Expression, `ty` Type, `how?` Reason, `notes*` Reason, `mark` name, '
     '`method_kind` method kind, `access?` access, `said?` text, `is_sure?` flag |\n'),
    (GRAPH, '| Annotation | `TsTypeAnn` |\n| Cause | ExportedDeclaration, ConstructorParam, `Satisfies` |\n'
     '| Reason | `Str`, `Ident`, `Member`, `BigInt`, `Computed`, `Satisfies` |\n'),
]
