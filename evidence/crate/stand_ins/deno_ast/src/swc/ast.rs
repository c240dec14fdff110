//! The node types of swc that `src/symbols` names, with the fields that it
//! reads. `AnyNode`, `OtherExpr` and `OtherType` are the stand-in's own: they hold
//! what the graph format calls `Other` and `Type`.

use super::atoms::Atom;
use super::atoms::Wtf8Atom;
use crate::SourceRange;
use crate::SourceRangedForSpanned;

#[derive(Debug, Clone, Copy, PartialEq, Eq, Hash, PartialOrd, Ord)]
pub struct SyntaxContext(pub u32);

pub type Id = (Atom, SyntaxContext);

macro_rules! nodes {
  ($($name:ident { $($field:ident: $ty:ty),* $(,)? })*) => {
    $(
      #[derive(Debug, Clone)]
      pub struct $name {
        pub span: SourceRange,
        $(pub $field: $ty,)*
      }

      impl SourceRangedForSpanned for $name {
        fn range(&self) -> SourceRange {
          self.span
        }
      }
    )*
  };
}

macro_rules! enums {
  ($($name:ident { $($variant:ident($ty:ty)),* $(,)? })*) => {
    $(
      #[derive(Debug, Clone)]
      pub enum $name {
        $($variant($ty),)*
      }

      impl SourceRangedForSpanned for $name {
        fn range(&self) -> SourceRange {
          match self {
            $($name::$variant(n) => n.range(),)*
          }
        }
      }
    )*
  };
}

impl<T: SourceRangedForSpanned> SourceRangedForSpanned for Box<T> {
    fn range(&self) -> SourceRange {
        (**self).range()
    }
}

/// The text of a number literal, in place of its value.
#[derive(Debug, Clone)]
pub struct NumberText(pub Atom);

impl std::fmt::Display for NumberText {
    fn fmt(&self, f: &mut std::fmt::Formatter<'_>) -> std::fmt::Result {
        f.write_str(&self.0)
    }
}

#[derive(Debug, Clone, Copy, PartialEq, Eq)]
pub enum Accessibility {
    Public,
    Protected,
    Private,
}

#[derive(Debug, Clone, Copy, PartialEq, Eq)]
pub enum MethodKind {
    Method,
    Getter,
    Setter,
}

#[derive(Debug, Clone, Copy, PartialEq, Eq)]
pub enum AssignOp {
    Assign,
    /// All others.
    AddAssign,
}

nodes! {
  // identifiers and literals
  Ident { ctxt: SyntaxContext, sym: Atom }
  IdentName { sym: Atom }
  PrivateName { name: Atom }
  Str { value: Wtf8Atom }
  Bool { value: bool }
  Number { value: NumberText }
  BigInt { value: NumberText }
  Invalid {}

  // program
  Module { body: Vec<ModuleItem> }
  Script { body: Vec<Stmt> }
  ImportDecl { specifiers: Vec<ImportSpecifier>, src: Box<Str> }
  ImportNamedSpecifier { local: Ident, imported: Option<ModuleExportName> }
  ImportDefaultSpecifier { local: Ident }
  ImportStarAsSpecifier { local: Ident }
  ExportDecl { decl: Decl }
  NamedExport { specifiers: Vec<ExportSpecifier>, src: Option<Box<Str>> }
  ExportNamedSpecifier { orig: ModuleExportName, exported: Option<ModuleExportName> }
  ExportNamespaceSpecifier { name: ModuleExportName }
  ExportDefaultSpecifier { exported: Ident }
  ExportDefaultDecl { decl: DefaultDecl }
  ExportDefaultExpr { expr: Box<Expr> }
  ExportAll { src: Box<Str> }
  TsImportEqualsDecl { is_export: bool, id: Ident, module_ref: TsModuleRef }
  TsExternalModuleRef { expr: Str }
  TsExportAssignment { expr: Box<Expr> }
  TsNamespaceExportDecl { id: Ident }

  // statements and declarations
  ExprStmt { expr: Box<Expr> }
  BlockStmt { content: Vec<AnyNode> }
  OtherStmt { children: Vec<AnyNode> }
  ClassDecl { ident: Ident, class: Box<Class> }
  FnDecl { ident: Ident, function: Box<Function> }
  VarDecl { decls: Vec<VarDeclarator> }
  UsingDecl { decls: Vec<VarDeclarator> }
  VarDeclarator { name: Pat, init: Option<Box<Expr>> }
  TsInterfaceDecl {
    id: Ident,
    type_params: Option<Box<TsTypeParamDecl>>,
    extends: Vec<TsExprWithTypeArgs>,
    body: TsInterfaceBody,
  }
  TsInterfaceBody { body: Vec<TsTypeElement> }
  TsTypeAliasDecl {
    id: Ident,
    type_params: Option<Box<TsTypeParamDecl>>,
    type_ann: Box<TsType>,
  }
  TsEnumDecl { id: Ident, members: Vec<TsEnumMember> }
  TsEnumMember { init: Option<Box<Expr>> }
  TsModuleDecl { declare: bool, id: TsModuleName, body: Option<TsNamespaceBody> }
  TsNamespaceDecl { id: Ident, body: Box<TsNamespaceBody> }
  TsModuleBlock { body: Vec<ModuleItem> }

  // classes and functions
  Class {
    type_params: Option<Box<TsTypeParamDecl>>,
    super_class: Option<Box<Expr>>,
    super_type_params: Option<Box<TsTypeParamInstantiation>>,
    implements: Vec<TsExprWithTypeArgs>,
    body: Vec<ClassMember>,
  }
  Constructor {
    params: Vec<ParamOrTsParamProp>,
    body: Option<BlockStmt>,
    accessibility: Option<Accessibility>,
  }
  TsParamProp { param: TsParamPropParam, accessibility: Option<Accessibility> }
  ClassMethod {
    key: PropName,
    function: Box<Function>,
    kind: MethodKind,
    is_static: bool,
    accessibility: Option<Accessibility>,
  }
  ClassProp {
    key: PropName,
    type_ann: Option<Box<TsTypeAnn>>,
    value: Option<Box<Expr>>,
    is_static: bool,
    accessibility: Option<Accessibility>,
  }
  AutoAccessor {
    key: Key,
    type_ann: Option<Box<TsTypeAnn>>,
    value: Option<Box<Expr>>,
    is_static: bool,
    accessibility: Option<Accessibility>,
  }
  // Private methods and properties, static blocks and empty members.
  OtherMember { children: Vec<AnyNode> }
  Function {
    params: Vec<Param>,
    body: Option<BlockStmt>,
    type_params: Option<Box<TsTypeParamDecl>>,
    return_type: Option<Box<TsTypeAnn>>,
  }
  Param { pat: Pat }

  // expressions
  MemberExpr { obj: Box<Expr>, prop: MemberProp }
  AssignExpr { op: AssignOp, left: AssignTarget, right: Box<Expr> }
  ParenExpr { expr: Box<Expr> }
  FnExpr { ident: Option<Ident>, function: Box<Function> }
  ClassExpr { ident: Option<Ident>, class: Box<Class> }
  ArrowExpr {
    params: Vec<Pat>,
    body: Box<BlockStmtOrExpr>,
    type_params: Option<Box<TsTypeParamDecl>>,
    return_type: Option<Box<TsTypeAnn>>,
  }
  TsAsExpr { expr: Box<Expr>, type_ann: Box<TsType> }
  TsTypeAssertion { expr: Box<Expr>, type_ann: Box<TsType> }
  OtherExpr { children: Vec<AnyNode> }
  ComputedPropName { expr: Box<Expr> }

  // patterns
  ArrayPat { elems: Vec<Option<Pat>>, type_ann: Option<Box<TsTypeAnn>> }
  ObjectPat { props: Vec<ObjectPatProp>, type_ann: Option<Box<TsTypeAnn>> }
  RestPat { arg: Box<Pat>, type_ann: Option<Box<TsTypeAnn>> }
  AssignPat { left: Box<Pat>, right: Box<Expr> }
  KeyValuePatProp { key: PropName, value: Box<Pat> }
  AssignPatProp { key: BindingIdent, value: Option<Box<Expr>> }

  // types
  TsTypeAnn { type_ann: Box<TsType> }
  TsTypeParamDecl { params: Vec<TsTypeParam> }
  TsTypeParam { constraint: Option<Box<TsType>>, default: Option<Box<TsType>> }
  TsTypeParamInstantiation { params: Vec<Box<TsType>> }
  TsExprWithTypeArgs { expr: Box<Expr>, type_args: Option<Box<TsTypeParamInstantiation>> }
  TsQualifiedName { left: TsEntityName, right: IdentName }
  TsTypeQuery { expr_name: TsTypeQueryExpr, type_args: Option<Box<TsTypeParamInstantiation>> }
  TsImportType {
    arg: Str,
    qualifier: Option<TsEntityName>,
    type_args: Option<Box<TsTypeParamInstantiation>>,
  }
  TsTupleElement { label: Option<Pat>, ty: Box<TsType> }
  OtherType { children: Vec<AnyNode> }
  TsIndexSignature {
    params: Vec<TsFnParam>,
    type_ann: Option<Box<TsTypeAnn>>,
    is_static: bool,
  }
  TsCallSignatureDecl {
    params: Vec<TsFnParam>,
    type_ann: Option<Box<TsTypeAnn>>,
    type_params: Option<Box<TsTypeParamDecl>>,
  }
  TsConstructSignatureDecl {
    params: Vec<TsFnParam>,
    type_ann: Option<Box<TsTypeAnn>>,
    type_params: Option<Box<TsTypeParamDecl>>,
  }
  TsPropertySignature {
    key: Box<Expr>,
    computed: bool,
    type_ann: Option<Box<TsTypeAnn>>,
  }
  TsGetterSignature {
    key: Box<Expr>,
    computed: bool,
    type_ann: Option<Box<TsTypeAnn>>,
  }
  TsSetterSignature { key: Box<Expr>, computed: bool, param: TsFnParam }
  TsMethodSignature {
    key: Box<Expr>,
    computed: bool,
    params: Vec<TsFnParam>,
    type_ann: Option<Box<TsTypeAnn>>,
    type_params: Option<Box<TsTypeParamDecl>>,
  }
}

impl Ident {
    pub fn to_id(&self) -> Id {
        (self.sym.clone(), self.ctxt)
    }
}

#[derive(Debug, Clone)]
pub struct BindingIdent {
    pub id: Ident,
    pub type_ann: Option<Box<TsTypeAnn>>,
}

impl std::ops::Deref for BindingIdent {
    type Target = Ident;
    fn deref(&self) -> &Ident {
        &self.id
    }
}

impl SourceRangedForSpanned for BindingIdent {
    fn range(&self) -> SourceRange {
        self.id.span
    }
}

enums! {
  Program { Module(Module), Script(Script) }
  ModuleItem { ModuleDecl(ModuleDecl), Stmt(Stmt) }
  ModuleDecl {
    Import(ImportDecl),
    ExportDecl(ExportDecl),
    ExportNamed(NamedExport),
    ExportDefaultDecl(ExportDefaultDecl),
    ExportDefaultExpr(ExportDefaultExpr),
    ExportAll(ExportAll),
    TsImportEquals(Box<TsImportEqualsDecl>),
    TsExportAssignment(TsExportAssignment),
    TsNamespaceExport(TsNamespaceExportDecl),
  }
  ImportSpecifier {
    Named(ImportNamedSpecifier),
    Default(ImportDefaultSpecifier),
    Namespace(ImportStarAsSpecifier),
  }
  ExportSpecifier {
    Namespace(ExportNamespaceSpecifier),
    Default(ExportDefaultSpecifier),
    Named(ExportNamedSpecifier),
  }
  ModuleExportName { Ident(Ident), Str(Str) }
  DefaultDecl { Class(ClassExpr), Fn(FnExpr), TsInterfaceDecl(Box<TsInterfaceDecl>) }
  TsModuleRef { TsEntityName(TsEntityName), TsExternalModuleRef(TsExternalModuleRef) }
  Stmt {
    Block(BlockStmt),
    Empty(OtherStmt),
    Debugger(OtherStmt),
    With(OtherStmt),
    Return(OtherStmt),
    Labeled(OtherStmt),
    Break(OtherStmt),
    Continue(OtherStmt),
    If(OtherStmt),
    Switch(OtherStmt),
    Throw(OtherStmt),
    Try(OtherStmt),
    While(OtherStmt),
    DoWhile(OtherStmt),
    For(OtherStmt),
    ForIn(OtherStmt),
    ForOf(OtherStmt),
    Decl(Decl),
    Expr(ExprStmt),
  }
  Decl {
    Class(ClassDecl),
    Fn(FnDecl),
    Var(Box<VarDecl>),
    Using(Box<UsingDecl>),
    TsInterface(Box<TsInterfaceDecl>),
    TsTypeAlias(Box<TsTypeAliasDecl>),
    TsEnum(Box<TsEnumDecl>),
    TsModule(Box<TsModuleDecl>),
  }
  TsModuleName { Ident(Ident), Str(Str) }
  TsNamespaceBody { TsModuleBlock(TsModuleBlock), TsNamespaceDecl(TsNamespaceDecl) }
  ClassMember {
    Constructor(Constructor),
    Method(ClassMethod),
    PrivateMethod(OtherMember),
    ClassProp(ClassProp),
    PrivateProp(OtherMember),
    TsIndexSignature(TsIndexSignature),
    Empty(OtherMember),
    StaticBlock(OtherMember),
    AutoAccessor(AutoAccessor),
  }
  ParamOrTsParamProp { TsParamProp(TsParamProp), Param(Param) }
  TsParamPropParam { Ident(BindingIdent), Assign(AssignPat) }
  Key { Private(PrivateName), Public(PropName) }
  PropName {
    Ident(IdentName),
    Str(Str),
    Num(Number),
    Computed(ComputedPropName),
    BigInt(BigInt),
  }
  Lit { Str(Str), Bool(Bool), Num(Number), BigInt(BigInt) }
  Expr {
    Fn(FnExpr),
    Assign(AssignExpr),
    Member(MemberExpr),
    Ident(Ident),
    Lit(Lit),
    Arrow(ArrowExpr),
    Class(ClassExpr),
    Paren(ParenExpr),
    TsTypeAssertion(TsTypeAssertion),
    TsAs(TsAsExpr),
    Other(OtherExpr),
  }
  MemberProp { Ident(IdentName), PrivateName(PrivateName), Computed(ComputedPropName) }
  AssignTarget { Simple(SimpleAssignTarget), Pat(AssignTargetPat) }
  SimpleAssignTarget {
    Ident(BindingIdent),
    Member(MemberExpr),
    Paren(ParenExpr),
    TsAs(TsAsExpr),
    TsTypeAssertion(TsTypeAssertion),
  }
  AssignTargetPat { Array(ArrayPat), Object(ObjectPat) }
  BlockStmtOrExpr { BlockStmt(BlockStmt), Expr(Box<Expr>) }
  Pat {
    Ident(BindingIdent),
    Array(ArrayPat),
    Rest(RestPat),
    Object(ObjectPat),
    Assign(AssignPat),
    Invalid(Invalid),
    Expr(Box<Expr>),
  }
  ObjectPatProp { KeyValue(KeyValuePatProp), Assign(AssignPatProp), Rest(RestPat) }
  TsFnParam { Ident(BindingIdent), Array(ArrayPat), Rest(RestPat), Object(ObjectPat) }
  TsEntityName { TsQualifiedName(Box<TsQualifiedName>), Ident(Ident) }
  TsTypeQueryExpr { TsEntityName(TsEntityName), Import(TsImportType) }
  TsType { TsTypeQuery(TsTypeQuery), TsImportType(TsImportType), Other(OtherType) }
  TsTypeElement {
    TsCallSignatureDecl(TsCallSignatureDecl),
    TsConstructSignatureDecl(TsConstructSignatureDecl),
    TsPropertySignature(TsPropertySignature),
    TsGetterSignature(TsGetterSignature),
    TsSetterSignature(TsSetterSignature),
    TsMethodSignature(TsMethodSignature),
    TsIndexSignature(TsIndexSignature),
  }
}

/// A child of an opaque node: each is visited by the visit method of its type.
#[derive(Debug, Clone)]
pub enum AnyNode {
    Stmt(Box<Stmt>),
    Expr(Box<Expr>),
    Pat(Box<Pat>),
    ObjectPatProp(Box<ObjectPatProp>),
    PropName(Box<PropName>),
    /// A computed name where no property name is expected.
    Computed(Box<ComputedPropName>),
    FnParam(Box<TsFnParam>),
    ParamProp(Box<TsParamProp>),
    Class(Box<Class>),
    Function(Box<Function>),
    VarDeclarator(Box<VarDeclarator>),
    EnumMember(Box<TsEnumMember>),
    TypeElement(Box<TsTypeElement>),
    Type(Box<TsType>),
    /// The children of a type, without the visit of the type itself.
    BareType(Box<TsType>),
    EntityName(Box<TsEntityName>),
    TypeParamDecl(Box<TsTypeParamDecl>),
    TypeParam(Box<TsTypeParam>),
    TypeArgs(Box<TsTypeParamInstantiation>),
    TypeAnn(Box<TsTypeAnn>),
    ExprWithTypeArgs(Box<TsExprWithTypeArgs>),
    TupleElement(Box<TsTupleElement>),
    /// A kind that nothing visits.
    Nothing,
}
