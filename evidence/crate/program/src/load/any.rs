//! Children of opaque nodes.

use deno_ast::swc::ast::*;

use super::nodes::*;

impl<'a> Nodes<'a> {
    pub fn children(&self, n: N<'a>, parent: Parent) -> Result<Vec<AnyNode>> {
        self.each(n, "children", |s, c| s.any(c, parent))
    }

    /// Names without reference, members, specifiers, namespaces and blocks are
    /// nothing there: the tables give them no edges.
    pub fn any(&self, n: N<'a>, parent: Parent) -> Result<AnyNode> {
        Ok(match n.kind {
            "ExprStmt" | "ClassDecl" | "FnDecl" | "VarDecl" | "UsingDecl" | "TsInterfaceDecl"
            | "TsTypeAliasDecl" | "TsEnumDecl" => AnyNode::Stmt(boxed(self.stmt(n))?),
            "TsModuleDecl" if self.options.swc_edges => AnyNode::Stmt(boxed(self.stmt(n))?),
            "Ident" | "Member" | "Str" | "Num" | "BigInt" | "Assign" | "FnExpr" | "ClassExpr"
            | "Arrow" | "TsAsExpr" | "TsTypeAssertion" | "Other" => {
                AnyNode::Expr(boxed(self.expr(n))?)
            }
            "Computed" if parent == Parent::Plain => AnyNode::Computed(boxed(self.computed(n))?),
            "Computed" => AnyNode::PropName(boxed(self.prop_name(n))?),
            "BindingIdent" | "ArrayPat" | "ObjectPat" | "RestPat" if parent == Parent::Type => {
                AnyNode::FnParam(boxed(self.fn_param(n))?)
            }
            "BindingIdent" | "ArrayPat" | "ObjectPat" | "RestPat" | "AssignPat" | "ExprPat" => {
                AnyNode::Pat(boxed(self.pat(n))?)
            }
            "KeyValuePatProp" | "AssignPatProp" => {
                AnyNode::ObjectPatProp(boxed(self.object_pat_prop(n))?)
            }
            "Type" | "TsTypeQuery" | "TsImportType" => {
                let ty = boxed(self.ty(n))?;
                match parent {
                    Parent::Plain => AnyNode::BareType(ty),
                    Parent::Type | Parent::Other => AnyNode::Type(ty),
                }
            }
            _ => return self.any_part(n),
        })
    }

    /// Parts that are visited alike in every position.
    fn any_part(&self, n: N<'a>) -> Result<AnyNode> {
        Ok(match n.kind {
            "VarDeclarator" => AnyNode::VarDeclarator(boxed(self.declarator(n))?),
            "TsEnumMember" => AnyNode::EnumMember(boxed(self.enum_member(n))?),
            "TsCallSignatureDecl"
            | "TsConstructSignatureDecl"
            | "TsPropertySignature"
            | "TsGetterSignature"
            | "TsSetterSignature"
            | "TsMethodSignature"
            | "TsIndexSignature" => AnyNode::TypeElement(boxed(self.element(n))?),
            "TsParamProp" => AnyNode::ParamProp(boxed(self.param_prop(n))?),
            "Class" => AnyNode::Class(boxed(self.class(n))?),
            "Function" => AnyNode::Function(boxed(self.function(n))?),
            "TsTypeParamDecl" => AnyNode::TypeParamDecl(boxed(self.type_params(n))?),
            "TsTypeParam" => AnyNode::TypeParam(boxed(self.type_param(n))?),
            "TsTypeParamInstantiation" => AnyNode::TypeArgs(boxed(self.type_args(n))?),
            "TsTypeAnn" => AnyNode::TypeAnn(boxed(self.type_ann(n))?),
            "TsExprWithTypeArgs" => AnyNode::ExprWithTypeArgs(boxed(self.heritage(n))?),
            "TsTupleElement" => AnyNode::TupleElement(boxed(self.tuple_element(n))?),
            "TsQualifiedName" => AnyNode::EntityName(boxed(self.entity(n))?),
            _ => AnyNode::Nothing,
        })
    }
}
