//! Types and signatures.

use deno_ast::swc::ast::*;
use deno_ast::swc::atoms::Atom;

use super::nodes::*;

impl<'a> Nodes<'a> {
    pub fn ty(&self, n: N<'a>) -> Result<TsType> {
        Ok(match n.kind {
            "Type" => TsType::Other(OtherType {
                span: n.span,
                children: self.children(n, Parent::Type)?,
            }),
            "TsTypeQuery" => TsType::TsTypeQuery(TsTypeQuery {
                span: n.span,
                expr_name: self.one(n, "expr_name", |s, e| {
                    Ok(match e.kind {
                        "TsImportType" => TsTypeQueryExpr::Import(s.import_type(e)?),
                        _ => TsTypeQueryExpr::TsEntityName(s.entity(e)?),
                    })
                })?,
                type_args: self.maybe_box(n, "type_args", Self::type_args)?,
            }),
            "TsImportType" => TsType::TsImportType(self.import_type(n)?),
            _ => return n.bad("type"),
        })
    }

    pub fn import_type(&self, n: N<'a>) -> Result<TsImportType> {
        Ok(TsImportType {
            span: n.span,
            arg: n.str("arg")?,
            qualifier: self.maybe(n, "qualifier", Self::entity)?,
            type_args: self.maybe_box(n, "type_args", Self::type_args)?,
        })
    }

    pub fn entity(&self, n: N<'a>) -> Result<TsEntityName> {
        Ok(match n.kind {
            "Ident" => TsEntityName::Ident(n.ident()?),
            "TsQualifiedName" => TsEntityName::TsQualifiedName(Box::new(TsQualifiedName {
                span: n.span,
                left: self.one(n, "left", Self::entity)?,
                right: IdentName {
                    span: n.span,
                    sym: Atom::new(n.text("right")?),
                },
            })),
            _ => return n.bad("entity name"),
        })
    }

    pub fn type_ann(&self, n: N<'a>) -> Result<TsTypeAnn> {
        Ok(TsTypeAnn {
            span: n.span,
            type_ann: boxed(self.one(n, "ty", Self::ty))?,
        })
    }

    pub fn type_params(&self, n: N<'a>) -> Result<TsTypeParamDecl> {
        Ok(TsTypeParamDecl {
            span: n.span,
            params: self.each(n, "params", Self::type_param)?,
        })
    }

    pub fn type_param(&self, n: N<'a>) -> Result<TsTypeParam> {
        Ok(TsTypeParam {
            span: n.span,
            constraint: self.maybe_box(n, "constraint", Self::ty)?,
            default: self.maybe_box(n, "default", Self::ty)?,
        })
    }

    pub fn type_args(&self, n: N<'a>) -> Result<TsTypeParamInstantiation> {
        Ok(TsTypeParamInstantiation {
            span: n.span,
            params: self.each(n, "params", |s, p| boxed(s.ty(p)))?,
        })
    }

    pub fn heritage(&self, n: N<'a>) -> Result<TsExprWithTypeArgs> {
        Ok(TsExprWithTypeArgs {
            span: n.span,
            expr: boxed(self.one(n, "expr", Self::expr))?,
            type_args: self.maybe_box(n, "type_args", Self::type_args)?,
        })
    }

    pub fn tuple_element(&self, n: N<'a>) -> Result<TsTupleElement> {
        Ok(TsTupleElement {
            span: n.span,
            label: self.maybe(n, "label", Self::pat)?,
            ty: boxed(self.one(n, "ty", Self::ty))?,
        })
    }

    pub fn index_signature(&self, n: N<'a>) -> Result<TsIndexSignature> {
        Ok(TsIndexSignature {
            span: n.span,
            params: self.each(n, "params", Self::fn_param)?,
            type_ann: self.maybe_box(n, "type_ann", Self::type_ann)?,
            is_static: n.flag("is_static"),
        })
    }

    pub fn element(&self, n: N<'a>) -> Result<TsTypeElement> {
        Ok(match n.kind {
            "TsCallSignatureDecl" => TsTypeElement::TsCallSignatureDecl(TsCallSignatureDecl {
                span: n.span,
                params: self.each(n, "params", Self::fn_param)?,
                type_ann: self.maybe_box(n, "type_ann", Self::type_ann)?,
                type_params: self.maybe_box(n, "type_params", Self::type_params)?,
            }),
            "TsConstructSignatureDecl" => {
                TsTypeElement::TsConstructSignatureDecl(TsConstructSignatureDecl {
                    span: n.span,
                    params: self.each(n, "params", Self::fn_param)?,
                    type_ann: self.maybe_box(n, "type_ann", Self::type_ann)?,
                    type_params: self.maybe_box(n, "type_params", Self::type_params)?,
                })
            }
            "TsIndexSignature" => TsTypeElement::TsIndexSignature(self.index_signature(n)?),
            _ => return self.keyed_element(n),
        })
    }

    fn keyed_element(&self, n: N<'a>) -> Result<TsTypeElement> {
        let (span, computed) = (n.span, n.flag("computed"));
        let key = boxed(self.one(n, "key", Self::expr));
        Ok(match n.kind {
            "TsPropertySignature" => TsTypeElement::TsPropertySignature(TsPropertySignature {
                span,
                key: key?,
                computed,
                type_ann: self.maybe_box(n, "type_ann", Self::type_ann)?,
            }),
            "TsGetterSignature" => TsTypeElement::TsGetterSignature(TsGetterSignature {
                span,
                key: key?,
                computed,
                type_ann: self.maybe_box(n, "type_ann", Self::type_ann)?,
            }),
            "TsSetterSignature" => TsTypeElement::TsSetterSignature(TsSetterSignature {
                span,
                key: key?,
                computed,
                param: self.one(n, "param", Self::fn_param)?,
            }),
            "TsMethodSignature" => TsTypeElement::TsMethodSignature(TsMethodSignature {
                span,
                key: key?,
                computed,
                params: self.each(n, "params", Self::fn_param)?,
                type_ann: self.maybe_box(n, "type_ann", Self::type_ann)?,
                type_params: self.maybe_box(n, "type_params", Self::type_params)?,
            }),
            _ => return n.bad("element"),
        })
    }
}
