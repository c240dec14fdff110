//! Patterns.

use deno_ast::swc::ast::*;

use super::nodes::*;

impl<'a> Nodes<'a> {
    pub fn pat(&self, n: N<'a>) -> Result<Pat> {
        Ok(match n.kind {
            "BindingIdent" => Pat::Ident(self.binding_ident(n)?),
            "ArrayPat" => Pat::Array(self.array_pat(n)?),
            "ObjectPat" => Pat::Object(self.object_pat(n)?),
            "RestPat" => Pat::Rest(self.rest_pat(n)?),
            "AssignPat" => Pat::Assign(self.assign_pat(n)?),
            "ExprPat" => Pat::Expr(boxed(self.one(n, "expr", Self::expr))?),
            // swc's patterns have no opaque one; the nearest is an
            // expression, which is walked only with expressions
            "Other" => Pat::Expr(boxed(self.expr(n))?),
            _ => return n.bad("pattern"),
        })
    }

    pub fn fn_param(&self, n: N<'a>) -> Result<TsFnParam> {
        Ok(match n.kind {
            "BindingIdent" => TsFnParam::Ident(self.binding_ident(n)?),
            "ArrayPat" => TsFnParam::Array(self.array_pat(n)?),
            "ObjectPat" => TsFnParam::Object(self.object_pat(n)?),
            "RestPat" => TsFnParam::Rest(self.rest_pat(n)?),
            _ => return n.bad("parameter of a signature"),
        })
    }

    pub fn binding_ident(&self, n: N<'a>) -> Result<BindingIdent> {
        if n.kind != "BindingIdent" {
            return n.bad("binding identifier");
        }
        Ok(BindingIdent {
            id: n.ident()?,
            type_ann: self.maybe_box(n, "type_ann", Self::type_ann)?,
        })
    }

    pub fn array_pat(&self, n: N<'a>) -> Result<ArrayPat> {
        Ok(ArrayPat {
            span: n.span,
            elems: self.each(n, "elems", |s, e| s.pat(e).map(Some))?,
            type_ann: self.maybe_box(n, "type_ann", Self::type_ann)?,
        })
    }

    pub fn object_pat(&self, n: N<'a>) -> Result<ObjectPat> {
        Ok(ObjectPat {
            span: n.span,
            props: self.each(n, "props", Self::object_pat_prop)?,
            type_ann: self.maybe_box(n, "type_ann", Self::type_ann)?,
        })
    }

    pub fn object_pat_prop(&self, n: N<'a>) -> Result<ObjectPatProp> {
        Ok(match n.kind {
            "KeyValuePatProp" => ObjectPatProp::KeyValue(KeyValuePatProp {
                span: n.span,
                key: self.one(n, "key", Self::prop_name)?,
                value: boxed(self.one(n, "value", Self::pat))?,
            }),
            "AssignPatProp" => ObjectPatProp::Assign(AssignPatProp {
                span: n.span,
                key: self.one(n, "key", Self::binding_ident)?,
                value: self.maybe_box(n, "value", Self::expr)?,
            }),
            "RestPat" => ObjectPatProp::Rest(self.rest_pat(n)?),
            _ => return n.bad("property of a pattern"),
        })
    }

    pub fn rest_pat(&self, n: N<'a>) -> Result<RestPat> {
        Ok(RestPat {
            span: n.span,
            arg: boxed(self.one(n, "arg", Self::pat))?,
            type_ann: self.maybe_box(n, "type_ann", Self::type_ann)?,
        })
    }

    pub fn assign_pat(&self, n: N<'a>) -> Result<AssignPat> {
        Ok(AssignPat {
            span: n.span,
            left: boxed(self.one(n, "left", Self::pat))?,
            right: boxed(self.one(n, "right", Self::expr))?,
        })
    }
}
