//! Classes and functions.

use deno_ast::swc::ast::*;

use super::nodes::*;

impl<'a> Nodes<'a> {
    pub fn class(&self, n: N<'a>) -> Result<Class> {
        Ok(Class {
            span: n.span,
            type_params: self.maybe_box(n, "type_params", Self::type_params)?,
            super_class: self.maybe_box(n, "super_class", Self::expr)?,
            super_type_params: self.maybe_box(n, "super_type_params", Self::type_args)?,
            implements: self.each(n, "implements", Self::heritage)?,
            body: self.each(n, "body", Self::member)?,
        })
    }

    fn member(&self, n: N<'a>) -> Result<ClassMember> {
        Ok(match n.kind {
            "Constructor" => ClassMember::Constructor(self.constructor(n)?),
            "ClassMethod" => ClassMember::Method(self.method(n)?),
            "ClassProp" => ClassMember::ClassProp(ClassProp {
                span: n.span,
                key: self.one(n, "key", Self::prop_name)?,
                type_ann: self.maybe_box(n, "type_ann", Self::type_ann)?,
                value: self.maybe_box(n, "value", Self::expr)?,
                is_static: n.flag("is_static"),
                accessibility: n.accessibility(),
            }),
            "AutoAccessor" => ClassMember::AutoAccessor(self.auto_accessor(n)?),
            "TsIndexSignature" => ClassMember::TsIndexSignature(self.index_signature(n)?),
            "Other" => ClassMember::PrivateProp(OtherMember {
                span: n.span,
                children: self.children(n, Parent::Other)?,
            }),
            _ => return n.bad("member"),
        })
    }

    fn constructor(&self, n: N<'a>) -> Result<Constructor> {
        Ok(Constructor {
            span: n.span,
            params: self.each(n, "params", |s, p| {
                Ok(match p.kind {
                    "TsParamProp" => ParamOrTsParamProp::TsParamProp(s.param_prop(p)?),
                    _ => ParamOrTsParamProp::Param(s.param(p)?),
                })
            })?,
            body: self.maybe(n, "body", Self::body)?,
            accessibility: n.accessibility(),
        })
    }

    fn method(&self, n: N<'a>) -> Result<ClassMethod> {
        Ok(ClassMethod {
            span: n.span,
            key: self.one(n, "key", Self::prop_name)?,
            function: boxed(self.one(n, "function", Self::function))?,
            kind: match n.text("method_kind")? {
                "method" => MethodKind::Method,
                "getter" => MethodKind::Getter,
                "setter" => MethodKind::Setter,
                _ => return n.bad("method kind"),
            },
            is_static: n.flag("is_static"),
            accessibility: n.accessibility(),
        })
    }

    fn auto_accessor(&self, n: N<'a>) -> Result<AutoAccessor> {
        Ok(AutoAccessor {
            span: n.span,
            key: self.one(n, "key", |s, k| {
                Ok(match k.kind {
                    "PrivateName" => Key::Private(s.private_name(k)?),
                    _ => Key::Public(s.prop_name(k)?),
                })
            })?,
            type_ann: self.maybe_box(n, "type_ann", Self::type_ann)?,
            value: self.maybe_box(n, "value", Self::expr)?,
            is_static: n.flag("is_static"),
            accessibility: n.accessibility(),
        })
    }

    pub fn param_prop(&self, n: N<'a>) -> Result<TsParamProp> {
        Ok(TsParamProp {
            span: n.span,
            param: self.one(n, "param", |s, p| {
                Ok(match p.kind {
                    "BindingIdent" => TsParamPropParam::Ident(s.binding_ident(p)?),
                    "AssignPat" => TsParamPropParam::Assign(s.assign_pat(p)?),
                    _ => return p.bad("parameter property"),
                })
            })?,
            accessibility: n.accessibility(),
        })
    }

    pub fn function(&self, n: N<'a>) -> Result<Function> {
        Ok(Function {
            span: n.span,
            params: self.each(n, "params", Self::param)?,
            body: self.maybe(n, "body", Self::body)?,
            type_params: self.maybe_box(n, "type_params", Self::type_params)?,
            return_type: self.maybe_box(n, "return_type", Self::type_ann)?,
        })
    }

    pub fn param(&self, n: N<'a>) -> Result<Param> {
        Ok(Param {
            span: n.span,
            pat: self.pat(n)?,
        })
    }

    /// A body, whatever its kind, is a block that holds the node.
    pub fn body(&self, n: N<'a>) -> Result<BlockStmt> {
        Ok(BlockStmt {
            span: n.span,
            content: vec![self.any(n, Parent::Other)?],
        })
    }
}
