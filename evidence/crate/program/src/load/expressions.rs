//! Expressions.

use deno_ast::swc::ast::*;

use super::nodes::*;

impl<'a> Nodes<'a> {
    pub fn expr(&self, n: N<'a>) -> Result<Expr> {
        let span = n.span;
        Ok(match n.kind {
            "Ident" => Expr::Ident(n.ident()?),
            "Member" => Expr::Member(self.member_expr(n)?),
            "Str" => Expr::Lit(Lit::Str(n.str("value")?)),
            "Num" => Expr::Lit(Lit::Num(Number {
                span,
                value: self.number(n)?,
            })),
            "BigInt" => Expr::Lit(Lit::BigInt(BigInt {
                span,
                value: self.number(n)?,
            })),
            "Assign" => Expr::Assign(self.assign(n)?),
            "FnExpr" => Expr::Fn(self.fn_expr(n)?),
            "ClassExpr" => Expr::Class(self.class_expr(n)?),
            "Arrow" => Expr::Arrow(self.arrow(n)?),
            "TsAsExpr" => Expr::TsAs(self.as_expr(n)?),
            "TsTypeAssertion" => Expr::TsTypeAssertion(self.type_assertion(n)?),
            "Other" => Expr::Other(OtherExpr {
                span,
                children: self.children(n, Parent::Other)?,
            }),
            _ => return n.bad("expression"),
        })
    }

    fn assign(&self, n: N<'a>) -> Result<AssignExpr> {
        Ok(AssignExpr {
            span: n.span,
            op: if n.flag("plain") {
                AssignOp::Assign
            } else {
                AssignOp::AddAssign
            },
            left: AssignTarget::Simple(self.one(n, "left", Self::assign_target)?),
            right: boxed(self.one(n, "right", Self::expr))?,
        })
    }

    fn arrow(&self, n: N<'a>) -> Result<ArrowExpr> {
        Ok(ArrowExpr {
            span: n.span,
            params: self.each(n, "params", Self::pat)?,
            body: Box::new(if n.flag("is_block") {
                BlockStmtOrExpr::BlockStmt(self.one(n, "body", Self::body)?)
            } else {
                BlockStmtOrExpr::Expr(boxed(self.one(n, "body", Self::arrow_body))?)
            }),
            type_params: self.maybe_box(n, "type_params", Self::type_params)?,
            return_type: self.maybe_box(n, "return_type", Self::type_ann)?,
        })
    }

    /// The format allows any kind here; one that is no expression is held by
    /// an opaque expression.
    fn arrow_body(&self, n: N<'a>) -> Result<Expr> {
        match n.kind {
            "Ident" | "Member" | "Str" | "Num" | "BigInt" | "Assign" | "FnExpr" | "ClassExpr"
            | "Arrow" | "TsAsExpr" | "TsTypeAssertion" | "Other" => self.expr(n),
            _ => Ok(Expr::Other(OtherExpr {
                span: n.span,
                children: vec![self.any(n, Parent::Plain)?],
            })),
        }
    }

    fn assign_target(&self, n: N<'a>) -> Result<SimpleAssignTarget> {
        Ok(match n.kind {
            "BindingIdent" => SimpleAssignTarget::Ident(self.binding_ident(n)?),
            "Member" => SimpleAssignTarget::Member(self.member_expr(n)?),
            "TsAsExpr" => SimpleAssignTarget::TsAs(self.as_expr(n)?),
            "TsTypeAssertion" => SimpleAssignTarget::TsTypeAssertion(self.type_assertion(n)?),
            _ => SimpleAssignTarget::Paren(ParenExpr {
                span: n.span,
                expr: boxed(self.expr(n))?,
            }),
        })
    }

    fn member_expr(&self, n: N<'a>) -> Result<MemberExpr> {
        Ok(MemberExpr {
            span: n.span,
            obj: boxed(self.one(n, "obj", Self::expr))?,
            prop: self.one(n, "prop", |s, p| {
                Ok(match p.kind {
                    "IdentName" => MemberProp::Ident(s.ident_name(p)?),
                    "PrivateName" => MemberProp::PrivateName(s.private_name(p)?),
                    "Computed" => MemberProp::Computed(s.computed(p)?),
                    _ => return p.bad("property"),
                })
            })?,
        })
    }

    pub fn fn_expr(&self, n: N<'a>) -> Result<FnExpr> {
        Ok(FnExpr {
            span: n.span,
            ident: self.maybe(n, "ident", Self::ident)?,
            function: boxed(self.one(n, "function", Self::function))?,
        })
    }

    pub fn class_expr(&self, n: N<'a>) -> Result<ClassExpr> {
        Ok(ClassExpr {
            span: n.span,
            ident: self.maybe(n, "ident", Self::ident)?,
            class: boxed(self.one(n, "class", Self::class))?,
        })
    }

    fn as_expr(&self, n: N<'a>) -> Result<TsAsExpr> {
        Ok(TsAsExpr {
            span: n.span,
            expr: boxed(self.one(n, "expr", Self::expr))?,
            type_ann: boxed(self.one(n, "ty", Self::ty))?,
        })
    }

    fn type_assertion(&self, n: N<'a>) -> Result<TsTypeAssertion> {
        Ok(TsTypeAssertion {
            span: n.span,
            expr: boxed(self.one(n, "expr", Self::expr))?,
            type_ann: boxed(self.one(n, "ty", Self::ty))?,
        })
    }
}
