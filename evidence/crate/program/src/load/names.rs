//! Names and keys.

use deno_ast::swc::ast::*;
use deno_ast::swc::atoms::Atom;

use super::nodes::*;

impl<'a> Nodes<'a> {
    pub fn private_name(&self, n: N<'a>) -> Result<PrivateName> {
        Ok(PrivateName {
            span: n.span,
            name: Atom::new(n.text("name")?),
        })
    }

    pub fn ident_name(&self, n: N<'a>) -> Result<IdentName> {
        Ok(IdentName {
            span: n.span,
            sym: Atom::new(n.text("name")?),
        })
    }

    pub fn computed(&self, n: N<'a>) -> Result<ComputedPropName> {
        Ok(ComputedPropName {
            span: n.span,
            expr: boxed(self.one(n, "expr", Self::expr))?,
        })
    }

    pub fn number(&self, n: N<'a>) -> Result<NumberText> {
        Ok(NumberText(Atom::new(n.text("text")?)))
    }

    pub fn prop_name(&self, n: N<'a>) -> Result<PropName> {
        let span = n.span;
        Ok(match n.kind {
            "IdentName" => PropName::Ident(self.ident_name(n)?),
            "Str" => PropName::Str(n.str("value")?),
            "Num" => PropName::Num(Number {
                span,
                value: self.number(n)?,
            }),
            "BigInt" => PropName::BigInt(BigInt {
                span,
                value: self.number(n)?,
            }),
            "Computed" => PropName::Computed(self.computed(n)?),
            _ => return n.bad("key"),
        })
    }
}
