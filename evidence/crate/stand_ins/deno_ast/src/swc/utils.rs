use super::ast::*;
use super::atoms::Atom;
use super::ecma_visit::Visit;
use super::ecma_visit::VisitWith;

/// Types that can be made from an identifier.
pub trait IdentLike {
    fn from_ident(ident: &Ident) -> Self;
}

impl IdentLike for Ident {
    fn from_ident(ident: &Ident) -> Self {
        ident.clone()
    }
}

/// As swc's finder: it passes by types, expressions and property names.
pub struct DestructuringFinder<I: IdentLike> {
    found: Vec<I>,
}

impl<I: IdentLike> Visit for DestructuringFinder<I> {
    fn visit_ident(&mut self, n: &Ident) {
        self.found.push(I::from_ident(n));
    }

    fn visit_expr(&mut self, _: &Expr) {}

    fn visit_prop_name(&mut self, _: &PropName) {}

    fn visit_ts_type_ann(&mut self, _: &TsTypeAnn) {}

    fn visit_ts_type(&mut self, _: &TsType) {}
}

pub fn find_pat_ids<T, I: IdentLike>(node: &T) -> Vec<I>
where
    T: VisitWith<DestructuringFinder<I>>,
{
    let mut finder = DestructuringFinder { found: Vec::new() };
    node.visit_with(&mut finder);
    finder.found
}

/// The rule of `symq`: swc's own also refuses reserved words and
/// takes `ID_Start` and `ID_Continue` in place of the XID tables.
pub fn is_valid_ident(text: &Atom) -> bool {
    let mut chars = text.chars();
    let Some(first) = chars.next() else {
        return false;
    };
    (matches!(first, '$' | '_') || unicode_ident::is_xid_start(first))
        && chars.all(|c| {
            matches!(c, '$' | '_' | '\u{200c}' | '\u{200d}') || unicode_ident::is_xid_continue(c)
        })
}
