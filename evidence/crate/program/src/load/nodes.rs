//! Nodes of a graph's text by their numbers, and the readers of their fields.

use deno_ast::SourceRange;
use deno_ast::swc::ast::*;
use deno_ast::swc::atoms::Atom;
use deno_ast::swc::atoms::Wtf8Atom;
use serde_json::Value;

use super::Options;

pub type Result<T> = std::result::Result<T, String>;

pub fn list<'a>(value: &'a Value, key: &str) -> &'a [Value] {
    value
        .get(key)
        .and_then(Value::as_array)
        .map_or(&[], |v| v.as_slice())
}

pub fn text<'a>(value: &'a Value, key: &str) -> Result<&'a str> {
    maybe_text(value, key).ok_or_else(|| format!("no text {key}"))
}

pub fn maybe_text<'a>(value: &'a Value, key: &str) -> Option<&'a str> {
    value.get(key).and_then(Value::as_str)
}

pub fn flag(value: &Value, key: &str) -> bool {
    value.get(key).and_then(Value::as_bool).unwrap_or(false)
}

/// The position of a node of any kind; it decides how some kinds are visited.
#[derive(Clone, Copy, PartialEq)]
pub enum Parent {
    Type,
    Other,
    /// A parent that marks nothing (the body of an arrow).
    Plain,
}

pub struct Nodes<'a> {
    nodes: &'a [Value],
    pub options: Options,
}

/// One node of the arena.
#[derive(Clone, Copy)]
pub struct N<'a> {
    pub kind: &'a str,
    value: &'a Value,
    pub span: SourceRange,
}

impl<'a> N<'a> {
    pub fn text(&self, key: &str) -> Result<&'a str> {
        text(self.value, key)
    }

    pub fn flag(&self, key: &str) -> bool {
        flag(self.value, key)
    }

    pub fn str(&self, key: &str) -> Result<Str> {
        Ok(Str {
            span: self.span,
            value: Wtf8Atom::new(self.text(key)?),
        })
    }

    pub fn maybe_str(&self, key: &str) -> Option<Str> {
        maybe_text(self.value, key).map(|t| Str {
            span: self.span,
            value: Wtf8Atom::new(t),
        })
    }

    pub fn ident(&self) -> Result<Ident> {
        let sym = self
            .value
            .get("sym")
            .and_then(Value::as_array)
            .ok_or("no sym")?;
        let (Some(name), Some(scope)) = (
            sym.first().and_then(Value::as_str),
            sym.get(1).and_then(Value::as_u64),
        ) else {
            return Err("sym".to_string());
        };
        Ok(Ident {
            span: self.span,
            ctxt: SyntaxContext(scope as u32),
            sym: Atom::new(name),
        })
    }

    pub fn accessibility(&self) -> Option<Accessibility> {
        match maybe_text(self.value, "accessibility") {
            Some("public") => Some(Accessibility::Public),
            Some("protected") => Some(Accessibility::Protected),
            Some("private") => Some(Accessibility::Private),
            _ => None,
        }
    }

    pub fn bad<T>(&self, place: &str) -> Result<T> {
        Err(format!("{} as {place}", self.kind))
    }
}

pub fn boxed<T>(n: Result<T>) -> Result<Box<T>> {
    n.map(Box::new)
}

impl<'a> Nodes<'a> {
    pub fn new(tree: &'a Value, options: Options) -> Result<Self> {
        let nodes = tree.get("nodes").and_then(Value::as_array);
        Ok(Nodes {
            nodes: nodes.ok_or("no nodes")?,
            options,
        })
    }

    /// Node 0.
    pub fn first(&self) -> Result<N<'a>> {
        self.node(&Value::from(0))
    }

    fn node(&self, id: &Value) -> Result<N<'a>> {
        let value = id
            .as_u64()
            .and_then(|n| self.nodes.get(n as usize))
            .ok_or("no such node")?;
        let range = value
            .get("range")
            .and_then(Value::as_array)
            .ok_or("no range")?;
        let at = |i: usize| range.get(i).and_then(Value::as_u64).unwrap_or(0) as usize;
        Ok(N {
            kind: text(value, "kind")?,
            value,
            span: SourceRange::of(at(0), at(1)),
        })
    }

    pub fn child(&self, n: N<'a>, key: &str) -> Result<N<'a>> {
        self.node(n.value.get(key).ok_or_else(|| format!("no {key}"))?)
    }

    pub fn maybe<T>(
        &self,
        n: N<'a>,
        key: &str,
        make: impl Fn(&Self, N<'a>) -> Result<T>,
    ) -> Result<Option<T>> {
        match n.value.get(key) {
            None | Some(Value::Null) => Ok(None),
            Some(id) => make(self, self.node(id)?).map(Some),
        }
    }

    pub fn maybe_box<T>(
        &self,
        n: N<'a>,
        key: &str,
        make: impl Fn(&Self, N<'a>) -> Result<T>,
    ) -> Result<Option<Box<T>>> {
        Ok(self.maybe(n, key, make)?.map(Box::new))
    }

    pub fn each<T>(
        &self,
        n: N<'a>,
        key: &str,
        make: impl Fn(&Self, N<'a>) -> Result<T>,
    ) -> Result<Vec<T>> {
        list(n.value, key)
            .iter()
            .map(|id| make(self, self.node(id)?))
            .collect()
    }

    pub fn one<T>(
        &self,
        n: N<'a>,
        key: &str,
        make: impl Fn(&Self, N<'a>) -> Result<T>,
    ) -> Result<T> {
        make(self, self.child(n, key)?)
    }

    pub fn ident(&self, n: N<'a>) -> Result<Ident> {
        n.ident()
    }
}
