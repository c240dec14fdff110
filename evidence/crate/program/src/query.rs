//! Reads query lines.

use deno_ast::swc::ast::Id;
use deno_ast::swc::ast::SyntaxContext;
use deno_ast::swc::atoms::Atom;
use deno_graph::symbols::*;
use serde_json::Value;

fn number(value: &Value) -> Option<u32> {
    value.as_u64().and_then(|n| u32::try_from(n).ok())
}

fn parts(value: &Value) -> Option<Vec<String>> {
    value
        .as_array()?
        .iter()
        .map(|p| p.as_str().map(str::to_string))
        .collect()
}

fn id(name: &Value, scope: &Value) -> Option<Id> {
    Some((Atom::new(name.as_str()?), SyntaxContext(number(scope)?)))
}

fn dep(value: &Value) -> Option<SymbolNodeDep> {
    let items = value.as_array()?;
    match (items.first()?.as_str()?, &items[1..]) {
        ("id", [n, s]) => Some(SymbolNodeDep::Id(id(n, s)?)),
        ("qualified", [n, s, p]) => Some(SymbolNodeDep::QualifiedId(id(n, s)?, parts(p)?)),
        ("import", [t, p]) => Some(SymbolNodeDep::ImportType(
            t.as_str()?.to_string(),
            parts(p)?,
        )),
        _ => None,
    }
}

/// The query of a line on a module.
pub enum Query {
    Module,
    Exports,
    Symbol(Id),
    Name(u32),
    Deps(u32, ResolveDepsMode),
    Paths(u32),
    Definitions(u32),
    Leaves(u32),
    Resolve(SymbolNodeDep),
    /// No form of `symq`: the full table of a module's symbols.
    Table,
}

impl Query {
    /// The symbol with the queried number.
    pub fn symbol(&self) -> Option<u32> {
        match self {
            Query::Name(k)
            | Query::Deps(k, _)
            | Query::Paths(k)
            | Query::Definitions(k)
            | Query::Leaves(k) => Some(*k),
            _ => None,
        }
    }
}

/// The specifier of the module, and the query on it.
pub fn query(line: &str) -> Option<(String, Query)> {
    let value: Value = serde_json::from_str(line).ok()?;
    let items = value.as_array()?;
    let form = items.first()?.as_str()?;
    let module = items.get(1)?.as_str()?.to_string();
    let query = match (form, &items[2..]) {
        ("module", []) => Query::Module,
        ("exports", []) => Query::Exports,
        ("symbol", [n, s]) => Query::Symbol(id(n, s)?),
        ("name", [k]) => Query::Name(number(k)?),
        ("deps", [k, mode]) => Query::Deps(
            number(k)?,
            match mode.as_str()? {
                "types" => ResolveDepsMode::TypesOnly,
                "all" => ResolveDepsMode::TypesAndExpressions,
                _ => return None,
            },
        ),
        ("paths", [k]) => Query::Paths(number(k)?),
        ("definitions", [k]) => Query::Definitions(number(k)?),
        ("leaves", [k]) => Query::Leaves(number(k)?),
        ("resolve", [d]) => Query::Resolve(dep(d)?),
        ("table", []) => Query::Table,
        _ => return None,
    };
    Some((module, query))
}
