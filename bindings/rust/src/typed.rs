//! Queries and answers as types. `docs/QUERIES.md` describes what each means.
//!
//! ```
//! use symq::typed;
//!
//! let graph = br#"{"modules":[{"specifier":"file:///a.ts","kind":"esm","text":"export const a = 1;","tree":{"nodes":[
//!     {"kind":"Program","range":[0,19],"body":[1]}, {"kind":"ExportDecl","range":[0,19],"decl":2},
//!     {"kind":"VarDecl","range":[7,19],"decls":[3]}, {"kind":"VarDeclarator","range":[13,18],"name":4},
//!     {"kind":"BindingIdent","range":[13,14],"sym":["a",1]}]}}]}"#;
//! let mut session = symq::Session::open(graph)?;
//! let found = session.query(&typed::exports("file:///a.ts"))?;
//! assert_eq!((found.exports[0].name.as_str(), found.exports[0].symbol), ("a", 1));
//! let names = session.query_all(&[typed::name("file:///a.ts", 1), typed::name("file:///b.ts", 1)])?;
//! assert_eq!(names, [Ok(Some("a".to_string())), Err(typed::Fault::UnknownModule)]);
//! # Ok::<(), symq::Error>(())
//! ```

use crate::calls::{answer, strict_answer, Session};
use crate::error::Error;
use serde::de::{DeserializeOwned, Error as _};
use serde::{Deserialize, Deserializer, Serialize, Serializer};
use serde_json::{json, Value};
use std::fmt;
use std::marker::PhantomData;

/// The reason why one query has no answer. Other queries are answered.
#[derive(Clone, Copy, Debug, PartialEq, Eq)]
pub enum Fault {
    /// The specifier resolves to no module with symbols.
    UnknownModule,
    /// The module has no symbol of this number.
    UnknownSymbol,
    /// The line is no query.
    BadQuery,
}

impl fmt::Display for Fault {
    fn fmt(&self, f: &mut fmt::Formatter<'_>) -> fmt::Result {
        f.write_str(match self {
            Fault::UnknownModule => "unknown module",
            Fault::UnknownSymbol => "unknown symbol",
            Fault::BadQuery => "bad query",
        })
    }
}

impl std::error::Error for Fault {}

/// A reference in a module.
#[derive(Clone, Debug, PartialEq, Eq)]
pub enum Reference {
    /// A name in a scope.
    Id { name: String, scope: u32 },
    /// A name with qualifiers, as `a.b`.
    Qualified {
        name: String,
        scope: u32,
        parts: Vec<String>,
    },
    /// A name of another module, or without parts all of it.
    Import {
        specifier: String,
        parts: Vec<String>,
    },
}

impl Serialize for Reference {
    fn serialize<S: Serializer>(&self, to: S) -> Result<S::Ok, S::Error> {
        match self {
            Reference::Id { name, scope } => ("id", name, scope).serialize(to),
            Reference::Qualified { name, scope, parts } => {
                ("qualified", name, scope, parts).serialize(to)
            }
            Reference::Import { specifier, parts } => ("import", specifier, parts).serialize(to),
        }
    }
}

#[derive(Deserialize)]
#[serde(rename_all = "lowercase")]
enum Tag {
    Id,
    Qualified,
    Import,
}

/// The list that a reference is in JSON.
#[derive(Deserialize)]
#[serde(untagged)]
enum List {
    Qualified(Tag, String, u32, Vec<String>),
    Import(Tag, String, Vec<String>),
    Id(Tag, String, u32),
}

impl<'de> Deserialize<'de> for Reference {
    fn deserialize<D: Deserializer<'de>>(from: D) -> Result<Reference, D::Error> {
        Ok(match List::deserialize(from)? {
            List::Qualified(Tag::Qualified, name, scope, parts) => {
                Reference::Qualified { name, scope, parts }
            }
            List::Import(Tag::Import, specifier, parts) => Reference::Import { specifier, parts },
            List::Id(Tag::Id, name, scope) => Reference::Id { name, scope },
            _ => return Err(D::Error::custom("no reference")),
        })
    }
}

/// An exported name, the module that exports it locally, its symbol there, and each `export *` on the way.
#[derive(Clone, Debug, PartialEq, Eq, Serialize, Deserialize)]
pub struct Export {
    pub name: String,
    pub module: String,
    pub symbol: u32,
    pub chain: Vec<(String, String)>,
}

/// A module that exports a shared name locally.
#[derive(Clone, Debug, PartialEq, Eq, Serialize, Deserialize)]
pub struct Owner {
    pub module: String,
    pub symbol: u32,
    pub chain: Vec<(String, String)>,
}

/// A name that several modules export.
#[derive(Clone, Debug, PartialEq, Eq, Serialize, Deserialize)]
pub struct Shared {
    pub name: String,
    pub owners: Vec<Owner>,
}

/// The exports of a module, and each `export *` that is unresolved.
#[derive(Clone, Debug, PartialEq, Eq, Serialize, Deserialize)]
pub struct Exports {
    pub exports: Vec<Export>,
    pub unresolved: Vec<(String, String)>,
    /// `None` by Deno's rules.
    #[serde(default, skip_serializing_if = "Option::is_none")]
    pub shared: Option<Vec<Shared>>,
}

/// Where a reference looks its name up.
#[derive(Clone, Copy, Debug, PartialEq, Eq, Serialize, Deserialize)]
#[serde(rename_all = "lowercase")]
pub enum Namespace {
    Type,
    Value,
    Both,
}

/// Which references of a declaration are listed.
#[derive(Clone, Copy, Debug, PartialEq, Eq, Serialize, Deserialize)]
#[serde(rename_all = "lowercase")]
pub enum Mode {
    /// Those outside of expressions.
    Types,
    All,
}

/// The end of a path: a definition, from byte `start` to before byte `end` of the module's text.
#[derive(Clone, Debug, PartialEq, Eq, Serialize, Deserialize)]
pub struct Definition {
    pub module: String,
    pub symbol: u32,
    pub decl: (u32, u32),
    pub start: u32,
    pub end: u32,
    /// The specifier of `import * as a`, which counts as a definition.
    #[serde(default, skip_serializing_if = "Option::is_none")]
    pub star: Option<String>,
}

/// A part of a definition path.
#[derive(Clone, Debug, PartialEq, Eq, Serialize, Deserialize)]
#[serde(untagged, try_from = "Keys")]
pub enum Entry {
    /// A declaration that refers on, and the paths after it.
    Link {
        module: String,
        symbol: u32,
        decl: (u32, u32),
        parts: Vec<String>,
        next: Vec<Entry>,
    },
    Definition(Definition),
    /// An end without a definition: of the kind `specifier`, `part` or `id`, which has a scope.
    Unresolved {
        kind: String,
        module: String,
        name: String,
        parts: Vec<String>,
        #[serde(skip_serializing_if = "Option::is_none")]
        scope: Option<u32>,
    },
    /// The end of a reference without qualifiers to another module.
    WholeModule {
        import_type: String,
    },
}

/// All keys of entries. Which ones are there says which entry it is, so that no part is read twice, however deep the path is.
#[derive(Deserialize)]
struct Keys {
    import_type: Option<String>,
    kind: Option<String>,
    module: Option<String>,
    name: Option<String>,
    symbol: Option<u32>,
    decl: Option<(u32, u32)>,
    parts: Option<Vec<String>>,
    next: Option<Vec<Entry>>,
    start: Option<u32>,
    end: Option<u32>,
    star: Option<String>,
    scope: Option<u32>,
}

impl TryFrom<Keys> for Entry {
    type Error = &'static str;

    fn try_from(keys: Keys) -> Result<Entry, &'static str> {
        let entry = entry_of(keys);
        entry.ok_or("no entry of a definition path: a key is missing")
    }
}

fn entry_of(keys: Keys) -> Option<Entry> {
    if let Some(import_type) = keys.import_type {
        return Some(Entry::WholeModule { import_type });
    }
    let module = keys.module?;
    if let Some(kind) = keys.kind {
        let (name, parts, scope) = (keys.name?, keys.parts?, keys.scope);
        return Some(Entry::Unresolved {
            kind,
            module,
            name,
            parts,
            scope,
        });
    }
    let (symbol, decl) = (keys.symbol?, keys.decl?);
    if let Some(next) = keys.next {
        let parts = keys.parts?;
        return Some(Entry::Link {
            module,
            symbol,
            decl,
            parts,
            next,
        });
    }
    Some(Entry::Definition(Definition {
        module,
        symbol,
        decl,
        start: keys.start?,
        end: keys.end?,
        star: keys.star,
    }))
}

/// What the graph has under a specifier.
#[derive(Clone, Copy, Debug, PartialEq, Eq, Serialize, Deserialize)]
#[serde(rename_all = "lowercase")]
pub enum Found {
    Module,
    Redirect,
    Absent,
}

/// A specifier that the answer to a query rests on.
#[derive(Clone, Debug, PartialEq, Eq, Serialize, Deserialize)]
pub struct Input {
    pub found: Found,
    /// The module that a redirect leads to.
    #[serde(default, skip_serializing_if = "Option::is_none")]
    pub module: Option<String>,
    pub specifier: String,
}

/// A query, made by one of the functions below, whose answer is a `T`.
#[derive(Clone, Debug)]
pub struct Query<T> {
    form: Value,
    /// The key of the answer's value, if it is one value.
    key: Option<&'static str>,
    is_optional: bool,
    answer: PhantomData<fn() -> T>,
}

impl<T: DeserializeOwned> Query<T> {
    fn new(form: Value, key: Option<&'static str>) -> Query<T> {
        Query {
            form,
            key,
            is_optional: false,
            answer: PhantomData,
        }
    }

    /// Returns the line that `symq` reads.
    pub fn line(&self) -> String {
        format!("{}\n", self.form)
    }

    /// Returns the answer that a line of `symq` is.
    pub fn read(&self, line: &[u8]) -> Result<Result<T, Fault>, serde_json::Error> {
        let mut from = serde_json::Deserializer::from_slice(line);
        from.disable_recursion_limit();
        let mut value = Value::deserialize(&mut from)?;
        if value.is_null() && !self.is_optional {
            return Ok(Err(Fault::UnknownModule));
        }
        match value.get("fault").and_then(Value::as_str) {
            Some("unknown symbol") => return Ok(Err(Fault::UnknownSymbol)),
            Some("bad query") => return Ok(Err(Fault::BadQuery)),
            Some(other) => return Err(serde_json::Error::custom(format!("unknown fault {other}"))),
            None => {}
        }
        if let (Some(key), false) = (self.key, value.is_null()) {
            let own = value.get_mut(key).map(Value::take);
            value = own.ok_or_else(|| serde_json::Error::custom(format!("no key {key}")))?;
        }
        T::deserialize(value).map(Ok)
    }
}

/// Resolves a specifier to a module; to `None` if there is none with symbols. Any other query then has the fault `UnknownModule`.
pub fn module(specifier: &str) -> Query<Option<String>> {
    let query = Query::new(json!(["module", specifier]), Some("module"));
    Query {
        is_optional: true,
        ..query
    }
}

/// Lists what a module exports.
pub fn exports(specifier: &str) -> Query<Exports> {
    Query::new(json!(["exports", specifier]), None)
}

/// Lists the exported names, each followed by its members as `[name, member]`.
pub fn names(specifier: &str) -> Query<Vec<Vec<String>>> {
    Query::new(json!(["names", specifier]), Some("names"))
}

/// Finds the number of a symbol; `None` for what is no symbol.
pub fn symbol(specifier: &str, name: &str, scope: u32) -> Query<Option<u32>> {
    Query::new(json!(["symbol", specifier, name, scope]), Some("symbol"))
}

/// Returns the fully qualified name of a symbol; `None` if it has none.
pub fn name(specifier: &str, symbol: u32) -> Query<Option<String>> {
    Query::new(json!(["name", specifier, symbol]), Some("name"))
}

/// Lists the references of each declaration of a symbol, each with its namespace.
pub fn deps(specifier: &str, symbol: u32, mode: Mode) -> Query<Vec<Vec<(Reference, Namespace)>>> {
    Query::new(json!(["deps", specifier, symbol, mode]), Some("deps"))
}

/// Returns the definition paths of a symbol.
pub fn paths(specifier: &str, symbol: u32) -> Query<Vec<Entry>> {
    Query::new(json!(["paths", specifier, symbol]), Some("paths"))
}

/// Returns the definitions at the ends of the paths.
pub fn definitions(specifier: &str, symbol: u32) -> Query<Vec<Definition>> {
    let form = json!(["definitions", specifier, symbol]);
    Query::new(form, Some("definitions"))
}

/// Returns all ends of the paths.
pub fn leaves(specifier: &str, symbol: u32) -> Query<Vec<Entry>> {
    Query::new(json!(["leaves", specifier, symbol]), Some("leaves"))
}

/// Returns the definition paths of a reference in a module.
pub fn resolve(specifier: &str, reference: &Reference) -> Query<Vec<Entry>> {
    let form = json!(["resolve", specifier, reference]);
    Query::new(form, Some("entries"))
}

/// Lists the specifiers that the answer to a query rests on.
pub fn inputs<T>(query: &Query<T>) -> Query<Vec<Input>> {
    Query::new(json!(["inputs", query.form]), Some("inputs"))
}

fn lines_of<T: DeserializeOwned>(queries: &[Query<T>]) -> String {
    queries.iter().map(Query::line).collect()
}

type Answers<T> = Result<Vec<Result<T, Fault>>, Error>;

fn read_all<T: DeserializeOwned>(queries: &[Query<T>], answers: &[u8]) -> Answers<T> {
    let lines = answers.split_inclusive(|&byte| byte == b'\n');
    let found = queries.iter().zip(lines).map(|(it, line)| it.read(line));
    found.map(|it| it.map_err(Error::Json)).collect()
}

/// Returns the answers to queries over the text of a graph; a `Fault` for each query without one.
pub fn query<T: DeserializeOwned>(graph: &[u8], queries: &[Query<T>]) -> Answers<T> {
    read_all(queries, &answer(graph, lines_of(queries).as_bytes())?)
}

/// Returns the answers as `query` does, by strict rules.
pub fn strict_query<T: DeserializeOwned>(graph: &[u8], queries: &[Query<T>]) -> Answers<T> {
    read_all(
        queries,
        &strict_answer(graph, lines_of(queries).as_bytes())?,
    )
}

impl Session {
    /// Returns the answer to a query.
    pub fn query<T: DeserializeOwned>(&mut self, query: &Query<T>) -> Result<T, Error> {
        let line = self.ask(query.line().as_bytes())?;
        query
            .read(&line)
            .map_err(Error::Json)?
            .map_err(Error::Fault)
    }

    /// Returns the answers to queries in one call; a `Fault` for each query without one.
    pub fn query_all<T: DeserializeOwned>(&mut self, queries: &[Query<T>]) -> Answers<T> {
        read_all(queries, &self.ask(lines_of(queries).as_bytes())?)
    }
}
