//! Answers queries.

use std::collections::HashMap;

use deno_graph::symbols::*;

use crate::load::specifier;
use crate::query::Query;
use crate::query::query;
use crate::writer::DeclTable;
use crate::writer::Out;
use crate::writer::symbol_number;

pub const BAD_QUERY: &str = r#"{"fault":"bad query"}"#;
const UNKNOWN_SYMBOL: &str = r#"{"fault":"unknown symbol"}"#;

#[derive(Default)]
pub struct Server {
    decls: HashMap<ModuleId, DeclTable>,
}

fn symbol_of(module: ModuleInfoRef<'_>, number: u32) -> Option<&Symbol> {
    let found = module.symbols().nth(number as usize)?;
    (symbol_number(found.symbol_id()) == number).then_some(found)
}

impl Server {
    pub fn answer(&mut self, root: &RootSymbol<'_>, line: &str) -> String {
        let Some((text, query)) = query(line) else {
            return BAD_QUERY.to_string();
        };
        let Some(module) = root.module_from_specifier(&specifier(&text)) else {
            return "null".to_string();
        };
        let asked = query.symbol();
        let symbol = asked.map_or(Some(module.module_symbol()), |k| symbol_of(module, k));
        let Some(symbol) = symbol else {
            return UNKNOWN_SYMBOL.to_string();
        };
        let mut out = Out {
            decls: &mut self.decls,
            text: String::new(),
        };
        match query {
            Query::Module | Query::Exports | Query::Table | Query::Symbol(_) | Query::Name(_) => {
                out.of_module(root, module, symbol, query)
            }
            Query::Resolve(dep) => out.resolved(root, module, &dep),
            _ => out.of_symbol(root, module, symbol, query),
        }
        out.text
    }
}

impl Out<'_> {
    fn of_module(
        &mut self,
        root: &RootSymbol<'_>,
        module: ModuleInfoRef<'_>,
        symbol: &Symbol,
        query: Query,
    ) {
        match query {
            Query::Module => {
                self.push(r#"{"module":"#);
                self.module(module);
                self.push("}");
            }
            Query::Exports => self.exports(&module.exports(root)),
            Query::Symbol(id) => {
                let found = module.esm().and_then(|m| m.symbol_id_from_swc(&id));
                self.push(r#"{"symbol":"#);
                match found {
                    Some(id) => self.number(symbol_number(id) as usize),
                    None => self.push("null"),
                }
                self.push("}");
            }
            Query::Name(_) => {
                self.push(r#"{"name":"#);
                match module.fully_qualified_symbol_name(symbol) {
                    Some(name) => self.string(&name),
                    None => self.push("null"),
                }
                self.push("}");
            }
            _ => self.push(&crate::table::table(module).to_string()),
        }
    }

    fn of_symbol(
        &mut self,
        root: &RootSymbol<'_>,
        module: ModuleInfoRef<'_>,
        symbol: &Symbol,
        query: Query,
    ) {
        match query {
            Query::Deps(_, mode) => return self.deps(symbol, mode),
            Query::Definitions(_) => {
                let found: Vec<_> = root.go_to_definitions(module, symbol).collect();
                self.push(r#"{"definitions":"#);
                self.list(&found, Self::definition);
            }
            Query::Leaves(_) => {
                let found = root.go_to_definitions_or_unresolveds(module, symbol);
                let found: Vec<_> = found.collect();
                self.push(r#"{"leaves":"#);
                self.list(&found, |out, leaf| match leaf {
                    DefinitionOrUnresolved::Definition(d) => out.definition(d),
                    DefinitionOrUnresolved::Unresolved(u) => out.unresolved(u),
                });
            }
            _ => {
                let paths = root.find_definition_paths(module, symbol);
                self.push(r#"{"paths":"#);
                self.list(&paths, Self::path);
            }
        }
        self.push("}");
    }

    fn resolved(&mut self, root: &RootSymbol<'_>, module: ModuleInfoRef<'_>, dep: &SymbolNodeDep) {
        let found = root.resolve_symbol_dep(module, dep);
        self.push(r#"{"entries":"#);
        self.list(&found, |out, entry| match entry {
            ResolvedSymbolDepEntry::Path(path) => out.path(path),
            ResolvedSymbolDepEntry::ImportType(module) => {
                out.push(r#"{"import_type":"#);
                out.module(*module);
                out.push("}");
            }
        });
        self.push("}");
    }
}
