//! Writes answers as text.

use std::collections::HashMap;
use std::fmt::Write;

use deno_graph::symbols::*;

pub fn symbol_number(id: SymbolId) -> u32 {
    format!("{id:?}").parse().expect("a symbol's number")
}

/// The symbol and the index of each declaration of a module, by its address.
pub type DeclTable = HashMap<*const SymbolDecl, (u32, usize)>;

/// Writes one answer; the tables of declarations are kept between answers.
pub struct Out<'s> {
    pub decls: &'s mut HashMap<ModuleId, DeclTable>,
    pub text: String,
}

impl Out<'_> {
    pub fn push(&mut self, text: &str) {
        self.text.push_str(text);
    }

    pub fn number(&mut self, n: usize) {
        let _ = write!(self.text, "{n}");
    }

    pub fn string(&mut self, text: &str) {
        self.text
            .push_str(&serde_json::to_string(text).expect("a text"));
    }

    pub fn module(&mut self, module: ModuleInfoRef<'_>) {
        self.string(module.specifier().as_str());
    }

    pub fn list<T>(&mut self, items: &[T], mut one: impl FnMut(&mut Self, &T)) {
        self.push("[");
        for (i, item) in items.iter().enumerate() {
            if i > 0 {
                self.push(",");
            }
            one(self, item);
        }
        self.push("]");
    }

    pub fn strings(&mut self, items: &[String]) {
        self.list(items, |out, text| out.string(text));
    }

    pub fn exports(&mut self, exports: &ModuleExports<'_>) {
        self.push(r#"{"exports":["#);
        for (i, (name, item)) in exports.resolved.iter().enumerate() {
            if i > 0 {
                self.push(",");
            }
            self.chain(item);
            let export = item.as_resolved_export();
            self.push(r#","module":"#);
            self.module(export.module);
            self.push(r#","name":"#);
            self.string(name);
            self.push(r#","symbol":"#);
            self.number(symbol_number(export.symbol_id) as usize);
            self.push("}");
        }
        self.push(r#"],"unresolved":"#);
        self.list(&exports.unresolved_specifiers, |out, unresolved| {
            out.push("[");
            out.module(unresolved.referrer);
            out.push(",");
            out.string(unresolved.specifier);
            out.push("]");
        });
        self.push("}");
    }

    /// The statements that lead to an export.
    fn chain(&mut self, item: &ResolvedExportOrReExportAllPath<'_>) {
        self.push(r#"{"chain":["#);
        let mut first = true;
        for step in item.iter() {
            let ResolvedExportOrReExportAllPath::ReExportAllPath(path) = step else {
                continue;
            };
            self.push(if first { "[" } else { ",[" });
            first = false;
            self.module(path.referrer_module);
            self.push(",");
            self.string(path.specifier);
            self.push("]");
        }
        self.push("]");
    }

    pub fn deps(&mut self, symbol: &Symbol, mode: ResolveDepsMode) {
        self.push(r#"{"deps":"#);
        self.list(symbol.decls(), |out, decl| {
            let deps = decl
                .maybe_node()
                .map(|n| n.deps_with_namespace(mode))
                .unwrap_or_default();
            out.list(&deps, |out, (dep, namespace)| {
                out.push("[");
                out.dep(dep);
                out.push(match namespace {
                    ReferenceNamespace::Value => r#","value"]"#,
                    ReferenceNamespace::Type => r#","type"]"#,
                    ReferenceNamespace::Both => r#","both"]"#,
                });
            });
        });
        self.push("}");
    }

    pub fn dep(&mut self, dep: &SymbolNodeDep) {
        match dep {
            SymbolNodeDep::Id((name, scope)) => {
                self.push(r#"["id","#);
                self.string(name);
                self.push(",");
                self.number(scope.0 as usize);
            }
            SymbolNodeDep::QualifiedId((name, scope), parts) => {
                self.push(r#"["qualified","#);
                self.string(name);
                self.push(",");
                self.number(scope.0 as usize);
                self.push(",");
                self.strings(parts);
            }
            SymbolNodeDep::ImportType(text, parts) => {
                self.push(r#"["import","#);
                self.string(text);
                self.push(",");
                self.strings(parts);
            }
        }
        self.push("]");
    }

    pub fn decl(&mut self, module: ModuleInfoRef<'_>, decl: &SymbolDecl) {
        let table = self.decls.entry(module.module_id()).or_insert_with(|| {
            let mut table = DeclTable::new();
            for symbol in module.symbols() {
                let number = symbol_number(symbol.symbol_id());
                for (i, decl) in symbol.decls().iter().enumerate() {
                    table.insert(decl, (number, i));
                }
            }
            table
        });
        let (symbol, index) = table[&(decl as *const SymbolDecl)];
        let _ = write!(self.text, r#"{{"decl":[{symbol},{index}]"#);
    }

    pub fn path(&mut self, path: &DefinitionPathNode<'_>) {
        match path {
            DefinitionPathNode::Resolved(DefinitionPathNodeResolved::Link(link)) => {
                self.decl(link.module, link.symbol_decl);
                self.push(r#","module":"#);
                self.module(link.module);
                self.push(r#","next":"#);
                self.list(&link.next, Self::path);
                self.push(r#","parts":"#);
                self.strings(&link.parts);
                self.push(r#","symbol":"#);
                self.number(symbol_number(link.symbol.symbol_id()) as usize);
                self.push("}");
            }
            DefinitionPathNode::Resolved(DefinitionPathNodeResolved::Definition(d)) => {
                self.definition(d)
            }
            DefinitionPathNode::Unresolved(u) => self.unresolved(u),
        }
    }

    pub fn definition(&mut self, definition: &Definition<'_>) {
        let range = definition.byte_range();
        self.decl(definition.module, definition.symbol_decl);
        self.push(r#","end":"#);
        self.number(range.end);
        self.push(r#","module":"#);
        self.module(definition.module);
        if let DefinitionKind::ExportStar(dep) = &definition.kind {
            self.push(r#","star":"#);
            self.string(&dep.specifier);
        }
        self.push(r#","start":"#);
        self.number(range.start);
        self.push(r#","symbol":"#);
        self.number(symbol_number(definition.symbol.symbol_id()) as usize);
        self.push("}");
    }

    pub fn unresolved(&mut self, unresolved: &DefinitionUnresolved<'_>) {
        let (kind, name, scope) = match &unresolved.kind {
            DefinitionUnresolvedKind::Id((name, scope)) => ("id", name.as_str(), Some(scope.0)),
            DefinitionUnresolvedKind::Specifier(text) => ("specifier", text.as_str(), None),
            DefinitionUnresolvedKind::Part(text) => ("part", text.as_str(), None),
        };
        let _ = write!(self.text, r#"{{"kind":"{kind}","module":"#);
        self.module(unresolved.module);
        self.push(r#","name":"#);
        self.string(name);
        self.push(r#","parts":"#);
        self.strings(&unresolved.parts);
        if let Some(scope) = scope {
            self.push(r#","scope":"#);
            self.number(scope as usize);
        }
        self.push("}");
    }
}
