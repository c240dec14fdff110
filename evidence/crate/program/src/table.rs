//! A module's symbols with every view that the query forms don't show.

use std::panic::catch_unwind;

use deno_ast::swc::ast::DefaultDecl;
use deno_graph::symbols::*;
use serde_json::Value;
use serde_json::json;

use crate::writer::symbol_number;

fn form(node: SymbolNodeRef<'_>) -> &'static str {
    use SymbolNodeRef as N;
    match node {
        N::Module(_) => "Module",
        N::ExportDecl(_, n) => match n {
            ExportDeclRef::Class(_) => "Class",
            ExportDeclRef::Fn(_) => "Fn",
            ExportDeclRef::Var(..) => "Var",
            ExportDeclRef::TsEnum(_) => "TsEnum",
            ExportDeclRef::TsInterface(_) => "TsInterface",
            ExportDeclRef::TsModule(_) => "TsModule",
            ExportDeclRef::TsTypeAlias(_) => "TsTypeAlias",
        },
        N::ExportDefaultDecl(n) => match n.decl {
            DefaultDecl::Class(_) => "Class",
            DefaultDecl::Fn(_) => "Fn",
            DefaultDecl::TsInterfaceDecl(_) => "TsInterface",
        },
        N::ExportDefaultExpr(_) => "ExportDefaultExpr",
        N::ClassDecl(_) => "Class",
        N::FnDecl(_) => "Fn",
        N::TsEnum(_) => "TsEnum",
        N::TsInterface(_) => "TsInterface",
        N::TsNamespace(_) => "TsModule",
        N::TsTypeAlias(_) => "TsTypeAlias",
        N::Var(..) => "Var",
        N::UsingVar(..) => "UsingVar",
        N::AutoAccessor(_) => "AutoAccessor",
        N::ClassMethod(_) => "ClassMethod",
        N::ClassProp(_) => "ClassProp",
        N::ClassParamProp(_) => "ClassParamProp",
        N::Constructor(_) => "Constructor",
        N::ExpandoProperty(_) => "ExpandoProperty",
        N::TsIndexSignature(_) => "TsIndexSignature",
        N::TsCallSignatureDecl(_) => "TsCallSignatureDecl",
        N::TsConstructSignatureDecl(_) => "TsConstructSignatureDecl",
        N::TsPropertySignature(_) => "TsPropertySignature",
        N::TsGetterSignature(_) => "TsGetterSignature",
        N::TsSetterSignature(_) => "TsSetterSignature",
        N::TsMethodSignature(_) => "TsMethodSignature",
    }
}

fn kind(kind: &SymbolDeclKind) -> Value {
    match kind {
        SymbolDeclKind::Target((name, scope)) => json!(["target", [name.as_str(), scope.0]]),
        SymbolDeclKind::QualifiedTarget((name, scope), parts) => {
            json!(["qualified", [name.as_str(), scope.0], parts])
        }
        SymbolDeclKind::FileRef(dep) => json!(["file", dep.name.maybe_name(), dep.specifier]),
        SymbolDeclKind::Definition(_) => json!(["def"]),
    }
}

fn decl(decl: &SymbolDecl) -> Value {
    let node = decl.maybe_node();
    let mut tests = Vec::new();
    if let Some(n) = node {
        for (name, holds) in [
            ("class", n.is_class()),
            ("function", n.is_function()),
            ("interface", n.is_interface()),
            ("namespace", n.is_ts_namespace()),
            ("var", n.is_var()),
            ("ctor", n.is_ctor()),
            ("module", n.is_module()),
            ("export keyword", n.has_export_keyword()),
            ("decl", n.is_decl()),
            ("member", n.is_member()),
            ("private", n.is_private_member()),
            ("body", catch_unwind(|| n.has_body()).unwrap_or(false)),
        ] {
            if holds {
                tests.push(name);
            }
        }
    }
    let (value, ty) = decl.namespaces();
    json!({
      "kind": kind(&decl.kind),
      "range": [decl.range.start.0, decl.range.end.0],
      "form": node.map(form),
      "name": decl.maybe_name(),
      "overloads": decl.has_overloads(),
      "tests": tests,
      "namespaces": [value, ty],
    })
}

fn symbol(symbol: &Symbol) -> Value {
    let numbers = |ids: Vec<SymbolId>| ids.into_iter().map(symbol_number).collect::<Vec<_>>();
    json!({
      "number": symbol_number(symbol.symbol_id()),
      "parent": symbol.parent_id().map(symbol_number),
      "exports": symbol.exports().iter().map(|(n, k)| json!([n, symbol_number(*k)])).collect::<Vec<_>>(),
      "children": numbers(symbol.child_ids().collect()),
      "members": numbers(symbol.members().iter().copied().collect()),
      "decls": symbol.decls().iter().map(decl).collect::<Vec<_>>(),
    })
}

pub fn table(module: ModuleInfoRef<'_>) -> Value {
    json!({
      "stars": module.re_export_all_nodes().map(|nodes| {
        nodes.map(|n| n.src.value.to_string_lossy().into_owned()).collect::<Vec<_>>()
      }),
      "symbols": module.symbols().map(symbol).collect::<Vec<_>>(),
    })
}
