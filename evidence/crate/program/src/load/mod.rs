//! From the JSON text of a graph to the trees and tables of the stand-ins.

mod any;
mod classes;
mod expressions;
mod items;
mod names;
mod nodes;
mod patterns;
mod types;

use std::sync::Arc;

use deno_ast::MediaType;
use deno_ast::ModuleSpecifier;
use deno_ast::ParsedSource;
use deno_graph::Module as GraphModule;
use deno_graph::ModuleGraph;
use deno_graph::ast::CapturingModuleParser;
use deno_graph::graph;
use serde_json::Value;

use self::nodes::Nodes;
use self::nodes::Result;
use self::nodes::flag;
use self::nodes::list;
use self::nodes::maybe_text;
use self::nodes::text;

#[derive(Default)]
pub struct Loaded {
    pub graph: ModuleGraph,
    pub parser: CapturingModuleParser,
    /// The specifiers of all modules with symbols, in order.
    pub specifiers: Vec<ModuleSpecifier>,
}

/// Which edges namespaces have when they are visited in an opaque node.
#[derive(Clone, Copy)]
pub struct Options {
    /// swc's own (identifier and body) in place of the tables' none.
    pub swc_edges: bool,
}

pub fn specifier(text: &str) -> ModuleSpecifier {
    ModuleSpecifier::from_text(text)
}

pub fn load(value: &Value, options: Options) -> Result<Loaded> {
    let mut loaded = Loaded::default();
    for module in list(value, "modules") {
        add_module(&mut loaded, module, options)?;
    }
    for pair in list(value, "redirects") {
        let [from, to] = texts(pair)?;
        loaded.graph.add_redirect(specifier(from), specifier(to));
    }
    for triple in list(value, "resolutions") {
        let [referrer, text, to] = texts(triple)?;
        loaded
            .graph
            .add_resolution(specifier(referrer), text.to_string(), specifier(to));
    }
    Ok(loaded)
}

fn add_module(loaded: &mut Loaded, module: &Value, options: Options) -> Result<()> {
    let own = specifier(text(module, "specifier")?);
    let graph_module = match text(module, "kind")? {
        "esm" => GraphModule::Js(js_module(loaded, &own, module, options)?),
        "json" => GraphModule::Json(graph::JsonModule {
            specifier: own.clone(),
            source: graph::TextSource {
                text: Arc::from(text(module, "text")?),
            },
        }),
        "external" => GraphModule::External(graph::ExternalModule),
        other => return Err(format!("kind {other}")),
    };
    if !matches!(graph_module, GraphModule::External(_)) {
        loaded.specifiers.push(own.clone());
    }
    loaded.graph.add_module(own, graph_module);
    Ok(())
}

/// The module, and its tree, if it has one, with the parser.
fn js_module(
    loaded: &mut Loaded,
    own: &ModuleSpecifier,
    module: &Value,
    options: Options,
) -> Result<graph::JsModule> {
    let source: Arc<str> = Arc::from(text(module, "text")?);
    let types = maybe_text(module, "types").map(specifier);
    let mut media_type = MediaType::TypeScript;
    if let Some(tree) = module.get("tree").filter(|t| !t.is_null()) {
        if flag(tree, "declaration") {
            media_type = MediaType::Dts;
        }
        let program = Nodes::new(tree, options)?.program()?;
        loaded.parser.sources.insert(
            own.clone(),
            ParsedSource::new(media_type, source.clone(), program),
        );
    }
    Ok(graph::JsModule {
        specifier: own.clone(),
        media_type,
        source: graph::TextSource { text: source },
        maybe_types_dependency: types.map(|s| graph::TypesDependency {
            dependency: graph::Resolution(Some(s)),
        }),
    })
}

fn texts<const N: usize>(value: &Value) -> Result<[&str; N]> {
    let items = value.as_array().ok_or("no list")?;
    let items: Vec<&str> = items.iter().filter_map(Value::as_str).collect();
    items.try_into().map_err(|_| "list of texts".to_string())
}
