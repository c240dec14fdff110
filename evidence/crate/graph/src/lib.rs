//! Stand-in for the crate root around `src/symbols`: the graph types that its
//! files import, over given tables.

use std::collections::HashMap;
use std::sync::Arc;

use deno_ast::MediaType;
pub use deno_ast::ModuleSpecifier;

pub use graph::BuiltInNodeModule;
pub use graph::ExternalModule;
pub use graph::JsModule;
pub use graph::JsonModule;
pub use graph::NpmModule;
pub use graph::WasmModule;

#[allow(warnings)]
#[path = "../../symbols/mod.rs"]
pub mod symbols;

pub mod ast {
    use super::*;
    use deno_ast::ParseDiagnostic;
    use deno_ast::ParsedSource;

    pub struct ParseOptions<'a> {
        pub specifier: &'a ModuleSpecifier,
        pub source: Arc<str>,
        pub media_type: MediaType,
        pub scope_analysis: bool,
    }

    pub trait EsParser {
        fn parse_program(&self, options: ParseOptions) -> Result<ParsedSource, ParseDiagnostic>;
    }

    /// Returns trees that were built before; a module without one failed to parse.
    #[derive(Default)]
    pub struct CapturingModuleParser {
        pub sources: HashMap<ModuleSpecifier, ParsedSource>,
    }

    impl EsParser for CapturingModuleParser {
        fn parse_program(&self, options: ParseOptions) -> Result<ParsedSource, ParseDiagnostic> {
            self.sources
                .get(options.specifier)
                .cloned()
                .ok_or(ParseDiagnostic)
        }
    }
}

pub mod graph {
    use super::*;

    pub struct TextSource {
        pub text: Arc<str>,
    }

    pub struct Resolution(pub Option<ModuleSpecifier>);

    impl Resolution {
        pub fn maybe_specifier(&self) -> Option<&ModuleSpecifier> {
            self.0.as_ref()
        }
    }

    pub struct TypesDependency {
        pub dependency: Resolution,
    }

    pub struct JsModule {
        pub specifier: ModuleSpecifier,
        pub media_type: MediaType,
        pub source: TextSource,
        pub maybe_types_dependency: Option<TypesDependency>,
    }

    pub struct JsonModule {
        pub specifier: ModuleSpecifier,
        pub source: TextSource,
    }

    pub struct WasmModule {
        pub specifier: ModuleSpecifier,
        pub source_dts: Arc<str>,
    }

    pub struct NpmModule;
    pub struct BuiltInNodeModule;
    pub struct ExternalModule;
}

pub enum Module {
    Js(JsModule),
    Json(JsonModule),
    Wasm(WasmModule),
    Npm(NpmModule),
    Node(BuiltInNodeModule),
    External(ExternalModule),
}

#[derive(Default)]
pub struct ModuleGraph {
    modules: HashMap<ModuleSpecifier, Module>,
    redirects: HashMap<ModuleSpecifier, ModuleSpecifier>,
    resolutions: HashMap<ModuleSpecifier, HashMap<String, ModuleSpecifier>>,
}

impl ModuleGraph {
    pub fn add_module(&mut self, specifier: ModuleSpecifier, module: Module) {
        self.modules.insert(specifier, module);
    }

    pub fn add_redirect(&mut self, from: ModuleSpecifier, to: ModuleSpecifier) {
        self.redirects.insert(from, to);
    }

    pub fn add_resolution(&mut self, referrer: ModuleSpecifier, text: String, to: ModuleSpecifier) {
        self.resolutions.entry(referrer).or_default().insert(text, to);
    }

    fn resolve<'a>(&'a self, specifier: &'a ModuleSpecifier) -> &'a ModuleSpecifier {
        self.redirects.get(specifier).unwrap_or(specifier)
    }

    pub fn get(&self, specifier: &ModuleSpecifier) -> Option<&Module> {
        deno_ast::stack::check();
        self.modules.get(self.resolve(specifier))
    }

    /// The table's answer, followed over a redirect as the real graph does.
    pub fn resolve_dependency(
        &self,
        text: &str,
        referrer: &ModuleSpecifier,
        _prefer_types: bool,
    ) -> Option<&ModuleSpecifier> {
        deno_ast::stack::check();
        let found = self.resolutions.get(referrer)?.get(text)?;
        Some(self.resolve(found))
    }
}
