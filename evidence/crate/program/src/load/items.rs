//! The program, its statements and its declarations.

use deno_ast::swc::ast::*;

use super::nodes::*;

impl<'a> Nodes<'a> {
    pub fn program(&self) -> Result<Program> {
        let n = self.first()?;
        Ok(Program::Module(Module {
            span: n.span,
            body: self.each(n, "body", Self::item)?,
        }))
    }

    pub fn item(&self, n: N<'a>) -> Result<ModuleItem> {
        let decl = match n.kind {
            "Import" => self.import(n)?,
            "ExportDecl" => ModuleDecl::ExportDecl(ExportDecl {
                span: n.span,
                decl: self.one(n, "decl", Self::decl)?,
            }),
            "ExportNamed" => self.export_named(n)?,
            "ExportDefaultDecl" => ModuleDecl::ExportDefaultDecl(ExportDefaultDecl {
                span: n.span,
                decl: self.one(n, "decl", Self::default_decl)?,
            }),
            "ExportDefaultExpr" => ModuleDecl::ExportDefaultExpr(ExportDefaultExpr {
                span: n.span,
                expr: boxed(self.one(n, "expr", Self::expr))?,
            }),
            "ExportAll" => ModuleDecl::ExportAll(ExportAll {
                span: n.span,
                src: Box::new(n.str("src")?),
            }),
            "TsImportEqualsDecl" => self.import_equals(n)?,
            "TsExportAssignment" => ModuleDecl::TsExportAssignment(TsExportAssignment {
                span: n.span,
                expr: boxed(self.one(n, "expr", Self::expr))?,
            }),
            _ => return Ok(ModuleItem::Stmt(self.stmt(n)?)),
        };
        Ok(ModuleItem::ModuleDecl(decl))
    }

    fn import(&self, n: N<'a>) -> Result<ModuleDecl> {
        Ok(ModuleDecl::Import(ImportDecl {
            span: n.span,
            specifiers: self.each(n, "specifiers", Self::import_specifier)?,
            src: Box::new(n.str("src")?),
        }))
    }

    fn export_named(&self, n: N<'a>) -> Result<ModuleDecl> {
        Ok(ModuleDecl::ExportNamed(NamedExport {
            span: n.span,
            specifiers: self.each(n, "specifiers", Self::export_specifier)?,
            src: n.maybe_str("src").map(Box::new),
        }))
    }

    fn default_decl(&self, n: N<'a>) -> Result<DefaultDecl> {
        Ok(match n.kind {
            "ClassExpr" => DefaultDecl::Class(self.class_expr(n)?),
            "FnExpr" => DefaultDecl::Fn(self.fn_expr(n)?),
            "TsInterfaceDecl" => DefaultDecl::TsInterfaceDecl(boxed(self.interface(n))?),
            _ => return n.bad("default declaration"),
        })
    }

    fn import_equals(&self, n: N<'a>) -> Result<ModuleDecl> {
        Ok(ModuleDecl::TsImportEquals(Box::new(TsImportEqualsDecl {
            span: n.span,
            is_export: n.flag("is_export"),
            id: self.one(n, "id", Self::ident)?,
            module_ref: match n.maybe_str("external") {
                Some(expr) => {
                    TsModuleRef::TsExternalModuleRef(TsExternalModuleRef { span: n.span, expr })
                }
                None => TsModuleRef::TsEntityName(self.one(n, "entity", Self::entity)?),
            },
        })))
    }

    fn import_specifier(&self, n: N<'a>) -> Result<ImportSpecifier> {
        let (span, local) = (n.span, self.one(n, "local", Self::ident)?);
        Ok(match n.kind {
            "ImportNamed" => ImportSpecifier::Named(ImportNamedSpecifier {
                span,
                local,
                imported: n.maybe_str("imported").map(ModuleExportName::Str),
            }),
            "ImportDefault" => ImportSpecifier::Default(ImportDefaultSpecifier { span, local }),
            "ImportNamespace" => ImportSpecifier::Namespace(ImportStarAsSpecifier { span, local }),
            _ => return n.bad("import specifier"),
        })
    }

    fn export_specifier(&self, n: N<'a>) -> Result<ExportSpecifier> {
        Ok(match n.kind {
            "ExportSpecifier" => ExportSpecifier::Named(ExportNamedSpecifier {
                span: n.span,
                orig: self.one(n, "orig", |_, o| {
                    Ok(match o.kind {
                        "Ident" => ModuleExportName::Ident(o.ident()?),
                        "Str" => ModuleExportName::Str(o.str("value")?),
                        _ => return o.bad("export name"),
                    })
                })?,
                exported: n.maybe_str("exported").map(ModuleExportName::Str),
            }),
            "ExportNamespace" => ExportSpecifier::Namespace(ExportNamespaceSpecifier {
                span: n.span,
                name: ModuleExportName::Str(n.str("name")?),
            }),
            _ => return n.bad("export specifier"),
        })
    }

    pub fn stmt(&self, n: N<'a>) -> Result<Stmt> {
        Ok(match n.kind {
            "ExprStmt" => Stmt::Expr(ExprStmt {
                span: n.span,
                expr: boxed(self.one(n, "expr", Self::expr))?,
            }),
            "Other" => Stmt::Block(BlockStmt {
                span: n.span,
                content: self.children(n, Parent::Other)?,
            }),
            _ => Stmt::Decl(self.decl(n)?),
        })
    }

    fn decl(&self, n: N<'a>) -> Result<Decl> {
        let span = n.span;
        Ok(match n.kind {
            "ClassDecl" => Decl::Class(ClassDecl {
                span,
                ident: self.one(n, "ident", Self::ident)?,
                class: boxed(self.one(n, "class", Self::class))?,
            }),
            "FnDecl" => Decl::Fn(FnDecl {
                span,
                ident: self.one(n, "ident", Self::ident)?,
                function: boxed(self.one(n, "function", Self::function))?,
            }),
            "VarDecl" => Decl::Var(Box::new(VarDecl {
                span,
                decls: self.each(n, "decls", Self::declarator)?,
            })),
            "UsingDecl" => Decl::Using(Box::new(UsingDecl {
                span,
                decls: self.each(n, "decls", Self::declarator)?,
            })),
            "TsInterfaceDecl" => Decl::TsInterface(boxed(self.interface(n))?),
            "TsTypeAliasDecl" => Decl::TsTypeAlias(Box::new(TsTypeAliasDecl {
                span,
                id: self.one(n, "id", Self::ident)?,
                type_params: self.maybe_box(n, "type_params", Self::type_params)?,
                type_ann: boxed(self.one(n, "type_ann", Self::ty))?,
            })),
            "TsEnumDecl" => Decl::TsEnum(Box::new(TsEnumDecl {
                span,
                id: self.one(n, "id", Self::ident)?,
                members: self.each(n, "members", Self::enum_member)?,
            })),
            "TsModuleDecl" => Decl::TsModule(boxed(self.namespace(n))?),
            _ => return n.bad("declaration"),
        })
    }

    fn namespace(&self, n: N<'a>) -> Result<TsModuleDecl> {
        Ok(TsModuleDecl {
            span: n.span,
            declare: n.flag("declare"),
            id: self.one(n, "id", |_, i| {
                Ok(match i.kind {
                    "Ident" => TsModuleName::Ident(i.ident()?),
                    "Str" => TsModuleName::Str(i.str("value")?),
                    _ => return i.bad("namespace name"),
                })
            })?,
            body: self.maybe(n, "body", Self::namespace_body)?,
        })
    }

    pub fn declarator(&self, n: N<'a>) -> Result<VarDeclarator> {
        Ok(VarDeclarator {
            span: n.span,
            name: self.one(n, "name", Self::pat)?,
            init: self.maybe_box(n, "init", Self::expr)?,
        })
    }

    fn interface(&self, n: N<'a>) -> Result<TsInterfaceDecl> {
        Ok(TsInterfaceDecl {
            span: n.span,
            id: self.one(n, "id", Self::ident)?,
            type_params: self.maybe_box(n, "type_params", Self::type_params)?,
            extends: self.each(n, "extends", Self::heritage)?,
            body: TsInterfaceBody {
                span: n.span,
                body: self.each(n, "body", Self::element)?,
            },
        })
    }

    pub fn enum_member(&self, n: N<'a>) -> Result<TsEnumMember> {
        Ok(TsEnumMember {
            span: n.span,
            init: self.maybe_box(n, "init", Self::expr)?,
        })
    }

    fn namespace_body(&self, n: N<'a>) -> Result<TsNamespaceBody> {
        Ok(match n.kind {
            "TsModuleBlock" => TsNamespaceBody::TsModuleBlock(TsModuleBlock {
                span: n.span,
                body: self.each(n, "body", Self::item)?,
            }),
            "TsNamespaceDecl" => TsNamespaceBody::TsNamespaceDecl(TsNamespaceDecl {
                span: n.span,
                id: self.one(n, "id", Self::ident)?,
                body: boxed(self.one(n, "body", Self::namespace_body))?,
            }),
            _ => return n.bad("namespace body"),
        })
    }
}
