// The items of a module or a namespace: imports, exports, and statements.
import { K, hasModifier, modifiersOf, ts } from './converter.js';
import { MODULE_SCOPE, textOf } from './scopes.js';
import { entity, moduleName } from './names.js';
import { skipSpace } from './types.js';
import { classParts, functionNode } from './functions.js';
import { expression } from './expressions.js';
import { declaration, interfaceNode, statement } from './statements.js';

/** @typedef {import('./converter.js').Converter} Converter */
/** @typedef {import('./nodes.js').Made} Made */

const { isClassDeclaration, isDecorator, isEnumDeclaration, isExternalModuleReference, isFunctionDeclaration, isIdentifier,
  isInterfaceDeclaration, isModuleDeclaration, isNamespaceExport, isNamespaceImport, isPropertyAccessExpression, isStringLiteral,
  isTypeAliasDeclaration, isVariableStatement } = ts;

/** @param {Converter} c @param {import('typescript').Identifier} local @param {string} name @param {import('typescript').Node} node */
function takesLocal(c, local, name, node) {
  const [text, scope] = c.symbolName(local, false);
  c.takes(name, text, scope, node);
}

/**
 * @param {Converter} c
 * @param {import('./converter.js').Reference['how']} how
 * @param {import('typescript').Expression} from what names the module, which has to be a string
 * @param {import('typescript').Node} it the statement
 * @returns {string}
 */
function sourceOf(c, how, from, it) {
  if (!isStringLiteral(from)) c.unnamed ??= c.start(from);
  return c.refers(how, /** @type {import('typescript').StringLiteral} */ (from), it);
}

/** @param {Converter} c @param {import('typescript').ImportDeclaration} it */
function importNode(c, it) {
  const src = sourceOf(c, 'import', it.moduleSpecifier, it);
  const specifiers = [];
  const clause = it.importClause;
  if (clause?.name) {
    takesLocal(c, clause.name, 'default', clause.name);
    specifiers.push(c.node('ImportDefault', clause.name, { local: c.ident(clause.name) }));
  }
  const bindings = clause?.namedBindings;
  if (bindings && isNamespaceImport(bindings)) {
    takesLocal(c, bindings.name, '*', bindings);
    specifiers.push(c.declares('namespace', c.node('ImportNamespace', bindings, { local: c.ident(bindings.name) }), bindings.name));
  } else if (bindings) {
    for (const part of bindings.elements) {
      const imported = part.propertyName ? moduleName(c, part.propertyName) : null;
      takesLocal(c, part.name, imported ?? textOf(part.name), part.propertyName ?? part.name);
      specifiers.push(c.node('ImportNamed', part, { local: c.ident(part.name), imported, type_only: part.isTypeOnly }));
    }
  }
  return c.node('Import', it, { specifiers, src, type_only: clause?.isTypeOnly });
}

/** @param {Converter} c @param {import('typescript').Identifier} name that is exported @returns {[string, number]} */
function exportedName(c, name) {
  const text = textOf(name);
  for (let it = c.scope; it.above; it = it.above) {
    if (it.hasValue(text) || it.hasType(text)) return [text, it.number];
  }
  return [text, MODULE_SCOPE];
}

/** @param {Converter} c @param {import('typescript').ExportSpecifier} it @param {boolean} hasSource */
function exportSpecifier(c, it, hasSource) {
  const name = /** @type {import('typescript').Node} */ (it.propertyName ?? it.name);
  const text = moduleName(c, name);
  if (hasSource) c.takes(text, moduleName(c, it.name), 0, name);
  const isString = !isIdentifier(name) || c.stringAt(name) !== undefined;
  /** @type {[string, number]} */
  const sym = hasSource || isString ? /** @type {[string, number]} */ ([text, MODULE_SCOPE]) : exportedName(c, name);
  const orig = isString ? c.node('Str', name, { value: text }) : c.node('Ident', name, { sym });
  return c.node('ExportSpecifier', it, { orig, exported: it.propertyName ? moduleName(c, it.name) : null, type_only: it.isTypeOnly });
}

/** @param {Converter} c @param {import('typescript').ExportDeclaration} it */
function exportNode(c, it) {
  const from = it.moduleSpecifier;
  const clause = it.exportClause;
  const src = from ? sourceOf(c, clause ? 'export' : 'export *', from, it) : null;
  if (!clause) return c.node('ExportAll', it, { src, type_only: it.isTypeOnly });
  if (isNamespaceExport(clause)) {
    const name = moduleName(c, clause.name);
    c.takes('*', name, 0, clause);
    const all = c.declares('namespace', c.node('ExportNamespace', clause, { name }), clause.name);
    return c.node('ExportNamed', it, { specifiers: [all], src, type_only: it.isTypeOnly });
  }
  const specifiers = clause.elements.map((part) => exportSpecifier(c, part, from !== undefined));
  return c.node('ExportNamed', it, { specifiers, src, type_only: it.isTypeOnly });
}

/** @param {import('typescript').Expression} node @returns {string[]} the parts of a dotted name; none where it is something else */
function dottedParts(node) {
  const parts = [];
  let it = node;
  for (; isPropertyAccessExpression(it); it = it.expression) parts.push(textOf(it.name));
  return isIdentifier(it) ? [...parts, textOf(it)].reverse() : [];
}

/** @param {Converter} c @param {import('typescript').ExportAssignment} it */
function exportAssignment(c, it) {
  const kind = it.isExportEquals ? 'TsExportAssignment' : 'ExportDefaultExpr';
  if (it.isExportEquals && c.scope.above === null) c.equals = dottedParts(it.expression);
  return c.declares(it.isExportEquals ? 'export =' : 'default', c.node(kind, it, { expr: expression(c, it.expression) }), undefined);
}

/** @param {Converter} c @param {import('typescript').ImportEqualsDeclaration} it of a module without `export =` @param {string} src @returns {Made[]} an import of all of it, and an export where `export` stands before it */
function requiredNamespace(c, it, src) {
  const all = c.declares('namespace', c.node('ImportNamespace', it, { local: c.ident(it.name, false) }), it.name);
  const made = c.node('Import', it, { specifiers: [all], src });
  if (!hasModifier(it, K.ExportKeyword)) return [made];
  return [made, c.node('ExportNamed', it, { specifiers: [c.node('ExportSpecifier', it.name, { orig: c.ident(it.name, false) })] })];
}

/** @param {Converter} c @param {import('typescript').ImportEqualsDeclaration} it @returns {Made | Made[]} */
function importEquals(c, it) {
  const from = it.moduleReference;
  const fields = { is_export: hasModifier(it, K.ExportKeyword), id: c.ident(it.name, false), type_only: it.isTypeOnly };
  if (!isExternalModuleReference(from)) return c.node('TsImportEqualsDecl', it, { ...fields, entity: entity(c, from, false) });
  if (!isStringLiteral(from.expression)) return c.other(it, []);
  const external = c.refers('require', from.expression, it);
  takesLocal(c, it.name, '*', it);
  if (c.scope.above === null && c.options.namespaces?.includes(external)) return requiredNamespace(c, it, external);
  return c.node('TsImportEqualsDecl', it, { ...fields, external });
}

/** @param {Converter} c @param {import('typescript').Node} it @returns {[number, number]} where `export` stands, and where what is exported starts */
function exportStarts(c, it) {
  const all = modifiersOf(it);
  if (all.length === 1) return [c.start(all[0]), skipSpace(c, all[0].end)];
  const words = all.filter((word) => !isDecorator(word));
  const at = words.findIndex((word) => word.kind === K.ExportKeyword);
  const behind = words.slice(at + 1).filter((word, i) => i > 0 || word.kind !== K.DefaultKeyword);
  const start = behind.length > 0 ? c.start(behind[0]) : skipSpace(c, words[words.length - 1].end);
  return [c.start(words[at]), start];
}

/** @param {Converter} c @param {any} it a class, a function or an interface behind `export default` @param {number} start */
function defaultDeclaration(c, it, start) {
  if (isFunctionDeclaration(it)) {
    const ident = it.name ? c.ident(it.name, false) : null;
    return c.declares('function', c.at('FnExpr', start, it.end, { ident, function: functionNode(c, it, start, it.end) }), it.name, false, true);
  }
  if (isClassDeclaration(it)) return c.declares('class', c.at('ClassExpr', start, it.end, classParts(c, it, start, it.end)), it.name, false, true);
  return c.declares('interface', interfaceNode(c, it, start), it.name, false, true);
}

/** @param {Converter} c @param {import('typescript').Statement} it behind `export` */
function exported(c, it) {
  const [start, inner] = exportStarts(c, it);
  const isDefault = hasModifier(it, K.DefaultKeyword);
  const canBeDefault = isFunctionDeclaration(it) || isClassDeclaration(it) || isInterfaceDeclaration(it);
  const before = c.declarations.length;
  const decl = isDefault && canBeDefault ? defaultDeclaration(c, it, inner) : declaration(c, it, inner);
  if (!decl || c.nodes.kindOf(decl) === 'UsingDecl') return c.other(it, []);
  const made = c.at(isDefault && canBeDefault ? 'ExportDefaultDecl' : 'ExportDecl', start, it.end, { decl });
  if (c.declarations.length > before && !isVariableStatement(it)) declaresAgain(c, made);
  return made;
}

/** @param {Converter} c @param {Made} made has with its `export` the kind and the name that were noted last */
function declaresAgain(c, made) {
  const all = c.declarations;
  const { length } = all;
  all.push(c.nodes.startOf(made), c.nodes.endOf(made), all[length - 3], all[length - 2], all[length - 1]);
}

/** @type {Record<number, (c: Converter, it: any) => Made | Made[]>} */
const ITEMS = {
  [K.ImportDeclaration]: importNode,
  [K.ExportDeclaration]: exportNode,
  [K.ExportAssignment]: exportAssignment,
  [K.ImportEqualsDeclaration]: importEquals,
  [K.NamespaceExportDeclaration]: (c, it) => c.other(it, []),
};

/** @param {import('typescript').Statement} it @returns {boolean} whether it declares a name that may stand behind `export` */
function isAmbientExport(it) {
  if (isModuleDeclaration(it)) return isIdentifier(it.name) && (it.flags & ts.NodeFlags.GlobalAugmentation) === 0;
  return isVariableStatement(it) || isFunctionDeclaration(it) || isClassDeclaration(it) || isInterfaceDeclaration(it)
    || isTypeAliasDeclaration(it) || isEnumDeclaration(it);
}

/** @param {Converter} c @param {import('typescript').Statement} it @param {boolean} isAmbient whether declarations are exported without a word @returns {Made | Made[]} */
export function item(c, it, isAmbient) {
  const make = ITEMS[it.kind];
  if (make) return make(c, it);
  if (hasModifier(it, K.ExportKeyword)) return exported(c, it);
  const made = statement(c, it);
  if (!isAmbient || !isAmbientExport(it) || c.nodes.kindOf(made) === 'Other') return made;
  return c.node('ExportDecl', it, { decl: made });
}
