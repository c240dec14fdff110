// What stands while one text becomes a tree: the parsed text, the scope at hand, and what is noted on the way.
import { K, startOf, ts } from './typescript.js';
import { byteOffsets } from './offsets.js';
import { Nodes, formOf, nameNumber } from './nodes.js';
import { EXPORTED, KINDS, PRIVATE } from '../kinds.js';
import { MODULE_SCOPE, Scope, textOf } from './scopes.js';

/** @typedef {import('typescript').Node} Node */
/** @typedef {import('./nodes.js').Given} Given */
/** @typedef {import('./nodes.js').Made} Made */

/**
 * @typedef {object} Options
 * @property {'ts' | 'tsx' | 'js' | 'jsx'} language
 * @property {boolean} declaration whether the text is a declaration file
 * @property {boolean} bodies whether what stands in the bodies of functions becomes nodes
 * @property {boolean} ambient whether the declarations of a declaration file without exports are exported
 * @property {string[]} [namespaces] texts of `import a = require(..)` that stand for a module without `export =`, all of which `a` is then
 */

/**
 * What names another module.
 * @typedef {object} Reference
 * @property {'import' | 'export' | 'export *' | 'import type' | 'require' | 'import()'} how
 * @property {string} text
 * @property {number} start in bytes
 * @property {[name: string, local: string, scope: number, start: number][]} names what it takes from there; `*` is all
 */

/**
 * A block of a namespace that has `export { .. }` or `export import`.
 * @typedef {object} Block
 * @property {string} name of the namespace, in full
 * @property {string[]} exported names that these give
 * @property {string[]} hidden names that it declares and TypeScript doesn't export, though it is ambient
 */

const NUMBER_OF = new Map(KINDS.map((it, i) => [it, i]));

/** Scopes in the bodies of functions are counted from here on, so that the others have their numbers with bodies and without. */
const BODY_SCOPES = 2 ** 31;
/** What a unit of ASCII is: a space or the end of a line, or what no space and no comment begins with. */
const [SPACE, PLAIN] = [1, 2];
const UNITS = Uint8Array.from({ length: 128 }, (_, i) => (/[ \t\n\r]/.test(String.fromCharCode(i)) ? SPACE : /[\w"'`$([{+*-]/.test(String.fromCharCode(i)) ? PLAIN : 0));

const [OTHER, TYPE, IDENT] = ['Other', 'Type', 'Ident'].map(formOf);
const [CHILDREN, SYM, ANNOTATION] = ['children', 'sym', 'type_ann'].map(nameNumber);

export class Converter {
  /**
   * @param {import('typescript').SourceFile} file
   * @param {import('./newer.js').Marks | null} marks what newer syntax stood there
   * @param {string} text the module's text, of the same length as the file's
   * @param {Options} options
   */
  constructor(file, marks, text, options) {
    this.file = file;
    this.source = file.text;
    this.marks = marks;
    this.options = options;
    this.byte = byteOffsets(text);
    this.nodes = new Nodes(text.length);
    this.module = new Scope(MODULE_SCOPE, null);
    this.scope = this.module;
    this.scopes = MODULE_SCOPE;
    this.bodyScopes = BODY_SCOPES;
    this.inType = false;
    /** From the first of these places on, none is before the second. */
    this.importsFrom = 0;
    this.importAt = -1;
    /** @type {Reference[]} */
    this.references = [];
    /** @type {number[]} five for each: start, end, number of the kind, start of the name, and whether it is private (1) or exported (2) */
    this.declarations = [];
    /** @type {number | null} where the first module is named by something else than a string, which the parser lets pass */
    this.unnamed = null;
    /** @type {string[]} names that TypeScript exports of a declaration file without a word, where they aren't exported here */
    this.implicit = [];
    /** Whether declarations are exported without a word where this is. */
    this.isImplicit = false;
    /** @type {Set<string>} names of the module that `export { .. }` exports, with all that they are */
    this.specified = new Set();
    /** @type {string[] | null} the parts of the name behind `export =`; none where something else stands there */
    this.equals = null;
    /** @type {string[]} the modules that it declares by `declare module "name"` */
    this.modules = [];
    /** @type {string[]} the names of the namespaces that are open */
    this.path = [];
    /** @type {Block[]} */
    this.blocks = [];
  }

  /** @param {Node} node @returns {number} in UTF-16 units, behind comments */
  start(node) {
    const { pos } = node;
    if (pos === node.end) return pos;
    const { source } = this;
    let at = pos;
    let unit = source.charCodeAt(at);
    while (unit < 128 && UNITS[unit] === SPACE) unit = source.charCodeAt(++at);
    // mostly no comment stands there
    return unit < 128 && UNITS[unit] === PLAIN ? at : startOf(node, this.file);
  }

  /** @param {number} from in UTF-16 units @returns {number} where the next `import` stands in the text; infinite where there is none */
  nextImport(from) {
    if (from < this.importsFrom || from > this.importAt) {
      const found = this.source.indexOf('import', from);
      this.importsFrom = from;
      this.importAt = found < 0 ? Infinity : found;
    }
    return this.importAt;
  }

  /** @param {string} kind @param {number} start @param {number} end both in UTF-16 units @param {Record<string, Given>} fields */
  at(kind, start, end, fields) {
    return this.nodes.add(kind, this.byte(start), this.byte(end), fields);
  }

  /** @param {string} kind @param {Node} node whose range it has @param {Record<string, Given>} fields */
  node(kind, node, fields) {
    return this.nodes.add(kind, this.byte(this.start(node)), this.byte(node.end), fields);
  }

  /** @param {Node} node @param {(Made | null | undefined | false | '')[]} children */
  other(node, children) {
    return this.holding(OTHER, node, children);
  }

  /** @param {Node} node @param {(Made | null | undefined | false | '')[]} children */
  type(node, children) {
    return this.holding(TYPE, node, children);
  }

  /** @param {import('./nodes.js').Form} form @param {Node} node @param {(Made | null | undefined | false | '')[]} children */
  holding(form, node, children) {
    const { nodes } = this;
    const made = nodes.begin(form, this.byte(this.start(node)), this.byte(node.end));
    if (children.length > 0) nodes.list(CHILDREN, children);
    return nodes.end(made);
  }

  /** @param {import('./nodes.js').Form} form @param {Node} node @param {number} name of its one field @param {string} value */
  text(form, node, name, value) {
    const { nodes } = this;
    const made = nodes.begin(form, this.byte(this.start(node)), this.byte(node.end));
    nodes.text(name, value);
    return nodes.end(made);
  }

  /** @param {import('./nodes.js').Form} form @param {Node} node that is a name @param {string} text @param {number} scope */
  symbol(form, node, text, scope) {
    const { nodes } = this;
    const made = nodes.begin(form, this.byte(this.start(node)), this.byte(node.end));
    nodes.symbol(SYM, text, scope);
    return nodes.end(made);
  }

  /** @param {import('./nodes.js').Form} form @param {number} start @param {number} end both in UTF-16 units @param {number} name of its one field @param {Made} value */
  single(form, start, end, name, value) {
    const { nodes } = this;
    const made = nodes.begin(form, this.byte(start), this.byte(end));
    nodes.node(name, value);
    return nodes.end(made);
  }

  /**
   * Opens a scope, fills it, does what is to be done in it, and closes it.
   * @template T
   * @param {(scope: Scope) => void} fill
   * @param {() => T} body
   * @returns {T}
   */
  within(fill, body) {
    fill(this.open());
    const made = body();
    this.close();
    return made;
  }

  /** @returns {Scope} one that is open until it is closed */
  open() {
    this.scope = new Scope(++this.scopes, this.scope);
    return this.scope;
  }

  close() {
    this.scope = /** @type {Scope} */ (this.scope.above);
  }

  /** Takes the number of a scope that declares no names. @returns {null} */
  withoutNames() {
    this.scopes++;
    return null;
  }

  /**
   * Does what is to be done in the body of a function.
   * @template T
   * @param {() => T} make
   * @returns {T}
   */
  inBody(make) {
    if (this.scopes >= BODY_SCOPES) return make();
    const before = this.scopes;
    this.scopes = this.bodyScopes;
    const made = make();
    this.bodyScopes = this.scopes;
    this.scopes = before;
    return made;
  }

  /**
   * Does what is to be done in a namespace.
   * @template T
   * @param {string} name
   * @param {() => T} make
   * @returns {T}
   */
  inNamespace(name, make) {
    this.path.push(name);
    const made = make();
    this.path.pop();
    return made;
  }

  /**
   * @template T
   * @param {boolean} inType whether names are types there
   * @param {() => T} body
   * @returns {T}
   */
  typed(inType, body) {
    const before = this.inType;
    this.inType = inType;
    const made = body();
    this.inType = before;
    return made;
  }

  /** @param {string} name @param {boolean} inType @returns {number} the scope that declares it: of a type, types go first. A name that no other one declares is the module's */
  scopeOf(name, inType) {
    if (inType) for (let it = this.scope; it.above; it = it.above) if (it.hasType(name)) return it.number;
    for (let it = this.scope; it.above; it = it.above) {
      if (it.hasValue(name)) return inType && this.module.hasType(name) ? MODULE_SCOPE : it.number;
    }
    return MODULE_SCOPE;
  }

  /** @param {import('typescript').Identifier} name @param {boolean} [inType] @returns {[string, number]} */
  symbolName(name, inType = this.inType) {
    const text = textOf(name);
    return [text, this.scopeOf(text, inType)];
  }

  /** @param {import('./nodes.js').Form} form @param {import('typescript').Identifier} name @param {boolean} inType @param {Made | null} [annotation] its type */
  named(form, name, inType, annotation = null) {
    const { nodes } = this;
    const text = textOf(name);
    const made = nodes.begin(form, this.byte(this.start(name)), this.byte(name.end));
    nodes.symbol(SYM, text, this.scopeOf(text, inType));
    if (annotation !== null) nodes.node(ANNOTATION, annotation);
    return nodes.end(made);
  }

  /** @param {import('typescript').Identifier} name @param {boolean} [inType] */
  ident(name, inType = this.inType) {
    return this.named(IDENT, name, inType);
  }

  /**
   * Notes that a declaration of the kind has the range, and where its name stands.
   * @param {string} kind one of KINDS
   * @param {Made} made
   * @param {Node | undefined} name
   * @param {boolean} [isPrivate]
   * @param {boolean} [isExported] by itself, and not by its name elsewhere
   * @returns {Made} what was made
   */
  declares(kind, made, name, isPrivate = false, isExported = false) {
    const start = this.nodes.startOf(made);
    const place = name ? this.byte(this.start(name)) : start;
    const flags = (isPrivate ? PRIVATE : 0) | (isExported ? EXPORTED : 0);
    this.declarations.push(start, this.nodes.endOf(made), /** @type {number} */ (NUMBER_OF.get(kind)), place, flags);
    return made;
  }

  /** @param {Node} statement that declares something @returns {boolean} whether it is exported where it stands */
  isExported(statement) {
    return this.isImplicit || hasModifier(statement, K.ExportKeyword);
  }

  /**
   * Does what is to be done where declarations are exported without a word, or where they aren't.
   * @template T
   * @param {boolean} isImplicit
   * @param {() => T} make
   * @returns {T}
   */
  exporting(isImplicit, make) {
    const before = this.isImplicit;
    this.isImplicit = isImplicit;
    const made = make();
    this.isImplicit = before;
    return made;
  }

  /**
   * @param {Reference['how']} how
   * @param {import('typescript').StringLiteralLike} text
   * @param {Node} node
   * @returns {string} the text
   */
  refers(how, text, node) {
    this.references.push({ how, text: text.text, start: this.byte(this.start(node)), names: [] });
    return text.text;
  }

  /** @param {string} name @param {string} local @param {number} scope @param {Node} node that the last reference takes it */
  takes(name, local, scope, node) {
    this.references[this.references.length - 1].names.push([name, local, scope, this.byte(this.start(node))]);
  }

  /** @param {Node} node @returns {string | undefined} the string that stands where an old parser was given a name */
  stringAt(node) {
    return this.marks?.strings.get(this.start(node));
  }
}

/** @type {readonly import('typescript').ModifierLike[]} */
const NONE = [];

/** @param {Node} node @returns {readonly import('typescript').ModifierLike[]} */
export function modifiersOf(node) {
  return /** @type {{ modifiers?: readonly import('typescript').ModifierLike[] }} */ (/** @type {unknown} */ (node)).modifiers ?? NONE;
}

/** @param {Node} node @param {number} kind @returns {boolean} */
export function hasModifier(node, kind) {
  const all = modifiersOf(node);
  for (let i = 0; i < all.length; i++) if (all[i].kind === kind) return true;
  return false;
}

/** @param {Node} node @returns {import('typescript').Decorator[]} as TypeScript 4.7 and newer ones keep them */
export function decoratorsOf(node) {
  const older = /** @type {{ decorators?: readonly import('typescript').Decorator[] }} */ (/** @type {unknown} */ (node)).decorators;
  if (older?.length) return [...older];
  const all = modifiersOf(node);
  return all.length === 0 ? [] : all.filter(ts.isDecorator);
}

export { K, ts };
