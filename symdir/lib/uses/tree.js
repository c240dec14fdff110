// The tree of a module as it is kept, for commands that look at the single names in it.

/** @typedef {import('../folder/sources.js').Module} Module */

/**
 * A node as `docs/GRAPH.md` has it: what it holds stands behind its fields, by number.
 * @typedef {{ kind: string, range: [number, number], sym?: [string, number], type_only?: boolean, [field: string]: any }} Node
 */

/**
 * A name that is looked up in its scope, with the parts behind it.
 * @typedef {object} Lookup
 * @property {string} name
 * @property {number} scope
 * @property {string[]} parts as far as it is a dotted name
 * @property {number} start of the last part, in bytes
 * @property {boolean} isType whether no code is made of what stands there
 */

/** What stands in these makes no code: types, and what holds names that aren't behind one. */
const ERASED = new Set(['Type', 'TsTypeQuery', 'TsImportType', 'TsInterfaceDecl', 'TsExprWithTypeArgs']);
/** A name that is directly behind the field of these is declared there. */
const DECLARING = new Set([
  'ImportNamed local', 'ImportDefault local', 'ImportNamespace local', 'ClassDecl ident', 'ClassExpr ident', 'FnDecl ident', 'FnExpr ident',
  'TsInterfaceDecl id', 'TsTypeAliasDecl id', 'TsEnumDecl id', 'TsModuleDecl id', 'TsNamespaceDecl id', 'TsImportEqualsDecl id',
]);
/** A name in a pattern is declared where the pattern stands behind one of these. */
const BINDING = new Set([
  'VarDeclarator name', 'Function params', 'Arrow params', 'Constructor params', 'TsParamProp param', 'TsMethodSignature params',
  'TsCallSignatureDecl params', 'TsConstructSignatureDecl params', 'TsSetterSignature param', 'TsIndexSignature params', 'TsTupleElement label',
]);
/** Patterns, with the field in which they hold others. */
const PATTERNS = new Set(['ArrayPat elems', 'ObjectPat props', 'RestPat arg', 'KeyValuePatProp value', 'AssignPatProp key', 'AssignPat left']);
const NO_CHILDREN = new Set(['kind', 'range', 'sym']);

export class Tree {
  /** @param {string} text @param {Node[]} nodes @param {boolean} isDeclaration whether it is a declaration file, of which no code is made */
  constructor(text, nodes, isDeclaration) {
    this.text = text;
    this.nodes = nodes;
    this.isDeclaration = isDeclaration;
    /** The number of the node that holds it; -1 of the program. */
    this.above = new Int32Array(this.nodes.length).fill(-1);
    /** @type {string[]} the field behind which it stands there */
    this.field = new Array(this.nodes.length);
    this.erased = new Uint8Array(this.nodes.length);
    /** @type {Buffer | undefined} the text, where it is looked at */
    this.bytes = undefined;
    this.nodes.forEach((node, i) => this.note(node, i));
  }

  /** @param {Module} module with a tree or without @returns {Tree} */
  static of({ parsed }) {
    const { text, tree } = parsed.nodes > 0 ? JSON.parse(`${parsed.text}}`) : { text: '', tree: { nodes: [] } };
    return new Tree(text, tree.nodes, tree.declaration === true);
  }

  /** @param {Node} node @param {number} i its number, which is lower than those of what it holds */
  note(node, i) {
    const isBelow = i > 0 && this.erased[this.above[i]] === 1;
    if (isBelow || this.isDeclaration || ERASED.has(node.kind)) this.erased[i] = 1;
    for (const key in node) {
      const value = node[key];
      if (typeof value === 'number') this.hold(i, key, value);
      else if (Array.isArray(value) && !NO_CHILDREN.has(key)) for (const it of value) if (typeof it === 'number') this.hold(i, key, it);
    }
  }

  /** @param {number} i a node @param {string} key a field of it @param {number} below what it holds there */
  hold(i, key, below) {
    this.above[below] = i;
    this.field[below] = key;
  }

  /** @param {number} i @returns {string} the kind of what holds it, and the field */
  stand(i) {
    return i > 0 ? `${this.nodes[this.above[i]].kind} ${this.field[i]}` : '';
  }

  /** @param {number} i a name @returns {boolean} whether it is declared there */
  isDeclared(i) {
    if (DECLARING.has(this.stand(i))) return true;
    let at = i;
    while (PATTERNS.has(this.stand(at))) at = this.above[at];
    return BINDING.has(this.stand(at)) || this.isBoundInParts(at);
  }

  /** @param {number} i @returns {boolean} whether it is a parameter of a function's type, or what `catch` names */
  isBoundInParts(i) {
    if (this.field[i] !== 'children' || !/^BindingIdent$|Pat$/.test(this.nodes[i].kind)) return false;
    const { kind, range: [start] } = this.nodes[this.above[i]];
    if (kind === 'Type') return true;
    this.bytes ??= Buffer.from(this.text);
    return /^catch\b/.test(this.bytes.toString('utf8', start, start + 'catch('.length));
  }

  /** @param {number} i a name @returns {boolean} whether it is looked up in its scope: it is no declaration, no key, and no name of another module */
  isLookedUp(i) {
    if (this.isDeclared(i)) return false;
    const up = this.nodes[this.above[i]];
    if (up.kind === 'ExportSpecifier') return this.nodes[this.above[this.above[i]]].src === undefined;
    if (this.field[i] === 'key' && /^Ts\w+Signature$/.test(up.kind)) return up.computed === true;
    let at = i;
    while (this.stand(at) === 'TsQualifiedName left') at = this.above[at];
    return this.stand(at) !== 'TsImportType qualifier';
  }

  /** @param {number} i a name, or a dotted one @returns {string | null} the part behind it */
  partBehind(i) {
    const stand = this.stand(i);
    const up = this.nodes[this.above[i]];
    if (stand === 'TsQualifiedName left') return up.right;
    if (stand !== 'Member obj') return null;
    const key = this.keyOf(up.prop);
    return key.kind === 'IdentName' ? key.name : key.kind === 'Str' ? key.value : null;
  }

  /** @param {number} prop what stands behind the dot, or in brackets @returns {Node} */
  keyOf(prop) {
    const { kind, expr } = this.nodes[prop];
    return this.nodes[kind === 'Computed' ? expr : prop];
  }

  /** @param {number} i a name, or a dotted one, with a part behind it @returns {number} where that starts, within its quotes */
  startOfPart(i) {
    const { kind, prop, range, right } = this.nodes[this.above[i]];
    if (kind !== 'Member') return range[1] - Buffer.byteLength(right);
    const key = this.keyOf(prop);
    return key.kind === 'Str' ? key.range[0] + 1 : key.range[0];
  }

  /** @param {number} i a name @returns {{ part: string, start: number }[] | null} what `const { a, b } = name` takes of it; null where it doesn't stand so */
  takenApart(i) {
    if (this.stand(i) !== 'VarDeclarator init') return null;
    const pattern = this.nodes[this.nodes[this.above[i]].name];
    if (pattern.kind !== 'ObjectPat') return null;
    /** @type {Node[]} */
    const props = (pattern.props ?? []).map((/** @type {number} */ it) => this.nodes[it]);
    const keys = props.map((it) => (it.kind === 'RestPat' ? null : this.nodes[it.key]));
    const found = keys.flatMap((it) => {
      const part = it?.sym?.[0] ?? it?.name ?? it?.value;
      return it && part ? [{ part, start: it.range[0] + (it.kind === 'Str' ? 1 : 0) }] : [];
    });
    return found.length === props.length ? found : null;
  }

  /** @param {number} i a dotted name of types @returns {{ parts: string[], start: number }[]} each beginning of it, with where its last part stands */
  dotted(i) {
    const chain = [];
    let at = i;
    for (; this.nodes[at].kind === 'TsQualifiedName'; at = this.nodes[at].left) chain.push(this.nodes[at]);
    const { sym, range: [start] } = this.nodes[at];
    const found = [{ parts: [/** @type {[string, number]} */ (sym)[0]], start }];
    for (const { right, range: [, end] } of chain.reverse()) {
      found.push({ parts: [...found[found.length - 1].parts, right], start: end - Buffer.byteLength(right) });
    }
    return found;
  }

  /** @returns {number[]} the names that are looked up */
  names() {
    return this.nodes.flatMap(({ sym }, i) => (sym && this.isLookedUp(i) ? [i] : []));
  }

  /** @param {number} i a name that is looked up @returns {Lookup[]} it, and with each part behind it */
  lookups(i) {
    const [name, scope] = /** @type {[string, number]} */ (this.nodes[i].sym);
    const isType = this.erased[i] === 1;
    const found = [{ name, scope, parts: /** @type {string[]} */ ([]), start: this.nodes[i].range[0], isType }];
    for (const it of this.takenApart(i) ?? []) found.push({ name, scope, parts: [it.part], start: it.start, isType });
    for (let at = i, part = this.partBehind(at); part !== null; at = this.above[at], part = this.partBehind(at)) {
      found.push({ name, scope, parts: [...found[found.length - 1].parts, part], start: this.startOfPart(at), isType });
    }
    return found;
  }
}
