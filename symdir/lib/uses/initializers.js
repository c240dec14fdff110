// Types that are written in initializers: those that TypeScript's declaration of the name has, too, as far as syntax tells it.

/** @typedef {import('./tree.js').Tree} Tree */
/** @typedef {import('./tree.js').Node} Node */

/** A type, where it stands in something else without a colon. */
const TYPES = new Set(['Type', 'TsTypeQuery', 'TsImportType']);
/** What holds no nodes. */
const NO_PARTS = new Set(['kind', 'range', 'sym']);
/** How many bytes are looked at for a word or `...`. */
const SHORT = 8;

export class Initializers {
  /** @param {Tree} tree */
  constructor(tree) {
    this.tree = tree;
    this.bytes = Buffer.from(tree.text);
    /** @type {number[]} found in the declaration at hand */
    this.types = [];
    /** @type {number[]} expressions that aren't looked at yet */
    this.open = [];
    /** @type {Record<string, (node: Node) => void>} by the kind of a declaration */
    this.declarations = {
      VarDeclarator: ({ name, init }) => this.node(name).kind === 'BindingIdent' && this.value(this.node(name), init),
      ClassProp: (node) => this.value(node, node.value),
      AutoAccessor: (node) => this.value(node, node.value),
      FnDecl: (node) => this.defaults(this.node(node.function)),
      FnExpr: (node) => this.defaults(this.node(node.function)),
      ClassMethod: (node) => this.defaults(this.node(node.function)),
      Constructor: (node) => this.defaults(node),
      ExportDecl: ({ decl }) => this.declaration(this.node(decl)),
      ExportDefaultDecl: ({ decl }) => this.declaration(this.node(decl)),
      ExportDefaultExpr: ({ expr }) => this.open.push(expr),
    };
    /** @type {Record<string, (node: Node) => void>} by the kind of an expression */
    this.expressions = {
      Arrow: (node) => {
        this.signature(node);
        if (!node.is_block && node.return_type === undefined) this.open.push(node.body);
      },
      FnExpr: (node) => this.signature(this.node(node.function)),
      ClassExpr: (node) => this.members(this.node(node.class)),
      TsAsExpr: ({ ty }) => this.types.push(ty),
      TsTypeAssertion: ({ ty }) => this.types.push(ty),
      Other: (node) => this.other(node),
    };
    /** @type {Map<string, Node>} declarations by their ranges */
    this.byRange = new Map(tree.nodes.filter(({ kind }) => Object.hasOwn(this.declarations, kind)).reverse().map((it) => [it.range.join(' '), it]));
  }

  /** @param {number} at @returns {Node} */
  node(at) {
    return this.tree.nodes[at];
  }

  /** @param {number} start @param {number} end both in bytes @returns {string} */
  text(start, end) {
    return this.bytes.toString('utf8', start, end);
  }

  /** @param {string} range of a declaration @returns {unknown[][]} what the types in its initializers refer to, as `symq` takes it */
  at(range) {
    this.types = [];
    const found = this.byRange.get(range);
    if (found) this.declaration(found);
    for (let it = this.open.pop(); it !== undefined; it = this.open.pop()) this.expressions[this.node(it).kind]?.(this.node(it));
    return this.references();
  }

  /** @param {Node} node */
  declaration(node) {
    this.declarations[node.kind]?.(node);
  }

  /** @param {Node} node with an annotation, after which the value says nothing, or without @param {number | undefined} value */
  value({ type_ann }, value) {
    if (type_ann === undefined && value !== undefined) this.open.push(value);
  }

  /** @param {Node} node a function or a constructor @returns {Node[]} its parameters */
  parameters({ params = [] }) {
    return params.map((/** @type {number} */ it) => this.node(this.node(it).kind === 'TsParamProp' ? this.node(it).param : it));
  }

  /** @param {Node} node a function or a constructor whose own types are known */
  defaults(node) {
    for (const it of this.parameters(node)) if (it.kind === 'AssignPat') this.value(this.node(it.left), it.right);
  }

  /** @param {Node} node a function, a constructor or what else has parameters */
  signature(node) {
    const annotations = this.parameters(node).map((it) => (it.kind === 'AssignPat' ? this.node(it.left) : it).type_ann);
    this.types.push(...[node.type_params, node.return_type, node.type_ann, ...annotations].filter((it) => it !== undefined));
    this.defaults(node);
  }

  /** @param {Node} node a class, of which private members aren't seen */
  members({ type_params, super_type_params, body = [] }) {
    this.types.push(...[type_params, super_type_params].filter((it) => it !== undefined));
    for (const it of body) {
      const node = this.node(it);
      if (node.accessibility === 'private' || (node.key !== undefined && this.node(node.key).kind === 'PrivateName')) continue;
      if (node.kind === 'ClassProp' || node.kind === 'AutoAccessor') this.declaration(node);
      if (node.kind !== 'Other') this.signature(node.kind === 'ClassMethod' ? this.node(node.function) : node);
    }
  }

  /** @param {Node} node parentheses, a list, an object, or what `satisfies`, `new` and `as const` make; of all else the type isn't known */
  other(node) {
    const { children: parts = [], range: [start, end] } = node;
    const [first, second] = parts;
    if (first === undefined) return;
    const beginning = this.text(start, Math.min(end, start + SHORT));
    const [from, to] = this.node(first).range;
    const isConst = parts.length === 1 && (/\bconst$/.test(this.text(to, end)) || /^<[^>]*\bconst\b/.test(this.text(start, from)));
    if (parts.length === 2 && TYPES.has(this.node(second).kind)) this.pushAll([first], [second]);
    else if (/^new\s/.test(beginning)) this.pushAll([], parts.filter((/** @type {number} */ it) => this.node(it).kind === 'TsTypeParamInstantiation'));
    else if (isConst) this.pushAll([first], []);
    else if (from > start && /^[([{]/.test(beginning)) for (const it of parts) this.part(it, beginning[0] === '{');
  }

  /** @param {number[]} open expressions @param {number[]} types */
  pushAll(open, types) {
    this.open.push(...open);
    this.types.push(...types);
  }

  /** @param {number} at what parentheses, a list or an object hold @param {boolean} isObject */
  part(at, isObject) {
    const { kind, children = [], range: [start] } = this.node(at);
    // of what is spread the members are there, and not the type itself
    if (isObject && /\.\.\.\s*$/.test(this.text(Math.max(0, start - SHORT), start))) return;
    if (!isObject || kind !== 'Other') {
      this.open.push(at);
      return;
    }
    /** @type {Node[]} */
    const inner = children.map((/** @type {number} */ it) => this.node(it));
    const method = inner.find((it) => it.kind === 'Function');
    const accessor = children.flatMap((/** @type {number} */ it, /** @type {number} */ i) => (inner[i].kind === 'TsTypeAnn' ? [it] : inner[i].type_ann ?? []));
    if (method) this.signature(method);
    else this.pushAll(accessor.length > 0 ? [] : [at], accessor);
  }

  /** @returns {unknown[][]} what the types refer to */
  references() {
    const { tree } = this;
    /** @type {unknown[][]} */
    const found = [];
    const open = [...this.types];
    for (let at = open.pop(); at !== undefined; at = open.pop()) {
      const node = this.node(at);
      for (const key in node) if (!NO_PARTS.has(key)) for (const it of [node[key]].flat()) if (typeof it === 'number') open.push(it);
      if (node.kind === 'TsImportType') found.push(['import', node.arg, node.qualifier === undefined ? [] : lastOf(tree.dotted(node.qualifier)).parts]);
      if (!node.sym || !tree.isLookedUp(at)) continue;
      const { name, scope, parts } = lastOf(tree.lookups(at));
      found.push(parts.length > 0 ? ['qualified', name, scope, parts] : ['id', name, scope]);
    }
    return found;
  }
}

/** @template T @param {T[]} list that isn't empty @returns {T} */
function lastOf(list) {
  return list[list.length - 1];
}
