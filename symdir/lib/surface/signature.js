// What is written of a declaration's signature: type parameters, parameters, types, heritage; in one line, without comments.

/** @typedef {import('../uses/tree.js').Tree} Tree */
/** @typedef {import('../uses/tree.js').Node} Node */

const STRING = '"(?:[^"\\\\\\n]|\\\\.)*"|\'(?:[^\'\\\\\\n]|\\\\.)*\'|`(?:[^`\\\\]|\\\\[^])*`';
/** Strings are kept as they are; comments go, and spaces become one. */
const PIECES = new RegExp(`(${STRING})|(?://.*|/\\*[^]*?\\*/|\\s)+`, 'g');
/** Spaces and commas that say nothing. */
const IDLE = new RegExp(`(${STRING})|(?<=[([<]) | (?=[)\\]>,;:?])|,(?= ?[)\\]>])`, 'g');

/** Of a text in which none of these stands both leave all as it is. */
const HAS_PIECES = /["'`/]|[^\S ]|  /;
const HAS_IDLE = /["'`]|[([<] | [)\]>,;:?]|, ?[)\]>]/;

/** @param {string} text @returns {string} in one line, without comments */
export function oneLine(text) {
  const plain = HAS_PIECES.test(text) ? text.replace(PIECES, (_, string) => string ?? ' ') : text;
  const short = HAS_IDLE.test(plain) ? plain.replace(IDLE, (_, string) => string ?? '') : plain;
  return (/[;,\s]$/.test(short) ? short.replace(/[;,\s]+$/, '') : short).trim();
}

/** These say nothing of how something is used. */
const MODIFIERS = /\b(export|default|declare|async|public|override)\b\s*/g;

/** @param {...string} parts @returns {string} */
function spaced(...parts) {
  return parts.filter((it) => it !== '').join(' ');
}

export class Signatures {
  /** @param {Tree} tree */
  constructor(tree) {
    this.tree = tree;
    this.bytes = Buffer.from(tree.text);
    /** By its start the first node that has it, but for the program; 0 where none has. */
    this.first = new Uint32Array(this.bytes.length + 1);
    /** The next node of the same start; 0 behind the last. */
    this.next = new Uint32Array(tree.nodes.length);
    for (let i = tree.nodes.length - 1; i > 0; i--) {
      const start = tree.nodes[i].range[0];
      this.next[i] = this.first[start];
      this.first[start] = i;
    }
  }

  /** @param {number} start @param {number} end @returns {number} the node with the range, of several the outermost; -1 if there is none */
  nodeAt(start, end) {
    for (let at = this.first[start] ?? 0; at > 0; at = this.next[at]) if (this.tree.nodes[at].range[1] === end) return at;
    return -1;
  }

  /** @param {number} start @param {number} end @returns {number | null} the declaration with the range */
  declarationAt(start, end) {
    const found = this.nodeAt(start, end);
    if (found < 0) return null;
    const { kind, decl } = this.tree.nodes[found];
    return kind === 'ExportDecl' || kind === 'ExportDefaultDecl' ? decl : found;
  }

  /** @param {number} i a declaration @returns {string} empty where nothing is written */
  of(i) {
    const node = this.tree.nodes[i];
    return OF[node.kind]?.call(this, node) ?? '';
  }

  /** @param {number} start @param {number} end @returns {string} */
  slice(start, end) {
    return this.bytes.toString('utf8', start, end);
  }

  /** @param {number | undefined} i @returns {string} */
  text(i) {
    return i === undefined ? '' : oneLine(this.slice(...this.tree.nodes[i].range));
  }

  /** @param {number} start @param {number} end @returns {string} words before a name */
  words(start, end) {
    return oneLine(this.slice(start, end)).replace(MODIFIERS, '').replace(/ ?[[*]$/, '').trim();
  }

  /** @param {number} i @returns {number} */
  endOf(i) {
    return this.tree.nodes[i].range[1];
  }

  /** @param {number} from where type parameters or parameters begin @param {Node} node that has them @returns {string} up to the body */
  called(from, { body, range: [, end] }) {
    return oneLine(this.slice(from, body === undefined ? end : this.tree.nodes[body].range[0])).replace(/^\] ?/, '');
  }

  /** @param {Node} node an arrow function @returns {string} */
  ofArrow({ body, range: [start], return_type: type }) {
    const end = type === undefined ? this.tree.nodes[body].range[0] : this.endOf(type);
    return oneLine(this.slice(start, end)).replace(/^async /, '').replace(/ ?=> ?\(?$/, '');
  }

  /** @param {Node} node a function with a name or without @returns {string} */
  ofFunction({ ident, function: inner, range: [start, end] }) {
    const from = ident === undefined ? start + (/^[^(<]*/.exec(this.slice(start, end))?.[0].length ?? 0) : this.endOf(ident);
    return this.called(from, this.tree.nodes[inner]);
  }

  /** @param {number | undefined} value that something is set to @returns {string} that of a function */
  ofValue(value) {
    const node = value === undefined ? null : this.tree.nodes[value];
    if (node?.kind === 'Arrow') return this.ofArrow(node);
    return node?.kind === 'FnExpr' ? this.ofFunction(node) : '';
  }

  /** @param {Node} node a class or an enum @param {number} name @param {RegExp} word that may stand before what declares it @returns {string} the word, where it does */
  wordBefore({ range: [start] }, name, word) {
    return word.exec(oneLine(this.slice(start, this.tree.nodes[name].range[0])))?.[1] ?? '';
  }

  /** @param {Node} node a class @returns {string} */
  ofClass(node) {
    const { class: inner, ident } = node;
    // without a name it stands behind `export default`, and begins there
    const abstract = ident === undefined ? /^abstract\b/.exec(this.slice(node.range[0], node.range[1]))?.[0] ?? '' : this.wordBefore(node, ident, /\b(abstract)(?: declare)? class$/);
    const { type_params: params, super_class: above, super_type_params: args, implements: list = [] } = this.tree.nodes[inner];
    const extended = above === undefined ? '' : `extends ${this.text(above)}${this.text(args)}`;
    return spaced(abstract, this.text(params), extended, this.listed('implements', list));
  }

  /** @param {string} word @param {number[]} list @returns {string} */
  listed(word, list) {
    return list.length === 0 ? '' : `${word} ${list.map((it) => this.text(it)).join(', ')}`;
  }

  /** @param {Node} node an enum @returns {{ name: string, text: string, range: [number, number] }[]} its members */
  enumMembers({ members = [] }) {
    return members.map((/** @type {number} */ at) => {
      const it = this.text(at);
      const [, name, value = ''] = new RegExp(`^(${STRING}|[^=]*?)\\s*(?:=\\s*(.*))?$`).exec(it) ?? ['', it];
      return { name: name.replace(/^["']|["']$/g, ''), text: value && `= ${value}`, range: this.tree.nodes[at].range };
    });
  }
}

/** @this {Signatures} @param {Node} node a member of an interface @returns {string} */
function element({ key, range: [start, end] }) {
  if (key === undefined) return oneLine(this.slice(start, end));
  const before = this.words(start, this.tree.nodes[key].range[0]);
  return spaced(before, oneLine(this.slice(this.endOf(key), end)).replace(/^\] ?/, ''));
}

/** @this {Signatures} @param {Node} node a property of a class @returns {string} */
function property({ key, type_ann: type, value, range: [start] }) {
  const mark = /^\]?\s*\?/.test(this.slice(this.endOf(key), this.endOf(key) + 8)) ? '?' : '';
  const words = this.words(start, this.tree.nodes[key].range[0]);
  return spaced(words, type === undefined ? this.ofValue(value) || mark : mark + this.text(type));
}

/** @type {Record<string, (this: Signatures, node: any) => string>} */
const OF = {
  FnDecl(node) { return this.ofFunction(node); },
  FnExpr(node) { return this.ofFunction(node); },
  TsEnumDecl(node) { return this.wordBefore(node, node.id, /\b(const) enum$/); },
  ClassDecl(node) { return this.ofClass(node); },
  ClassExpr(node) { return this.ofClass(node); },
  ClassMethod({ key, function: inner, range: [start] }) {
    return spaced(this.words(start, this.tree.nodes[key].range[0]), this.called(this.endOf(key), this.tree.nodes[inner]));
  },
  Constructor(node) {
    const [start, end] = node.range;
    const words = /^[^(]*/.exec(this.slice(start, end))?.[0] ?? '';
    // nobody outside knows its parameters
    if (node.accessibility === 'private') return 'private ()';
    return spaced(oneLine(words).replace(MODIFIERS, '').replace(/ ?constructor$/, ''), this.called(start + Buffer.byteLength(words), node));
  },
  ClassProp: property,
  AutoAccessor: property,
  TsParamProp({ param, range: [start, end] }) {
    const from = this.tree.nodes[param].range[0];
    return spaced(this.words(start, from), oneLine(this.slice(from, end)).replace(/^[^?:=]+/, ''));
  },
  TsPropertySignature: element,
  TsMethodSignature: element,
  TsGetterSignature: element,
  TsSetterSignature: element,
  TsCallSignatureDecl: element,
  TsConstructSignatureDecl: element,
  TsIndexSignature: element,
  TsTypeAliasDecl({ id, range: [, end] }) { return oneLine(this.slice(this.endOf(id), end)); },
  TsInterfaceDecl({ type_params: params, extends: list = [] }) { return spaced(this.text(params), this.listed('extends', list)); },
  VarDeclarator({ name, init }) {
    const { type_ann: type } = this.tree.nodes[name];
    return type === undefined ? this.ofValue(init) : this.text(type);
  },
};
