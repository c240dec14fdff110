// Why a graph of the right form is refused: words for what `symq` tells by the status 5.
import { CATEGORIES, FIELDS } from './kinds.js';
import { fieldsOf, moduleName } from './form.js';

/** The deepest that a node may lie. */
const MAX_DEPTH = 4096;
/** What an item may be and a statement not. */
const STATEMENT_LACKS = [
  'Import', 'ExportDecl', 'ExportNamed', 'ExportDefaultDecl', 'ExportDefaultExpr', 'ExportAll', 'TsImportEqualsDecl', 'TsExportAssignment',
];

/** @type {Map<string, Set<string>>} */
const KINDS_OF = new Map();

/** @param {string} category @returns {Set<string>} its kinds */
export function kindsOf(category) {
  let found = KINDS_OF.get(category);
  if (!found) {
    const words = CATEGORIES[category]?.split(', ') ?? [category];
    found = new Set(words.flatMap((it) => (it.startsWith('+') ? [...kindsOf(it.slice(1))] : [it])));
    if (category === 'Any') found = new Set(Object.keys(FIELDS).filter((it) => it !== 'Program' && !STATEMENT_LACKS.includes(it)));
    KINDS_OF.set(category, found);
  }
  return found;
}

/** @param {any} node @returns {{ key: string, category: string, child: number }[]} */
function childrenOf(node) {
  return fieldsOf(node.kind).filter((it) => /^[A-Z]/.test(it.what)).flatMap(({ key, mark, what }) => {
    const value = node[key] ?? [];
    return (mark === '*' ? value : [value].flat()).map((/** @type {number} */ child) => ({ key, category: what, child }));
  });
}

/** @param {any} node @param {any[]} nodes @returns {string | null} what is wrong with its shape, its fields' categories apart */
function shapeFault(node, nodes) {
  if (node.kind === 'ExportDefaultSpecifier') return 'no tree may have it';
  if (node.kind === 'ExportNamed' && (node.src ?? null) === null) {
    const isOdd = (/** @type {any} */ it) => it?.kind === 'ExportNamespace' || nodes[it?.orig]?.kind === 'Str';
    if ((node.specifiers ?? []).some((/** @type {number} */ it) => isOdd(nodes[it]))) return 'without "src" it has names alone: no `* as`, and no string';
  }
  const hasOne = ((node.entity ?? null) === null) !== ((node.external ?? null) === null);
  if (node.kind === 'TsImportEqualsDecl' && !hasOne) return 'it has either "entity" or "external"';
  const param = node.kind === 'TsParamProp' ? nodes[node.param] : null;
  if (param?.kind === 'AssignPat' && nodes[param.left]?.kind !== 'BindingIdent') return 'the "left" of its AssignPat has to be a BindingIdent';
  return null;
}

/** @param {Buffer} text @param {[number, number]} range @returns {string | null} */
function rangeFault(text, [start, end]) {
  if (start > end) return `the range [${start}, ${end}] starts after its end`;
  if (end > text.length) return `the range [${start}, ${end}] ends after the text, which has ${text.length} bytes`;
  const cuts = [start, end].find((at) => at < text.length && (text[at] & 0xc0) === 0x80);
  return cuts === undefined ? null : `the range [${start}, ${end}] cuts a character: ranges count bytes of UTF-8, and ${cuts} is within one`;
}

/** @param {any} module @returns {{ node: number, words: string }[]} in the order of nodes */
function treeFaults(module) {
  const nodes = module.tree?.nodes ?? [];
  if (!module.tree) return [];
  if (nodes[0]?.kind !== 'Program') return [{ node: 0, words: nodes.length === 0 ? 'the tree has no node' : 'node 0 has to be a Program' }];
  const text = Buffer.from(module.text);
  const held = new Int32Array(nodes.length).fill(-1);
  const depths = new Uint16Array(nodes.length).fill(1);
  /** @type {{ node: number, words: string }[]} */
  const found = [];
  nodes.forEach((/** @type {any} */ node, /** @type {number} */ i) => {
    const add = (/** @type {string} */ words) => found.push({ node: i, words: `(${node.kind}): ${words}` });
    const children = childrenOf(node);
    for (const { key, child } of children) {
      if (child >= nodes.length) add(`"${key}" names node ${child}, and there are ${nodes.length}`);
      else if (child <= i) add(`"${key}" names node ${child}: the number of a child is greater than the node's`);
      else if (held[child] >= 0) add(`"${key}" names node ${child}, which node ${held[child]} holds already`);
      else held[child] = i;
      if (child > i && child < nodes.length) depths[child] = Math.min(depths[i] + 1, MAX_DEPTH + 1);
    }
    for (const it of [rangeFault(text, node.range), shapeFault(node, nodes)]) if (it) add(it);
    for (const { key, category, child } of children) {
      const article = /^[AEIOU]/.test(category) ? 'an' : 'a';
      const kind = nodes[child]?.kind;
      if (kind && !kindsOf(category).has(kind)) add(`"${key}" takes ${article} ${category}, and node ${child} is of the kind ${kind}`);
    }
    if (depths[i] > MAX_DEPTH) add(`it lies more than ${MAX_DEPTH} deep`);
  });
  return found;
}

/** @param {string[]} keys @returns {string | undefined} the first that stands twice */
function twice(keys) {
  const met = new Set();
  return keys.find((it) => met.size === met.add(it).size);
}

/** @param {any} value a graph of the right form @returns {string[]} the words of each fault, in the order in which symq looks for them */
export function graphFaults(value) {
  const { modules = [], redirects = [], resolutions = [] } = value;
  const found = [];
  const module = twice((modules ?? []).map((/** @type {any} */ it) => it.specifier));
  if (module !== undefined) found.push(`two modules have the specifier ${module}`);
  const from = twice((redirects ?? []).map((/** @type {any} */ it) => it[0]));
  if (from !== undefined) found.push(`two redirects have the "from" ${from}`);
  const sources = new Set((redirects ?? []).map((/** @type {any} */ it) => it[0]));
  for (const [source, to] of redirects ?? []) {
    if (sources.has(to)) found.push(`the redirect from ${source} leads to ${to}, which is redirected: name the last target`);
  }
  const pair = twice((resolutions ?? []).map((/** @type {any} */ it) => JSON.stringify(it.slice(0, 2))));
  if (pair !== undefined) found.push(`two resolutions have the referrer and the text ${JSON.parse(pair).join(' ')}`);
  const trees = (modules ?? []).flatMap((/** @type {any} */ it, /** @type {number} */ i) => (it.kind !== 'esm' ? []
    : treeFaults(it).map(({ node, words }) => `${moduleName(it, i)}, ${words.startsWith('(') ? `node ${node} ${words}` : words}`)));
  return [...found, ...trees];
}
