// Nodes of a tree as `docs/GRAPH.md` has them, and their numbers.

/** @typedef {string | number | boolean | null | undefined | [string, number] | TreeNode | TreeNode[]} Field */

/** A node: its kind, its range in bytes and its fields, which hold the nodes themselves until they are numbered. */
export class TreeNode {
  /**
   * @param {string} kind
   * @param {number} start
   * @param {number} end
   * @param {Record<string, Field>} fields
   */
  constructor(kind, start, end, fields) {
    this.kind = kind;
    this.start = start;
    this.end = end;
    this.fields = fields;
    this.number = 0;
  }
}

/** The deepest that a node may lie. */
const MAX_DEPTH = 4096;
/** From this depth on what a node holds is left out at the next place where the form allows it. */
export const CUT_DEPTH = MAX_DEPTH - 96;

/** @param {TreeNode} node @param {TreeNode[]} list is given the nodes that it holds, in the order of the fields */
function pushChildren(node, list) {
  for (const key in node.fields) {
    const value = node.fields[key];
    if (value instanceof TreeNode) list.push(value);
    else if (typeof value === 'object' && value !== null && value[0] instanceof TreeNode) for (const it of value) list.push(/** @type {TreeNode} */ (it));
  }
}

/** @param {TreeNode} node leaves out what it holds, where a list or an object of a chain can go */
function cut(node) {
  const { children, obj } = node.fields;
  if (Array.isArray(children)) node.fields.children = [];
  else if (node.kind === 'Member' && obj instanceof TreeNode && obj.kind === 'Member') {
    node.fields.obj = new TreeNode('Other', obj.start, obj.end, { children: [] });
  }
}

/**
 * Numbers the nodes from the root on, each before what it holds.
 * @param {TreeNode} root the program, or what it holds
 * @param {number} [first] the number of the root
 * @param {number} [above] how deep the root lies below the program
 * @returns {TreeNode[] | null} by number; null where the tree is too deep
 */
export function numbered(root, first = 0, above = 0) {
  /** @type {TreeNode[]} */
  const nodes = [];
  const waiting = [root];
  // the number of a node that waits is its depth
  root.number = above + 1;
  while (waiting.length > 0) {
    const node = /** @type {TreeNode} */ (waiting.pop());
    const depth = node.number;
    if (depth >= CUT_DEPTH) {
      if (depth > MAX_DEPTH) return null;
      cut(node);
    }
    node.number = first + nodes.length;
    nodes.push(node);
    const from = waiting.length;
    pushChildren(node, waiting);
    for (let i = from, k = waiting.length - 1; i <= k; i++, k--) {
      const first = waiting[i];
      waiting[i] = waiting[k];
      waiting[k] = first;
      waiting[i].number = depth + 1;
      waiting[k].number = depth + 1;
    }
  }
  return nodes;
}

/** @param {{ kind: string, range: [number, number], [field: string]: any }[]} rows as they are kept, each of which holds others by their numbers @returns {TreeNode[]} by number */
export function nodesFrom(rows) {
  const nodes = rows.map(({ kind, range: [start, end] }) => new TreeNode(kind, start, end, {}));
  const held = (/** @type {any} */ it) => (typeof it === 'number' ? nodes[it] : it);
  rows.forEach(({ kind: _, range: __, sym, ...fields }, i) => {
    const own = nodes[i].fields;
    if (sym) own.sym = sym;
    for (const key in fields) own[key] = Array.isArray(fields[key]) ? fields[key].map(held) : held(fields[key]);
  });
  return nodes;
}

/** @param {Field} value @returns {boolean} whether it is written */
function isThere(value) {
  return value !== null && value !== undefined && value !== false && !(Array.isArray(value) && value.length === 0);
}

/** @param {Field} value @returns {unknown} with the numbers of nodes */
function written(value) {
  if (value instanceof TreeNode) return value.number;
  return Array.isArray(value) && value[0] instanceof TreeNode ? value.map((it) => /** @type {TreeNode} */ (it).number) : value;
}

/** @param {TreeNode[]} nodes numbered @returns {string} the JSON text of the list */
export function nodesText(nodes) {
  return JSON.stringify(nodes.map(({ kind, start, end, fields }) => {
    const rows = Object.entries(fields).filter(([, it]) => isThere(it));
    return { kind, range: [start, end], ...Object.fromEntries(rows.map(([key, it]) => [key, written(it)])) };
  }));
}
