// The JSON text of nodes, beside what `JSON.stringify` makes of them.
import assert from 'node:assert/strict';
import test from 'node:test';

import { TreeNode, nodesText, numbered } from '../lib/tree/node.js';
import { Nodes } from '../lib/tree/nodes.js';
import { TreeText } from '../lib/tree/treetext.js';
import { TreeWriter } from '../lib/tree/treewriter.js';

/** @typedef {import('../lib/tree/node.js').Field} Field */

/** @param {Field} value @returns {unknown} as docs/GRAPH.md has it */
function plain(value) {
  if (value instanceof TreeNode) return value.number;
  return Array.isArray(value) && value[0] instanceof TreeNode ? value.map((it) => /** @type {TreeNode} */ (it).number) : value;
}

/** @param {TreeNode} node numbered @returns {object} without fields that are empty */
function described({ kind, start, end, fields }) {
  const there = Object.entries(fields).filter(([, it]) => it !== null && it !== undefined && it !== false && !(Array.isArray(it) && it.length === 0));
  return { kind, range: [start, end], ...Object.fromEntries(there.map(([key, it]) => [key, plain(it)])) };
}

/** @param {Field} value @returns {TreeNode[]} */
function held(value) {
  return /** @type {any[]} */ ([value].flat()).filter((it) => it instanceof TreeNode);
}

/** @param {TreeText} text @param {TreeNode} item which it is given as the converter makes it: each node behind what it holds */
function put(text, item) {
  const nodes = new Nodes();
  const all = [item];
  for (let i = 0; i < all.length; i++) all.push(...Object.values(all[i].fields).flatMap(held));
  const made = new Map();
  const given = (/** @type {any} */ it) => made.get(it) ?? it;
  for (const it of all.reverse()) {
    const fields = Object.entries(it.fields).map(([key, value]) => [key, Array.isArray(value) ? value.map(given) : given(value)]);
    made.set(it, nodes.add(it.kind, it.start, it.end, Object.fromEntries(fields)));
  }
  text.add(nodes, made.get(item));
}

/** @param {TreeNode[]} items @returns {{ text: string, wanted: string, pieces: Buffer[] }} of the program that has them */
function written(items) {
  const made = new TreeText();
  for (const it of items) put(made, it);
  const pieces = made.whole(new TreeNode('Program', 0, 1, {}));
  const nodes = numbered(new TreeNode('Program', 0, 1, { body: items })) ?? [];
  return { text: String(Buffer.concat(pieces)), wanted: JSON.stringify(nodes.map(described)), pieces };
}

test('numbers of any length', () => {
  const borders = [0, 9, 10, 99, 100, 999, 1000, 1009, 9999, 10_000, 10_001, 100_000, 999_999, 1_000_000, 10_000_000, 99_990_009, 99_999_999, 100_000_000, 100_000_001, 2 ** 31 - 1, 2 ** 31,
    2 ** 31 + 7, 2 ** 32 - 1];
  // a text has less than 2 ** 29 units of three bytes at most, and the scopes of bodies are counted from 2 ** 31 on
  const items = borders.map((it) => new TreeNode('Ident', Math.min(it, 2 ** 31 - 1), Math.min(it, 2 ** 31 - 1), { sym: ['a', it] }));
  const { text, wanted } = written(items);
  assert.equal(text, wanted);
  assert.equal(nodesText(items), JSON.stringify(items.map(described)));
});

test('fields of each sort, in the order in which they come, and those that are empty', () => {
  const leaf = () => new TreeNode('Str', 1, 2, { value: 'é"\\\n\u2028😀\u007f' });
  /** @type {Record<string, Field>[]} */
  const fields = [{ value: '', plain: true, left: leaf() }, { left: leaf(), plain: true, value: 'x' }, { left: null, right: undefined, plain: false, children: [] }, { children: [leaf(), leaf()], sym: ['b', 3] },
    { plain: true, sym: ['"', 2 ** 32 - 1] }, { sym: ['c', 2 ** 31] }, {}];
  const { text, wanted } = written(fields.map((it) => new TreeNode('Other', 3, 4, it)));
  assert.equal(text, wanted);
});

test('a tree of several pieces, with a text that is longer than one, whose memory V8 doesn\'t count', () => {
  const long = 'long '.repeat(300_000);
  const items = Array.from({ length: 60_000 }, (_, i) => new TreeNode('ExprStmt', i, i + 9, { expr: i === 40_000 ? new TreeNode('Str', i, i, { value: long }) : new TreeNode('Ident', i, i, { sym: [`n${i}`, 1] }) }));
  const { text, wanted, pieces } = written(items);
  assert.equal(text.length, wanted.length);
  assert.ok(text === wanted);
  // the list of the items and the first piece are as those of any tree
  const counted = pieces.filter((it) => it.buffer instanceof ArrayBuffer).reduce((sum, it) => sum + it.length, 0);
  assert.ok(counted < 1_500_000 && text.length > 7_000_000, `${counted} of ${text.length}`);
});

test('a text that begins a piece, whatever is in it', () => {
  for (const text of ['plain '.repeat(200_000), 'é"\\\n\u2028😀\u007f'.repeat(150_000), `${'plain '.repeat(200_000)}é`]) {
    const items = ['', text, 'x', text].map((value) => new TreeNode('Str', 1, 2, { value }));
    items.push(new TreeNode('Ident', 3, 4, { sym: [text, 5] }), new TreeNode('Other', 6, 7, { plain: true, value: text, left: new TreeNode('Str', 8, 9, { value: text }) }));
    const { text: found, wanted, pieces } = written(items);
    assert.ok(found === wanted && pieces.length > 6);
  }
});

test('a long text\'s tree stands once, in memory that threads share, with what is before and behind it; where that doesn\'t fit, or can\'t be had, it is copied', () => {
  const items = (/** @type {number} */ count) => Array.from({ length: count }, (_, i) => new TreeNode('ExprStmt', i, i + 9, { expr: new TreeNode('Ident', i, i, { sym: [`n${i}`, 1] }) }));
  const made = (/** @type {number} */ count, /** @type {string} */ before) => {
    const text = new TreeText(1_000_000);
    for (const it of items(count)) put(text, it);
    const program = new TreeNode('Program', 0, 1, {});
    const wanted = `${before}é${Buffer.concat(text.whole(program))}}`;
    const found = text.between(program, [before, 'é'], '}');
    assert.ok(found.toString() === wanted);
    return found.buffer instanceof ArrayBuffer;
  };
  assert.deepEqual([made(1000, 'x'), made(1000, 'x'.repeat(7_900_000)), made(0, '')], [false, false, false]);
  assert.deepEqual([made(1000, 'x'.repeat(8_000_000)), made(150_000, 'x')], [true, true]);
  // the system has no such piece
  const { SharedArrayBuffer: all } = globalThis;
  globalThis.SharedArrayBuffer = /** @type {any} */ (function (/** @type {number} */ count) {
    if (count > 4_000_000) throw new RangeError('Array buffer allocation failed');
    return new all(count);
  });
  try {
    assert.deepEqual([made(1000, 'x'), new Nodes(1_000_000).words.length], [true, 4096]);
  } finally {
    globalThis.SharedArrayBuffer = all;
  }
});

test('a deep tree that is made item by item: what can go is left out, and it is too deep where nothing can', () => {
  const chain = (/** @type {number} */ depth) => {
    let node = new TreeNode('TsModuleBlock', 0, 1, {});
    for (let i = 1; i < depth; i++) node = new TreeNode('TsNamespaceDecl', 0, 1, { body: node });
    return node;
  };
  for (const depth of [3998, 3999, 4000, 4095]) {
    const { text, wanted } = written([chain(depth)]);
    assert.ok(text === wanted && JSON.parse(text).length === depth + 1, `${depth}`);
  }
  const isTooDeep = [4095, 4096].map((depth) => {
    const made = new TreeText();
    put(made, chain(depth));
    return made.isTooDeep;
  });
  assert.deepEqual(isTooDeep, [false, true]);
  let list = new TreeNode('Other', 0, 1, { children: [] });
  for (let i = 1; i < 5000; i++) list = new TreeNode('Other', 0, 1, { children: [list] });
  const { text, wanted } = written([list]);
  assert.ok(text === wanted && JSON.parse(text).length <= 4096);
});

test('nodes that none was written before are none', () => {
  assert.equal(nodesText([]), '[]');
  assert.equal(String(Buffer.concat(new TreeWriter().pieces())), '');
});

test('the memory of a tree that is copied is used for the next one, and that of another isn\'t', () => {
  const made = (/** @type {string} */ name) => {
    const text = new TreeText();
    put(text, new TreeNode('Ident', 1, 2, { sym: [name, 0] }));
    return { text, pieces: text.whole(new TreeNode('Program', 0, 1, {})) };
  };
  const memory = (/** @type {{ pieces: Buffer[] }} */ { pieces }) => pieces.map((it) => it.buffer).find((it) => it.byteLength >= 1 << 20);
  const first = made('first');
  const before = String(Buffer.concat(first.pieces));
  const other = made('other');
  assert.ok(memory(first) && memory(other) !== memory(first));
  assert.equal(String(Buffer.concat(first.pieces)), before);
  first.text.free();
  const next = made('after');
  assert.equal(memory(next), memory(first));
  assert.equal(String(Buffer.concat(next.pieces)), before.replace('first', 'after'));
  const last = made('again');
  assert.ok(memory(last) !== memory(next));
});
