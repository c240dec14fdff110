// Walks of paths that are as long as a graph may be.
import assert from 'node:assert/strict';
import test from 'node:test';

import { endsOf, visitPaths } from '../lib/folder/paths.js';
import { Settling, isUnsettled } from '../lib/folder/settle.js';

const LINKS = 200_000;

/** @param {any} end @param {any} [second] another entry after each link @returns {any} an entry after so many links, of the modules m0, m1, .. */
function long(end, second) {
  let entry = end;
  for (let i = LINKS - 1; i >= 0; i--) entry = { module: `m${i}`, symbol: i, parts: [], next: second ? [entry, second] : [entry] };
  return entry;
}

const DEFINED = { module: 'end', symbol: 1, decl: [1, 0], start: 0, end: 1 };
const LACKED = { kind: 'part', module: 'end', name: 'n', parts: [] };

test('ends of a long path, from left to right', () => {
  assert.deepEqual(endsOf([long(DEFINED), LACKED]), [DEFINED, LACKED]);
  const ends = endsOf([long(DEFINED, LACKED)]);
  assert.deepEqual([ends.length, ends[0], ends[1], ends[LINKS]], [LINKS + 1, DEFINED, LACKED, LACKED]);
});

test('entries come from left to right, each with what the one before it returned', () => {
  /** @type {string[]} */
  const told = [];
  const link = (/** @type {string} */ name, /** @type {any[]} */ ...next) => ({ name, next });
  visitPaths([link('a', link('b', { name: 'c' }), { name: 'd' }), { name: 'e' }], '', (it, before) => {
    told.push(before + it.name);
    return before + it.name;
  });
  assert.deepEqual(told, ['a', 'ab', 'abc', 'ad', 'e']);
});

test('a long path is settled at its end', async () => {
  const sources = { modules: new Map([['end', { parsed: { equals: ['held'] } }]]), resolutions: new Map() };
  const asked = /** @type {any[]} */ ([]);
  const ask = async (/** @type {any[]} */ queries) => {
    asked.push(...queries);
    return queries.map(() => ({ entries: [DEFINED] }));
  };
  const settling = new Settling(/** @type {any} */ ({ sources, ask }));
  const path = long(LACKED);
  assert.deepEqual([isUnsettled(path), isUnsettled(long(DEFINED))], [true, false]);
  const [[made]] = await settling.settled([[path]], ['start']);
  assert.deepEqual(asked, [['resolve', 'end', ['qualified', 'held', 1, ['n']]]]);
  assert.deepEqual(endsOf([made]), [DEFINED]);
  assert.deepEqual(endsOf([path]), [LACKED]);
});
