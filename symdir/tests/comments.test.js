// Doc comments and signatures beside names.
import assert from 'node:assert/strict';
import test from 'node:test';

import { firstSentence, textOf } from '../lib/surface/docs.js';
import { Comments, partsOf } from './comments.js';
import { answer, folderOf, symdir } from './helper.js';

const TEXT = `#!/usr/bin/env node
/** Not that of anything. */

/**
 * An interface.
 *
 * With a second paragraph: \`code\` and {@link B}.
 * @deprecated for a reason
 */
export interface A { /** on the line of the brace */ a: string; /** likewise */ b: 1;
  /** A member. */ c: 2;
  // a line, with /** no comment */ in it
  d(): void }
/** old */
/** new */
// between
export /** in the middle */ function f(/** of a parameter */ p: number): void {}
export const one = 1; /** behind */
export const two = 2,
  /** of three */ three = 3, /** of four */ four = 4;
/* none */
export class B {
  /** Of a constructor.
   * @param n a number */
  constructor(/** of n */ public n: number, public m = "/** none */") {}
  /** of s
   */
  static s = 1;
  /**/
  t = \`/** none\`;
  /*** three stars */
  u = /\\/\\*\\* none/;
  /** of the getter */
  get v() { return 1; }
}
/** of E */
export enum E {
  /** of x */
  x, /** of y, on its line */ y = 2,
}
/** of the namespace */
export declare namespace N {
  /** of k */
  export const k: 1;
  /** of l */
  export let l: 1, m: 2;
}
"/** no comment";
export type T = 1;
call("*/", '/**', /\\/\\*\\*/);
/** of ø, 😀 */
export const ø = 1;
/** first overload */
export function g(a: string): void;
/** second overload */
export function g(a: number): void;
export function g(a: any) {}
/* not /** one */
export const p = 1;
export interface O {
  /* nor /** this */
  q: 1;
}
/** of default */
export default class {}
`;

test('the comment of each name and member is the one that TypeScript finds', () => {
  const folder = folderOf({ 'index.ts': TEXT });
  const { names } = answer(['api', folder, '--docs']);
  const comments = new Comments(folder);
  let found = 0;
  for (const it of names) {
    const wanted = it.defined.map((/** @type {any} */ place) => comments.at(place)).filter((/** @type {any} */ one) => one.text !== '' || one.tags.length > 0);
    assert.deepEqual(it.doc.split('\n\n').length >= wanted.length, true, it.name);
    assert.deepEqual(partsOf(it.doc), { text: wanted.map((/** @type {any} */ one) => one.text).join(' '), tags: wanted.flatMap((/** @type {any} */ one) => one.tags) }, it.name);
    for (const member of it.members) assert.deepEqual(partsOf(member.doc), comments.at(member), member.name);
    found += wanted.length;
  }
  // A, f, three, four, E, N, ø, default, and two of g
  assert.equal(found, 10);
  const members = names.flatMap((/** @type {any} */ it) => it.members.filter((/** @type {any} */ one) => one.doc).map((/** @type {any} */ one) => `${one.name}: ${one.doc.split('\n')[0]}`));
  assert.deepEqual(members.sort(), ['A#c: A member.', 'B constructor: Of a constructor.', 'B#n: of n', 'B#u: * three stars', 'B#v: of the getter', 'B.s: of s', 'E.x: of x', 'N.k: of k', 'N.l: of l']);
});

test('stars before lines are no text, and other ones are', () => {
  assert.equal(textOf('/** a */'), 'a');
  assert.equal(textOf('/**\n * a\n *   b\n * * c\n\n  d\n */'), 'a\n  b\n* c\n\nd');
  assert.equal(textOf('/** a\r\n * b */'), 'a\nb');
});

test('the first sentence of a comment', () => {
  const cases = [['Adds, e.g. two. Then more.', 'Adds, e.g. two.'], ['One\nline. Two', 'One line.'], ['@internal', ''], ['No end\n@param a b', 'No end'], ['A {@link B} and {@link C | the c}. D', 'A B and the c.'],
    ['Has `a. B` in it. Next', 'Has `a. B` in it.'], ['A list:\n- one', 'A list:'], ['No end  \n\nMore.', 'No end'], ['', '']];
  for (const [doc, wanted] of cases) assert.equal(firstSentence(doc), wanted);
});

test('--docs: signatures and first sentences below names', () => {
  const text = '/** Adds up. And more. */\nexport function add(a: number, b?: number): number;\nexport class C<T> extends Array<T> { static readonly x: string; }\nexport const n: 1 = 1;\nexport let k = 2;\n';
  const folder = folderOf({ 'index.ts': text });
  assert.equal(symdir(['api', folder, '--docs']).stdout, `index.ts: 4 public names, defined in 1 file
  add  function  index.ts:2:17
      add(a: number, b?: number): number
      Adds up.
  C    class     index.ts:3:14
      C<T> extends Array<T>
  k    let       index.ts:5:12
  n    const     index.ts:4:14
      n: 1
`);
  const [add, c, n, k] = answer(['api', folder, '--docs']).names;
  assert.deepEqual([add, c, n, k].map((it) => [it.name, it.signature, it.doc]), [
    ['add', '(a: number, b?: number): number', 'Adds up. And more.'], ['C', '<T> extends Array<T>', ''], ['n', ': 1', ''], ['k', '', '']]);
  assert.deepEqual(c.members, [{ name: 'C.x', kind: 'property', signature: 'static readonly : string', doc: '', file: 'index.ts', line: 3, column: 54 }]);
  assert.deepEqual(Object.keys(answer(['api', folder]).names[0]), ['entry', 'name', 'kind', 'defined', 'through', 'unresolved']);
});
