// Members of namespaces, beside those that TypeScript's checker lists.
import assert from 'node:assert/strict';
import test from 'node:test';

import { answer, folderOf } from './helper.js';
import { targetOf } from './definitions.js';
import { Language, ts } from './language.js';

/** @param {Language} language @param {import('typescript').Symbol} symbol @param {string} path @param {import('typescript').Symbol[]} around @returns {string[]} it, and what the checker lists as exports of the namespace or the enum that it is */
function below(language, symbol, path, around = []) {
  const target = targetOf(language, symbol);
  if (!(target.flags & ts.SymbolFlags.Namespace) || around.includes(target)) return [path];
  return [path, ...language.checker.getExportsOfModule(target).flatMap((it) => below(language, it, `${path}.${it.name}`, [...around, target]))];
}

/** @param {Record<string, string>} files @returns {{ wanted: string[], listed: string[], others: string[] }} public names with their members: as TypeScript's checker has them, and as `api --docs` lists them; those of classes and interfaces apart */
function both(files) {
  const folder = folderOf(files);
  const names = Object.keys(files);
  const language = new Language(folder, names);
  const wanted = language.sources().flatMap((file) => language.exports(file).flatMap((it) => below(language, it, it.name).map((path) => `${language.short(file.fileName)}: ${path}`)));
  const { names: all } = answer(['api', folder, '--docs', ...names.flatMap((it) => ['--entry', it])]);
  const listed = all.flatMap((/** @type {any} */ it) => [it, ...it.members].map((one) => `${it.entry}: ${one.name}`));
  const isOther = (/** @type {string} */ it) => it.includes('#');
  return { wanted: wanted.sort(), listed: listed.filter((/** @type {string} */ it) => !isOther(it)).sort(), others: listed.filter(isOther) };
}

const INNER = 'const x: number, y: 1; function f(): void; interface I { a: 1 } type T = 1; class C { b: 1 } enum E { e }';
const TEXTS = [
  `export declare namespace N { ${INNER} namespace M { const z: 1; namespace O { interface P { q: 1 } } } }`,
  `export declare namespace N { const hidden: 1; export const a: 1; export { a as b, a as c }; }`,
  `export declare namespace N { const hidden: 1; namespace H { const inner: 1; interface I { a: 1 } } namespace M { const z: 1 } export { M }; }`,
  `export declare namespace N { const hidden: 1; export {}; }`,
  `export declare namespace N { import q = O.x; export import r = O.x; export import M = O.M; const a: 1; }\ndeclare namespace O { const x: 1; namespace M { const y: 1 } }`,
  `export declare namespace N { export import r = O.x; const a: 1; }\ndeclare namespace O { const x: 1 }`,
  `declare namespace N { export { a, b as c, O as M, T } }\ndeclare const a: 1, b: 2;\ndeclare namespace O { const x: 1; export { b } }\ntype T = 1;\nexport { N };`,
  `declare namespace N { const a: 1; namespace M { export { X as Q, b }; const b: 1 } export { a, X as P, M } }\nimport X = N;\nexport { N };`,
  `export declare namespace N.M.O { const x: 1; namespace P.Q { const y: 1 } }`,
  `export declare namespace N { const a: 1 }\nexport declare namespace N { const b: 1; namespace M { const c: 1 } }\nexport declare namespace N.M { const d: 1 }`,
];

test('what an ambient namespace declares is exported, but where `export` lists names, in all sorts of files', () => {
  const { wanted, listed } = both(Object.fromEntries(TEXTS.flatMap((it, i) => [[`n${i}.ts`, it], [`d${i}.d.ts`, it]])));
  assert.deepEqual(listed, wanted);
});

test('a namespace that isn\'t ambient exports what `export` stands before, and what it keeps to itself has no members there, either', () => {
  const text = 'export namespace N { const hidden = 1; export const a = 1; namespace H { export const b = 1; export interface I { c: 1 } } export declare namespace M { const d: 1 } }\nconst hidden = 1;\nexport { hidden };';
  const { wanted, listed, others } = both({ 'index.ts': text });
  assert.deepEqual([listed, others], [wanted, []]);
});
