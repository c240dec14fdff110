import assert from 'node:assert/strict';
import { existsSync, readFileSync, realpathSync, symlinkSync } from 'node:fs';
import path from 'node:path';
import test from 'node:test';

import { webBy, webOf } from './definitions.js';
import { answer, folderOf, program, symdir } from './helper.js';
import { Language } from './language.js';

const FILES = {
  'index.ts': 'export * from "./all.ts";\nexport { one as two } from "./one.ts";\nexport * from "./gone.ts";\nexport { lost } from "./one.ts";\n',
  'all.ts': 'export * from "./x/a.ts";\nexport * from "./x/b.ts";\nexport * from "./x/c.ts";\n',
  'one.ts': 'export const one = 1;\n',
  'x/a.ts': 'export const a = 1;\n', 'x/b.ts': 'export const b = 1, bb = 2;\n', 'x/c.ts': 'export const c = 1;\n',
};

test('who passes which names on to whom', () => {
  const { entries, modules, edges, lost } = answer(['web', folderOf(FILES)]);
  assert.deepEqual(entries, ['index.ts']);
  assert.deepEqual(Object.fromEntries(modules.map((/** @type {any} */ it) => [it.file, it.names])), {
    'index.ts': [], 'all.ts': [], 'one.ts': ['two'], 'x/a.ts': ['a'], 'x/b.ts': ['b', 'bb'], 'x/c.ts': ['c'] });
  assert.deepEqual(edges.map((/** @type {any} */ it) => [it.from, it.to, it.star, it.names]).sort(), [
    ['all.ts', 'x/a.ts', true, ['a']], ['all.ts', 'x/b.ts', true, ['b', 'bb']], ['all.ts', 'x/c.ts', true, ['c']],
    ['index.ts', 'all.ts', true, ['a', 'b', 'bb', 'c']], ['index.ts', 'one.ts', false, ['two', 'lost']]].sort());
  assert.deepEqual(lost, [{ file: 'index.ts', text: './gone.ts', star: true }, { file: 'one.ts', text: 'no lost', star: false }]);
});

test('a name that passes through `export *` behind a named export', () => {
  const { edges } = answer(['web', folderOf({ 'index.ts': 'export { a } from "./b.ts";\n', 'b.ts': 'export * from "./c.ts";\n', 'c.ts': 'export const a = 1;\n' })]);
  assert.deepEqual(edges.map((/** @type {any} */ it) => [it.from, it.to, it.star]), [['index.ts', 'b.ts', false], ['b.ts', 'c.ts', true]]);
});

/** @param {Record<string, string>} files @param {string[]} words @returns {number} how many edges there are, which are held to TypeScript's checker */
function sameAsChecker(files, ...words) {
  const folder = folderOf(files);
  const { entries, edges, lost } = answer(['web', folder, ...words]);
  const wanted = webBy(new Language(folder, Object.keys(files)), entries);
  assert.deepEqual([webOf(edges), lost], [wanted, []]);
  return wanted.size;
}

test('each way that passes a name on is an edge, as TypeScript\'s checker follows the name', () => {
  const files = {
    'index.ts': 'import first, { b as inner } from "./b";\nimport * as all from "./c";\nexport * from "./a";\nexport { b, b as again } from "./b";\nexport { first, inner, all };\nexport * as space from "./d";\n'
      + 'export { default, default as second } from "./b";\nexport type { T } from "./types";\nexport const own = 1;\n',
    // a name of its own goes before one along `export *`, `default` doesn't come along it, and a ring of `export *` ends
    'a.ts': 'export * from "./b";\nexport * from "./c";\nexport const c = 0;\n', 'b.ts': 'export * from "./a";\nexport * from "./d";\nexport const b = 1;\nexport default class {}\n',
    'c.ts': 'export * from "./d";\nexport const c = 1, more = 2;\n', 'd.ts': 'export const d = 1;\nexport { e as f } from "./e";\n', 'e.ts': 'import { g } from "./g";\nexport { g as e };\n', 'g.ts': 'export function g() {}\n',
    'types.ts': 'export * from "./deep";\n', 'deep.ts': 'export type T = string;\n', 'other.ts': 'export { b } from "./b";\n',
  };
  assert.equal(sameAsChecker(files), 11);
  assert.equal(sameAsChecker(files, '--entry', 'index.ts', '--entry', 'other.ts', '--entry', 'c.ts'), 13);
});

/** @param {number} seed @returns {(below: number) => number} numbers that look random, the same for the same seed */
function numbersOf(seed) {
  let at = seed;
  return (below) => {
    at = (Math.imul(at, 1_103_515_245) + 12_345) >>> 0;
    return (at >>> 8) % below;
  };
}

/** @param {number} group @param {(below: number) => number} next @returns {Record<string, string>} modules of which each declares names of its own and passes on some of those of later ones, by name or by `export *` */
function madeGroup(group, next) {
  const count = 3 + next(6);
  /** @type {string[][]} what each exports */
  const known = [];
  /** @type {Record<string, string>} */
  const files = {};
  for (let i = count - 1; i >= 0; i--) {
    const names = Array.from({ length: next(3) + (i === count - 1 ? 1 : 0) }, (_, k) => `own${i}_${k}`);
    const lines = names.map((it) => `export const ${it} = 1;`);
    const stars = new Set(Array.from({ length: next(3) }, () => i + 1 + next(count)).filter((it) => it < count));
    for (const to of stars) lines.push(`export * from "./m${to}";`);
    for (let k = next(4), to = i + 1 + next(count); k > 0 && to < count; k--, to = i + 1 + next(count)) {
      const [name, fresh] = [known[to][next(known[to].length)], `name${i}_${k}`];
      lines.push([`export { ${name} as ${fresh} } from "./m${to}";`, `import { ${name} as ${fresh} } from "./m${to}";\nexport { ${fresh} };`, `export * as ${fresh} from "./m${to}";`][next(3)]);
      names.push(fresh);
    }
    known[i] = [...new Set([...names, ...[...stars].flatMap((to) => known[to])])];
    if (known[i].length === 0) known[i].push(...addOwn(i, lines));
    files[`group${group}/m${i}.ts`] = `${lines.join('\n')}\n`;
  }
  return files;
}

/** @param {number} i @param {string[]} lines of a module without names, which are given one @returns {string[]} it */
function addOwn(i, lines) {
  lines.push(`export const only${i} = 1;`);
  return [`only${i}`];
}

test('edges of 200 made groups of modules are those of TypeScript\'s checker', () => {
  const next = numbersOf(7);
  const groups = Array.from({ length: 200 }, (_, i) => i);
  const files = Object.assign({}, ...groups.map((it) => madeGroup(it, next)));
  assert.ok(sameAsChecker(files, ...groups.flatMap((it) => ['--entry', `group${it}/m0.ts`])) > 300);
});

test('the text for Graphviz: one box for modules of a folder with the same way in', () => {
  const { stdout, status } = symdir(['web', folderOf(FILES)]);
  assert.equal(status, 1);
  assert.match(stdout, /^digraph exports \{/);
  assert.match(stdout, /<B>x\/ {2}3 modules<\/B>/);
  assert.match(stdout, /label="4 names from 3 modules"/);
  assert.match(stdout, /label="2 names"/);
  assert.match(stdout, /<B>index\.ts<\/B> \(entry\)/);
  assert.equal(stdout.match(/color=red, fontcolor=red/g)?.length, 2);
});

test('a box has the names that its module defines, in lines of up to 34 characters', () => {
  const { stdout } = symdir(['web', folderOf({ 'index.ts': 'export * from "./a";\nexport * from "./b";\n', 'a.ts': 'export const a1 = 1, a2 = 2;\n', 'b.ts': `export const ${['c', 'd', 'e'].map((it) => `${it.repeat(15)} = 1`).join(', ')};\n` })]);
  const linesIn = (/** @type {string} */ title) => {
    const [, rows] = /** @type {RegExpExecArray} */ (new RegExp(`<B>${title}</B>(.*?)</TABLE>`).exec(stdout) ?? assert.fail(stdout));
    return [...rows.matchAll(/<FONT[^>]*>(.*?)<\/FONT>/g)].flatMap(([, it]) => it.split('<BR/>'));
  };
  assert.deepEqual([linesIn('index\\.ts'), linesIn('a\\.ts')], [[], ['a1, a2']]);
  // two names of 15 characters and what stands between them are 32 characters, and a third doesn't fit
  assert.deepEqual(linesIn('b\\.ts'), [`${'c'.repeat(15)}, ${'d'.repeat(15)}`, 'e'.repeat(15)]);
});

test('a picture', () => {
  const folder = folderOf(FILES);
  const file = path.join(folder, 'web.svg');
  const { stdout, status } = symdir(['web', folder, '-o', file]);
  assert.deepEqual([status, stdout], [1, `${file}: 6 modules in 4 boxes, 3 edges; 2 unresolved\n`]);
  assert.match(readFileSync(file, 'utf8'), /<svg/);
});

test('a text for Graphviz in a file, of names that are all there', () => {
  const folder = folderOf({ 'index.ts': 'export * from "./a";\n', 'a.ts': 'export const a = 1;\n' });
  for (const ending of ['dot', 'gv', 'DOT']) {
    const file = path.join(folderOf({}), `web.${ending}`);
    assert.deepEqual(symdir(['web', folder, '-o', file]), { status: 0, stdout: `${file}: 2 modules in 2 boxes, 1 edge; all resolved\n`, stderr: '' });
    assert.equal(readFileSync(file, 'utf8'), symdir(['web', folder]).stdout);
  }
});

test('without Graphviz it says what to do', () => {
  // TypeScript may be found by its command alone
  const tsc = (process.env.PATH ?? '').split(':').map((it) => path.join(it, 'tsc')).find((it) => existsSync(it));
  const PATH = folderOf({});
  if (tsc) symlinkSync(realpathSync(tsc), path.join(PATH, 'tsc'));
  const { status, stderr } = symdir(['web', folderOf(FILES), '-o', 'x.svg'], { env: { PATH } });
  assert.deepEqual([status, stderr.includes('apt-get install graphviz')], [3, true]);
});

test('what Graphviz says is told where it fails', () => {
  const dot = program({}, 'dot', '#!/bin/sh\nread line\necho "Error: no fonts" >&2\nexit 1\n');
  const PATH = `${path.dirname(dot)}:${process.env.PATH}`;
  const { status, stderr } = symdir(['web', folderOf(FILES), '-o', 'x.svg'], { env: { PATH } });
  assert.deepEqual([status, stderr], [3, 'symdir: Graphviz exited with status 1: Error: no fonts\n']);
});
