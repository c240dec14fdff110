import assert from 'node:assert/strict';
import { readFileSync } from 'node:fs';
import path from 'node:path';
import test from 'node:test';

import { decoded } from '../lib/folder/text.js';
import { answer, folderOf, symdir } from './helper.js';
import { ts } from './language.js';

/** @param {Record<string, string | Buffer>} files @param {string[]} words @returns {any} the graph on standard output */
function graph(files, ...words) {
  return JSON.parse(symdir(['graph', folderOf(files), ...words]).stdout);
}

test('modules, what isn\'t read, and resolutions', () => {
  const out = graph({ 'a.ts': 'import "./b"; import "node:fs"; import "./d.json"; import "./none";', 'x/b.ts': '', 'b.js': 'let a', 'd.json': '{"a":1}', 'e.json': '{}', 'readme.md': '' });
  assert.deepEqual(out.modules.map((/** @type {any} */ it) => [it.specifier, it.kind]), [
    ['file:///a.ts', 'esm'], ['file:///b.js', 'esm'], ['file:///d.json', 'json'], ['file:///x/b.ts', 'esm'], ['node:fs', 'external']]);
  assert.deepEqual(out.resolutions, [
    ['file:///a.ts', './b', 'file:///b.js'], ['file:///a.ts', 'node:fs', 'node:fs'], ['file:///a.ts', './d.json', 'file:///d.json']]);
  assert.equal(out.modules[2].text, '{"a":1}');
});

test('a byte order mark isn\'t taken, UTF-16 is read, and a declaration file is told', () => {
  const out = graph({ 'a.ts': '\ufefflet a;', 'b.d.ts': 'declare let b: 1;', 'c.ts': Buffer.from('\ufefflet c;', 'utf16le') });
  assert.deepEqual(out.modules.map((/** @type {any} */ it) => it.text), ['let a;', 'declare let b: 1;', 'let c;']);
  assert.deepEqual(out.modules.map((/** @type {any} */ it) => it.tree.declaration ?? false), [false, true, false]);
  assert.deepEqual(out.modules[0].tree.nodes[0].range, [0, 6]);
});

test('the text of a file is what TypeScript reads, in either order of UTF-16, and whatever its first bytes are', () => {
  const [little, big] = [Buffer.from('\ufefflet é;', 'utf16le'), Buffer.from('\ufefflet é;', 'utf16le').swap16()];
  const others = [[], [0xff], [0xfe], [0xff, 0x0a], [0xfe, 0x0a], [0x0a, 0xff], [0x0a, 0xfe], [0xff, 0xfe], [0xfe, 0xff], [0xfe, 0xff, 0x00]].map((it) => Buffer.from(it));
  for (const it of [little, big, Buffer.from('\ufefflet é;'), Buffer.concat([little, Buffer.from('a')]), Buffer.concat([big, Buffer.from('a')]), ...others]) {
    assert.equal(decoded(it), ts.sys.readFile(path.join(folderOf({ 'a.ts': it }), 'a.ts')), it.toString('hex'));
  }
});

test('--js: a module of JavaScript has the types that stand beside it', () => {
  const out = graph({ 'a.js': 'export const a = 1;', 'a.d.ts': 'export declare const a: number;' }, '--js');
  assert.deepEqual(out.modules.map((/** @type {any} */ it) => it.types ?? null), [null, 'file:///a.d.ts']);
});

test('JavaScript of a package that names its types: it is left out, and by --js its main module has these types', () => {
  const files = (/** @type {object} */ json) => ({ 'package.json': JSON.stringify(json), 't.d.ts': 'export declare const a: 1;', 'm.js': 'export const a = 1;', 'lib/x.js': '', 'y.ts': '', 'in/package.json': '{}', 'in/z.js': '' });
  const specifiers = (/** @type {object} */ json) => graph(files(json)).modules.map((/** @type {any} */ it) => it.specifier.slice('file:///'.length));
  for (const it of ['types', 'typings']) assert.deepEqual(specifiers({ [it]: './t.d.ts', main: 'm.js' }), ['in/z.js', 't.d.ts', 'y.ts'], it);
  for (const it of [{ types: 'gone.d.ts' }, { types: 5 }, {}]) assert.deepEqual(specifiers(it), ['in/z.js', 'lib/x.js', 'm.js', 't.d.ts', 'y.ts'], JSON.stringify(it));
  const typed = (/** @type {object} */ json) => graph(files(json), '--js').modules.filter((/** @type {any} */ it) => it.types).map((/** @type {any} */ it) => `${it.specifier} ${it.types}`);
  for (const it of ['types', 'typings']) assert.deepEqual(typed({ [it]: 't.d.ts', main: './m' }), ['file:///m.js file:///t.d.ts'], it);
  assert.deepEqual([typed({ types: 't.d.ts', main: './lib/x.js' }), typed({ types: 'gone.d.ts', main: 'm.js' }), typed({ types: 't.d.ts', main: 'none' })], [['file:///lib/x.js file:///t.d.ts'], [], []]);
});

test('a module beside the directory is one that isn\'t read, by its own path', () => {
  for (const [text, wanted] of Object.entries({ '../b': 'file://TOP/b.ts', '../node_modules/p/c': 'file:///node_modules/p/c.ts', 'p/c': 'npm:p/c' })) {
    const top = folderOf({ 'dir/a.ts': `import "${text}";\n`, 'b.ts': '', 'node_modules/p/c.ts': '' });
    const { resolutions, modules } = JSON.parse(symdir(['graph', path.join(top, 'dir')]).stdout.replaceAll(top, 'TOP'));
    assert.deepEqual([resolutions, modules.map((/** @type {any} */ it) => it.kind)], [[['file:///a.ts', text, wanted]], ['esm', 'external']], text);
  }
});

test('--bodies keeps what stands in the bodies of functions', () => {
  const count = (/** @type {any} */ it) => it.modules[0].tree.nodes.filter((/** @type {any} */ node) => node.kind === 'VarDecl').length;
  const files = { 'a.ts': 'function f() { const a = 1; }' };
  assert.equal(count(graph(files)), 0);
  assert.equal(count(graph(files, '--bodies')), 1);
});

test('node_modules and hidden folders aren\'t read', () => {
  const out = graph({ 'a.ts': '', 'node_modules/p/index.ts': '', '.git/b.ts': '', 'x/node_modules/q.ts': '' });
  assert.deepEqual(out.modules.map((/** @type {any} */ it) => it.specifier), ['file:///a.ts']);
});

test('-o writes a file and says what it has', () => {
  const folder = folderOf({ 'a.ts': 'import "node:fs";' });
  const file = path.join(folder, 'g.json');
  assert.deepEqual(symdir(['graph', folder, '-o', file]), { status: 0, stdout: `${file}: 1 module, 1 external module, 1 resolution\n`, stderr: '' });
  assert.equal(JSON.parse(readFileSync(file, 'utf8')).modules.length, 2);
  // each text of each module is one resolution, however often it stands there; one that leads nowhere is none
  const more = folderOf({ 'a.ts': 'import "node:fs"; import "./b"; export * from "./b"; import "node:path"; import "./none";', 'b.ts': 'import "./a";' });
  assert.equal(symdir(['graph', more, '-o', file]).stdout, `${file}: 2 modules, 2 external modules, 4 resolutions\n`);
});

test('a syntax error is told in one line, and the graph has the rest', () => {
  const folder = folderOf({ 'a.ts': 'export const a = 1;', 'x/b.ts': 'let a;\n  let = = 1;\n' });
  const { status, stdout, stderr } = symdir(['graph', folder]);
  assert.equal(status, 1);
  assert.match(stderr, /^symdir: x\/b\.ts:2:\d+: .+\n$/);
  const { modules } = JSON.parse(stdout);
  assert.deepEqual(modules.map((/** @type {any} */ it) => it.tree !== undefined), [true, false]);
});

test('a text that is nested too deep for the parser is told, and the others are there', () => {
  const folder = folderOf({ 'a.ts': 'export const a = 1;', 'b.ts': `let b = ${'['.repeat(200000)}` });
  const { status, stdout, stderr } = symdir(['graph', folder]);
  assert.equal(status, 1);
  assert.match(stderr, /^symdir: b\.ts:1:1: it is nested too deep for the parser\n$/);
  assert.equal(JSON.parse(stdout).modules.length, 2);
});

/** @param {any[]} nodes of a tree, each before those that it holds @returns {number} how deep the deepest lies, where the program's depth is 1 */
function depthOf(nodes) {
  const depths = nodes.map(() => 1);
  nodes.forEach((node, i) => {
    for (const key of Object.keys(node)) {
      if (['kind', 'range', 'sym'].includes(key)) continue;
      for (const it of [node[key]].flat()) if (typeof it === 'number') depths[it] = depths[i] + 1;
    }
  });
  return depths.reduce((a, b) => Math.max(a, b));
}

test('a tree that is 4,096 deep is there, one that is deeper is told, and the others are answered', () => {
  // program, declaration, each name behind a dot, and the block
  const nested = (/** @type {number} */ depth) => `declare namespace b${'.b'.repeat(depth - 3)} {}\n`;
  // of an expression that is deeper a part is left out
  const folder = folderOf({ 'a.ts': 'export const a = 1;', 'b.ts': nested(4097), 'c.ts': nested(4096), 'd.ts': `export default a${'.b'.repeat(5000)};\n` });
  const { status, stdout, stderr } = symdir(['graph', folder]);
  assert.deepEqual([status, stderr], [1, 'symdir: b.ts:1:1: it is nested more than 4,096 deep\n']);
  const trees = JSON.parse(stdout).modules.map((/** @type {any} */ it) => (it.tree ? depthOf(it.tree.nodes) : null));
  const [deep] = trees.splice(3);
  assert.deepEqual(trees, [5, null, 4096]);
  assert.ok(deep > 4000 && deep <= 4096, `${deep}`);
  assert.deepEqual(answer(['api', folder, '--entry', 'a.ts']).names.map((/** @type {any} */ it) => it.name), ['a']);
});

test('a text that is nested too deep for the stack of the first thread is parsed in another, and `where` says that it can\'t', () => {
  const folder = folderOf({ 'a.ts': 'export const a = 1;', 'b.ts': `export let b = ${'('.repeat(2500)}1${')'.repeat(2500)};\n` });
  const { status, stdout, stderr } = symdir(['graph', folder]);
  assert.deepEqual([status, stderr], [0, '']);
  assert.deepEqual(JSON.parse(stdout).modules.map((/** @type {any} */ it) => it.tree !== undefined), [true, true]);
  const asked = symdir(['where', folder, 'b.ts:1']);
  assert.deepEqual([asked.status, asked.stderr], [3, 'symdir: b.ts is nested too deep for `where` and `uses`\n']);
});

test('no folder, no module, a file that can\'t be written', () => {
  const folder = folderOf({ 'readme.md': '', 'a.ts': '' });
  assert.deepEqual(symdir(['graph', path.join(folder, 'none')]), { status: 3, stdout: '', stderr: `symdir: no such directory: ${folder}/none\n` });
  assert.deepEqual(symdir(['graph', path.join(folder, 'a.ts')]), { status: 2, stdout: '', stderr: `symdir: ${folder}/a.ts is a file: name its directory, and --entry a.ts\n` });
  assert.match(symdir(['graph', folderOf({ 'readme.md': '' })]).stderr, /^symdir: no modules in .*: no file ends in \.ts \.tsx /);
  assert.deepEqual(symdir(['graph', folder, '-o', '/none/g.json']), { status: 3, stdout: '', stderr: 'symdir: /none/g.json can\'t be written (ENOENT)\n' });
});
