import assert from 'node:assert/strict';
import { symlinkSync } from 'node:fs';
import path from 'node:path';
import test from 'node:test';

import { Configs } from '../lib/folder/configs.js';
import { Files } from '../lib/folder/files.js';
import { Resolver } from '../lib/folder/resolve.js';
import { folderOf } from './helper.js';
import { ts } from './language.js';

/**
 * @param {string[] | Record<string, string>} files paths, or paths with texts
 * @param {string} from
 * @param {string} text
 * @returns {string | null} a path below the folder, or a specifier
 */
function resolved(files, from, text) {
  const all = Array.isArray(files) ? Object.fromEntries(files.map((it) => [it, ''])) : files;
  const folder = folderOf(all);
  const set = new Files(folder, []);
  const found = new Resolver(set, new Configs(set)).resolve(path.join(folder, from), text);
  return found ? found.external ?? set.below(/** @type {string} */ (found.file)) : null;
}

const JSON_OF = (/** @type {unknown} */ it) => JSON.stringify(it);

test('relative texts: the file itself, and endings', () => {
  assert.equal(resolved(['a.ts', 'b.ts'], 'a.ts', './b.ts'), 'b.ts');
  assert.equal(resolved(['a.ts', 'b.ts'], 'a.ts', './b'), 'b.ts');
  assert.equal(resolved(['a.ts', 'b.tsx'], 'a.ts', './b'), 'b.tsx');
  assert.equal(resolved(['a.ts', 'b.d.ts', 'b.js'], 'a.ts', './b'), 'b.d.ts');
  assert.equal(resolved(['a.ts', 'b.ts', 'b.d.ts'], 'a.ts', './b'), 'b.ts');
  assert.equal(resolved(['a.ts', 'b.mjs'], 'a.ts', './b'), 'b.mjs');
  assert.equal(resolved(['x/a.ts', 'b.ts'], 'x/a.ts', '../b'), 'b.ts');
  assert.equal(resolved(['a.ts', 'b.json'], 'a.ts', './b.json'), 'b.json');
  assert.equal(resolved(['a.ts'], 'a.ts', './b'), null);
});

test('relative texts: JavaScript stands for the source that it is made from', () => {
  assert.equal(resolved(['a.ts', 'b.ts'], 'a.ts', './b.js'), 'b.ts');
  assert.equal(resolved(['a.ts', 'b.tsx'], 'a.ts', './b.jsx'), 'b.tsx');
  assert.equal(resolved(['a.ts', 'b.mts'], 'a.ts', './b.mjs'), 'b.mts');
  assert.equal(resolved(['a.ts', 'b.cts'], 'a.ts', './b.cjs'), 'b.cts');
  assert.equal(resolved(['a.ts', 'b.d.ts', 'b.js'], 'a.ts', './b.js'), 'b.d.ts');
  assert.equal(resolved(['a.ts', 'b.d.mts'], 'a.ts', './b.mjs'), 'b.d.mts');
  assert.equal(resolved(['a.js', 'b.js', 'b.d.ts'], 'a.js', './b.js'), 'b.js');
  assert.equal(resolved(['a.js', 'b.js', 'b.ts'], 'a.js', './b'), 'b.js');
});

test('relative texts: a colon in the name of a file begins no scheme', () => {
  assert.equal(resolved(['a.ts', 'b:c.ts'], 'a.ts', './b:c'), 'b:c.ts');
  assert.equal(resolved(['a.ts', 'b:c.ts'], 'a.ts', 'b:c'), 'b:c');
});

test('relative texts: folders', () => {
  assert.equal(resolved(['a.ts', 'b/index.ts'], 'a.ts', './b'), 'b/index.ts');
  assert.equal(resolved(['a.ts', 'b/index.ts'], 'a.ts', './b/'), 'b/index.ts');
  assert.equal(resolved(['a.ts', 'b.ts', 'b/index.ts'], 'a.ts', './b'), 'b.ts');
  assert.equal(resolved(['a.ts', 'b.ts', 'b/index.ts'], 'a.ts', './b/'), 'b/index.ts');
  assert.equal(resolved(['x/a.ts', 'index.ts'], 'x/a.ts', '..'), 'index.ts');
  assert.equal(resolved(['a.ts', 'index.ts'], 'a.ts', '.'), 'index.ts');
  assert.equal(resolved({ 'a.ts': '', 'b/package.json': JSON_OF({ types: 'lib/x.d.ts' }), 'b/lib/x.d.ts': '' }, 'a.ts', './b'), 'b/lib/x.d.ts');
});

test('relative texts: a directory, by its package.json before its index, and without exports', () => {
  const files = { 'a.ts': '', 'b/index.ts': '', 'b/x.d.ts': '', 'b/y/z.ts': '', 'b/package.json': JSON_OF({ types: 'x.d.ts' }), 'b/y/index.ts': '' };
  for (const text of ['./b', './b/', './b/y/..', './b/y/../']) assert.equal(resolved(files, 'a.ts', text), 'b/x.d.ts', text);
  for (const text of ['.', './', './.']) assert.equal(resolved(files, 'b/index.ts', text), 'b/x.d.ts', text);
  assert.equal(resolved({ ...files, 'b.ts': '' }, 'a.ts', './b'), 'b.ts');
  for (const text of ['./b/', './b/y/..']) assert.equal(resolved({ ...files, 'b.ts': '' }, 'a.ts', text), 'b/x.d.ts', text);
  for (const text of ['..', '../', '../y/..']) assert.equal(resolved({ ...files, 'b.ts': '' }, 'b/y/z.ts', text), 'b/x.d.ts', text);
  for (const json of [{}, { types: 'none' }, { exports: './x.d.ts' }, { exports: { '.': { types: './x.d.ts' } } }]) {
    assert.equal(resolved({ ...files, 'b/package.json': JSON_OF(json) }, 'a.ts', './b'), 'b/index.ts');
  }
  assert.equal(resolved({ 'a.ts': '', 'b/x.d.ts': '', 'b/package.json': JSON_OF({ exports: './x.d.ts' }) }, 'a.ts', './b'), null);
  // a module of JavaScript takes the JavaScript of the package
  const both = { 'a.ts': '', 'a.js': '', 'b/package.json': JSON_OF({ main: 'm' }), 'b/m.js': '', 'b/m.ts': '' };
  assert.deepEqual(['a.ts', 'a.js'].map((it) => resolved(both, it, './b')), ['b/m.ts', 'b/m.js']);
});

test('schemes and modules of Node aren\'t files', () => {
  for (const it of ['https://x.org/a.ts', 'http://x.org/a.ts', 'jsr:@std/fs', 'npm:lodash@4', 'node:fs', 'data:text/javascript,1']) {
    assert.equal(resolved(['a.ts'], 'a.ts', it), it);
  }
  assert.equal(resolved(['a.ts'], 'a.ts', 'fs'), 'node:fs');
  assert.equal(resolved(['a.ts'], 'a.ts', 'fs/promises'), 'node:fs/promises');
  for (const it of ['x:a', 'X-1.b+c:a']) assert.equal(resolved(['a.ts'], 'a.ts', it), it);
  for (const it of ['1x:a', 'a/b:c', '-x:a']) assert.equal(resolved(['a.ts'], 'a.ts', it), null, it);
  // what tsconfig.json or a package of the directory says goes before a module of Node, and after a scheme
  const paths = { 'a.ts': '', 'b.ts': '', 'tsconfig.json': JSON_OF({ compilerOptions: { paths: { fs: ['./b'], 'x:a': ['./b'] } } }) };
  assert.deepEqual(['fs', 'x:a', 'path'].map((it) => resolved(paths, 'a.ts', it)), ['b.ts', 'x:a', 'node:path']);
});

const installed = (/** @type {any} */ json, /** @type {string[]} */ ...files) => ({
  'src/a.ts': '', 'src/a.js': '', 'node_modules/p/package.json': JSON_OF(json), ...Object.fromEntries(files.map((it) => [`node_modules/p/${it}`, ''])) });

test('packages: types, typings, module, main, index, in this order', () => {
  const at = (/** @type {any} */ json, /** @type {string[]} */ ...files) => resolved(installed(json, ...files), 'src/a.ts', 'p');
  assert.equal(at({ types: 't.d.ts', module: 'm.js', main: 'n.js' }, 't.d.ts', 'm.js', 'n.js', 'index.js'), 'node_modules/p/t.d.ts');
  assert.equal(at({ typings: 't.d.ts', main: 'n.js' }, 't.d.ts', 'n.js'), 'node_modules/p/t.d.ts');
  assert.equal(at({ module: 'm.js', main: 'n.js' }, 'm.js', 'n.js', 'index.js'), 'node_modules/p/m.js');
  assert.equal(at({ main: 'n.js' }, 'n.js', 'index.js'), 'node_modules/p/n.js');
  assert.equal(at({ main: 'n.js' }, 'n.js', 'n.d.ts'), 'node_modules/p/n.d.ts');
  assert.equal(at({ main: './lib' }, 'lib/index.d.ts'), 'node_modules/p/lib/index.d.ts');
  assert.equal(at({ main: './lib' }, 'lib/index.js', 'lib/index.d.ts'), 'node_modules/p/lib/index.d.ts');
  assert.equal(resolved(installed({ main: './lib' }, 'lib/index.js', 'lib/index.d.ts'), 'src/a.js', 'p'), 'node_modules/p/lib/index.js');
  assert.equal(at({}, 'index.d.ts', 'index.js'), 'node_modules/p/index.d.ts');
});

test('packages: `exports` of null are none, so what stands beside them goes before the package of its types', () => {
  const at = (/** @type {unknown} */ exports) => (
    resolved({ ...installed({ exports, types: 't.d.ts' }, 't.d.ts'), 'node_modules/@types/p/index.d.ts': '' }, 'src/a.ts', 'p'));
  assert.deepEqual([at(null), at({ './x': './t.d.ts' })], ['node_modules/p/t.d.ts', 'node_modules/@types/p/index.d.ts']);
});

test('packages: exports, by conditions in their order', () => {
  const at = (/** @type {any} */ exports, /** @type {string} */ text, /** @type {string[]} */ ...files) => resolved(installed({ exports, types: 'old.d.ts' }, 'old.d.ts', ...files), 'src/a.ts', text);
  assert.equal(at({ '.': { types: './t.d.ts', default: './d.js' } }, 'p', 't.d.ts', 'd.js'), 'node_modules/p/t.d.ts');
  assert.equal(at({ '.': { import: { types: './i.d.mts', default: './i.mjs' }, require: './r.cjs' } }, 'p', 'i.d.mts', 'i.mjs', 'r.cjs'), 'node_modules/p/i.d.mts');
  assert.equal(at({ '.': { browser: './b.js', default: './d.js' } }, 'p', 'b.js', 'd.js'), 'node_modules/p/d.js');
  assert.equal(at('./s.js', 'p', 's.js'), 'node_modules/p/s.js');
  assert.equal(at({ import: './i.js' }, 'p', 'i.js'), 'node_modules/p/i.js');
  assert.equal(at(['./gone.js', './here.js'], 'p', 'here.js'), 'node_modules/p/here.js');
  assert.equal(at({ './sub': './lib/sub.js' }, 'p/sub', 'lib/sub.js', 'lib/sub.d.ts'), 'node_modules/p/lib/sub.d.ts');
  assert.equal(at({ './f/*': './lib/*.js' }, 'p/f/x/y', 'lib/x/y.d.ts'), 'node_modules/p/lib/x/y.d.ts');
  assert.equal(at({ './f/*': './lib/*.js', './f/x/*': './other/*.js' }, 'p/f/x/y', 'lib/x/y.js', 'other/y.js'), 'node_modules/p/other/y.js');
  assert.equal(at({ './f/*.js': './lib/*.d.ts' }, 'p/f/x.js', 'lib/x.d.ts'), 'node_modules/p/lib/x.d.ts');
});

test('patterns: the whole text first, else the longest beginning, and no overlap of both ends', () => {
  const at = (/** @type {any} */ exports, /** @type {string} */ text, /** @type {string[]} */ ...files) => resolved(installed({ exports }, ...files), 'src/a.ts', text);
  for (const table of [{ './x': './one.js', './*': './two.js' }, { './*': './two.js', './x': './one.js' }]) assert.equal(at(table, 'p/x', 'one.js', 'two.js'), 'node_modules/p/one.js');
  for (const table of [{ './x*': './one.js', './xy*': './two.js' }, { './xy*': './two.js', './x*': './one.js' }]) assert.equal(at(table, 'p/xyz', 'one.js', 'two.js'), 'node_modules/p/two.js');
  // of two with one beginning the first
  assert.equal(at({ './x*z': './one.js', './x*': './two.js' }, 'p/xyz', 'one.js', 'two.js'), 'node_modules/p/one.js');
  assert.equal(at({ './ab*ba': './one.js', './*': './two.js' }, 'p/aba', 'one.js', 'two.js'), 'node_modules/p/two.js');
  assert.equal(at({ './ab*ba': './one.js', './*': './two.js' }, 'p/abba', 'one.js', 'two.js'), 'node_modules/p/one.js');
  assert.equal(at({ './ab*ba': './one.js', './*': './two.js' }, 'p/xbba', 'one.js', 'two.js'), 'node_modules/p/two.js');
  // null hides a path, and of nested conditions the first that counts is taken
  assert.equal(at({ '.': './one.js', './x': null, './*': './two.js' }, 'p/x', 'two.js'), 'npm:p/x');
  assert.equal(at({ '.': [{ browser: './two.js' }, { node: { import: './one.js' } }] }, 'p', 'one.js', 'two.js'), 'node_modules/p/one.js');
  // each star of the target, and what stands for it as it is
  assert.equal(at({ './*': './lib/*/*.js' }, 'p/$&', 'lib/$&/$&.js'), 'node_modules/p/lib/$&/$&.js');
});

test('packages: a target that isn\'t built is what it would be built from', () => {
  const at = (/** @type {string} */ target, /** @type {string[]} */ ...files) => resolved({ 'a.ts': '', 'package.json': JSON_OF({ name: 'own', exports: { '.': target } }), ...Object.fromEntries(files.map((it) => [it, ''])) }, 'a.ts', 'own');
  assert.equal(at('./dist/x.js', 'src/x.ts', 'x.ts', 'dist/x.js'), 'dist/x.js');
  assert.equal(at('./dist/x.js', 'src/x.ts', 'x.ts'), 'src/x.ts');
  assert.equal(at('dist/x.js', 'x.ts'), 'x.ts');
  assert.equal(at('./dist/deep/x.d.ts', 'src/deep/x.ts'), 'src/deep/x.ts');
  assert.equal(at('./dist/x.d.mts', 'src/x.mts'), 'src/x.mts');
  assert.equal(at('./dist/x.d.cts', 'src/x.cts'), 'src/x.cts');
  // neither a file at the top, nor one elsewhere, has one
  assert.equal(at('./x.js', 'src/x.ts'), null);
  assert.equal(at('../dist/x.js', 'src/x.ts', 'dist/src/x.ts'), null);
});

test('packages: names with a scope, paths in them, @types, node_modules above', () => {
  assert.equal(resolved({ 'a.ts': '', 'node_modules/@s/p/package.json': '{}', 'node_modules/@s/p/x.d.ts': '' }, 'a.ts', '@s/p/x'), 'node_modules/@s/p/x.d.ts');
  assert.equal(resolved(['a.ts', 'node_modules/@types/p/index.d.ts'], 'a.ts', 'p'), 'node_modules/@types/p/index.d.ts');
  assert.equal(resolved(['a.ts', 'node_modules/@types/s__p/index.d.ts'], 'a.ts', '@s/p'), 'node_modules/@types/s__p/index.d.ts');
  assert.equal(resolved(['x/y/a.ts', 'node_modules/p/index.d.ts'], 'x/y/a.ts', 'p'), 'node_modules/p/index.d.ts');
  assert.equal(resolved(['x/a.ts', 'x/node_modules/p/index.ts', 'node_modules/p/index.d.ts'], 'x/a.ts', 'p'), 'x/node_modules/p/index.ts');
});

test('packages: the types of a package itself go before those of @types, and what is nearer before both', () => {
  const both = ['a.ts', 'node_modules/p/index.d.ts', 'node_modules/@types/p/index.d.ts'];
  assert.equal(resolved(both, 'a.ts', 'p'), 'node_modules/p/index.d.ts');
  assert.equal(resolved([...both, 'x/a.ts', 'x/node_modules/@types/p/index.d.ts'], 'x/a.ts', 'p'), 'x/node_modules/@types/p/index.d.ts');
  assert.equal(resolved(['a.ts', 'node_modules/@types/p/x.d.ts'], 'a.ts', 'p/x'), 'node_modules/@types/p/x.d.ts');
});

/** @param {string[] | Record<string, string>} all @param {string} from @param {string} text @returns {string | null} what TypeScript resolves the text to, below the folder */
function byTypeScript(all, from, text) {
  const files = Array.isArray(all) ? Object.fromEntries(all.map((it) => [it, ''])) : all;
  const folder = folderOf(files);
  const { Bundler = ts.ModuleResolutionKind.NodeJs } = /** @type {any} */ (ts.ModuleResolutionKind);
  const options = { allowJs: true, module: ts.ModuleKind.ESNext, moduleResolution: Bundler };
  const { resolvedModule: found } = ts.resolveModuleName(text, path.join(folder, from), options, ts.sys);
  return found ? path.relative(folder, found.resolvedFileName) : null;
}

test('packages: @types, or types above, go before JavaScript of a package without types, as TypeScript resolves it', () => {
  const types = ['node_modules/@types/p/index.d.ts', 'node_modules/@types/p/x.d.ts', 'node_modules/@types/s__p/index.d.ts'];
  const script = { 'x/a.ts': '', ...Object.fromEntries(types.map((it) => [it, ''])) };
  /** @type {{ files: Record<string, string>, texts: string[] }[]} */
  const rows = [
    { files: { ...script, 'node_modules/p/index.js': '', 'node_modules/p/x.js': '', 'node_modules/@s/p/index.js': '' }, texts: ['p', 'p/x', '@s/p'] },
    { files: { ...script, 'node_modules/p/package.json': JSON_OF({ main: 'lib/m.js' }), 'node_modules/p/lib/m.js': '' }, texts: ['p'] },
    { files: { ...script, 'node_modules/p/package.json': JSON_OF({ main: 'lib/m.js' }), 'node_modules/p/lib/m.js': '', 'node_modules/p/lib/m.d.ts': '' }, texts: ['p'] },
    { files: { ...script, 'x/node_modules/p/index.js': '' }, texts: ['p'] },
    { files: { ...script, 'x/node_modules/p/index.js': '', 'node_modules/p/index.d.ts': '' }, texts: ['p'] },
    { files: { 'x/a.ts': '', 'x/node_modules/p/index.js': '', 'node_modules/p/index.js': '' }, texts: ['p'] },
    { files: { ...script, 'node_modules/q/index.js': '' }, texts: ['q'] },
    { files: { ...script, 'node_modules/p/package.json': JSON_OF({ main: 'm.js', exports: { '.': './m.js', './x': './x.js' } }), 'node_modules/p/m.js': '', 'node_modules/p/x.js': '' }, texts: ['p', 'p/x'] },
  ];
  for (const { files, texts } of rows) for (const it of texts) assert.equal(resolved(files, 'x/a.ts', it), byTypeScript(files, 'x/a.ts', it), `${it}: ${Object.keys(files)}`);
  // a module of JavaScript is given what it runs
  assert.equal(resolved({ 'a.js': '', 'node_modules/p/index.js': '', 'node_modules/@types/p/index.d.ts': '' }, 'a.js', 'p'), 'node_modules/p/index.js');
});

test('packages: those of the folder, by their names', () => {
  const files = { 'one/src/a.ts': '', 'two/package.json': JSON_OF({ name: '@s/two', main: 'dist/index.js' }), 'two/src/index.ts': '', 'two/src/part.ts': '' };
  assert.equal(resolved(files, 'one/src/a.ts', '@s/two'), 'two/src/index.ts');
  assert.equal(resolved(files, 'one/src/a.ts', '@s/two/dist/part.js'), 'two/src/part.ts');
  assert.equal(resolved({ 'src/a.ts': '', 'src/b.ts': '', 'package.json': JSON_OF({ name: 'own', exports: { './b': './src/b.ts' } }) }, 'src/a.ts', 'own/b'), 'src/b.ts');
});

test('packages: those of the folder that have one name, and files that only begin as a package.json', () => {
  const json = JSON_OF({ name: 'p' });
  for (const inner of ['a', 'z']) {
    assert.equal(resolved({ 'one/package.json': json, 'one/index.ts': '', [`one/${inner}/package.json`]: json, [`one/${inner}/index.ts`]: '' }, 'a.ts', 'p'), 'one/index.ts', inner);
  }
  assert.equal(resolved({ 'one/package.json.old': json, 'one/index.ts': '' }, 'a.ts', 'p'), null);
});

test('packages: what isn\'t there, and what is only named', () => {
  assert.equal(resolved(['a.ts'], 'a.ts', 'lodash'), null);
  for (const key of ['dependencies', 'devDependencies', 'peerDependencies', 'optionalDependencies']) {
    assert.equal(resolved({ 'a.ts': '', 'package.json': JSON_OF({ [key]: { lodash: '4' } }) }, 'a.ts', 'lodash/fp'), 'npm:lodash/fp');
  }
});

test('private imports', () => {
  const json = JSON_OF({ imports: { '#a': './src/b.ts', '#lib/*': './lib/*.js', '#dep': 'dep' }, dependencies: { dep: '1' } });
  assert.equal(resolved({ 'src/a.ts': '', 'src/b.ts': '', 'package.json': json }, 'src/a.ts', '#a'), 'src/b.ts');
  assert.equal(resolved({ 'src/a.ts': '', 'lib/x.ts': '', 'package.json': json }, 'src/a.ts', '#lib/x'), 'lib/x.ts');
  assert.equal(resolved({ 'src/a.ts': '', 'package.json': json }, 'src/a.ts', '#dep'), 'npm:dep');
  assert.equal(resolved({ 'src/a.ts': '', 'package.json': json }, 'src/a.ts', '#none'), null);
});

test('tsconfig: paths and baseUrl', () => {
  const config = (/** @type {any} */ compilerOptions) => ({ 'src/a.ts': '', 'src/lib/b.ts': '', 'tsconfig.json': JSON_OF({ compilerOptions }) });
  assert.equal(resolved(config({ paths: { '@/*': ['./src/*'] } }), 'src/a.ts', '@/lib/b'), 'src/lib/b.ts');
  assert.equal(resolved(config({ baseUrl: './src', paths: { '@/*': ['lib/*'] } }), 'src/a.ts', '@/b'), 'src/lib/b.ts');
  assert.equal(resolved(config({ baseUrl: './src' }), 'src/a.ts', 'lib/b'), 'src/lib/b.ts');
  assert.equal(resolved(config({ paths: { b: ['./none', './src/lib/b'] } }), 'src/a.ts', 'b'), 'src/lib/b.ts');
  assert.equal(resolved(config({ paths: { '*': ['./none/*'], 'l/*': ['./src/lib/*'] } }), 'src/a.ts', 'l/b'), 'src/lib/b.ts');
  assert.equal(resolved(config({ paths: { '@/*': ['./src/*'] } }), 'src/a.ts', '@/none'), null);
});

test('tsconfig: comments, what it extends, the nearest one, jsconfig', () => {
  const target = { 'src/a.ts': '', 'src/b.ts': '' };
  assert.equal(resolved({ ...target, 'tsconfig.json': '{ // a comment\n "compilerOptions": { "paths": { "@/*": ["./src/*"], }, }, }' }, 'src/a.ts', '@/b'), 'src/b.ts');
  const text = '{ "$schema": "https://x.org/a", // "a", "b": [\n /* { */ "compilerOptions": { "baseUrl": ".", "paths": { "@/*": ["./none/*,}", /* , */ "./src/*", // "\n ], }, /* } */ }, }';
  assert.equal(resolved({ ...target, 'tsconfig.json': text }, 'src/a.ts', '@/b'), 'src/b.ts');
  assert.equal(resolved({ ...target, 'tsconfig.json': '{ // a comma lacks\n "extends": "./none" "compilerOptions": { "baseUrl": "src" } }' }, 'src/a.ts', 'b'), 'src/b.ts');
  assert.equal(resolved({ ...target, 'tsconfig.json': JSON_OF({ extends: './base' }), 'base.json': JSON_OF({ compilerOptions: { paths: { '@/*': ['./src/*'] } } }) }, 'src/a.ts', '@/b'), 'src/b.ts');
  assert.equal(resolved({ ...target, 'tsconfig.json': JSON_OF({ extends: '@s/conf' }), 'node_modules/@s/conf/tsconfig.json': JSON_OF({ compilerOptions: { baseUrl: '../../../src' } }) }, 'src/a.ts', 'b'), 'src/b.ts');
  assert.equal(resolved({ ...target, 'tsconfig.json': JSON_OF({ compilerOptions: { baseUrl: 'none' } }), 'src/tsconfig.json': JSON_OF({ compilerOptions: { baseUrl: '.' } }) }, 'src/a.ts', 'b'), 'src/b.ts');
  assert.equal(resolved({ ...target, 'jsconfig.json': JSON_OF({ compilerOptions: { baseUrl: 'src' } }) }, 'src/a.ts', 'b'), 'src/b.ts');
});

test('tsconfig: what it extends, by each ending, in node_modules above, of several the last, and its own words first', () => {
  const files = { 'x/a.ts': '', 'x/b.ts': '', 'y/b.ts': '', 'z/b.ts': '' };
  const at = (/** @type {Record<string, unknown>} */ configs, text = 'b') => resolved({ ...files, ...Object.fromEntries(Object.entries(configs).map(([name, it]) => [name, JSON_OF(it)])) }, 'x/a.ts', text);
  const options = (/** @type {any} */ compilerOptions, /** @type {any} */ above = undefined) => ({ extends: above, compilerOptions });
  const y = options({ baseUrl: '.' });
  for (const it of ['../y/base', '../y/base.json', '..//y/base']) assert.equal(at({ 'x/tsconfig.json': { extends: it }, 'y/base.json': y }), 'y/b.ts', it);
  assert.equal(at({ 'x/tsconfig.json': { extends: '../y' }, 'y/tsconfig.json': y }), 'y/b.ts');
  // a name without a dot is a package's, which may stand above
  const packed = options({ baseUrl: '../../y' });
  for (const it of ['p', 'p/tsconfig.json', 'p/tsconfig']) assert.equal(at({ 'x/tsconfig.json': { extends: it }, 'node_modules/p/tsconfig.json': packed }), 'y/b.ts', it);
  assert.equal(at({ 'x/tsconfig.json': { extends: 'p' }, 'x/p.json': y, 'x/p/tsconfig.json': y }), null);
  assert.equal(at({ 'x/tsconfig.json': { extends: 'p' }, 'x/node_modules/p/tsconfig.json': options({ baseUrl: '../../../z' }), 'node_modules/p/tsconfig.json': packed }), 'z/b.ts');
  // paths start where they are written, unless there is a baseUrl
  const paths = options({ paths: { b: ['./b'] } });
  assert.equal(at({ 'x/tsconfig.json': { extends: '../y/base.json' }, 'y/base.json': paths }), 'y/b.ts');
  assert.equal(at({ 'x/tsconfig.json': options({ paths: { c: ['./b'] } }, '../y/base.json'), 'y/base.json': y }, 'c'), 'y/b.ts');
  assert.equal(at({ 'x/tsconfig.json': options({ paths: { b: ['./b'] }, baseUrl: '../z' }, '../y/base.json'), 'y/base.json': y }), 'z/b.ts');
  assert.equal(at({ 'x/tsconfig.json': options({ paths: { b: ['./none'] } }, '../y/base.json'), 'y/base.json': paths }), null);
  // of several the last one's words count, and each counts for what the later ones don't say
  const several = (/** @type {string[]} */ ...above) => at({ 'x/tsconfig.json': { extends: above.map((it) => `../${it}/base.json`) }, 'y/base.json': y, 'z/base.json': options({ baseUrl: '.' }), 'w/base.json': options({ strict: true }) });
  assert.deepEqual([several('y', 'z'), several('z', 'y'), several('y', 'w')], ['z/b.ts', 'y/b.ts', 'y/b.ts']);
  // twenty files may stand one behind the other
  const chain = Object.fromEntries(Array.from({ length: 20 }, (_, i) => [`y/c${i}.json`, i < 19 ? { extends: `./c${i + 1}` } : y]));
  assert.equal(at({ 'x/tsconfig.json': { extends: '../y/c0' }, ...chain }), 'y/b.ts');
  // a ring ends
  assert.equal(at({ 'x/tsconfig.json': { extends: '../y/base.json' }, 'y/base.json': options({ baseUrl: '.' }, '../x/tsconfig.json') }), 'y/b.ts');
  // tsconfig.json goes before jsconfig.json
  assert.equal(at({ 'x/tsconfig.json': options({ baseUrl: '../z' }), 'x/jsconfig.json': options({ baseUrl: '../y' }) }), 'z/b.ts');
});

test('tsconfig: a pattern\'s targets in their order, then baseUrl', () => {
  const at = (/** @type {any} */ paths, /** @type {string} */ text) => resolved({ 'a.ts': '', 'x/b.ts': '', 'y/b.ts': '', 'y/$&.ts': '', 'tsconfig.json': JSON_OF({ compilerOptions: { baseUrl: './x', paths } }) }, 'a.ts', text);
  assert.equal(at({ '*': ['../y/*', '*'] }, 'b'), 'y/b.ts');
  assert.equal(at({ '*': ['./none/*'] }, 'b'), 'x/b.ts');
  assert.equal(at({ '@*': ['../y/*'] }, '@$&'), 'y/$&.ts');
  assert.equal(at({ c: '../y/b' }, 'c'), 'y/b.ts');
});

test('which texts mean a file, by their form or by configuration files', () => {
  const config = JSON_OF({ compilerOptions: { paths: { '*': ['./x/*'], '@/*': ['./x/*'], own: ['./x/own'] } } });
  const set = new Files(folderOf({ 'a.ts': '', 'tsconfig.json': config, 'deno.json': JSON_OF({ imports: { mapped: './x/m.ts', far: 'npm:far' } }) }), []);
  const resolver = new Resolver(set, new Configs(set));
  const means = (/** @type {string} */ it) => resolver.meansFile(`${set.folder}/a.ts`, it);
  assert.deepEqual(['./b', '../b', '/b', '.', '..', '#b', 'file:///b', '@/b', 'own', 'mapped'].filter((it) => !means(it)), []);
  assert.deepEqual(['b', '@b/c', 'own/b', '...', '.b', 'far', 'node:fs', 'x/../b', 'xfile:b'].filter(means), []);
});

test('Deno: the first of its files, the nearest scope, and what a target may be', () => {
  const files = { 'x/y/a.ts': '', 'b.ts': '', 'x/b.ts': '', 'node_modules/p/index.ts': '', 'node_modules/p/c.ts': '' };
  const at = (/** @type {Record<string, any>} */ configs, text = 'b', from = 'x/y/a.ts') => resolved({ ...files, ...Object.fromEntries(Object.entries(configs).map(([name, it]) => [name, JSON_OF(it)])) }, from, text);
  const [one, other] = ['./b.ts', './x/b.ts'].map((it) => ({ imports: { b: it } }));
  const names = ['deno.json', 'deno.jsonc', 'import_map.json', 'importmap.json'];
  names.forEach((it, i) => assert.equal(at({ [it]: one, ...Object.fromEntries(names.slice(i + 1).map((more) => [more, other])) }), 'b.ts', it));
  assert.equal(at({ 'deno.json': other, 'x/importmap.json': { imports: { b: './b.ts' } } }), 'x/b.ts');
  assert.equal(at({ 'deno.json': { imports: one.imports, importMap: 'x/map.json' }, 'x/map.json': { imports: { b: './b.ts' } } }), 'x/b.ts');
  assert.equal(at({ 'deno.json': { imports: one.imports, importMap: 'none.json' } }), null);
  // the scope that is nearest goes first, then those around it, then the imports of all
  const scopes = { './': { c: './b.ts' }, './x/': { b: './b.ts', c: './x/b.ts', d: './x/b.ts' }, './x/y/': { b: './x/b.ts' }, './z/': { b: './none.ts' } };
  for (const order of [Object.entries(scopes), Object.entries(scopes).reverse()]) {
    const map = { 'deno.json': { imports: { b: './b.ts', e: './b.ts' }, scopes: Object.fromEntries(order) } };
    assert.deepEqual(['b', 'c', 'd', 'e'].map((it) => at(map, it)), ['x/b.ts', 'x/b.ts', 'x/b.ts', 'b.ts']);
    assert.deepEqual(['b', 'c', 'd'].map((it) => at(map, it, 'b.ts')), ['b.ts', 'b.ts', null]);
  }
  // a scope with a slash is a directory, and one without it a module
  const alike = { 'deno.json': { imports: { b: './none.ts' }, scopes: { './x/': { b: './b.ts' }, './z/a.t': { b: './b.ts' }, './w': { b: './b.ts' } } }, 'xy/a.ts': {}, 'z/a.ts': {}, 'w/a.ts': {} };
  assert.deepEqual(['x/y/a.ts', 'xy/a.ts', 'z/a.ts', 'w/a.ts'].map((it) => at(alike, 'b', it)), ['b.ts', null, null, null]);
  // modules of one directory may be in scopes of their own
  const set = new Files(folderOf({ 'a.ts': '', 'b.ts': '', 'c.ts': '', 'deno.json': JSON_OF({ scopes: { './a.ts': { m: './b.ts' }, './c.ts': { m: './a.ts' } } }) }), []);
  const resolver = new Resolver(set, new Configs(set));
  assert.deepEqual(['a', 'b', 'c'].map((it) => resolver.resolve(`${set.folder}/${it}.ts`, 'm')?.file?.slice(set.folder.length)), ['/b.ts', undefined, '/a.ts']);
  // a target is a path, a URL or a package, and a directory keeps its slash
  const imports = { p2: 'p', 'p2/': 'p/', 'dir/': './x/', whole: './x/', '/abs': './b.ts', 'dir': './none' };
  assert.deepEqual(['p2', 'p2/c', 'dir/b.ts', '/abs', 'whole', 'dir'].map((it) => at({ 'deno.json': { imports } }, it)), ['node_modules/p/index.ts', 'node_modules/p/c.ts', 'x/b.ts', 'b.ts', null, null]);
  assert.equal(at({ 'deno.json': { imports: { whole: './x/' } }, 'x/index.ts': {}, 'x.ts': {} }, 'whole'), 'x/index.ts');
});

test('Deno: imports, import maps, scopes', () => {
  const files = { 'a.ts': '', 'lib/b.ts': '', 'vendor/c.ts': '' };
  const deno = { imports: { b: './lib/b.ts', 'lib/': './lib/', '@std/fs': 'jsr:@std/fs@1', 'lib/deep/': './vendor/' } };
  assert.equal(resolved({ ...files, 'deno.json': JSON_OF(deno) }, 'a.ts', 'b'), 'lib/b.ts');
  assert.equal(resolved({ ...files, 'deno.json': JSON_OF(deno) }, 'a.ts', 'lib/b.ts'), 'lib/b.ts');
  assert.equal(resolved({ ...files, 'deno.json': JSON_OF(deno) }, 'a.ts', 'lib/deep/c.ts'), 'vendor/c.ts');
  assert.equal(resolved({ ...files, 'deno.json': JSON_OF(deno) }, 'a.ts', '@std/fs'), 'jsr:@std/fs@1');
  assert.equal(resolved({ ...files, 'deno.jsonc': '{ /* a comment */ "imports": { "b": "./lib/b.ts" } }' }, 'a.ts', 'b'), 'lib/b.ts');
  assert.equal(resolved({ ...files, 'deno.json': JSON_OF({ importMap: 'maps/m.json' }), 'maps/m.json': JSON_OF({ imports: { b: '../lib/b.ts' } }) }, 'a.ts', 'b'), 'lib/b.ts');
  assert.equal(resolved({ ...files, 'import_map.json': JSON_OF({ imports: { b: './none.ts' }, scopes: { './vendor/': { b: './lib/b.ts' } } }) }, 'vendor/c.ts', 'b'), 'lib/b.ts');
});

test('absolute paths and file URLs', () => {
  const folder = folderOf({ 'a.ts': '', 'b.ts': '' });
  const set = new Files(folder, []);
  const resolver = new Resolver(set, new Configs(set));
  assert.equal(resolver.resolve(`${folder}/a.ts`, `${folder}/b`)?.file, `${folder}/b.ts`);
  // a URL of a file has no host, or this machine's
  for (const it of ['file://', 'file://localhost', 'file:']) assert.equal(resolver.resolve(`${folder}/a.ts`, `${it}${folder}/b.ts`)?.file, `${folder}/b.ts`, it);
  assert.equal(resolver.resolve(`${folder}/a.ts`, `file:${folder}/none.ts`), null);
  assert.equal(resolver.resolve(`${folder}/a.ts`, ''), null);
});

test('texts that are no path, and files that can\'t be looked at, lead nowhere', () => {
  const folder = folderOf({ 'a.ts': '' });
  symlinkSync('ring.ts', path.join(folder, 'ring.ts'));
  symlinkSync('/none', path.join(folder, 'none.ts'));
  const set = new Files(folder, []);
  const resolver = new Resolver(set, new Configs(set));
  const long = 'x'.repeat(300);
  const texts = ['file://host/a.ts', 'file:///%00', 'file:///%zz', './a\0', '../a\0', 'a\0', `./${long}`, `../${long}`, long, './ring', './ring.ts', './none.ts'];
  assert.deepEqual(texts.filter((it) => resolver.resolve(`${folder}/a.ts`, it) !== null), []);
  assert.deepEqual(set.code(), [`${folder}/a.ts`]);
});

test('configuration files with other values than they should have are passed over', () => {
  const odd = [null, 5, 'x', [], [null], {}, { compilerOptions: null }, { compilerOptions: { paths: { b: null, '*': [5] } } }, { extends: [null, './none'] },
    { exports: null, types: 5, main: [] }, { exports: { '.': [null, { import: 5 }] } }, { imports: null, scopes: { './': null } }, { imports: { b: 5 }, importMap: 5 }];
  const names = ['package.json', 'tsconfig.json', 'deno.json', 'import_map.json', 'node_modules/b/package.json'];
  for (const value of odd) {
    for (const name of names) assert.equal(resolved({ 'a.ts': '', 'c.ts': '', [name]: JSON_OF(value) }, 'a.ts', './c'), 'c.ts');
    for (const name of names.slice(0, -1)) assert.equal(resolved({ 'a.ts': '', [name]: JSON_OF(value) }, 'a.ts', 'b'), null);
    assert.equal(resolved({ 'a.ts': '', 'node_modules/b/package.json': JSON_OF(value) }, 'a.ts', 'b'), 'npm:b');
  }
});
