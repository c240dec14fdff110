// Each row of the tables that decide: endings, conditions, entry points, names of packages, languages, versions. What is wanted is
// what README.md says, row by row.
import assert from 'node:assert/strict';
import { mkdirSync, writeFileSync } from 'node:fs';
import path from 'node:path';
import test from 'node:test';

import { begin } from '../lib/folder/begin.js';
import { Configs } from '../lib/folder/configs.js';
import { TEST } from '../lib/folder/entries.js';
import { Files } from '../lib/folder/files.js';
import { Folder } from '../lib/folder/folder.js';
import { Resolver } from '../lib/folder/resolve.js';
import { isCode, isJavaScript, languageOf } from '../lib/language.js';
import { Paint, byName, columns, counted, wrapped } from '../lib/output.js';
import { findTypeScript } from '../lib/typescript.js';
import { packageName } from '../lib/uses/dependencies.js';
import { folderOf } from './helper.js';

const TEXT = 'export const a = 1;\n';

/** @param {Record<string, string>} files @param {string} from @param {string} text @returns {string | null} a path below the folder, or a specifier */
function resolved(files, from, text) {
  const set = new Files(folderOf({ [from]: '', ...files }), []);
  const found = new Resolver(set, new Configs(set)).resolve(path.join(set.folder, from), text);
  return found ? found.external ?? set.below(/** @type {string} */ (found.file)) : null;
}

/** @param {Record<string, string>} files @param {string[]} [entry] @returns {Promise<string[]>} */
async function entries(files, entry = []) {
  const begun = await begin({ folder: folderOf(files), skip: [], bodies: false, ambient: true, javascript: false, packages: false, cache: false, progress: () => {} }, null);
  const folder = await Folder.read(begun, { entry });
  await folder.sources.keep();
  return folder.entries.map((it) => folder.short(it));
}

const empty = (/** @type {string[]} */ ...names) => Object.fromEntries(names.map((it) => [it, '']));

test('of two files of one name the ending decides, for TypeScript and for JavaScript', () => {
  const sources = ['.ts', '.tsx', '.d.ts', '.mts', '.cts', '.d.mts', '.d.cts'];
  const scripts = ['.js', '.jsx', '.mjs', '.cjs'];
  for (const [from, order] of /** @type {const} */ ([['a.ts', [...sources, ...scripts, '.json']], ['a.js', [...scripts, ...sources, '.json']]])) {
    for (const [base, text] of [['b', './b'], ['b/index', './b']]) {
      for (const it of order) assert.equal(resolved(empty(`${base}${it}`), from, text), `${base}${it}`, from);
      order.forEach((first, i) => order.slice(i + 1).forEach((second) => (
        assert.equal(resolved(empty(`${base}${first}`, `${base}${second}`), from, text), `${base}${first}`, `${from}: ${first} ${second}`))));
    }
  }
});

test('a file of JavaScript is what it is made from, by each ending', () => {
  const rows = { '.js': ['.ts', '.tsx', '.d.ts'], '.mjs': ['.mts', '.d.mts', '.d.ts'], '.cjs': ['.cts', '.d.cts', '.d.ts'], '.jsx': ['.tsx', '.d.ts'] };
  for (const [ending, sources] of Object.entries(rows)) {
    sources.forEach((it, i) => {
      assert.equal(resolved(empty(`b${ending}`, ...sources.slice(i).map((one) => `b${one}`)), 'a.ts', `./b${ending}`), `b${it}`);
      assert.equal(resolved(empty(`b${it}`), 'a.js', `./b${ending}`), `b${it}`);
    });
    assert.equal(resolved(empty(`b${ending}`, ...sources.map((it) => `b${it}`)), 'a.js', `./b${ending}`), `b${ending}`);
  }
  assert.equal(resolved(empty('b.mts'), 'a.ts', './b.js'), null);
});

test('the conditions of `exports`, each by itself, and in the package\'s order', () => {
  const at = (/** @type {unknown} */ exports, /** @type {string[]} */ ...files) => resolved({
    'node_modules/p/package.json': JSON.stringify({ exports }), ...empty(...files.map((it) => `node_modules/p/${it}`)) }, 'a.ts', 'p');
  for (const it of ['types', 'import', 'module', 'node', 'deno', 'bundler', 'default', 'require', 'types@>=4.8']) assert.equal(at({ [it]: './x.js' }, 'x.js'), 'node_modules/p/x.js', it);
  for (const it of ['browser', 'development', 'worker', 'style', 'type', 'imports']) assert.equal(at({ [it]: './x.js' }, 'x.js'), 'npm:p', it);
  assert.equal(at({ require: './r.js', import: './i.js' }, 'r.js', 'i.js'), 'node_modules/p/r.js');
  assert.equal(at({ import: './gone.js', require: './r.js' }, 'r.js'), 'node_modules/p/r.js');
});

test('the usual module is the first of the list that is there', async () => {
  const usual = ['index', 'src/index', 'mod', 'src/mod', 'lib/index', 'main', 'src/main'];
  for (let i = 0; i < usual.length; i++) {
    const files = Object.fromEntries([...usual.slice(i), 'other'].map((it) => [`${it}.ts`, TEXT]));
    assert.deepEqual(await entries(files), [`${usual[i]}.ts`]);
  }
  assert.deepEqual(await entries({ 'other.ts': TEXT, 'sub/index.ts': TEXT }), ['other.ts', 'sub/index.ts']);
  // by their paths, in which a directory comes behind a file that begins alike
  assert.deepEqual(await entries({ 'x/b.ts': TEXT, 'x.ts': TEXT, 'x-y.ts': TEXT }), ['x-y.ts', 'x.ts', 'x/b.ts']);
  // TypeScript goes before the JavaScript beside it
  assert.deepEqual(await entries({ 'index.ts': TEXT, 'index.js': TEXT, 'mod.ts': TEXT }), ['index.ts']);
});

test('which paths are tests and the like', () => {
  const are = ['test/a.ts', 'tests/a.ts', '__tests__/a.ts', 'spec/a.ts', 'specs/a.ts', 'example/a.ts', 'examples/a.ts', 'script/a.ts', 'scripts/a.ts', 'benchmark/a.ts', 'benchmarks/a.ts',
    'x/tests/y/a.ts', 'a.test.ts', 'a_test.ts', 'a.spec.tsx', 'a.stories.js', 'a.config.mts', 'x/a.bench.ts'];
  const arent = ['latest/a.ts', 'testing/a.ts', 'specimen/a.ts', 'contest.ts', 'a.tests.ts', 'atest.ts', 'bench/a.ts', 'test.ts', 'a.test', 'counterexamples/a.ts', 'config.ts', 'x.config.d/a.ts'];
  assert.deepEqual([are.filter((it) => !TEST.test(it)), arent.filter((it) => TEST.test(it))], [[], []]);
});

test('entries: styles and data are none, and what `main` says counts beside `exports`', async () => {
  const of = (/** @type {object} */ json, /** @type {string[]} */ ...files) => entries({ 'package.json': JSON.stringify(json), ...Object.fromEntries(files.map((it) => [it, TEXT])) });
  // a source stands where the style would be looked for with another ending
  assert.deepEqual(await of({ exports: { '.': './a.ts', './x.css': './x.css', './y.json': './y.json' } }, 'a.ts', 'x.css.ts', 'y.json.ts'), ['a.ts']);
  assert.deepEqual(await of({ exports: { '.': './a.css.ts', './json': './a.json.ts' } }, 'a.css.ts', 'a.json.ts', 'index.ts'), ['a.css.ts', 'a.json.ts']);
  assert.deepEqual(await of({ exports: { './sub': './s.ts' }, main: './m.ts' }, 's.ts', 'm.ts'), ['m.ts', 's.ts']);
  assert.deepEqual(await of({ exports: { '.': './gone.ts', './sub': './s.ts' }, main: './m.ts' }, 's.ts', 'm.ts'), ['m.ts', 's.ts']);
  assert.deepEqual(await of({ exports: { '.': './a.ts', './sub': './a.ts' } }, 'a.ts'), ['a.ts']);
  assert.deepEqual(await of({ typings: 't.d.ts', types: 'u.d.ts' }, 't.d.ts', 'u.d.ts'), ['u.d.ts']);
  assert.deepEqual(await entries({ 'deno.jsonc': '{ "exports": "./b.ts" } // one', 'mod.ts': TEXT, 'b.ts': TEXT }), ['b.ts']);
});

test('entries: packages in the directory, private ones alone, and roots without tests', async () => {
  const named = (/** @type {string} */ at, /** @type {object} */ json) => ({ [`${at}/package.json`]: JSON.stringify(json), [`${at}/index.ts`]: TEXT });
  assert.deepEqual(await entries({ ...named('one', { private: true }), ...named('two', { private: true }) }), ['one/index.ts', 'two/index.ts']);
  assert.deepEqual(await entries({ ...named('one', { private: true }), ...named('two', { private: false }) }), ['two/index.ts']);
  assert.deepEqual(await entries({ 'package.json': '{}', ...named('one', { private: true }), 'z.ts': TEXT }), ['one/index.ts']);
  assert.deepEqual(await entries({ 'one/deno.json': '{}', 'one/mod.ts': TEXT, 'z.ts': TEXT }), ['one/mod.ts']);
  assert.deepEqual(await entries({ 'a.test.ts': TEXT, 'b.ts': 'import "./b";\n' }), ['b.ts']);
  assert.deepEqual(await entries({ 'a.ts': 'import "./b";\n', 'b.ts': 'import "./a";\n' }), ['a.ts', 'b.ts']);
  assert.deepEqual(await entries({ 'a.ts': TEXT, 'b.ts': TEXT }, ['b', 'b.ts']), ['b.ts']);
});

test('entries that are named: below the directory, else below the current one, and by what has the types of JavaScript', async () => {
  const files = { 'a.ts': TEXT, 'sub/index.ts': TEXT, 'b.d.ts': TEXT, 'b.js': TEXT, 'c.js': TEXT, 'c.ts': TEXT, 'd.js': TEXT };
  assert.deepEqual(await entries(files, ['a.ts', './a', 'sub', 'sub/', 'b.js', 'b', 'd']), ['a.ts', 'sub/index.ts', 'b.d.ts', 'd.js']);
  for (const it of ['none', 'a.js/x', '../a.ts', '']) await assert.rejects(entries(files, ['a', it]), /^Error: no such module: /, it);
  const before = process.cwd();
  process.chdir(folderOf({ 'a.ts': '', 'more/e.ts': '' }));
  try {
    assert.deepEqual(await entries(files, ['a.ts']), ['a.ts']);
    await assert.rejects(entries(files, ['more/e.ts']), /^Error: no such module: more\/e\.ts in /);
  } finally {
    process.chdir(before);
  }
});

test('entries of deno.json count beside those of package.json, each key once and with its first file', async () => {
  const json = (/** @type {unknown} */ it) => JSON.stringify(it);
  const files = { 'a.ts': TEXT, 'b.ts': TEXT, 'c.ts': TEXT, 'index.ts': TEXT };
  assert.deepEqual(await entries({ ...files, 'deno.json': json({ exports: { '.': './a.ts', './b': { browser: './c.ts', deno: './none.ts', default: './b.ts' } } }) }), ['a.ts', 'b.ts']);
  assert.deepEqual(await entries({ ...files, 'package.json': json({ main: 'b.ts' }), 'deno.json': json({ exports: './a.ts' }) }), ['b.ts', 'a.ts']);
  assert.deepEqual(await entries({ ...files, 'package.json': json({ main: 'b.ts' }), 'deno.json': json({ exports: ['./b.ts'] }) }), ['b.ts']);
  assert.deepEqual(await entries({ ...files, 'deno.json': json({ exports: './a.ts' }), 'deno.jsonc': json({ exports: './b.ts' }) }), ['a.ts']);
  assert.deepEqual(await entries({ ...files, 'deno.json': json({ name: 'x' }) }), ['index.ts']);
  assert.deepEqual(await entries({ ...files, 'deno.json': json({ exports: null }) }), ['index.ts']);
  assert.deepEqual(await entries({ ...files, 'deno.json': json({ exports: './none.ts' }) }), ['index.ts']);
});

test('entries: inner packages by what they say, else by their usual module, but for those of tests and examples', async () => {
  const json = (/** @type {unknown} */ it) => JSON.stringify(it);
  const files = { 'one/package.json': json({ main: 'x.ts' }), 'one/x.ts': TEXT, 'one/index.ts': TEXT, 'two/package.json': '{}', 'two/mod.ts': TEXT, 'three/deno.jsonc': json({ exports: './y.ts' }), 'three/y.ts': TEXT,
    'examples/e/package.json': '{}', 'examples/e/index.ts': TEXT, 'four/package.json': '{}', 'four/z.ts': TEXT, 'z.ts': 'import "./four/z";\n' };
  assert.deepEqual(await entries(files), ['one/x.ts', 'three/y.ts', 'two/mod.ts']);
  // what is JSON, or imported by itself alone, is no module that others import
  assert.deepEqual(await entries({ 'a.ts': 'import "./a";\nimport "./b.json";\nimport "./c";\n', 'b.json': '{}', 'c.ts': TEXT }), ['a.ts']);
  assert.deepEqual(await entries({ 'x.test.ts': 'import "./y.test";\n', 'y.test.ts': '' }), ['x.test.ts']);
});

test('packages of the directory: of two with one name that with the shorter path, and a configuration of Deno too', () => {
  const json = JSON.stringify({ name: 'p' });
  assert.equal(resolved({ 'one/package.json': json, 'one/index.ts': '', 'one/copy/package.json': json, 'one/copy/index.ts': '' }, 'a.ts', 'p'), 'one/index.ts');
  assert.equal(resolved({ 'one/deno.json': JSON.stringify({ name: '@s/p', exports: './x.ts' }), 'one/x.ts': '' }, 'a.ts', '@s/p'), 'one/x.ts');
  assert.equal(resolved({ 'node_modules/q/a.txt': '' }, 'a.ts', 'q/x'), 'npm:q/x');
});

test('the package that the text of an import names', () => {
  const names = { lodash: 'lodash', 'lodash/fp': 'lodash', '@s/a': '@s/a', '@s/a/b/c': '@s/a', 'npm:lodash@4/x': 'lodash', 'npm:/lodash@4': 'lodash', 'npm:@s/a@1.2': '@s/a', './a': null, '../a': null, '/a': null, '': null, '@s': null };
  for (const [text, name] of Object.entries(names)) assert.equal(packageName(text), name, text);
});

test('what a file\'s ending says, each of them', () => {
  const rows = { 'a.ts': 'ts', 'a.mts': 'ts', 'a.cts': 'ts', 'a.tsx': 'tsx', 'a.js': 'js', 'a.mjs': 'js', 'a.cjs': 'js', 'a.jsx': 'jsx' };
  for (const [name, language] of Object.entries(rows)) {
    assert.deepEqual([isCode(name), isJavaScript(name), languageOf(name)], [true, /^j/.test(language), { language, declaration: false }], name);
  }
  for (const it of ['a.d.ts', 'a.d.mts', 'a.d.cts']) assert.deepEqual([isCode(it), isJavaScript(it), languageOf(it)], [true, false, { language: 'ts', declaration: true }]);
  for (const it of ['a.json', 'a.css', 'ts', 'a.mtsx', 'a.ts.map', 'a.es']) assert.deepEqual([isCode(it), isJavaScript(it)], [false, false], it);
});

test('counts, columns and lines of words', () => {
  assert.deepEqual([counted(1, 'name'), counted(2, 'name'), counted(0, 'box'), counted(2, 'class'), counted(3, 'entry'), counted(2, 'batch')], ['1 name', '2 names', '0 boxes', '2 classes', '3 entries', '2 batches']);
  const long = 'x'.repeat(50);
  assert.deepEqual(columns([['a', 'bb', 'c'], ['aaa', 'b'], [long]]), ['a    bb  c', 'aaa  b', long]);
  assert.deepEqual(columns([[long, 'b'], ['a', 'b']]), [`${long}  b`, `a${' '.repeat(43)}  b`]);
  // the last cell of a row is as long as its text, whatever stands in others
  assert.deepEqual(columns([['a', 'bb', 'c'], ['a', 'b'], ['a']], (cells) => cells.map((it) => `<${it}>`)), ['<a>  <bb>  <c>', '<a>  <b>', '<a>']);
  assert.deepEqual(wrapped('aa bb cc dddddd', 5), ['aa bb', 'cc', 'dddddd']);
  const [off, on] = [new Paint(false), new Paint(true)];
  assert.deepEqual([off.red('a'), on.red(''), on.red('a'), on.green('a'), on.yellow('a'), on.bold('a'), on.dim('a')], ['a', '', ...[31, 32, 33, 1, 2].map((it) => `\x1b[${it}ma\x1b[0m`)]);
});

test('the newest TypeScript of 4.8 to 6 is taken, and no other', () => {
  const beside = findTypeScript('/');
  const major = Number(beside.version.split('.')[0]);
  for (const [version, isTaken] of /** @type {[string, boolean][]} */ ([['6.99.0', true], ['7.0.0', false], ['4.7.4', false], ['3.9.0', false], ['5.0.0', major < 5], ['4.8.0', beside.version.startsWith('4.8.')], ['x', false]])) {
    const folder = folderOf({});
    mkdirSync(path.join(folder, 'node_modules/typescript/lib'), { recursive: true });
    writeFileSync(path.join(folder, 'node_modules/typescript/package.json'), JSON.stringify({ name: 'typescript', version }));
    writeFileSync(path.join(folder, 'node_modules/typescript/lib/typescript.js'), '');
    assert.equal(findTypeScript(folder).version, isTaken ? version : beside.version, version);
  }
});

test('a TypeScript is the file that its package.json names, where that is there, and one of its name alone', () => {
  const beside = findTypeScript('/');
  const at = (/** @type {object} */ json, /** @type {string[]} */ ...files) => {
    const folder = folderOf({ 'node_modules/typescript/package.json': JSON.stringify({ version: '6.99.0', ...json }), ...empty(...files.map((it) => `node_modules/typescript/${it}`)) });
    const { file } = findTypeScript(folder);
    return file === beside.file ? 'beside' : path.relative(path.join(folder, 'node_modules/typescript'), file);
  };
  assert.equal(at({ name: 'typescript' }, 'lib/typescript.js'), 'lib/typescript.js');
  assert.equal(at({ name: 'typescript', main: 'own.js' }, 'lib/typescript.js', 'own.js'), 'own.js');
  assert.deepEqual([at({ name: 'typescript' }), at({ name: 'typescript', main: 'own.js' }, 'lib/typescript.js'), at({ name: 'other' }, 'lib/typescript.js')], ['beside', 'beside', 'beside']);
});

test('an empty part of the PATH isn\'t the current directory', () => {
  const beside = findTypeScript('/');
  const [before, { PATH }] = [process.cwd(), process.env];
  const own = folderOf({ 'package.json': JSON.stringify({ name: 'typescript', version: '6.99.0' }), 'lib/typescript.js': '', 'bin/tsc': '' });
  process.chdir(path.join(own, 'bin'));
  try {
    process.env.PATH = `:${PATH}`;
    assert.equal(findTypeScript('/').file, beside.file);
    process.env.PATH = `${own}/bin:${PATH}`;
    assert.equal(findTypeScript('/').file, `${own}/lib/typescript.js`);
  } finally {
    process.env.PATH = PATH;
    process.chdir(before);
  }
});

test('names are ordered as the language orders them, and capitals count where all else is the same', () => {
  const signs = ['_', '$', '0', '1', '9', 'a', 'B', 'b', 'Z', 'é', '#'];
  const names = ['', ...signs, ...signs.flatMap((a) => signs.flatMap((b) => [a + b, `${a}x${b}`]))].map((name) => ({ name }));
  for (const a of names) {
    for (const b of names) {
      const [x, y] = [a, b].map((it) => it.name.toLowerCase());
      const wanted = Math.sign(x.localeCompare(y, 'en')) || (a.name < b.name ? -1 : a.name > b.name ? 1 : 0);
      assert.equal(Math.sign(byName(a, b)), wanted, `${a.name} ${b.name}`);
    }
  }
});
