import assert from 'node:assert/strict';
import { spawnSync } from 'node:child_process';
import { mkdirSync, readdirSync, renameSync, rmSync, statSync, symlinkSync, writeFileSync } from 'node:fs';
import path from 'node:path';
import test from 'node:test';

import { Failure } from '../lib/failure.js';
import { Configs } from '../lib/folder/configs.js';
import { Files } from '../lib/folder/files.js';
import { Folder } from '../lib/folder/folder.js';
import { hashOf } from '../lib/folder/kept.js';
import { Resolver } from '../lib/folder/resolve.js';
import { Places } from '../lib/folder/text.js';
import { findTypeScript } from '../lib/typescript.js';
import { differenceOf, differentLines } from '../lib/watch/difference.js';
import { Watch } from '../lib/watch/watch.js';
import { Watched, Watchers } from '../lib/watch/watchers.js';
import { folderOf, symdir } from './helper.js';
import { watched } from './watching.js';

/** @param {string} folder @returns {(name: string, text: string | object) => void} writes a file of it */
function writer(folder) {
  return (name, text) => {
    mkdirSync(path.dirname(path.join(folder, name)), { recursive: true });
    writeFileSync(path.join(folder, name), typeof text === 'string' ? text : JSON.stringify(text));
  };
}

test('what is there twice differs from what is there once', () => {
  assert.deepEqual([differentLines(['a'], ['a', 'a']), differentLines(['a', 'b', 'a'], ['b', 'a']), differentLines(['a', 'a'], ['a', 'a'])], [['+ a'], ['- a'], []]);
  assert.deepEqual(differenceOf({ a: [1, 1, 2] }, { a: [1, 2, 2, 2] }), { removed: { a: [1] }, added: { a: [2, 2] } });
});

for (const command of ['api', 'leaks', 'missing']) {
  test(`${command}: a file appears where a specifier was absent, and goes`, async () => {
    const folder = folderOf({ 'index.ts': 'export * from "./a";\nexport { b } from "./b";\n', 'a.ts': 'export const a: T = 1;\ntype T = number;\n' });
    const write = writer(folder);
    await watched([command, folder], async (watching) => {
      write('b.ts', 'interface B {}\nexport const b: B = 1;\n');
      const [first] = await watching.settled(1);
      assert.deepEqual(first.files, ['b.ts', 'index.ts']);
      write('a.js', 'export const c = 1;\n');
      write('a.d.ts', 'export const d: number;\n');
      await watching.settled();
      rmSync(path.join(folder, 'a.ts'));
      await watching.settled();
      rmSync(path.join(folder, 'b.ts'));
      await watching.settled();
    });
  });

  test(`${command}: a redirect changes: main and exports of a package, paths of TypeScript`, async () => {
    const folder = folderOf({
      'index.ts': 'export * from "inner";\nexport { x } from "@/m";\n', 'inner/package.json': '{"name":"inner","main":"./m.ts"}',
      'inner/m.ts': 'interface M {}\nexport const x: M = 1;\n', 'inner/n.ts': 'interface N {}\nexport const y: N = 1;\nimport { none } from "./m";\n' });
    const write = writer(folder);
    await watched([command, folder, '--entry', 'index.ts'], async (watching) => {
      write('inner/package.json', { name: 'inner', main: './n.ts' });
      const [first] = await watching.settled(1);
      assert.deepEqual(first.files, ['index.ts']);
      write('inner/package.json', { name: 'inner', main: './n.ts', exports: { '.': './m.ts' } });
      await watching.settled();
      write('tsconfig.json', { compilerOptions: { baseUrl: '.', paths: { '@/*': ['inner/*'] } } });
      await watching.settled();
      write('tsconfig.json', '{ "compilerOptions": {');
      await watching.settled();
      rmSync(path.join(folder, 'tsconfig.json'));
      rmSync(path.join(folder, 'inner', 'package.json'));
      await watching.settled();
    });
  });

  test(`${command}: a syntax error is saved, and mended`, async () => {
    const folder = folderOf({ 'index.ts': 'export * from "./a";\nimport { n } from "./a";\n', 'a.ts': 'export const n: T = 1;\ntype T = 1;\n' });
    const write = writer(folder);
    await watched([command, folder], async (watching) => {
      write('a.ts', 'export const n: T = ;\n');
      await watching.settled();
      write('a.ts', 'export const m = 1;\n');
      await watching.settled();
    });
  });

  test(`${command}: files are saved twice, and as editors do, by a file in the place of another`, async () => {
    const folder = folderOf({ 'index.ts': 'export * from "./a";\n', 'a.ts': 'export const n = 1;\n' });
    const write = writer(folder);
    await watched([command, folder], async (watching) => {
      for (const name of ['b', 'c', 'd']) {
        write('a.ts', '');
        write('a.ts', `export const ${name}: ${name.toUpperCase()} = 1;\ninterface ${name.toUpperCase()} {}\nimport { ${name} as x } from "./index";\n`);
        await watching.settled();
      }
      write('.a.ts.swp', 'export const e = 1;\nimport "./gone";\n');
      renameSync(path.join(folder, '.a.ts.swp'), path.join(folder, 'a.ts'));
      await watching.settled();
    });
  });
}

test('directories come, move and go; a package is installed above', async () => {
  const top = folderOf({ 'dir/index.ts': 'export * from "./sub/a";\nexport * from "far";\nexport * from "./moved/a";\n' });
  const folder = path.join(top, 'dir');
  const write = writer(folder);
  await watched(['api', folder], async (watching) => {
    mkdirSync(path.join(folder, 'sub'));
    await new Promise((resolve) => setTimeout(resolve, 300));
    write('sub/a.ts', 'export const a = 1;\n');
    await watching.settled();
    writer(top)('node_modules/far/package.json', { name: 'far' });
    await watching.settled();
    renameSync(path.join(folder, 'sub'), path.join(folder, 'moved'));
    await watching.settled();
    write('moved/a.ts', 'export const b = 1;\n');
    await watching.settled();
    rmSync(path.join(folder, 'moved'), { recursive: true });
    rmSync(path.join(top, 'node_modules'), { recursive: true });
    await watching.settled();
    write('moved/a.ts', 'export const c = 1;\n');
    await watching.settled();
  });
});

test('a file stands where a directory is looked for, and goes', async () => {
  const top = folderOf({ 'dir/index.ts': 'export * from "../far/sub/a";\n', far: '' });
  await watched(['api', path.join(top, 'dir')], async (watching) => {
    writer(top)('dir/index.ts', 'export * from "../far/sub/a";\nexport const b = 1;\n');
    await watching.settled(1);
    rmSync(path.join(top, 'far'));
    writer(top)('far/sub/a.ts', 'export const a = 1;\n');
    await watching.settled();
  });
});

test('options of the directory and its entries change; what fails is told, and mended', async () => {
  const folder = folderOf({ 'index.ts': 'export * from "./a";\nexport * from "./b";\n', 'a.ts': 'export const n = 1;\n', 'b.ts': 'export const n = 1;\n' });
  const write = writer(folder);
  await watched(['api', folder, '--entry', 'index.ts'], async (watching) => {
    write('symdir.json', { strict: true });
    await watching.settled();
    write('symdir.json', { skip: '^b' });
    await watching.settled();
    write('symdir.json', { none: true });
    assert.deepEqual((await watching.settled()).map((it) => it.failure), ['symdir.json:1:2: unknown option none']);
    rmSync(path.join(folder, 'symdir.json'));
    await watching.settled();
    renameSync(path.join(folder, 'index.ts'), path.join(folder, 'other.ts'));
    await watching.settled();
    renameSync(path.join(folder, 'other.ts'), path.join(folder, 'index.ts'));
    await watching.settled();
  });
});

test('entries are those of modules that no other one imports, and then those that packages name, whatever module changes', async () => {
  const folder = folderOf({ 'a.ts': 'export const a = 1;\n', 'b.ts': 'export const b = 1;\n', 'in/c.ts': 'export const c = 1;\n' });
  const write = writer(folder);
  await watched(['api', folder], async (watching) => {
    for (const text of ['export * from "./b";\n', 'export const more = 1;\n', 'export * from "./in/c";\n']) {
      write('a.ts', text);
      await watching.settled(1);
    }
    for (const main of ['./b.ts', './a.ts', './none.ts']) {
      write('package.json', { main });
      await watching.settled(1);
      write('b.ts', `export const b = "${main}", d = 1;\nexport const ${main.replace(/\W/g, '')} = 1;\n`);
      await watching.settled(1);
    }
    write('in/package.json', { exports: './c.ts' });
    await watching.settled(1);
    write('in/c.ts', 'export const c = 1, e = 1;\n');
    await watching.settled(1);
  });
});

test('what differs as text, with the lines that it stands under', async () => {
  const folder = folderOf({ 'index.ts': 'export * from "./a";\n', 'a.ts': 'export const n = 1;\n', 'b.ts': '' });
  const write = writer(folder);
  await watched(['api', folder], async (watching) => {
    const next = async (/** @type {number} */ count) => {
      const lines = [];
      for (let i = 0; i < count; i++) lines.push(await watching.line());
      return lines;
    };
    assert.deepEqual(await next(2), ['index.ts: 1 public name, defined in 1 file', '  n  const  a.ts:1:14  export * from "./a"']);
    write('a.ts', 'export const longer = 1, n = 1;\n');
    assert.deepEqual(await next(5), ['a.ts changed: the answer differs', '- index.ts: 1 public name, defined in 1 file', '+ index.ts: 2 public names, defined in 1 file',
      '-   n  const  a.ts:1:14  export * from "./a"', '+   longer  const  a.ts:1:14  export * from "./a"']);
    assert.deepEqual(await next(1), ['+   n  const  a.ts:1:26  export * from "./a"']);
    write('b.ts', 'export const b = 1;\n');
    assert.deepEqual(await next(1), ['b.ts changed: the answer is the same']);
    write('a.ts', 'export const longer = ;\n');
    assert.deepEqual((await next(1))[0], 'a.ts changed: the answer differs');
    for (let i = 0; watching.said === '' && i < 1000; i++) await new Promise((resolve) => setTimeout(resolve, 10));
    assert.equal(watching.said, 'symdir: a.ts:1:23: Expression expected.\n');
  }, { json: false });
});

test('a signal ends it as other runs, and with it symq and its directory', async () => {
  const folder = folderOf({ 'index.ts': 'export const a = 1;\n' });
  const temporary = folderOf({});
  for (const signal of /** @type {NodeJS.Signals[]} */ (['SIGINT', 'SIGTERM'])) {
    await watched(['api', folder], async (watching) => {
      assert.equal(readdirSync(temporary).length, 1);
      assert.deepEqual(await watching.end(signal), { status: null, signal });
      assert.deepEqual(readdirSync(temporary), []);
      const running = spawnSync('ps', ['-eo', 'args'], { encoding: 'utf8' }).stdout;
      assert.ok(!running.includes(temporary));
    }, { env: { TMPDIR: temporary } });
  }
});

test('it ends where the directory goes', async () => {
  const folder = folderOf({ 'dir/index.ts': 'export const a = 1;\n' });
  await watched(['api', path.join(folder, 'dir')], async (watching) => {
    rmSync(path.join(folder, 'dir'), { recursive: true });
    assert.deepEqual(await watching.ended, { status: 3, signal: null });
    assert.equal(watching.said, `symdir: no such directory: ${folder}/dir\n`);
  });
});

test('a directory that goes just before it is watched anew is told', () => {
  const folder = path.join(folderOf({ 'dir/index.ts': '' }), 'dir');
  /** @type {string[]} */
  const heard = [];
  const watchers = new Watchers((it) => void heard.push(it));
  assert.equal(watchers.follow(new Set([folder]), new Set()), true);
  rmSync(folder, { recursive: true });
  assert.equal(watchers.follow(new Set([folder]), new Set()), false);
  watchers.close();
  assert.deepEqual(heard, [folder]);
});

test('what it can\'t be combined with, and what fails at once', () => {
  const folder = folderOf({ 'index.ts': 'export const a = 1;\n', 'symdir.json': '{"watch":true}' });
  const refused = (/** @type {string[]} */ ...words) => {
    const { status, stdout, stderr } = symdir([...words, '--watch']);
    assert.deepEqual([status, stdout], [2, '']);
    return stderr;
  };
  for (const it of ['markdown', 'html', 'sarif', 'annotations']) assert.equal(refused('api', folder, `--${it}`, '--no-config'), `symdir: --watch and --${it} can't be combined\n`);
  assert.equal(refused('api', folder, '--save', 'x', '--no-config'), 'symdir: --watch and --save can\'t be combined\n');
  assert.equal(refused('unused', folder, '--no-config'), 'symdir: Unknown option \'--watch\'; see `symdir unused --help`\n');
  assert.equal(refused('api', folder), 'symdir: symdir.json:1:2: watch can be set on the command line only\n');
  assert.equal(refused('api', folder, '--no-config', '--entry', 'none'), `symdir: no such module: none in ${folder}\n`);
});

test('what differs in answers of --json, in any order and as often', () => {
  const one = { a: [1, 2, 2, { x: 1 }], b: ['same'], advice: 'major' };
  assert.deepEqual(differenceOf(one, { a: [{ x: 1 }, 2, 3], b: ['same'], c: [0], advice: 'minor' }), {
    removed: { a: [1, 2], advice: ['major'] }, added: { a: [3], c: [0], advice: ['minor'] } });
  assert.deepEqual(differenceOf(one, one), { removed: {}, added: {} });
});

test('what differs in lines: equal ones under different heads differ, and spaces of columns don\'t', () => {
  const before = ['a.ts: 1 public name', '  x  const', 'b.ts: 1 public name', '  y  const'];
  assert.deepEqual(differentLines(before, ['a.ts: 1 public name', '  x    const', 'b.ts: 2 public names', '  x  const', '  y  const']), [
    '- b.ts: 1 public name', '+ b.ts: 2 public names', '+   x  const']);
  assert.deepEqual(differentLines(before, ['a.ts: 1 public name', '  z  const', ...before.slice(2)]), ['  a.ts: 1 public name', '-   x  const', '+   z  const']);
});

test('a file is read again only where its size or its times differ, or were those of the last moments', (t) => {
  const folder = folderOf({ 'a.ts': 'export const a = 1;\n' });
  const file = path.join(folder, 'a.ts');
  const hashes = new Map();
  const hash = () => new Watched(folder, [], hashes).hash(file);
  const known = new Files(folder, []).hash(file);
  assert.deepEqual([hash(), hashes.size], [known, 0]);
  // what is written within three seconds may have the same times
  let later = Math.floor(statSync(file).ctimeMs) + 3000;
  const clock = t.mock.method(Date, 'now', () => later);
  assert.deepEqual([hash(), hashes.size], [known, 0]);
  later++;
  assert.deepEqual([hash(), hashes.get(file).hash], [known, known]);
  hashes.get(file).hash = 'that of before';
  assert.equal(hash(), 'that of before');
  clock.mock.restore();
  const { mtimeMs } = statSync(file);
  while (statSync(file).mtimeMs === mtimeMs) writeFileSync(file, 'export const b = 1;\n');
  assert.deepEqual([hash(), hashes.size], [new Files(folder, []).hash(file), 0]);
  rmSync(file);
  assert.deepEqual([hash(), hashes.size], ['', 0]);
});

test('lines and declarations of a module are taken over where it is what it was, and lines only where they are those of its text', () => {
  const of = (/** @type {string} */ text) => ({ hash: hashOf(text), references: [], declarations: [0, 1, 0, 0, 0] });
  const [same, torn, changed] = ['a', '\n\nb', 'c'].map(of);
  const folderWith = (/** @type {any} */ third, /** @type {string} */ file) => new Folder(/** @type {any} */ ({ modules: new Map([
    ['c', { file: '/c', parsed: third }], ['d', { file, parsed: same }], ['a', { file: '/a', parsed: same }], ['b', { file: '/b', parsed: torn }]]) }), [], { last: null, results: null });
  const [before, now] = [folderWith(changed, '/d'), folderWith(of('c'), '/other/d')];
  for (const it of ['a', 'b', 'c', 'd']) before.tableOf(it, same.declarations);
  // the file of `b` was empty for a moment, when its lines were looked for
  for (const [it, text] of [['a', 'a'], ['b', ''], ['c', 'c'], ['d', 'a']]) before.places.set(it, new Places(text));
  now.takeOver(before);
  assert.deepEqual([[...now.places.keys()], [...now.tables.keys()]], [['a'], ['a', 'b']]);
  assert.deepEqual(now.places.get('a'), before.places.get('a'));
});

test('another TypeScript, by its file or its version, ends a watch', async () => {
  const folder = folderOf({ 'index.ts': '' });
  const watch = new Watch(/** @type {any} */ ({ folder, options: () => ({}) }));
  watch.temporary.close();
  const found = findTypeScript(folder);
  for (const it of [undefined, { ...found, version: '4.7.0' }, { ...found, file: `${folder}/typescript.js` }]) {
    watch.typescript = it;
    await assert.rejects(watch.read(/** @type {any} */ ({ folder, skip: [] }), {}, []), { message: 'another TypeScript is installed: start again' });
  }
});

test('what ends a watch: that something is lacking to work with, and neither an argument nor what a file has', () => {
  const watch = new Watch(/** @type {any} */ ({ folder: '/', options: () => ({}) }));
  watch.temporary.close();
  const failures = [new Failure('a'), new Failure('a', 3, 'engine'), new Failure('a', 3, 'system'), new Failure('a', 2), new Failure('a', 2, 'setup')];
  assert.deepEqual(failures.map((it) => watch.isLast(it)), [true, false, false, false, false]);
});

test('three of the files that changed are named, and how many others there are', () => {
  /** @type {string[]} */
  const told = [];
  const watch = new Watch(/** @type {any} */ ({ folder: '/', options: () => ({}), print: (/** @type {string} */ it) => told.push(it), warn: (/** @type {string} */ it) => told.push(`! ${it}`) }));
  watch.temporary.close();
  const answer = (/** @type {string[]} */ ...lines) => ({ lines, faults: [], status: 0 });
  for (const count of [2, 3, 4, 5]) watch.tellText(answer('a'), answer('a'), ['a', 'b', 'c', 'd', 'e'].slice(0, count));
  assert.deepEqual(told.splice(0), ['a, b', 'a, b, c', 'a, b, c and 1 other', 'a, b, c and 2 others'].map((it) => `${it} changed: the answer is the same`));
  // of faults those are told that weren't there before
  watch.tellText({ lines: ['a'], faults: ['f'], status: 1 }, { lines: ['b'], faults: ['f', 'g'], status: 1 }, ['a']);
  assert.deepEqual(told, ['a changed: the answer differs', '- a', '+ b', '! g']);
});

test('imports are resolved again where a file came or went or a configuration changed, and not where a module alone did', () => {
  const folder = folderOf({ 'index.ts': 'export * from "./a";\n', 'a.ts': '', 'package.json': '{}', 'tsconfig.json': '{}', 'far/b.ts': '' });
  const watch = new Watch(/** @type {any} */ ({ folder, options: () => ({}) }));
  const before = new Watched(folder, []);
  const resolver = new Resolver(before, new Configs(before));
  for (const it of ['./a', 'none']) resolver.resolve(path.join(folder, 'index.ts'), it);
  const isAgain = (/** @type {string[]} */ ...heard) => {
    watch.resolved = { files: before, resolver };
    const files = new Watched(folder, []);
    const found = watch.resolverFor(files, heard.map((it) => path.join(folder, it)));
    assert.equal(found !== undefined, files.looked === before.looked);
    return found !== resolver;
  };
  try {
    assert.deepEqual([isAgain('a.ts'), isAgain('a.ts', '.a.ts.swp', 'a.ts~'), isAgain('a.ts', 'index.ts')], [false, false, false]);
    for (const it of ['package.json', 'tsconfig.json', 'far/package.json', 'node_modules', 'far', '.', '../x.ts']) assert.equal(isAgain('a.ts', it), !it.startsWith('far/'), it);
    resolver.resolve(path.join(folder, 'far/b.ts'), 'none');
    assert.equal(isAgain('far/package.json'), true);
    symlinkSync(path.join(folder, 'far'), path.join(folder, 'near'));
    assert.equal(isAgain('a.ts'), true);
    rmSync(path.join(folder, 'near'));
    writeFileSync(path.join(folder, 'c.ts'), '');
    assert.equal(isAgain('a.ts'), true);
    rmSync(path.join(folder, 'a.ts'));
    assert.equal(isAgain('c.ts'), true);
    watch.resolved = null;
    assert.equal(watch.resolverFor(new Watched(folder, []), []), undefined);
  } finally {
    watch.temporary.close();
  }
});
