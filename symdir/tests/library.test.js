// The command as a library.
import assert from 'node:assert/strict';
import { spawnSync } from 'node:child_process';
import { existsSync, readFileSync, readdirSync, symlinkSync, writeFileSync } from 'node:fs';
import path from 'node:path';
import test from 'node:test';
import { pathToFileURL } from 'node:url';

import * as library from '../lib/library/index.js';
import { checkedSpot, readingOf } from '../lib/library/options.js';
import { findSymq } from '../lib/program.js';
import { findTypeScript } from '../lib/typescript.js';
import { PACKAGE, consumer, sameAsCommands } from './commands.js';
import { folderOf, program, symdir } from './helper.js';

/** @typedef {import('./commands.js').Described} Described */

// what is described is what is there
/** @type {(directory: string | URL, options?: import('../types/index.js').Options) => Promise<Described>} */
const openFolder = library.openFolder;
/** @type {typeof import('../types/index.js').SymdirError} */
const SymdirError = library.SymdirError;

const TOP = path.join(PACKAGE, '..');
const SHOP = path.join(TOP, 'examples', 'shop', 'new');
const MADE = {
  'index.ts': `export * from "./a";
export * from "./b";
export * from "./gone";
export { lost } from "./a";
import type { Hidden } from "./c";
export function f(it: Hidden): void { late(); }
import { late } from "./c";
export * from "npm:far";
`,
  'a.ts': 'export const x = 1;\nimport "./b";\n',
  'b.ts': 'export const x = 2;\nexport const y = () => import("./c");\nimport "./a";\n',
  'c.ts': 'export interface Hidden { a: number }\nexport function late() {}\nexport const never = 1;\n',
  'bad.ts': 'export const = ;\n',
  'global.d.ts': 'declare module "aside" { export const z: number }\n',
};

test('its objects are what the commands print as JSON', async () => {
  const made = folderOf(MADE);
  for (const [directory, spot] of /** @type {const} */ ([[made, { file: 'c.ts', line: 1 }], [SHOP, { file: 'item.ts', line: 4 }]])) {
    const folder = await openFolder(directory);
    await sameAsCommands(folder, directory, [], spot);
    await folder.close();
  }
  const strict = await openFolder(pathToFileURL(made), { strict: true, entry: ['index.ts', 'global.d.ts'], skip: [/^bad/] });
  await sameAsCommands(strict, made, ['--strict', '--entry', 'index.ts', '--entry', 'global.d.ts', '--skip', '^bad'], { file: 'index.ts', line: 5 });
  assert.deepEqual((await strict.exports('index.ts')).shared.map((it) => it.name), ['x']);
  const common = folderOf({ 'index.js': 'module.exports = { a: 1 };\n', 'other.js': 'import "./index.js";\n' });
  const unlisted = await openFolder(common, { entry: ['index.js'] });
  await sameAsCommands(unlisted, common, ['--entry', 'index.js'], { file: 'other.js', line: 1 });
  assert.deepEqual((await unlisted.exports('index.js')).unlisted, ['is CommonJS']);
  await Promise.all([strict.close(), unlisted.close()]);
});

test('tests count for `unused`, and without them where production alone is asked for', async (t) => {
  const folder = await openFolder(folderOf({ 'index.ts': 'export {};\n', 'a.test.ts': 'import "./b";\n', 'b.ts': 'export {};\n' }), { cache: false });
  t.after(() => folder.close());
  for (const options of [undefined, {}, { production: false }]) assert.deepEqual((await folder.unused(options)).files, []);
  assert.deepEqual((await folder.unused({ production: true })).files, ['b.ts']);
});

test('the modules, and what can\'t be parsed', async () => {
  const folder = await openFolder(folderOf(MADE));
  assert.deepEqual([folder.entries, folder.modules], [['index.ts'], ['a.ts', 'b.ts', 'bad.ts', 'c.ts', 'global.d.ts', 'index.ts']]);
  assert.deepEqual(folder.faults.map(({ file, line, column }) => [file, line, column]), [['bad.ts', 1, 14]]);
  await folder.close();
  const made = folderOf(MADE);
  // it is there, and a read of it fails for whoever reads
  symlinkSync('/proc/self/mem', path.join(made, 'mem.ts'));
  const other = await openFolder(made, { entry: ['index.ts'] });
  assert.deepEqual(other.faults.map(({ file, line, column, text }) => [file, line, column, /^can't be read \(EIO\)$/.test(text)]), [['mem.ts', 1, 1, true], ['bad.ts', 1, 14, false]]);
  await other.close();
});

test('what is under way is told, and nothing where it has ended', async (t) => {
  /** @type {string[]} */
  const told = [];
  const folder = await openFolder(folderOf({ 'a.ts': 'export const a = 1;\n', 'b.ts': 'export const b = 1;\n' }), { cache: false, progress: (text) => void told.push(text) });
  t.after(() => folder.close());
  assert.deepEqual(told, ['parsed 0 of 2 files', 'parsed 1 of 2 files', '', 'waiting for symq: 1 query', '']);
  await folder.where({ file: 'a.ts', line: 1 });
  assert.deepEqual([told[5], told[told.length - 1]], ['waiting for symq: 1 query', '']);
});

test('calls at once are answered by one process, which ends when the directory is closed', async () => {
  const log = path.join(folderOf({}), 'log');
  const symq = program({}, 'symq', `#!/bin/sh\necho $$ >> ${log}\nexec ${findSymq(undefined)} "$@"\n`);
  const folder = await openFolder(SHOP, { symq, cache: false });
  const [names, unused, leaks, again] = await Promise.all([folder.names(), folder.unused(), folder.leaks(), folder.names()]);
  assert.deepEqual([names.length, unused.exports.length, leaks.length, again], [3, 1, 0, names]);
  const pids = readFileSync(log, 'utf8').trim().split('\n').map(Number);
  assert.equal(pids.length, 1);
  assert.ok(process.kill(pids[0], 0));
  await Promise.all([folder.close(), folder.close()]);
  assert.throws(() => process.kill(pids[0], 0), { code: 'ESRCH' });
});

test('what is under way when the directory is closed fails, and so does each later call', async () => {
  const symq = program({}, 'symq', '#!/bin/sh\nread line\necho \'{"module":"a"}\'\nread line\nsleep 600\n');
  const folder = await openFolder(SHOP, { symq, cache: false });
  const waiting = assert.rejects(folder.names(), { name: 'SymdirError', kind: 'closed', message: `${SHOP} is closed` });
  await folder.close();
  await waiting;
  await assert.rejects(folder.cycles(), { kind: 'closed' });
});

test('each error has its kind', async () => {
  const kindOf = async (/** @type {() => Promise<any>} */ work) => {
    const error = await work().then(() => assert.fail('no error'), (it) => it);
    assert.ok(error instanceof SymdirError && error instanceof Error, String(error));
    return error.kind;
  };
  const open = (/** @type {any} */ directory, /** @type {any} */ options = {}) => kindOf(() => openFolder(directory, options));
  const unreadable = folderOf({ 'index.ts': 'export const n = 1;\n' });
  const ended = program({}, 'symq', '#!/bin/sh\nexit 9\n');
  for (const it of [() => open(undefined), () => open('/none'), () => open(path.join(SHOP, 'item.ts')), () => open(SHOP, null), () => open(SHOP, { entry: ['none.ts'] }),
    () => open(SHOP, { entries: [] }), () => open(SHOP, { skip: ['a'] })]) assert.equal(await it(), 'argument');
  for (const symq of ['/none/symq', 'no-such-program']) assert.equal(await open(SHOP, { symq }), 'setup');
  assert.equal(await open(folderOf({ 'a.txt': '' })), 'source');
  assert.equal(await open(SHOP, { symq: ended }), 'engine');
  assert.equal(await open(SHOP, { symq: unreadable, cache: false }), 'setup');
  const folder = await openFolder(folderOf(MADE), { bodies: false });
  const spots = [{ file: 'none.ts', line: 1 }, { file: 'a.ts', line: 99 }, { file: 'a.ts', line: 0 }, { file: 'a.ts', line: 1.5 }, { file: 'a.ts' }, { file: 'a.ts', line: 1, at: 1 }, null];
  for (const it of /** @type {any[]} */ (spots)) {
    assert.equal(await kindOf(() => folder.where(it)), 'argument');
    assert.equal(await kindOf(() => folder.uses(it)), 'argument');
  }
  for (const work of [() => folder.exports('none.ts'), () => folder.unused(), () => folder.cycles()]) assert.equal(await kindOf(work), 'argument');
  for (const it of /** @type {const} */ (['unused', 'cycles'])) await assert.rejects(folder[it](), { message: `${it} needs function bodies: open the directory without bodies: false` });
  assert.equal(await kindOf(() => folder.where({ file: 'bad.ts', line: 1 })), 'source');
  assert.equal((await folder.names()).length, 4);
  const shop = await openFolder(SHOP);
  assert.equal(await kindOf(() => shop.unused(/** @type {any} */ ({ tests: true }))), 'argument');
  await Promise.all([folder.close(), shop.close()]);
});

/** @param {string} text of a module @param {string[]} [words] @returns {{ status: number | null, stdout: string, stderr: string }} of a process of its own, which imports the package by its name */
function run(text, words = []) {
  const folder = consumer({ 'it.mjs': text });
  const { status, stdout, stderr } = spawnSync(process.execPath, [path.join(folder, 'it.mjs'), ...words], { cwd: TOP, encoding: 'utf8', timeout: 300_000 });
  return { status, stdout, stderr };
}

test('it writes nothing and exits nowhere, and a process ends by itself when its directories are closed', () => {
  const text = `import v8 from 'node:v8';
v8.setFlagsFromString = (it) => console.log('V8 is told', it);
const { openFolder } = await import('symdir');
const [, , made, shop] = process.argv;
process.exit = () => console.log('exit is called');
const kinds = [];
for (const [directory, options] of [['/none', {}], [made, { symq: '/none/symq' }], [made, { entry: ['none.ts'] }], [made, { symq: '/bin/false' }]]) {
  await openFolder(directory, options).catch((error) => kinds.push(error.kind));
}
const folder = await openFolder(made, { cache: false });
await folder.where({ file: 'bad.ts', line: 1 }).catch((error) => kinds.push(error.kind));
const [a, b] = await Promise.all([folder, openFolder(shop)]);
console.log(kinds.join(), (await a.names()).length, (await b.names()).length);
if (Symbol.dispose) b[Symbol.dispose](); else await b.close();
if (Symbol.asyncDispose) await a[Symbol.asyncDispose](); else await a.close();
await b.names().catch((error) => console.log(error.kind));
`;
  assert.deepEqual(run(text, [folderOf(MADE), SHOP]), { status: 0, stdout: 'argument,setup,argument,engine,source 4 3\nclosed\n', stderr: '' });
});

test('a host that listens to signals decides about them, and temporary files go with its end', () => {
  const text = `import { readdirSync } from 'node:fs';
import { openFolder } from 'symdir';
const folder = await openFolder(process.argv[2], { cache: false });
let hear;
const heard = new Promise((resolve) => hear = resolve);
process.on('SIGINT', hear);
process.kill(process.pid, 'SIGINT');
console.log(await heard, (await folder.names()).length, readdirSync(process.env.TMPDIR).length);
process.off('SIGINT', hear);
process.kill(process.pid, 'SIGINT');
setTimeout(() => console.log('went on'), 60_000);
`;
  const temporary = folderOf({});
  const folder = consumer({ 'it.mjs': text });
  const options = { cwd: TOP, encoding: /** @type {const} */ ('utf8'), env: { ...process.env, TMPDIR: temporary } };
  const { signal, stdout, stderr } = spawnSync(process.execPath, [path.join(folder, 'it.mjs'), SHOP], options);
  assert.deepEqual([signal, stdout, stderr], ['SIGINT', 'SIGINT 3 1\n', '']);
  assert.deepEqual(readdirSync(temporary), []);
});

const CONFIG = { compilerOptions: { strict: true, noEmit: true, target: 'es2022', module: 'nodenext', moduleResolution: 'nodenext', skipLibCheck: false, types: [] }, include: ['*.ts'] };
const USER = `import { openFolder, SymdirError, type ErrorKind, type ExportedName, type Folder, type Leak } from "symdir";

export async function report(directory: string | URL): Promise<string[]> {
  const folder: Folder = await openFolder(directory, { entry: ["a.ts"], skip: [/x/], strict: true, progress: (text) => void text.length });
  try {
    const names: ExportedName[] = await folder.names();
    const leaks: Leak[] = await folder.leaks();
    const files: string[] = (await folder.unused({ production: true })).files;
    const [{ ways: [{ defined }] }] = await folder.where({ file: "a.ts", line: 1, column: 2 });
    const opens: number[] = (await folder.cycles()).cycles.map((it) => it.cut.opens);
    const kind: string = defined?.kind ?? "";
    return [...names.map((it) => it.defined[0]?.file ?? it.name), ...leaks.flatMap((it) => it.neededBy), ...files, ...opens.map(String), kind];
  } catch (error) {
    const why: ErrorKind | undefined = error instanceof SymdirError ? error.kind : undefined;
    return [why ?? ""];
  } finally {
    await folder[Symbol.asyncDispose]();
    folder[Symbol.dispose]();
  }
}
`;
const WRONG = `import { openFolder, SymdirError } from "symdir";
const folder = await openFolder("a");
// @ts-expect-error
await openFolder(1);
// @ts-expect-error
await openFolder("a", { entries: [] });
// @ts-expect-error
await openFolder("a", { skip: ["x"] });
// @ts-expect-error
await folder.where({ file: "a.ts" });
// @ts-expect-error
(await folder.names())[0].module;
// @ts-expect-error
(await folder.missing())[0].what === "none";
// @ts-expect-error
new SymdirError("a", "none");
// @ts-expect-error
folder.entries = [];
export {};
`;

test('a consumer\'s types', () => {
  const tsc = path.join(path.dirname(findTypeScript(PACKAGE).file), 'tsc.js');
  const folder = consumer({ 'user.ts': USER, 'wrong.ts': WRONG, 'package.json': '{ "type": "module" }', 'tsconfig.json': JSON.stringify(CONFIG) });
  const compiled = () => spawnSync(process.execPath, [tsc, '-p', '.'], { cwd: folder, encoding: 'utf8' });
  const { status, stdout } = compiled();
  assert.deepEqual([status, stdout], [0, '']);
  writeFileSync(path.join(folder, 'wrong.ts'), WRONG.replaceAll('// @ts-expect-error\n', '\n'));
  assert.equal(compiled().stdout.match(/^wrong\.ts\(/gm)?.length, 8);
});

test('symdir/README.md: the example prints what it says', () => {
  const [, example] = /```js\n([\s\S]*?)```/.exec(readFileSync(path.join(PACKAGE, 'README.md'), 'utf8')) ?? [];
  assert.ok(example?.includes('openFolder'));
  const wanted = [...example.matchAll(/\/\/ (.*)$/gm)].map((it) => `${it[1]}\n`).join('');
  assert.deepEqual(run(example), { status: 0, stdout: wanted, stderr: '' });
});

test('what the package has is what it names', () => {
  const { exports, files, bin } = JSON.parse(readFileSync(path.join(PACKAGE, 'package.json'), 'utf8'));
  for (const it of [exports['.'].types, exports['.'].default, bin.symdir, ...files]) assert.ok(existsSync(path.join(PACKAGE, it)), it);
  assert.equal(symdir(['--version']).stdout, `symdir ${JSON.parse(run('import it from "symdir/package.json" with { type: "json" };\nconsole.log(JSON.stringify(it.version));\n').stdout)}\n`);
});

test('each option and each key of a place has its type, and no other', async () => {
  const folder = folderOf({ 'index.ts': '' });
  const kindOf = (/** @type {() => unknown} */ it) => {
    try {
      it();
      return '';
    } catch (error) {
      return /** @type {any} */ (error).kind;
    }
  };
  const flags = ['js', 'packages', 'ambientExports', 'cache', 'strict', 'bodies'];
  /** @type {[string, unknown[], unknown[]][]} values that are taken, and others */
  const rows = [...flags.map((it) => /** @type {[string, unknown[], unknown[]]} */ ([it, [true, false, undefined], ['true', 1, null]])),
    ['entry', [[], ['a.ts'], ['a.ts', 'b.ts']], ['a.ts', [1], ['a.ts', null]]], ['skip', [[], [/a/], [/a/, /b/]], [/a/, ['a'], [/a/, 'b']]],
    ['symq', ['symq'], [1, null, ['symq']]], ['progress', [() => {}], ['a', null, true]]];
  for (const [key, taken, others] of rows) {
    for (const it of taken) assert.equal(kindOf(() => readingOf(folder, /** @type {any} */ ({ [key]: it }))), '', key);
    for (const it of others) assert.equal(kindOf(() => readingOf(folder, /** @type {any} */ ({ [key]: it }))), 'argument', `${key} ${it}`);
  }
  for (const it of [1, null, '', undefined]) assert.equal(kindOf(() => readingOf(/** @type {any} */ (it), {})), 'argument');
  assert.equal(readingOf(pathToFileURL(folder), {}).folder, folder);
  const { typescript, progress, ...rest } = readingOf(folder, {});
  assert.deepEqual(rest, { folder, skip: [], bodies: true, ambient: true, javascript: false, packages: false, cache: true });
  const spots = [{ file: 'a.ts' }, { line: 1 }, { file: 1, line: 1 }, { file: 'a.ts', line: 0 }, { file: 'a.ts', line: 1.5 }, { file: 'a.ts', line: '1' }, { file: 'a.ts', line: 1, column: 0 },
    { file: 'a.ts', line: 1, name: 1 }, { file: 'a.ts', line: 1, kind: 'a' }, null, 'a.ts:1'];
  for (const it of spots) assert.equal(kindOf(() => checkedSpot(/** @type {any} */ (it))), 'argument', JSON.stringify(it));
  assert.deepEqual(checkedSpot({ file: 'a.ts', line: 1 }), { spot: { file: 'a.ts', line: 1, column: null }, name: undefined });
  assert.deepEqual(checkedSpot({ file: 'a.ts', line: 2, column: 3, name: 'n' }), { spot: { file: 'a.ts', line: 2, column: 3 }, name: 'n' });
  const message = (/** @type {any} */ options) => () => readingOf(folder, options);
  assert.throws(message({ entries: [] }), { message: 'unknown option entries; there are entry, skip, js, packages, ambientExports, cache, strict, bodies, symq, progress' });
  assert.throws(message({ js: 1 }), { message: 'option js: 1 isn\'t of its type' });
  assert.throws(message(null), { message: 'option has to be an object' });
  const open = await openFolder(folder);
  const failed = await open.exports(/** @type {any} */ (undefined)).then(() => null, (error) => error).finally(() => open.close());
  assert.deepEqual([failed?.name, failed?.kind, failed?.message], ['SymdirError', 'argument', 'exports takes a file']);
});
