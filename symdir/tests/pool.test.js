import assert from 'node:assert/strict';
import { spawnSync } from 'node:child_process';
import { writeFileSync } from 'node:fs';
import path from 'node:path';
import test from 'node:test';
import v8 from 'node:v8';

import { Files } from '../lib/folder/files.js';
import { Pool } from '../lib/folder/pool.js';
import { queueOf, take } from '../lib/folder/queue.js';
import { Sources } from '../lib/folder/sources.js';
import { optimize } from '../lib/tree/budget.js';
import { ts } from '../lib/tree/typescript.js';
import { findTypeScript } from '../lib/typescript.js';
import { BIN, folderOf, waitingTypeScript } from './helper.js';

const COUNT = 40;
const HOW = { typescript: findTypeScript(process.cwd()).file, bodies: false, ambient: false };

/** @returns {import('../lib/folder/queue.js').Job[]} files, the last of which isn't there */
function jobs() {
  const folder = folderOf(Object.fromEntries(Array.from({ length: COUNT }, (_, i) => [`f${i}.ts`, `export const a${i} = "${'€'.repeat(i * 100)}";\n`])));
  return Array.from({ length: COUNT + 1 }, (_, i) => ({ file: path.join(folder, `f${i}.ts`), specifier: `file:///f${i}.ts` }));
}

/** @param {(done: import('../lib/folder/pool.js').Done) => Promise<unknown>} parse @returns {Promise<string[]>} what is told of each file, in their order */
async function told(parse) {
  /** @type {string[]} */
  const found = [];
  await parse((file, made, error) => found.push(`${path.basename(file)} ${made ? made.text.toString() : error}`));
  return found.sort();
}

test('each file is taken once', () => {
  const queue = queueOf(jobs());
  const taken = Array.from({ length: COUNT + 1 }, () => take(queue));
  assert.deepEqual(taken, queue.jobs);
  assert.deepEqual([take(queue), take(queue)], [undefined, undefined]);
});

test('several threads tell of each file what one does', async () => {
  const files = jobs();
  const one = new Pool(HOW);
  const several = new Pool(HOW);
  const alone = await told((done) => one.here(queueOf(files), done));
  const queue = queueOf(files);
  const beside = await told((done) => Promise.all([several.here(queue, done), several.inThreads(2, [queue], done)]));
  const others = await told((done) => several.inThreads(2, [queueOf(files)], done));
  await several.close();
  assert.equal(alone.length, COUNT + 1);
  assert.deepEqual(alone.filter((it) => it.endsWith(' ENOENT')), [`f${COUNT}.ts ENOENT`]);
  assert.deepEqual(beside, alone);
  assert.deepEqual(others, alone);
});

/** Is parsed in a thread of its own for its length. */
const HUGE = `export const a = 1; //${'.'.repeat(2_000_000)}\n`;

test('a file that the stack of this thread is too small for is parsed in another', async () => {
  const folder = folderOf({ 'deep.ts': `export const a = ${'['.repeat(3000)}${']'.repeat(3000)};\n`, 'b.ts': 'export const b = 1;\n' });
  const files = ['deep.ts', 'b.ts'].map((it) => ({ file: path.join(folder, it), specifier: `file:///${it}` }));
  const pool = new Pool(HOW);
  assert.equal((await pool.here(queueOf(files), () => {})).length, 1);
  /** @type {any[]} */
  const found = [];
  await pool.parse(files, (file, made, error) => found.push([path.basename(file), made?.fault, error]));
  await pool.close();
  assert.deepEqual(found.sort(), [['b.ts', null, null], ['deep.ts', null, null]]);
});

test('while a huge file is parsed timers go on, and a smaller one beside it is parsed too', async () => {
  const go = path.join(folderOf({}), 'go');
  const folder = folderOf({ 'huge.ts': HUGE, 'small.ts': 'export const a = 1;\n', ...waitingTypeScript(HOW.typescript, go) });
  const pool = new Pool({ ...HOW, typescript: path.join(folder, 'lib/typescript.js') });
  /** @type {string[]} */
  const found = [];
  // the huge file is done once the timer has run and the small file is
  const timer = setInterval(() => found.length === 1 && writeFileSync(go, ''), 10);
  await pool.parse(['huge', 'small'].map((it) => ({ file: path.join(folder, `${it}.ts`), specifier: `file:///${it}.ts` })), (file, made, error) => {
    found.push(`${path.basename(file)} ${made ? 'parsed' : error}`);
  });
  clearInterval(timer);
  await pool.close();
  assert.deepEqual(found, ['small.ts parsed', 'huge.ts parsed']);
});

/** Runs the words that follow the first one on a terminal, and makes the file that the first one names when the terminal has shown two times. */
const ON_TERMINAL = `
import os, pty, re, sys
process, terminal = pty.fork()
if process == 0:
    os.execv(sys.argv[2], sys.argv[2:])
said, part = b'', b' '
while part:
    try:
        part = os.read(terminal, 65536)
    except OSError:
        part = b''
    said += part
    if len(set(re.findall(rb'parsed 0 of 1 file, (\\d+) s', said))) > 1:
        open(sys.argv[1], 'w').close()
sys.stdout.buffer.write(said)
sys.exit(os.waitstatus_to_exitcode(os.waitpid(process, 0)[1]))
`;

test('a terminal shows how far it is while one huge file is parsed', () => {
  const go = path.join(folderOf({}), 'go');
  const packed = Object.entries(waitingTypeScript(HOW.typescript, go)).map(([name, text]) => [`node_modules/typescript/${name}`, text]);
  const folder = folderOf({ 'huge.ts': HUGE, ...Object.fromEntries(packed) });
  const words = [process.execPath, BIN, 'graph', folder, '-o', '/dev/null', '--no-cache'];
  const { status, stdout, error } = spawnSync('python3', ['-c', ON_TERMINAL, go, ...words], { encoding: 'utf8', maxBuffer: 1 << 26 });
  assert.equal(error, undefined);
  assert.equal(status, 0, stdout);
  const seconds = [...stdout.matchAll(/\r\x1b\[Kparsed 0 of 1 file, (\d+) s/g)].map((it) => Number(it[1]));
  assert.deepEqual(seconds, [...seconds].sort((a, b) => a - b));
  assert.ok(seconds[0] >= 1 && seconds[seconds.length - 1] > seconds[0], stdout);
});

test('a thread that ends is told', async () => {
  const pool = new Pool({ ...HOW, typescript: '/none/typescript.js' });
  await assert.rejects(pool.inThreads(1, [queueOf(jobs())], () => {}), /^Error: a parser thread failed: ENOENT/);
  await pool.close();
});

test('a thread that ends before it is asked is told, and holds nothing up', async () => {
  const pool = new Pool({ ...HOW, typescript: '/none/typescript.js' });
  pool.start(1);
  const [thread] = pool.threads;
  // nothing else keeps this process from its end meanwhile
  await assert.rejects(thread.holding(thread.failed), /ENOENT/);
  await thread.began;
  await assert.rejects(pool.inThreads(1, [queueOf(jobs())], () => {}), /^Error: a parser thread failed: ENOENT/);
  await pool.close();
});

test('a process that waits for the start of a thread alone goes on', () => {
  const program = `
    import { Thread } from ${JSON.stringify(new URL('../lib/folder/thread.js', import.meta.url).href)};
    const thread = new Thread(${JSON.stringify(HOW)});
    await thread.began;
    console.log('it runs');`;
  const { status, stdout } = spawnSync(process.execPath, ['--input-type=module', '-e', program], { encoding: 'utf8' });
  assert.deepEqual([status, stdout], [0, 'it runs\n']);
});

test('in all threads V8 is set for a short run, and looks for memory as usual where trees have many bytes', (t) => {
  const set = t.mock.method(v8, 'setFlagsFromString', () => {});
  const taken = () => {
    const found = set.mock.calls.map((it) => it.arguments[0]);
    set.mock.resetCalls();
    return found;
  };
  optimize(true);
  assert.deepEqual(taken(), ['--interrupt-budget=750000', '--heap-growing-percent=1000']);
  optimize(false);
  assert.deepEqual(taken(), ['--interrupt-budget=135168', '--heap-growing-percent=0']);
  const reading = { folder: folderOf({}), skip: [], bodies: false, ambient: true, cache: false, javascript: false, packages: false, progress: () => {} };
  const sources = (/** @type {object} */ more) => new Sources(/** @type {any} */ ({ reading: { ...reading, ...more }, files: new Files(reading.folder, []) }));
  const [own, guest] = [sources({}), sources({ typescript: { file: '', version: '' } })];
  for (const [bytes, wanted] of /** @type {[number, string[]][]} */ ([[15_999_999, []], [1, ['--heap-growing-percent=0']], [1, []]])) {
    own.count(/** @type {any} */ ({ text: { length: bytes } }));
    assert.deepEqual(taken(), wanted);
    guest.count(/** @type {any} */ ({ text: { length: bytes } }));
    assert.deepEqual(taken(), []);
  }
});
