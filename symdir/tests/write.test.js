// Nothing is lost where a write fails, a reader is slow, or a run is ended.
import assert from 'node:assert/strict';
import { spawnSync } from 'node:child_process';
import { chmodSync, linkSync, readFileSync, readdirSync, statSync, symlinkSync, writeFileSync } from 'node:fs';
import path from 'node:path';
import test from 'node:test';
import { fileURLToPath, pathToFileURL } from 'node:url';

import { BIN, folderOf, program, symdir } from './helper.js';

const WRITE = fileURLToPath(new URL('../lib/write.js', import.meta.url));
/** A graph of over 200 KB, more than a pipe takes at once. */
const LARGE = { 'index.ts': Array.from({ length: 1500 }, (_, i) => `export const name${i} = ${i};\n`).join('') };
const SMALL = { 'index.ts': 'export * from "./b.ts";\n', 'b.ts': 'export const n = 1;\n' };

/** @param {string} line for the shell, in which `$symdir` is the command @param {Record<string, string>} [env] */
function shell(line, env = {}) {
  const { status, stdout, stderr } = spawnSync('sh', ['-c', line], {
    encoding: 'utf8', env: { ...process.env, symdir: `${process.execPath} ${BIN}`, ...env }, maxBuffer: 1 << 28 });
  return { status, stdout, stderr };
}

/** @param {string} cache @returns {string[]} what is kept there, with what isn't whole */
function keptIn(cache) {
  return readdirSync(path.join(cache, 'symdir')).map((it) => path.extname(it)).sort();
}

test('a graph goes whole through a pipe whose reader is slow', () => {
  const folder = folderOf(LARGE);
  const file = path.join(folderOf({}), 'g.json');
  assert.equal(symdir(['graph', folder, '-o', file]).status, 0);
  const dropped = path.join(folderOf({}), 'said');
  // the reader stops behind the first byte, so that the pipe is full before it goes on
  const { stdout, stderr } = shell(`($symdir graph '${folder}'; echo "status $?" >&2) | (dd bs=1 count=1 2> '${dropped}'; sleep 1; cat)`);
  assert.equal(stderr, 'status 0\n');
  assert.equal(stdout, readFileSync(file, 'utf8'));
  assert.ok(stdout.length > 200_000);
});

test('standard output that can\'t be written is one line and the status 3', () => {
  const folder = folderOf(SMALL);
  const said = { status: 3, stdout: '', stderr: 'symdir: standard output can\'t be written (ENOSPC)\n' };
  for (const words of ['graph', 'api', 'api --json', 'missing', 'leaks', 'web', 'where --json']) {
    const [name, ...options] = words.split(' ');
    const place = name === 'where' ? 'b.ts:1' : '';
    assert.deepEqual(shell(`$symdir ${name} '${folder}' ${place} ${options.join(' ')} > /dev/full`), said, words);
  }
  assert.deepEqual(shell('$symdir --help > /dev/full'), said);
});

test('standard output that is a file, and ends in the middle of a write', () => {
  const [folder, out] = [folderOf(LARGE), path.join(folderOf({}), 'out')];
  for (const words of ['graph', 'api --json']) {
    // the limit of a file's length is in blocks of 512 bytes, and the graph for symq is longer than the answer
    const silent = program({}, 'symq', '#!/bin/sh\nexec cat > /dev/null\n');
    const { status, stderr } = shell(`ulimit -f 40; $symdir ${words} '${folder}' --no-cache --symq '${words === 'graph' ? '' : silent}' > '${out}'`);
    assert.equal(status, 3);
    assert.match(stderr, /^symdir: [^\n]* can't be written \(EFBIG\)\n$/);
  }
});

test('standard output that is a file, and ends in the middle of the last write', () => {
  // ten modules pass on the same names, so that the answer, which is written at once, is longer than the limit and the graph isn't
  const passing = Object.fromEntries(Array.from({ length: 10 }, (_, i) => [`entry${i}.ts`, 'export * from "./names.ts";\n']));
  const names = Array.from({ length: 200 }, (_, i) => `export const name${i} = ${i};\n`).join('');
  const [folder, out] = [folderOf({ ...passing, 'names.ts': names }), path.join(folderOf({}), 'out')];
  const whole = symdir(['api', folder, '--json', '--no-cache']).stdout.length;
  const graph = symdir(['graph', folder, '--no-cache']).stdout.length;
  const limit = Math.ceil(graph / 512) + 1;
  assert.ok(limit * 512 < whole, `${graph} ${whole}`);
  assert.deepEqual(shell(`ulimit -f ${limit}; $symdir api '${folder}' --json --no-cache > '${out}'`), { status: 3, stdout: '', stderr: 'symdir: standard output can\'t be written (EFBIG)\n' });
});

test('a graph that can\'t be written leaves the one that is there, and nothing beside it', () => {
  const [folder, to] = [folderOf(LARGE), folderOf({ 'g.json': 'before' })];
  assert.deepEqual(shell(`ulimit -f 40; $symdir graph '${folder}' --no-cache -o '${to}/g.json'`), {
    status: 3, stdout: '', stderr: `symdir: ${to}/g.json can't be written (EFBIG)\n` });
  assert.deepEqual(readdirSync(to), ['g.json']);
  assert.equal(readFileSync(`${to}/g.json`, 'utf8'), 'before');
  assert.deepEqual(symdir(['graph', folder, '-o', '/dev/full']), {
    status: 3, stdout: '', stderr: 'symdir: /dev/full can\'t be written (ENOSPC)\n' });
});

test('nothing is made where nothing is written', () => {
  const to = folderOf({});
  assert.equal(symdir(['graph', folderOf({ 'readme.md': '' }), '-o', `${to}/g.json`]).status, 3);
  assert.deepEqual(symdir(['graph', folderOf(SMALL), '-o', to]), { status: 3, stdout: '', stderr: `symdir: ${to} can't be written (EISDIR)\n` });
  assert.deepEqual(readdirSync(to), []);
});

test('what is written takes the place of what is there at once', () => {
  const folder = folderOf(SMALL);
  for (const [name, ...words] of [['graph', '-o'], ['api', '--save'], ['web', '-o']]) {
    const before = '# public names: before\n';
    const file = path.join(folderOf({ 'old.dot': before }), 'old.dot');
    // another name of the same file: what overwrites it in place is seen there
    linkSync(file, `${file}.other`);
    assert.equal(symdir([name, folder, ...words, file]).status, 0, name);
    assert.equal(readFileSync(`${file}.other`, 'utf8'), before, name);
    assert.notEqual(readFileSync(file, 'utf8'), before, name);
  }
});

test('a picture that Graphviz ends in the middle of leaves the one that is there', () => {
  const dot = program({}, 'dot', '#!/bin/sh\necho half\n[ -z "$3" ] || echo half > "$3"\nexit 1\n');
  const file = path.join(folderOf({ 'web.svg': 'before' }), 'web.svg');
  assert.equal(symdir(['web', folderOf(SMALL), '-o', file], { env: { PATH: `${path.dirname(dot)}:${process.env.PATH}` } }).status, 3);
  assert.equal(readFileSync(file, 'utf8'), 'before');
  assert.deepEqual(readdirSync(path.dirname(file)), ['web.svg']);
});

test('a cache that can\'t be written is no failure, and has nothing that isn\'t whole', () => {
  const folder = folderOf(LARGE);
  const whole = folderOf({});
  const { stdout } = symdir(['api', folder, '--json'], { env: { XDG_CACHE_HOME: whole } });
  assert.deepEqual(keptIn(whole), ['.compiled', '.graph', '.js', '.trees']);
  const sizeOf = (/** @type {string} */ ending) => Math.max(...readdirSync(path.join(whole, 'symdir')).filter((it) => it.endsWith(ending)).map((it) => statSync(path.join(whole, 'symdir', it)).size));
  assert.ok(sizeOf('.trees') > sizeOf('.graph') + 2048);
  // the graph is shorter than the limit, the trees and TypeScript's parser are longer
  const blocks = Math.ceil(sizeOf('.graph') / 512) + 1;
  const full = folderOf({});
  assert.deepEqual(shell(`ulimit -f ${blocks}; $symdir api '${folder}' --json`, { XDG_CACHE_HOME: full }), { status: 0, stdout, stderr: '' });
  assert.deepEqual(keptIn(full), ['.graph']);
  // none of them fits, and the graph is written elsewhere, which fails too
  const none = folderOf({});
  const failed = shell(`ulimit -f 40; $symdir api '${folder}'`, { XDG_CACHE_HOME: none });
  assert.deepEqual([failed.status, failed.stdout], [3, '']);
  assert.match(failed.stderr, /^symdir: \/\S+\/graph\.json can't be written \(EFBIG\)\n$/);
  assert.deepEqual(keptIn(none), []);
});

test('a file keeps its mode, a link stays a link, and a failed write leaves nothing', () => {
  const folder = folderOf({ 'a.txt': 'before' });
  const [file, link] = [path.join(folder, 'a.txt'), path.join(folder, 'b.txt')];
  chmodSync(file, 0o640);
  symlinkSync('a.txt', link);
  const write = (/** @type {string} */ before, /** @type {string} */ text) => shell(
    `${before} ${process.execPath} --input-type=module -e 'import { replaceFile } from "${pathToFileURL(WRITE)}"; replaceFile("${link}", [Buffer.alloc(3000, "${text}")])'`);
  assert.equal(write('', 'x').status, 0);
  assert.equal(readFileSync(file, 'utf8'), 'x'.repeat(3000));
  assert.equal(statSync(file).mode & 0o777, 0o640);
  assert.notEqual(write('ulimit -f 2;', 'y').status, 0);
  assert.equal(readFileSync(link, 'utf8'), 'x'.repeat(3000));
  assert.deepEqual(readdirSync(folder).sort(), ['a.txt', 'b.txt']);
  writeFileSync(link, 'z');
  assert.equal(readFileSync(file, 'utf8'), 'z');
});
