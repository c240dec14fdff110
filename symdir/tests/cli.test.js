import assert from 'node:assert/strict';
import { spawn, spawnSync } from 'node:child_process';
import { once } from 'node:events';
import { cpSync, mkdirSync, readdirSync, readFileSync, rmSync, statSync, utimesSync, writeFileSync } from 'node:fs';
import path from 'node:path';
import test from 'node:test';
import { setTimeout } from 'node:timers/promises';

import { main } from '../lib/cli.js';
import { help } from '../lib/help.js';
import { findSymq } from '../lib/program.js';
import { BIN, answer, folderOf, program, symdir } from './helper.js';

const FILES = { 'a.ts': 'export * from "./b.ts";\n', 'b.ts': 'export const n = 1;\n' };

test('help', () => {
  assert.equal(symdir([]).status, 2);
  assert.match(symdir([]).stderr, /^symdir: what a directory of TypeScript/);
  for (const words of [['--help'], ['-h'], ['help']]) assert.match(symdir(words).stdout, /symdir leaks DIR/);
  for (const it of ['api', 'leaks', 'missing', 'where', 'web', 'graph', 'unused', 'uses', 'diff', 'cycles', 'affected']) {
    const { status, stdout } = symdir([it, '--help']);
    assert.equal(status, 0);
    assert.match(stdout, new RegExp(`^symdir ${it} `));
    assert.match(stdout, /--skip REGEX/);
    const others = { where: '0 definition found, 1 none', uses: '0 reference found, 1 none', affected: '0 no public name can change (with --check: did), 1 some' };
    const first = /** @type {Record<string, string>} */ (others)[it] ?? '0 no findings, 1 findings';
    assert.ok(stdout.endsWith(`Exit status: ${first}, 2 usage error, 3 failure.\n`));
    assert.ok(stdout.split('\n').every((line) => line.length <= 100));
    // its examples are runs of the command
    const examples = stdout.split('\n').filter((line) => /^ +symdir /.test(line));
    assert.deepEqual(examples.filter((line) => !line.startsWith(`  symdir ${it} `)), [], it);
    assert.ok(examples.length > 0);
  }
});

/** @param {any} value @returns {string[]} each key in it, however deep */
function keysIn(value) {
  if (Array.isArray(value)) return value.flatMap(keysIn);
  return value === null || typeof value !== 'object' ? [] : Object.entries(value).flatMap(([key, it]) => [key, ...keysIn(it)]);
}

test('help names each key that --json prints, and those at the top in their order', () => {
  const folder = folderOf({
    'index.ts': 'export * from "./a";\nexport * from "./c";\nexport * as all from "./a";\nexport * from "./gone";\nexport { none } from "./a";\nimport { x } from "./b.js";\nexport { x };\n',
    'a.ts': 'import "./index";\ninterface I {}\nexport class A { i!: I }\nexport const n = 1;\n', 'b.js': 'exports.x = 1;\n',
    'c.ts': 'export const n = 2;\n', 'lost.ts': 'export const lost = 1;\n', 'package.json': '{"types":"index.ts","dependencies":{"far":"1"}}' });
  const fresh = folderOf({ 'index.ts': 'export const n = 1;\n' });
  const baseline = path.join(folderOf({}), 'baseline.json');
  writeFileSync(baseline, '{"findings":[{"rule":"leaks/not-exported","file":"gone.ts","name":"Gone"}]}');
  for (const words of [['api', folder, '--strict'], ['api', folder, '--docs'], ['leaks', folder, '--baseline', baseline], ['api', folder, '--entry', 'b.js'], ['leaks', folder], ['missing', folder, '--strict'], ['where', folder, 'index.ts:5'],
    ['where', folder, 'index.ts:6', 'x'], ['web', folder], ['unused', folder], ['uses', folder, 'a.ts:3'], ['diff', folder, fresh], ['cycles', folder],
    ['affected', folder, 'a.ts'], ['affected', folder, 'a.ts', '--check', fresh]]) {
    const out = answer(words);
    const [, form] = symdir([words[0], '--help']).stdout.split('\nJSON:\n');
    const named = new Set(form.match(/\w+/g));
    assert.deepEqual(keysIn(out).filter((it) => !named.has(it)), [], words.join(' '));
    assert.ok(keysIn(out).length > 2, words.join(' '));
    if (Array.isArray(out)) continue;
    const places = Object.keys(out).map((it) => form.search(new RegExp(`\\b${it}\\b`)));
    assert.deepEqual(places, [...places].sort((a, b) => a - b), words.join(' '));
  }
});

test('--version', () => {
  const { version } = JSON.parse(readFileSync(new URL('../package.json', import.meta.url), 'utf8'));
  assert.deepEqual(symdir(['--version']), { status: 0, stdout: `symdir ${version}\n`, stderr: '' });
});

test('usage errors', () => {
  const said = (/** @type {string[]} */ ...words) => {
    const { status, stdout, stderr } = symdir(words);
    assert.deepEqual([status, stdout], [2, '']);
    return stderr;
  };
  assert.equal(said('what'), 'symdir: unknown command what; the commands are graph, api, leaks, missing, where, web, unused, uses, diff, cycles, affected\n');
  assert.equal(said('help', 'what'), 'symdir: unknown command what; the commands are graph, api, leaks, missing, where, web, unused, uses, diff, cycles, affected\n');
  assert.equal(said('constructor'), 'symdir: unknown command constructor; the commands are graph, api, leaks, missing, where, web, unused, uses, diff, cycles, affected\n');
  assert.equal(said('api', '.', '--save', 'a', '--check', 'b'), 'symdir: --save and --check can\'t be combined\n');
  assert.equal(said('api', '.', '--symq', 'a', '--unproved'), 'symdir: --symq and --unproved can\'t be combined\n');
  assert.equal(said('graph', '.', '--check', 'a'), 'symdir: --check takes a graph and no directory, not .\n');
  assert.equal(said('api'), 'symdir: a directory is required; see `symdir --help`\n');
  assert.equal(said('api', ''), 'symdir: a directory is required; see `symdir --help`\n');
  assert.equal(said('api', 'a', 'b'), 'symdir: api takes one directory, not a b\n');
  assert.equal(said('where', '.', 'a.ts:1', 'a', 'b'), 'symdir: where takes a directory, FILE:LINE and a name, not . a.ts:1 a b\n');
  assert.equal(said('api', '.', '--none'), 'symdir: Unknown option \'--none\'; see `symdir api --help`\n');
  assert.match(said('api', '.', '--entry'), /^symdir: Option '--entry <value>' argument missing; see `symdir api --help`\n$/);
  assert.match(said('api', '.', '--skip', '('), /^symdir: --skip \(: Invalid regular expression/);
  const folder = folderOf(FILES);
  assert.equal(said('api', folder, '--entry', 'c.ts'), `symdir: no such module: c.ts in ${folder}\n`);
  assert.equal(said('web', folder, '-o', 'x.bmp'), 'symdir: -o x.bmp: expected a file name that ends in .svg, .png, .pdf or .dot\n');
  assert.equal(said('api', folder, '--symq', '/none/symq'), 'symdir: no such program: /none/symq\n');
  for (const it of ['where', 'uses']) assert.equal(said(it, 'src/a.ts:3:14'), `symdir: the directory comes first, as in \`symdir ${it} . src/a.ts:3:14\`\n`);
  assert.equal(said('unused', 'src/a.ts:3'), 'symdir: the directory comes first, as in `symdir where . src/a.ts:3`\n');
});

/** @param {string[]} words of a usage error @returns {Promise<string>} what the command says of it, in this process */
async function refused(...words) {
  const { write } = process.stderr;
  let said = '';
  process.stderr.write = (/** @type {any} */ it) => Boolean((said += it));
  try {
    assert.equal(await main(words), 2, words.join(' '));
  } finally {
    process.stderr.write = write;
  }
  return said;
}

const REPORTED = ['api', 'leaks', 'missing', 'unused', 'diff', 'cycles'];
const ASKING = ['where', 'web', 'uses', 'affected'];
/** Options with a value. */
const VALUED = new Set(['skip', 'entry', 'symq', 'out', 'baseline', 'save', 'check', 'since']);
const given = (/** @type {string} */ it) => (VALUED.has(it) ? [`--${it}`, 'x'] : [`--${it}`]);

test('each pair of options that can\'t be combined, of each command that has them', async () => {
  const formats = ['json', 'markdown', 'sarif', 'annotations'];
  const pairs = (/** @type {string[]} */ list) => list.flatMap((one, i) => list.slice(i + 1).map((other) => [one, other]));
  const ambient = ['ambient-exports', 'no-ambient-exports'];
  const shared = [['symq', 'unproved'], ambient];
  const reports = [...shared, ...pairs(formats), ['annotations', 'out'], ...[...formats, 'out'].map((it) => ['save-baseline', it])];
  const watched = ['markdown', 'sarif', 'annotations', 'out', 'save-baseline'].map((it) => ['watch', it]);
  const own = /** @type {Record<string, string[][]>} */ ({
    leaks: watched, missing: watched,
    api: [...watched, ...['html', 'save', 'check'].map((it) => ['watch', it]), ...[...formats, 'html', 'out', 'baseline', 'check'].map((it) => ['save', it]), ['check', 'html'], ...formats.map((it) => ['html', it]), ['save-baseline', 'html']], graph: [['check', 'out'], ambient] });
  for (const command of [...REPORTED, ...ASKING, 'graph']) {
    const all = [...(own[command] ?? []), ...(REPORTED.includes(command) ? reports : ASKING.includes(command) ? shared : [])];
    for (const [one, other] of all) {
      const said = await refused(command, ...given(one), ...given(other));
      assert.ok([[one, other], [other, one]].some((it) => said === `symdir: ${it.map((name) => `--${name}`).join(' and ')} can't be combined\n`), `${command} ${one} ${other}: ${said}`);
    }
  }
});

test('the options of each command are those that its help lists, and flags are taken back by `no-`', async () => {
  const listed = new Map([...REPORTED, ...ASKING, 'graph'].map((it) => [it, new Set([...help(it).matchAll(/^ {2}(?:-o, )?--([a-z-]+)/gm)].map(([, name]) => name))]));
  // these stand in the first lines of the help
  for (const it of ['check', 'out']) listed.get('graph')?.add(it);
  const every = [...new Set([...listed.values()].flatMap((it) => [...it]))];
  assert.deepEqual(every.sort(), ['all', 'annotations', 'baseline', 'bodies', 'check', 'docs', 'entry', 'html', 'js', 'json', 'markdown', 'no-ambient-exports', 'no-cache', 'no-config', 'out', 'packages',
    'production', 'sarif', 'save', 'save-baseline', 'since', 'skip', 'strict', 'symq', 'unproved', 'verbose', 'watch']);
  for (const [command, names] of listed) {
    // where nothing is cut it changes nothing
    if (command !== 'graph') names.add('all');
    for (const it of every) {
      // an option that nothing takes comes last, so that a usage error is told in any case
      const said = await refused(command, ...given(it), '--none');
      assert.ok(said.startsWith(`symdir: Unknown option '--${names.has(it) ? 'none' : it}'`), `${command} --${it}: ${said}`);
      const negated = await refused(command, `--no-${it}`, '--none');
      const isFlag = names.has(it) && !VALUED.has(it) && !it.startsWith('no-');
      assert.ok(negated.startsWith(`symdir: Unknown option '--${isFlag ? 'none' : `no-${it}`}'`), `${command} --no-${it}: ${negated}`);
    }
  }
  assert.match(await refused('api', '.', '--no-help'), /^symdir: Unknown option '--no-help'/);
});

test('what can\'t be done', () => {
  const folder = folderOf(FILES);
  const said = (/** @type {string[]} */ ...words) => {
    const { status, stdout, stderr } = symdir(words);
    assert.deepEqual([status, stdout], [3, '']);
    return stderr;
  };
  assert.equal(said('api', folder, '--save', '/none/names'), 'symdir: /none/names can\'t be written (ENOENT)\n');
  assert.equal(said('api', folder, '--check', folder), `symdir: ${folder} can't be read (EISDIR)\n`);
  assert.equal(said('web', folder, '-o', '/none/web.dot'), 'symdir: /none/web.dot can\'t be written (ENOENT)\n');
  assert.equal(said('api', folderOf({})).replace(/\/\S+:/, ':'), 'symdir: no modules in : no file ends in .ts .tsx .mts .cts .js .jsx .mjs .cjs\n');
  assert.equal(said('api', folder, '--skip', '.'), `symdir: no modules in ${folder}: --skip excludes all 2\n`);
  assert.equal(said('api', folder, '--symq', 'none'), 'symdir: can\'t start none: not found; --symq FILE and SYMQ name the program symq, and `make symq` builds it\n');
  assert.match(said('api', folder, '--symq', path.join(folder, 'a.ts')), /^symdir: can't start \/\S+\/a\.ts: not executable; --symq FILE /);
});

test('a program that refuses, and one that dies', () => {
  const folder = folderOf(FILES);
  const refuses = program({}, 'symq', '#!/bin/sh\necho "symq: graph refused: 7 file:///a.ts 6 1" >&2\nexit 5\n');
  const refused = symdir(['api', folder, '--symq', refuses]);
  assert.deepEqual([refused.status, refused.stderr], [3, 'symdir: symq: graph refused: 7 file:///a.ts 6 1 (`symdir graph DIR -o graph.json` and `symdir graph --check graph.json` explain it)\n']);
  const dies = program({}, 'symq', '#!/bin/sh\nread line\nexit 9\n');
  assert.equal(symdir(['api', folder, '--symq', dies]).stderr, 'symdir: symq exited with status 9\n');
  const killed = program({}, 'symq', '#!/bin/sh\nkill -9 $$\n');
  assert.equal(symdir(['api', folder, '--symq', killed]).stderr, 'symdir: symq was killed by SIGKILL\n');
  const isOther = program({}, 'symq', '#!/bin/sh\nread line\necho hello\nsleep 60\n');
  assert.deepEqual(symdir(['api', folder, '--symq', isOther]).stderr, `symdir: unexpected output from ${isOther}\n`);
  const isNone = program({}, 'symq', 'no program');
  assert.equal(symdir(['api', folder, '--symq', path.dirname(isNone)]).status, 3);
});

test('symq is asked by strict rules, and a program that doesn\'t know them is told as such', () => {
  const knows = program({}, 'symq', '#!/bin/sh\necho "symq: words $1" >&2\nexit 6\n');
  for (const words of [[], ['--strict']]) assert.equal(symdir(['api', folderOf(FILES), '--symq', knows, ...words]).stderr, 'symdir: symq: words --strict\n');
  const older = program({}, 'symq', '#!/bin/sh\n[ $# -eq 1 ] || { echo "usage: symq GRAPH" >&2; exit 2; }\n');
  assert.deepEqual(symdir(['api', folderOf(FILES), '--symq', older]), {
    status: 3, stdout: '', stderr: `symdir: ${older} is older than symdir: it doesn't support --strict\n` });
});

test('a file that can\'t be parsed is told with its place, and is a finding', () => {
  const folder = folderOf({ 'index.ts': 'export * from "./b.ts";\nexport const a = 1;\n', 'b.ts': 'let a;\nconst b = ;\n' });
  for (const words of [['api', folder], ['api', folder, '--json'], ['leaks', folder], ['web', folder]]) {
    const { status, stderr } = symdir(words);
    assert.deepEqual([status, stderr], [1, 'symdir: b.ts:2:11: Expression expected.\n'], words.join(' '));
  }
  assert.match(symdir(['api', folder]).stdout, /^ {2}index\.ts:\d+:1: export \* from "\.\/b\.ts": b\.ts isn't analyzed, and its names are public too$/m);
  const found = symdir(['where', folder, 'index.ts:2']);
  assert.deepEqual([found.status, found.stderr], [0, 'symdir: b.ts:2:11: Expression expected.\n']);
  const faulty = symdir(['where', folder, 'b.ts:1']);
  assert.deepEqual([faulty.status, faulty.stderr], [3, 'symdir: b.ts:2:11: Expression expected.\nsymdir: a file with a syntax error isn\'t analyzed\n']);
});

test('a signal ends it as such, and its temporary folder is gone', async () => {
  const folder = folderOf(FILES);
  const silent = program({}, 'symq', '#!/bin/sh\nexec cat > /dev/null\n');
  for (const signal of /** @type {const} */ (['SIGINT', 'SIGTERM', 'SIGHUP'])) {
    const TMPDIR = folderOf({});
    const run = spawn(process.execPath, [BIN, 'api', folder, '--no-cache', '--symq', silent], { env: { ...process.env, TMPDIR } });
    const exit = once(run, 'exit');
    while (readdirSync(TMPDIR).length === 0 && run.exitCode === null) await setTimeout(20);
    assert.equal(readdirSync(TMPDIR).length, 1);
    run.kill(signal);
    assert.deepEqual(await exit, [null, signal]);
    assert.deepEqual(readdirSync(TMPDIR), []);
  }
});

test('the package by itself: what it needs is told', () => {
  const alone = folderOf({});
  for (const it of ['bin', 'lib', 'package.json']) cpSync(path.join(path.dirname(BIN), '..', it), path.join(alone, it), { recursive: true });
  const said = (/** @type {Record<string, string>} */ env, /** @type {string[]} */ ...words) => {
    const { status, stdout, stderr } = spawnSync(process.execPath, [path.join(alone, 'bin', 'symdir.js'), ...words], { encoding: 'utf8', env });
    assert.equal(stdout, '');
    return [status, stderr];
  };
  const folder = folderOf(FILES);
  assert.deepEqual(said({ PATH: '/none' }, 'api', folder), [
    3, 'symdir: symq not found: `make symq` builds it, --symq FILE names it, and --unproved makes an unverified build\n']);
  assert.deepEqual(said({ PATH: '/none' }, 'api', folder, '--symq', program({}, 'symq', '')), [
    3, `symdir: TypeScript not found: \`npm install typescript@5\` in ${folder}, or on Debian \`apt-get install node-typescript\` (4.8 to 6)\n`]);
  // symq of the PATH is taken, and not one of the current directory
  const onPath = path.dirname(program({}, 'symq', ''));
  assert.match(String(said({ PATH: `/none:${onPath}` }, 'api', folder)[1]), /^symdir: TypeScript not found: /);
  const inCurrent = spawnSync(process.execPath, [path.join(alone, 'bin', 'symdir.js'), 'api', folder], { encoding: 'utf8', cwd: onPath, env: { PATH: ':/none' } });
  assert.match(inCurrent.stderr, /^symdir: symq not found: /);
  const graph = path.join(folderOf({ 'g.json': '{}' }), 'g.json');
  const checked = spawnSync(process.execPath, [path.join(alone, 'bin', 'symdir.js'), 'graph', '--check', graph], { encoding: 'utf8', env: { PATH: '/none' } });
  assert.deepEqual([checked.status, checked.stdout], [0, `${graph}: no error found; symq, which decides, wasn't found: \`make symq\` builds it, --symq FILE names it\n`]);
  const typescript = path.join(alone, 'node_modules', 'typescript');
  for (const version of ['4.7.4', '7.0.0']) {
    mkdirSync(path.join(typescript, 'lib'), { recursive: true });
    writeFileSync(path.join(typescript, 'package.json'), JSON.stringify({ name: 'typescript', version }));
    writeFileSync(path.join(typescript, 'lib', 'typescript.js'), '');
    assert.deepEqual(said({ PATH: '/none' }, 'api', folder, '--symq', program({}, 'symq', '')), [
      3, `symdir: TypeScript ${version} (${typescript}/lib/typescript.js) isn't supported: \`npm install typescript@5\` in ${folder}, or on Debian \`apt-get install node-typescript\` (4.8 to 6)\n`]);
  }
  assert.deepEqual(said({ PATH: process.env.PATH ?? '' }, 'api', folder, '--unproved'), [
    2, 'symdir: --unproved works only in the repository of deno_symbols\n']);
});

test('more questions than a pipe holds at once are answered, each by its own answer', () => {
  const count = 6000;
  const text = Array.from({ length: count }, (_, i) => `export const name${i} = 1;\n`).join('');
  const folder = folderOf({ 'index.ts': text });
  assert.equal(symdir(['api', folder, '--json', '-o', path.join(folder, 'names.json')]).status, 0);
  const { names } = JSON.parse(readFileSync(path.join(folder, 'names.json'), 'utf8'));
  assert.deepEqual(names.map((/** @type {any} */ it) => [it.name, it.defined[0].line]), Array.from({ length: count }, (_, i) => [`name${i}`, i + 1]));
});

test('a program that is named and isn\'t there is told, and `graph --check` goes without one that isn\'t named', () => {
  const folder = folderOf({ ...FILES, 'g.json': '{}' });
  assert.deepEqual(symdir(['graph', '--check', path.join(folder, 'g.json'), '--symq', '/none/symq']), { status: 2, stdout: '', stderr: 'symdir: no such program: /none/symq\n' });
  assert.deepEqual(symdir(['api', folder, '--symq', '/none/symq']), { status: 2, stdout: '', stderr: 'symdir: no such program: /none/symq\n' });
  // a name without a slash is looked for on the PATH
  const bin = path.dirname(program({}, 'symq-by-name', `#!/bin/sh\nexec '${path.resolve(findSymq(undefined))}' "$@"\n`));
  for (const words of [['--symq', 'symq-by-name'], []]) {
    const { status, stderr } = symdir(['api', folder, ...words], { env: { PATH: `${bin}:${process.env.PATH}`, SYMQ: words.length > 0 ? '' : 'symq-by-name' } });
    assert.deepEqual([status, stderr], [0, '']);
  }
});

test('a folder that isn\'t there is told before a program that isn\'t', () => {
  assert.deepEqual(symdir(['api', '/none'], { env: { SYMQ: '/none/symq' } }), { status: 3, stdout: '', stderr: 'symdir: no such directory: /none\n' });
});

test('a temporary folder that can\'t be written', () => {
  const { status, stderr } = symdir(['api', folderOf(FILES), '--no-cache'], { env: { TMPDIR: '/none' } });
  assert.deepEqual([status, stderr], [3, 'symdir: /none can\'t be written (ENOENT)\n']);
});

test('the program of SYMQ, and none', () => {
  const env = { SYMQ: '/none/symq' };
  assert.deepEqual(symdir(['api', folderOf(FILES)], { env }), { status: 3, stdout: '', stderr: 'symdir: no such program: /none/symq\n' });
});

test('an output that nobody reads is no fault, and leaves nothing behind', () => {
  const TMPDIR = folderOf({});
  const line = `("${process.execPath}" "${BIN}" api "${folderOf(FILES)}" --no-cache; echo $? >&2) | true`;
  const { stderr } = spawnSync('sh', ['-c', line], { encoding: 'utf8', env: { ...process.env, TMPDIR } });
  assert.equal(stderr, '0\n');
  assert.deepEqual(readdirSync(TMPDIR), []);
});

test('trees are kept, and a changed file alone is parsed again', () => {
  const cache = folderOf({});
  const folder = folderOf(FILES);
  const env = { XDG_CACHE_HOME: cache };
  const names = () => JSON.parse(symdir(['api', folder, '--json'], { env }).stdout).names.map((/** @type {any} */ it) => it.name);
  assert.deepEqual(names(), ['n']);
  const [file] = readdirSync(path.join(cache, 'symdir')).filter((it) => it.endsWith('.trees'));
  const kept = path.join(cache, 'symdir', file);
  const before = readFileSync(kept);
  assert.deepEqual(names(), ['n']);
  assert.deepEqual(readFileSync(kept), before);
  writeFileSync(path.join(folder, 'b.ts'), 'export const m = 1;\n');
  assert.deepEqual(names(), ['m']);
  // what is kept goes by what a file has, and not by when it was written
  utimesSync(path.join(folder, 'b.ts'), 1, 1);
  writeFileSync(path.join(folder, 'b.ts'), 'export const k = 1;\n');
  utimesSync(path.join(folder, 'b.ts'), 1, 1);
  assert.deepEqual(names(), ['k']);
  writeFileSync(kept, 'no trees');
  assert.deepEqual(names(), ['k']);
  assert.notDeepEqual(readFileSync(kept), Buffer.from('no trees'));
});

test('what is made of TypeScript is kept, and made anew where it is none', () => {
  const cache = folderOf({});
  const folder = folderOf(FILES);
  const run = () => symdir(['api', folder], { env: { XDG_CACHE_HOME: cache } });
  const first = run();
  assert.deepEqual([first.status, first.stderr], [0, '']);
  const files = readdirSync(path.join(cache, 'symdir')).sort((a, b) => path.extname(a).localeCompare(path.extname(b)));
  assert.deepEqual(files.map((it) => path.extname(it)), ['.compiled', '.graph', '.js', '.trees']);
  const [compiled, , , trees] = files.map((it) => path.join(cache, 'symdir', it));
  writeFileSync(compiled, 'no compiled form');
  rmSync(trees);
  assert.deepEqual(run(), first);
  assert.notDeepEqual(readFileSync(compiled), Buffer.from('no compiled form'));
});

test('what is made of TypeScript is taken by the next run, and stays as it is, where a text was long too', () => {
  for (const text of ['export const a = 1;\n', `export const a = 1;\n// ${'x'.repeat(1_000_000)}\n`]) {
    const cache = folderOf({});
    const folder = folderOf({ 'index.ts': text });
    const run = () => assert.equal(symdir(['api', folder], { env: { XDG_CACHE_HOME: cache } }).status, 0);
    const written = () => {
      const files = readdirSync(path.join(cache, 'symdir')).map((it) => path.join(cache, 'symdir', it));
      files.filter((it) => it.endsWith('.trees')).forEach((it) => rmSync(it));
      return files.filter((it) => it.endsWith('.compiled')).map((it) => statSync(it, { bigint: true }).mtimeNs);
    };
    run();
    const first = written();
    assert.equal(first.length, 1);
    run();
    assert.deepEqual(written(), first, `${text.length} characters`);
  }
});

test('--no-cache keeps nothing, and a cache folder that can\'t be written does no harm', () => {
  const cache = folderOf({ file: '' });
  const folder = folderOf(FILES);
  assert.equal(symdir(['api', folder, '--no-cache'], { env: { XDG_CACHE_HOME: cache } }).status, 0);
  assert.deepEqual(readdirSync(cache), ['file']);
  assert.equal(symdir(['api', folder], { env: { XDG_CACHE_HOME: path.join(cache, 'file') } }).status, 0);
});
