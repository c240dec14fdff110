// What the repository's own commands say where something lacks that they need.
import assert from 'node:assert/strict';
import { spawnSync } from 'node:child_process';
import { cpSync, readFileSync } from 'node:fs';
import path from 'node:path';
import test from 'node:test';
import { fileURLToPath } from 'node:url';

import { findSymq } from '../lib/program.js';
import { folderOf, program } from './helper.js';

const TOP = fileURLToPath(new URL('../../', import.meta.url));

/** @param {string} command @param {string[]} words @param {string} [cwd] */
function run(command, words, cwd = TOP) {
  const { status, stdout, stderr } = spawnSync(command, words, { cwd, encoding: 'utf8', env: { ...process.env, GIT_CEILING_DIRECTORIES: path.dirname(cwd) } });
  return { status, stdout, stderr };
}

test('the gate without a repository, and large graphs without the program, end in one line', () => {
  const copy = folderOf({});
  for (const it of ['tools', 'crates.txt']) cpSync(path.join(TOP, it), path.join(copy, it), { recursive: true });
  assert.deepEqual(run('python3', ['tools/gate.py'], copy), {
    status: 1, stdout: '', stderr: 'the gate needs git and a clone of the repository: which wrong bodies are due goes by the number of commits\n' });
  assert.deepEqual(run('python3', ['tools/run_plain.py', '/none/symq']), {
    status: 1, stdout: '', stderr: 'no program /none/symq: `make symq` builds it\n' });
});

test('what can\'t be installed is told with what kept the lists of packages from being updated', () => {
  const bin = path.dirname(program({}, 'apt-get', '#!/bin/sh\n[ "$1" = update ] && { echo "E: Could not get lock"; exit 100; }\necho "E: Unable to locate package $4"; exit 100\n'));
  const { status, stderr } = spawnSync('python3', ['-c', 'import set_up; set_up.install(["a"])'], {
    cwd: path.join(TOP, 'tools'), encoding: 'utf8', env: { ...process.env, PATH: `${bin}:${process.env.PATH}` } });
  assert.deepEqual([status, stderr], [1, 'installing a\nE: Could not get lock\nE: Unable to locate package a\n\n']);
});

test('bench/sources.mjs says how it is called', () => {
  const usage = 'usage: node bench/sources.mjs [--rounds N] [--symq FILE] [--environment as-is] FOLDER..\n';
  assert.deepEqual(run(process.execPath, ['bench/sources.mjs', '--help']), { status: 0, stdout: usage, stderr: '' });
  assert.deepEqual(run(process.execPath, ['bench/sources.mjs', '--none']), { status: 2, stdout: '', stderr: `sources.mjs: Unknown option '--none'\n${usage}` });
  assert.deepEqual(run(process.execPath, ['bench/sources.mjs', '/none']), { status: 2, stdout: '', stderr: `sources.mjs: no directory /none\n${usage}` });
});

test('bench/commands.mjs says how it is called', () => {
  const usage = 'usage: node bench/commands.mjs [--rounds N] [--symq FILE] [--typescript DIR] [--commands NAME,..] FOLDER..\n';
  const said = (/** @type {string[]} */ ...words) => run(process.execPath, ['bench/commands.mjs', ...words]);
  const wrong = (/** @type {string} */ text) => ({ status: 2, stdout: '', stderr: `commands.mjs: ${text}\n${usage}` });
  assert.deepEqual(said('--help'), { status: 0, stdout: usage, stderr: '' });
  assert.deepEqual(said('--none'), wrong("Unknown option '--none'"));
  assert.deepEqual(said('/none'), wrong('no directory /none'));
  assert.deepEqual(said('--commands', 'x', TOP), wrong('no command x; there are api, api --html, leaks, missing, where, uses, unused, cycles, web, diff'));
  const { status, stdout } = said('--rounds', '1', '--commands', 'api,uses', '--symq', findSymq(undefined), path.join(TOP, 'examples/shop/new'));
  assert.equal(status, 0);
  assert.match(stdout, /^new api: service clock .+\n {2}cold .+\n {2}cached .+\n {2}symdir 3, service 3\nnew uses: .+\n.+\n.+\n {2}symdir ([1-9]\d*), service \1\n\n/);
  assert.match(stdout, /\n\| command \| new \|\n\|---\|---\|\n\| `api` \| [\d.]+; [\d.]+ \|\n\| `uses` \| [\d.]+; [\d.]+ \|\n$/);
});

test('what bench/commands.mjs times finds as much: a syntax error is missing, ways of names are edges, and a page has members', () => {
  const counts = (/** @type {string} */ commands, /** @type {Record<string, string>} */ files) => {
    const { status, stdout } = run(process.execPath, ['bench/commands.mjs', '--rounds', '1', '--commands', commands, '--symq', findSymq(undefined), folderOf(files)]);
    assert.equal(status, 0);
    return stdout.match(/symdir \d+, service \d+/g);
  };
  assert.deepEqual(counts('missing,web', {
    'index.ts': 'import { gone } from "./a";\nimport "./none";\nexport * from "./a";\nexport * as space from "./b";\nexport { gone };\nexport const own = 1;\n',
    'a.ts': 'export * from "./b";\nexport const a = 1;\n', 'b.ts': 'export const b = 1;\n', 'wrong.d.ts': '"text".',
  }), ['symdir 3, service 3', 'symdir 3, service 3']);
  // of a module that isn't there no name is told, and packages that are named, modules of Node and files that are no code aren't missing; tests are roots beside others alone
  const imports = ['import { a, b } from "./none";', 'import "named/deep";', 'import { x } from "@s/named";', 'import "unnamed";', 'import { join } from "path";', 'import "./a.css";', 'import "./b.css";', 'export { y } from "./in/a";'];
  const inner = { 'in/a.ts': 'import "inner";\nexport const y = 1;\nexport const z = 2;\n', 'in/package.json': '{"peerDependencies":{"inner":"1"}}' };
  const named = { 'package.json': '{"dependencies":{"named":"1"},"devDependencies":{"@s/named":"1"}}', 'a.css': '' };
  assert.deepEqual(counts('missing,unused', { 'index.ts': imports.join('\n'), 'tests/t.ts': 'export const t = 1;\n', ...inner, ...named }), ['symdir 3, service 3', 'symdir 1, service 1']);
  // four names, and as members six of A, two of E and four of I
  assert.deepEqual(counts('api --html', {
    'index.ts': '/** A. */\nexport class A { private own = 1; shown = 1; static make() {} constructor(readonly at: number) {} }\nexport namespace A { export interface In { x: number } const own = 1; }\n'
      + 'export enum E { One, Two }\nexport interface I { (a: string): void; new (b: string): I; [key: string]: any; m(): void }\nexport * from "./b";\n', 'b.ts': 'export const b = 1;\n',
  }), ['symdir 16, service 16']);
  assert.deepEqual(counts('unused', { 'tests/a.ts': 'import { t } from "./t";\nexport const a = t;\n', 'tests/t.ts': 'export const t = 1, u = 2;\n' }), ['symdir 1, service 1']);
});

test('bench/commands.mjs compares a directory with a copy that has one name more, by `diff`', () => {
  const folder = path.join(TOP, 'examples/shop/new');
  const { status, stdout } = run(process.execPath, ['bench/commands.mjs', '--rounds', '1', '--commands', 'diff', '--symq', findSymq(undefined), folder]);
  assert.deepEqual([status, stdout.match(/symdir \d+, service \d+/g)], [0, ['symdir 1, service 1']]);
});

test('bench/saves.mjs says how it is called, and times each save', () => {
  const usage = 'usage: node bench/saves.mjs [--saves N] [--command NAME] [--symq FILE] [--typescript DIR] FOLDER FILE\n';
  const said = (/** @type {string[]} */ ...words) => run(process.execPath, ['bench/saves.mjs', ...words]);
  const wrong = (/** @type {string} */ text) => ({ status: 2, stdout: '', stderr: `saves.mjs: ${text}\n${usage}` });
  assert.deepEqual(said('--help'), { status: 0, stdout: usage, stderr: '' });
  assert.deepEqual(said('--none'), wrong("Unknown option '--none'"));
  assert.deepEqual(said('--saves', '0', TOP, 'a.ts'), wrong('--saves is a number from 1'));
  assert.deepEqual(said('--command', 'web', TOP, 'a.ts'), wrong('no command web; there are api, leaks, missing'));
  assert.deepEqual(said(TOP), wrong('which directory, and which file in it?'));
  assert.deepEqual(said('examples/shop/new', 'none.ts'), wrong('no file none.ts in examples/shop/new'));
  const { status, stdout } = said('--saves', '2', '--symq', findSymq(undefined), path.join(TOP, 'examples/shop/new'), 'item.ts');
  assert.equal(status, 0);
  assert.match(stdout, /^new api --watch, 2 saves of item\.ts: clock median \d+ ms, worst \d+ ms; its process median \d+ ms, worst \d+ ms\n$/);
});

test('bench/huge.mjs says how it is called', () => {
  const usage = 'usage: node bench/huge.mjs [--megabytes N] [--rounds N] [--kinds KIND,..] [--command]\n';
  const said = (/** @type {string[]} */ ...words) => run(process.execPath, ['bench/huge.mjs', ...words]);
  assert.deepEqual(said('--help'), { status: 0, stdout: usage, stderr: '' });
  assert.deepEqual(said('--none'), { status: 2, stdout: '', stderr: `huge.mjs: Unknown option '--none'\n${usage}` });
  assert.deepEqual(said('--kinds', 'x'), { status: 2, stdout: '', stderr: `huge.mjs: no kind x: there are docs, imports, classes, object, interface, namespace, mixed\n${usage}` });
  assert.deepEqual(said('--rounds', '0'), { status: 2, stdout: '', stderr: `huge.mjs: --megabytes and --rounds are numbers from 1\n${usage}` });
  assert.match(said('--megabytes', '0.01', '--rounds', '1', '--kinds', 'docs,object').stdout, /^docs +parser clock [\d.]+ s, processors [\d.]+ s; converted clock [\d.]+ s \([\d.]+\), processors [\d.]+ s \([\d.]+\); load [\d.]+\nobject .*\n$/);
});

/** @param {string} text of a program in Python, among the tools @param {Record<string, string>} [env] */
function python(text, env = {}) {
  const { status, stdout, stderr } = spawnSync('python3', ['-c', `import sys\nsys.path.insert(0, 'tools')\n${text}`], { cwd: TOP, encoding: 'utf8', env: { ...process.env, ...env } });
  return { status, stdout, stderr };
}

test('what lacks is installed, after an update of the lists where that fails first', () => {
  const log = path.join(folderOf({}), 'log');
  const stub = program({}, 'apt-get', `#!/bin/sh\necho "$@" >> '${log}'\n[ "$1" = update ] || grep -q '^update' '${log}'\n`);
  const install = (/** @type {string} */ more) => python(`import set_up\nset_up.may_install = lambda: True\n${more}`, { PATH: `${path.dirname(stub)}:${process.env.PATH}` });
  assert.deepEqual(install("set_up.ensure_directories([('/none/b', 'b'), ('/', 'there'), ('/none/a', 'a'), ('/none/c', 'b')])"), { status: 0, stdout: '', stderr: 'installing a, b\n' });
  const words = 'install -y --no-install-recommends a b';
  assert.equal(readFileSync(log, 'utf8'), `${words}\nupdate\n${words}\n`);
  assert.deepEqual(python("import set_up\nset_up.may_install = lambda: False\nset_up.ensure_directories([('/none/a', 'a')])"), { status: 1, stdout: '', stderr: 'packages of Debian are needed: install a\n' });
});

test('packages are compared with the TypeScript that is installed, and with the newest where it is there', () => {
  const run = (/** @type {string} */ newest) => python(`import contextlib, run_symdir as r
r.ensure_directories = lambda rows: print(len(rows) > 24)
r.installed_typescript, r.newest_typescript = lambda: 'old', lambda: ${newest}
r.with_typescript = lambda it: contextlib.nullcontext()
r.version_of = lambda it: it
r.run_tests = lambda files, environment: (len(files), [])
print(r.run_over_packages('symq'))`);
  const { stdout } = run("'new'");
  const count = Number(/^TypeScript old: (\d+) passed, 0 failed$/m.exec(stdout)?.[1]);
  assert.equal(stdout, `True\nTypeScript old: ${count} passed, 0 failed\nTypeScript new: ${count} passed, 0 failed\n(${2 * count}, [])\n`);
  assert.equal(run('None').stdout, `True\nTypeScript of Debian's newest suite can't be had here: compared with the one that is installed alone\nTypeScript old: ${count} passed, 0 failed\n(${count}, [])\n`);
});

test('tests that fail are named in the last lines, with what is said of them before', () => {
  const right = "import test from 'node:test';\ntest('right', () => {});\ntest('aside', { skip: 'not here' }, () => {});\ntest('later', { todo: true }, () => { throw new Error('to do'); });\n";
  const files = {
    'a.test.js': `${right}test('wrong # 1', () => { throw new Error('that is why'); });\ntest('whole', async (it) => { await it.test('part', () => assert.fail()); });\n`,
    'b.test.js': "import test from 'node:test';\ntest('waits', () => new Promise(() => {}));\n", 'c.test.js': 'process.exit(7);\n', 'right.test.js': right, 'package.json': '{ "type": "module" }',
  };
  const folder = folderOf(files);
  const run = (/** @type {string[]} */ ...names) => python(`import contextlib, os, run_symdir as r
r.ROOT, r.runner.programs, r.set_up, r.check_types = '${folder}', lambda *_, **__: ['symq'], lambda: ${names.length > 1 ? 'True' : 'False'}, lambda _: False
r.with_typescript, r.installed_typescript, r.tests_in = lambda it: contextlib.nullcontext(it), lambda: 'none', lambda _: ${JSON.stringify(names.map((it) => path.join(folder, it)))}
os.environ.pop('NODE_TEST_CONTEXT', None)
print(r.main())`);
  const all = run('a.test.js', 'b.test.js', 'c.test.js').stdout.split('\n');
  const [end, status, nothing] = all.splice(-3);
  assert.deepEqual([end, status, nothing], ['1 passed, 6 failed', '1', '']);
  const last = all.slice(all.findIndex((it) => it.includes('FAILED')));
  assert.deepEqual(last.map((it) => it.replace(/:\d+:\d+$/, '')), ['FAILED: wrong \\# 1, a.test.js', 'FAILED: part, a.test.js', 'FAILED: whole, a.test.js', 'FAILED: waits, b.test.js',
    `FAILED: ${path.join(folder, 'c.test.js')}, c.test.js`, 'FAILED: the types of symdir']);
  assert.ok(all.includes('skipped, neither passed nor failed: aside: not here'));
  assert.ok(all.findIndex((it) => it.includes('that is why')) > all.indexOf('wrong \\# 1'));
  assert.match(run('right.test.js').stdout, /^FAILED: the types of Node are not there: .*\n1 passed, 1 failed\n1\n$/m);
  assert.match(run('none.test.js').stdout, /^FAILED: node --test: the status 1, and no test passed\nFAILED: the types of Node .*\n0 passed, 2 failed\n1\n$/m);
});
