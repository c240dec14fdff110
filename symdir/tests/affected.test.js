import assert from 'node:assert/strict';
import { spawnSync } from 'node:child_process';
import { mkdirSync, renameSync, rmSync, symlinkSync, writeFileSync } from 'node:fs';
import path from 'node:path';
import test from 'node:test';

import { isConfig } from '../lib/affected/changes.js';
import { answer, folderOf, symdir } from './helper.js';

/** @param {string} folder @param {string[]} words */
function git(folder, ...words) {
  const { status, stderr } = spawnSync('git', ['-C', folder, '-c', 'user.name=a', '-c', 'user.email=a@example.com', ...words], { encoding: 'utf8' });
  assert.equal(status, 0, stderr);
}

/** @param {Record<string, string>} files @returns {string} a repository that has them in one commit */
function repository(files) {
  const folder = folderOf(files);
  git(folder, 'init', '-q', '.');
  git(folder, 'add', '-A');
  git(folder, 'commit', '-q', '-m', 'first');
  return folder;
}

/** @param {any} out @returns {string[]} the names, and what is known to have happened to them */
function namesOf({ names }) {
  return names.map((/** @type {any} */ it) => `${it.entry} ${it.name}${it.change ? ` ${it.change}` : ''}`);
}

/** @param {any} out @returns {string[]} the modules, with which of their answers */
function modulesOf({ modules }) {
  return modules.map((/** @type {any} */ it) => `${it.file}${it.exports ? ' exports' : ''}${it.definitions ? ' definitions' : ''}`);
}

const FILES = {
  'index.ts': 'export * from "./a";\nexport { b, b as c } from "./b";\nexport * as whole from "./c";\nexport const own = 1;\n',
  'a.ts': 'import { b } from "./b";\nexport const a = b;\nexport { far } from "./far";\n', 'b.ts': 'export const b = 1;\n',
  'c.ts': 'export * from "./d";\n', 'd.ts': 'export const d = 1;\n', 'far.ts': 'export const far = 1;\n', 'alone.ts': 'export const alone = 1;\n',
};

test('names by the modules of their paths, and answers by their inputs', () => {
  const folder = folderOf(FILES);
  const of = (/** @type {string[]} */ ...words) => answer(['affected', folder, ...words]);
  const b = of('b.ts');
  assert.deepEqual(namesOf(b), ['index.ts b', 'index.ts c']);
  assert.deepEqual(b.lists, []);
  assert.deepEqual(modulesOf(b), ['a.ts definitions', 'b.ts exports definitions', 'index.ts definitions']);
  const a = of('a.ts');
  assert.deepEqual([namesOf(a), a.lists], [['index.ts a', 'index.ts far'], ['index.ts']]);
  assert.deepEqual(modulesOf(a), ['a.ts exports definitions', 'index.ts exports definitions']);
  // all that is behind a name for a whole module
  assert.deepEqual(namesOf(of('d.ts')), ['index.ts whole']);
  assert.deepEqual(namesOf(of('far.ts', path.join(folder, 'd.ts'))).sort(), ['index.ts far', 'index.ts whole']);
  assert.deepEqual(namesOf(of('index.ts')).length, 6);
  assert.deepEqual(namesOf(of('alone.ts')), []);
  // a name that isn't there may come along each `export *`
  const lacking = folderOf({ ...FILES, 'index.ts': 'export { lost } from "./c";\nexport { b } from "./b";\n' });
  assert.deepEqual([namesOf(answer(['affected', lacking, 'd.ts'])), namesOf(answer(['affected', lacking, 'b.ts']))], [['index.ts lost'], ['index.ts b']]);
  assert.deepEqual(symdir(['affected', folder, 'alone.ts']), { status: 0, stderr: '', stdout: '1 file changed: alone.ts\nanswers on 1 module can change:\n  alone.ts  exports, definitions\n' });
});

test('a file that isn\'t there counts as deleted: what would import it can change', () => {
  const folder = folderOf({ 'index.ts': 'export * from "./a";\n', 'a.ts': 'export * from "./gone";\nexport const a = 1;\n', 'c.ts': 'export const c = 1;\n' });
  const out = answer(['affected', folder, 'gone.ts', '--entry', 'index.ts', '--entry', 'c.ts']);
  assert.deepEqual([namesOf(out), out.lists], [['index.ts a'], ['index.ts']]);
  const { status, stderr } = symdir(['affected', folder, 'nothing.ts']);
  assert.deepEqual([status, stderr], [0, 'symdir: no such file, and no import would lead to it: nothing.ts\n']);
  const data = folderOf({ 'index.ts': 'import it from "./it.json";\nexport { it };\n' });
  assert.deepEqual(namesOf(answer(['affected', data, 'it.json'])), ['index.ts it']);
  const later = folderOf({ 'b.ts': 'export { default } from "./a.json";\n', 'a.json': '{}' });
  assert.deepEqual(modulesOf(answer(['affected', later, 'a.json'])).map((it) => it.split(' ')[0]), ['a.json', 'b.ts']);
  const inner = folderOf({ 'in/a.ts': 'export const a = 1;\n' });
  const told = (/** @type {string} */ it) => `symdir: ${it} is a directory: name the files in it that changed, or --since REV\n`;
  assert.deepEqual(symdir(['affected', inner, 'in/a.ts', 'in/']), { status: 2, stdout: '', stderr: told('in') });
  for (const it of [['.'], ['.', 'in'], ['in/a.ts', '.', 'in']]) assert.deepEqual(symdir(['affected', inner, ...it]), { status: 2, stdout: '', stderr: told('.') });
});

test('a file is named relative to the directory, or else to the current one, and may be one that isn\'t read', () => {
  const top = folderOf({ 'dir/index.ts': 'export * from "./a";\nexport * from "./gen/b";\n', 'dir/a.ts': 'export const a = 1;\n', 'dir/gen/b.ts': 'export const b = 1;\n' });
  const of = (/** @type {string[]} */ ...words) => JSON.parse(symdir(['affected', 'dir', ...words, '--json'], { cwd: top }).stdout);
  assert.deepEqual(['a.ts', 'dir/a.ts'].map((it) => [of(it).files, namesOf(of(it))]), [[['a.ts'], ['index.ts a']], [['a.ts'], ['index.ts a']]]);
  const skipped = of('gen/b.ts', '--skip', '^gen/');
  assert.deepEqual([namesOf(skipped), skipped.lists, modulesOf(skipped)], [[], ['index.ts'], ['index.ts exports definitions']]);
});

test('three files and twenty modules are named, how many others there are, and by --all each', () => {
  const files = Array.from({ length: 21 }, (_, i) => `m${i + 10}.ts`);
  const folder = folderOf({ 'index.ts': 'export {};\n', ...Object.fromEntries(files.map((it) => [it, 'export const a = 1;\n'])) });
  const told = (/** @type {number} */ count, /** @type {string[]} */ ...words) => symdir(['affected', folder, ...files.slice(0, count), ...words]).stdout.split('\n').slice(0, -1);
  const rows = files.map((it) => `  ${it}  exports, definitions`);
  assert.deepEqual(told(3), ['3 files changed: m10.ts, m11.ts, m12.ts', 'answers on 3 modules can change:', ...rows.slice(0, 3)]);
  assert.deepEqual(told(20), ['20 files changed: m10.ts, m11.ts, m12.ts and 17 more', 'answers on 20 modules can change:', ...rows.slice(0, 20)]);
  assert.deepEqual(told(21), ['21 files changed: m10.ts, m11.ts, m12.ts and 18 more', 'answers on 21 modules can change:', ...rows.slice(0, 20), '  and 1 more (--all)']);
  assert.deepEqual(told(21, '--all'), [`21 files changed: ${files.join(', ')}`, 'answers on 21 modules can change:', ...rows]);
});

test('a configuration file is told by its name, wherever it stands', () => {
  const are = ['package.json', 'x/package.json', 'deno.json', 'deno.jsonc', 'import_map.json', 'importmap.json', 'tsconfig.json', 'x/tsconfig.base.json', 'tsconfig-base.json', 'jsconfig.json'];
  const arent = ['package.json.bak', 'package.json5', 'my-package.json', 'package-lock.json', 'deno.lock', 'tsconfig.ts', 'config.json', 'package/a.json', 'sconfig.json', 'a.json'];
  assert.deepEqual([are.filter((it) => !isConfig(it)), arent.filter(isConfig)], [[], []]);
});

test('a configuration file can change what each import stands for', () => {
  const folder = folderOf({ ...FILES, 'tsconfig.json': '{}' });
  assert.equal(answer(['affected', folder, 'tsconfig.json']).modules.length, 7);
  assert.equal(namesOf(answer(['affected', folder, 'package.json'])).length, 6);
});

test('since a revision: edited, new and deleted files, and names that came and went', () => {
  const folder = repository(FILES);
  const of = (/** @type {string[]} */ ...words) => answer(['affected', folder, '--since', 'HEAD', ...words]);
  assert.deepEqual(of(), { files: [], names: [], lists: [], modules: [] });
  assert.deepEqual(symdir(['affected', folder, '--since', 'HEAD']), { status: 0, stderr: '', stdout: '0 files changed\n' });
  writeFileSync(path.join(folder, 'a.ts'), 'export const a2 = 1;\nexport { far } from "./far";\n');
  const out = of();
  assert.deepEqual([out.files, namesOf(out), out.lists], [['a.ts'], ['index.ts a2 added', 'index.ts far', 'index.ts a removed'], ['index.ts']]);
  const lines = symdir(['affected', folder, '--since', 'HEAD']).stdout.split('\n').map((it) => it.trim().replace(/ {2,}/g, '  '));
  assert.deepEqual(lines.slice(0, 5), ['1 file changed: a.ts', 'index.ts: 3 public names can change, and which there are', 'a  removed', 'a2  const  a.ts:1:14  added', 'far  const  far.ts:1:14']);
  git(folder, 'checkout', '-q', 'a.ts');
  rmSync(path.join(folder, 'd.ts'));
  writeFileSync(path.join(folder, 'new.ts'), 'export const n = 1;\n');
  const gone = of();
  assert.deepEqual([gone.files, namesOf(gone)], [['d.ts', 'new.ts'], ['index.ts whole']]);
  assert.deepEqual(modulesOf(gone), ['c.ts exports definitions', 'index.ts definitions', 'new.ts exports definitions']);
});

test('since a revision: a file that shadows another one by its ending, and a directory below the top of the repository', () => {
  const folder = repository({ 'lib/index.ts': 'export { a } from "./a";\nexport { b } from "./b";\n', 'lib/a/index.ts': 'export const a = 1;\n', 'lib/b.ts': 'export const b = 1;\n' });
  writeFileSync(path.join(folder, 'lib', 'a.ts'), 'export const a = 1;\n');
  const lib = path.join(folder, 'lib');
  const out = answer(['affected', lib, '--since', 'HEAD']);
  assert.deepEqual([out.files, namesOf(out)], [['a.ts'], ['index.ts a']]);
  const link = path.join(folderOf({}), 'link');
  symlinkSync(lib, link);
  assert.deepEqual(answer(['affected', link, '--since', 'HEAD']), out);
});

test('since a revision: a redirect that changes touches the names that go its way', () => {
  const folder = repository({
    'index.ts': 'export { x } from "inner";\nexport { z } from "./z";\nexport * as all from "inner";\n', 'z.ts': 'export const z = 1;\n',
    'inner/package.json': '{"name":"inner","main":"./m.ts"}', 'inner/m.ts': 'export const x = 1;\n', 'inner/n.ts': 'export const x = 2;\n' });
  writeFileSync(path.join(folder, 'inner', 'package.json'), '{"name":"inner","main":"./n.ts"}');
  const out = answer(['affected', folder, '--since', 'HEAD', '--entry', 'index.ts']);
  assert.deepEqual([out.files, namesOf(out)], [['inner/package.json'], ['index.ts x', 'index.ts all']]);
});

test('since a revision: files that Git ignores are what they were, and moved ones two', () => {
  const folder = repository({ '.gitignore': 'built/\n', 'index.ts': 'export * from "./built/b";\nexport * from "./a";\n', 'a.ts': 'export const a = 1;\n' });
  mkdirSync(path.join(folder, 'built'));
  writeFileSync(path.join(folder, 'built', 'b.ts'), 'export const b = 1;\n');
  assert.deepEqual(answer(['affected', folder, '--since', 'HEAD', '--entry', 'index.ts']).files, []);
  renameSync(path.join(folder, 'a.ts'), path.join(folder, 'c.ts'));
  git(folder, 'add', '-A');
  const out = answer(['affected', folder, '--since', 'HEAD', '--entry', 'index.ts']);
  assert.deepEqual([out.files, namesOf(out)], [['a.ts', 'c.ts'], ['index.ts a removed']]);
});

test('since a revision: what is no module isn\'t told, and a name with a line end leaves the others what they are', () => {
  const folder = repository({ ...FILES, 'index.ts': `${FILES['index.ts']}import "none";\n`, 'readme.md': 'a', '0\nb.txt': 'a', 'A.ts': 'export const A = 1;\n' });
  const edited = (/** @type {Record<string, string>} */ files) => Object.entries(files).forEach(([it, text]) => writeFileSync(path.join(folder, it), text));
  edited({ 'readme.md': 'b', '0\nb.txt': 'b', 'b.ts': 'export const b = 2;\n' });
  const out = answer(['affected', folder, '--since', 'HEAD']);
  assert.deepEqual([out.files, out.lists, namesOf(out)], [['b.ts'], [], ['index.ts b', 'index.ts c']]);
  edited({ 'A.ts': 'export const A = 2;\n', 'a.ts': `${FILES['a.ts']}// more\n` });
  assert.deepEqual(namesOf(answer(['affected', folder, '--since', 'HEAD'])), ['index.ts b', 'index.ts c', 'index.ts a', 'index.ts far']);
});

test('since a revision: an entry that is new has new names, and a configuration file above the directory counts', () => {
  const folder = repository({ 'tsconfig.json': '{ "compilerOptions": { "paths": { "x": ["./dir/a.ts"] } } }', 'dir/index.ts': 'export { n } from "x";\n', 'dir/a.ts': 'export const n = 1;\n', 'dir/b.ts': 'export const n = 2;\n' });
  const dir = path.join(folder, 'dir');
  writeFileSync(path.join(dir, 'new.ts'), 'export const m = 1;\n');
  const fresh = answer(['affected', dir, '--since', 'HEAD', '--entry', 'new.ts']);
  assert.deepEqual([fresh.files, namesOf(fresh)], [['new.ts'], ['new.ts m added']]);
  writeFileSync(path.join(folder, 'tsconfig.json'), '{ "compilerOptions": { "paths": { "x": ["./dir/b.ts"] } } }');
  const moved = answer(['affected', dir, '--since', 'HEAD', '--entry', 'index.ts']);
  assert.deepEqual([moved.files, namesOf(moved)], [['../tsconfig.json', 'new.ts'], ['index.ts n']]);
});

test('names behind `export =`', () => {
  const folder = folderOf({ 'index.ts': 'import * as b from "./b";\ndeclare namespace n { export import x = b.x; const y: 1; }\nexport = n;\n', 'b.ts': 'export const x = 1;\n', 'c.ts': 'export {};\n' });
  const of = (/** @type {string} */ file) => namesOf(answer(['affected', folder, file, '--entry', 'index.ts']));
  assert.deepEqual(of('c.ts'), []);
  assert.ok(of('b.ts').includes('index.ts x'));
  assert.ok(of('index.ts').includes('index.ts y'));
});

test('--check: which of the names did change', () => {
  const folder = repository({ 'index.ts': 'export * from "./a";\nexport * from "./b";\n', 'a.ts': 'export const a: number = 1;\nexport const same = 1;\nexport class C { m(): void {} }\n', 'b.ts': 'export const b = 1;\n' });
  const snapshot = path.join(folderOf({}), 'api.txt');
  assert.equal(symdir(['api', folder, '--save', snapshot]).status, 0);
  writeFileSync(path.join(folder, 'a.ts'), '// a comment\nexport const a: number = 1;\nexport const same = 1;\nexport class C { m(): void {} }\n');
  const first = symdir(['affected', folder, '--since', 'HEAD', '--check', snapshot]);
  assert.equal(first.status, 0);
  assert.match(first.stdout, new RegExp(`\nnone of these names changed since ${snapshot}\n$`));
  writeFileSync(path.join(folder, 'a.ts'), 'export const a: string = "";\nexport const same = 1;\nexport class C { m(): number { return 1; } }\n');
  for (const words of [['a.ts'], ['--since', 'HEAD']]) {
    const out = answer(['affected', folder, ...words, '--check', snapshot]);
    assert.deepEqual(out.changes.map((/** @type {any} */ it) => `${it.advice} ${it.name} ${it.what}`), ['major C#m signature', 'major a signature']);
    assert.equal(out.others, 0);
  }
  writeFileSync(path.join(folder, 'a.ts'), 'export const a: string = "";\nexport const same = 1;\nexport class C { m(): void {} }\n');
  const one = symdir(['affected', folder, 'a.ts', '--check', snapshot]);
  assert.deepEqual([one.status, one.stdout.split('\n').slice(-5, -3)], [1, [`changed since ${snapshot}:`, 'major  ~  index.ts: a  signature: : number  ->  : string']]);
  writeFileSync(path.join(folder, 'a.ts'), 'export const a: string = "";\nexport const same = 1;\nexport class C { m(): number { return 1; } }\n');
  const other = symdir(['affected', folder, 'b.ts', '--check', snapshot]);
  assert.equal(other.status, 0);
  assert.match(other.stdout, /\nother names have 2 changes, which these files don't explain\n$/);
});

test('usage errors, and no repository', () => {
  const folder = folderOf({ 'index.ts': 'export const a = 1;\n' });
  const said = (/** @type {string[]} */ ...words) => {
    const { status, stdout, stderr } = symdir(['affected', folder, ...words], { env: { GIT_CEILING_DIRECTORIES: path.dirname(folder) } });
    return [status, stdout, stderr];
  };
  assert.deepEqual(said(), [2, '', 'symdir: affected takes files that changed, or --since REV\n']);
  assert.deepEqual(said('index.ts', '--since', 'HEAD'), [2, '', 'symdir: affected takes files or --since REV, not both\n']);
  assert.equal(said('--since', 'HEAD')[0], 3);
  assert.match(`${said('--since', 'HEAD')[2]}`, /^symdir: git rev-parse: not a git repository/);
  git(folder, 'init', '-q', '.');
  assert.deepEqual(said('--since', 'HEAD'), [2, '', 'symdir: no such git revision: HEAD\n']);
  assert.deepEqual(said('--since=--all'), [2, '', 'symdir: no such git revision: --all\n']);
});
