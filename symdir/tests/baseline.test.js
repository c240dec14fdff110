// Findings that are accepted.
import assert from 'node:assert/strict';
import { readFileSync, symlinkSync, writeFileSync } from 'node:fs';
import path from 'node:path';
import test from 'node:test';

import { answer, folderOf, symdir } from './helper.js';

const FILES = { 'index.ts': 'export { a } from "./a";\n', 'a.ts': 'interface H {}\ninterface K {}\nexport const a: [H, K] = null!;\nexport const b = 1;\nexport const c = 1;\n' };

/** @param {string} file @returns {any} */
const read = (file) => JSON.parse(readFileSync(file, 'utf8')).findings;

test('what is accepted is no finding; what comes is one, and what went is told', () => {
  const folder = folderOf(FILES);
  const file = path.join(folder, 'accepted.json');
  assert.deepEqual(symdir(['unused', folder, '--baseline', file, '--save-baseline']), { status: 0, stdout: `${file}: 2 findings of unused\n`, stderr: '' });
  assert.deepEqual(read(file), [{ rule: 'unused/export', file: 'a.ts', name: 'b' }, { rule: 'unused/export', file: 'a.ts', name: 'c' }]);
  assert.deepEqual(symdir(['unused', folder, '--baseline', file]), { status: 0, stdout: `2 modules, 1 entry: nothing is unused\n${file}: 2 findings accepted\n`, stderr: '' });
  assert.match(symdir(['unused', folder, '--baseline', file, '--markdown']).stdout, /\*\*\n\n[^\n]*accepted\n$/);
  // the lines move, one goes, another comes
  writeFileSync(path.join(folder, 'a.ts'), `\n\n${FILES['a.ts'].replace('c = 1', 'd = 1')}`);
  const { status, stdout } = symdir(['unused', folder, '--baseline', file]);
  assert.equal(status, 1);
  assert.equal(stdout, `unused exports: 1
  d  const  a.ts:7:14
2 modules, 1 entry: 1 export unused
${file}: 1 finding accepted, 1 no longer occurs (--save-baseline updates it):
  unused/export  a.ts  c
`);
  const json = answer(['unused', folder, '--baseline', file]);
  assert.deepEqual(json.baseline, { accepted: 1, gone: [{ rule: 'unused/export', file: 'a.ts', name: 'c', count: 1 }] });
  assert.deepEqual(json.exports.map((/** @type {any} */ it) => it.name), ['d']);
  const told = `${file}: 1 finding accepted, 1 no longer occurs (--save-baseline updates it):\n  unused/export  a.ts  c`;
  const run = (/** @type {string} */ format) => symdir(['unused', folder, '--baseline', file, format]).stdout;
  assert.deepEqual(JSON.parse(run('--sarif')).runs[0].invocations[0].toolExecutionNotifications, [{ level: 'note', message: { text: told } }]);
  assert.deepEqual(JSON.parse(run('--sarif')).runs[0].results.length, 1);
  assert.match(run('--annotations'), /^::warning .*\n::notice title=symdir::.*1 no longer occurs .*%0A {2}unused\/export {2}a\.ts {2}c\n$/);
  assert.match(run('--markdown'), /\n- `unused\/export a\.ts c`\n$/);
});

test('a baseline keeps what other commands accepted', () => {
  const folder = folderOf(FILES);
  const file = path.join(folder, 'accepted.json');
  for (const it of ['unused', 'leaks', 'unused']) symdir([it, folder, '--baseline', file, '--save-baseline']);
  assert.deepEqual(read(file).map((/** @type {any} */ it) => `${it.rule} ${it.name}`), ['leaks/not-exported H', 'leaks/not-exported K', 'unused/export b', 'unused/export c']);
  for (const it of ['unused', 'leaks', 'missing', 'api', 'cycles']) assert.equal(symdir([it, folder, '--baseline', file]).status, 0, it);
  assert.match(symdir(['missing', folder, '--baseline', file]).stdout, /\n.*: 0 findings accepted\n$/);
  writeFileSync(file, '{ "findings": [] }');
  assert.equal(symdir(['leaks', folder, '--baseline', file]).status, 1);
});

test('of several alike as many are accepted as there were', () => {
  const line = 'import "./gone";\n';
  const folder = folderOf({ 'index.ts': line + line });
  const file = path.join(folder, 'accepted.json');
  symdir(['missing', folder, '--baseline', file, '--save-baseline']);
  assert.deepEqual(read(file), [{ rule: 'missing/file', file: 'index.ts', name: './gone', count: 2 }]);
  assert.equal(symdir(['missing', folder, '--baseline', file]).status, 0);
  writeFileSync(path.join(folder, 'index.ts'), line + line + line);
  const { missing } = answer(['missing', folder, '--baseline', file]);
  assert.deepEqual(missing.map((/** @type {any} */ it) => it.line), [3]);
  writeFileSync(path.join(folder, 'index.ts'), line);
  assert.match(symdir(['missing', folder, '--baseline', file]).stdout, /1 finding accepted, 1 no longer occurs/);
});

test('each command takes a baseline: changes, cycles, names, and files that can\'t be parsed or read', () => {
  const faulty = { 'index.ts': 'export * from "./gone";\nimport "./b";\n', 'b.ts': 'import "./index";\n', 'c.ts': 'let;\nconst = 1;\n' };
  const folder = folderOf(faulty);
  // it is there, and a read of it fails for whoever reads
  symlinkSync('/proc/self/mem', path.join(folder, 'mem.ts'));
  const file = path.join(folder, 'accepted.json');
  const commands = [['api', folder], ['cycles', folder], ['missing', folder], ['unused', folder], ['leaks', folder], ['diff', folderOf({ 'index.ts': 'export const a = 1, b = 2;\n' }), folder]];
  for (const words of commands) {
    assert.equal(symdir(words).status, 1, words[0]);
    assert.equal(symdir([...words, '--baseline', file, '--save-baseline']).status, 0);
    const { status, stdout, stderr } = symdir([...words, '--baseline', file]);
    assert.equal(status, 0, `${words[0]}: ${stdout}`);
    // diff tells faults, and they are none of its findings
    assert.equal(stderr, words[0] === 'diff' ? symdir(words).stderr : '');
  }
  assert.deepEqual(read(file).map((/** @type {any} */ it) => it.rule), [
    'api/unresolved', 'cycles/cycle', 'diff/major', 'diff/major', 'files/syntax', 'files/unreadable', 'missing/file', 'unused/file']);
  writeFileSync(path.join(folder, 'c.ts'), 'let = ;\n');
  assert.equal(symdir(['leaks', folder, '--baseline', file]).status, 1);
});

test('a snapshot and a baseline: accepted changes are left out of the version', () => {
  const folder = folderOf({ 'index.ts': 'export const a = 1, b = 2;\n' });
  const [snapshot, file] = ['api.txt', 'accepted.json'].map((it) => path.join(folder, it));
  symdir(['api', folder, '--save', snapshot]);
  writeFileSync(path.join(folder, 'index.ts'), 'export const b = 2, c = 3;\n');
  const run = (/** @type {string[]} */ ...words) => symdir(['api', folder, '--check', snapshot, '--baseline', file, ...words]);
  assert.equal(run('--save-baseline').status, 0);
  assert.deepEqual([run().status, run().stdout], [0, `the public names are those of ${snapshot}\n${file}: 2 findings accepted\n`]);
  writeFileSync(path.join(folder, 'index.ts'), 'export const b = 2, c = 3, d = 4;\n');
  assert.match(run().stdout, /^minor {2}\+ {2}index\.ts: d {2}const index\.ts\n.*\nminor: 0 removed, 1 added, 0 changed/);
});

test('a baseline that isn\'t there, isn\'t one, or can\'t be written', () => {
  const folder = folderOf({ 'index.ts': '', 'no.json': 'no', 'list.json': '[]', 'rule.json': '{ "findings": [{ "rule": "no/rule", "file": "a", "name": "b" }] }',
    'name.json': '{ "findings": [{ "rule": "unused/file", "file": "a" }] }', 'count.json': '{ "findings": [{ "rule": "unused/file", "file": "a", "name": "a", "count": 0 }] }' });
  const said = (/** @type {string} */ name, /** @type {string[]} */ ...words) => {
    const file = path.join(folder, name);
    const { status, stdout, stderr } = symdir(['unused', folder, '--baseline', file, ...words]);
    assert.deepEqual([status, stdout], [3, '']);
    return stderr.replaceAll(file, 'FILE');
  };
  assert.equal(said('gone.json'), 'symdir: no such file: FILE; `--baseline FILE --save-baseline` writes it\n');
  assert.match(said('no.json'), /^symdir: FILE: not a baseline: .*JSON/);
  assert.equal(said('list.json'), 'symdir: FILE: not a baseline: findings: expected a list\n');
  assert.equal(said('rule.json'), 'symdir: FILE: not a baseline: findings[0]: unknown rule no/rule\n');
  assert.equal(said('name.json'), 'symdir: FILE: not a baseline: findings[0]: name: expected a string\n');
  assert.equal(said('count.json'), 'symdir: FILE: not a baseline: findings[0]: count: expected a positive integer\n');
  // of several faults the first is told, of the first row that has one
  for (const [row, fault] of Object.entries({ '{}': 'rule: expected a string', 'null': 'expected an object', '5': 'expected an object', '{ "rule": "unused/file" }': 'file: expected a string' })) {
    writeFileSync(path.join(folder, 'rows.json'), `{ "findings": [{ "rule": "unused/file", "file": "a", "name": "a" }, ${row}, {}] }`);
    assert.equal(said('rows.json'), `symdir: FILE: not a baseline: findings[1]: ${fault}\n`);
  }
  assert.match(said('list.json', '--save-baseline'), /not a baseline/);
  assert.match(said('gone/x.json', '--save-baseline'), /can't be written \(ENOENT\)/);
  assert.deepEqual(symdir(['unused', folder, '--save-baseline']), { status: 2, stdout: '', stderr: 'symdir: --save-baseline needs --baseline FILE\n' });
  assert.equal(symdir(['unused', folder, '--baseline', 'x', '--save-baseline', '--json']).status, 2);
});
