// Reports for CI: Markdown, SARIF, workflow commands, and files that they are written to.
import assert from 'node:assert/strict';
import { createHash } from 'node:crypto';
import { readFileSync } from 'node:fs';
import path from 'node:path';
import test from 'node:test';

import { code, prose, table } from '../lib/report/markdown.js';
import { RULES } from '../lib/report/rules.js';
import { answer, folderOf, symdir } from './helper.js';
import { FILE, FILES, LEFT, NAME } from './hostile.js';

const COMMANDS = ['api', 'leaks', 'missing', 'unused', 'cycles'];
const FAULTY = {
  'package.json': '{ "exports": "./index.ts",\n "dependencies": { "far": "1" } }\n',
  'index.ts': 'export * from "./gone";\nexport { lost } from "./g";\nexport { C } from "./b";\n',
  'b.ts': 'import { d } from "./d";\ninterface Hidden {}\nexport class C { x: Hidden = d; }\nexport const alone = 1;\n',
  'd.ts': 'import { C } from "./b";\nexport const d = new C();\n',
  'g.ts': 'export {};\n',
  'e.ts': 'let;\nconst = 1;\n',
};
/** What each command has to find there, by its rule and place. */
const WANTED = /** @type {Record<string, string[]>} */ ({
  api: ['api/unresolved index.ts:1:1', 'api/unresolved index.ts:2:10', 'files/syntax e.ts:2:7'],
  leaks: ['files/syntax e.ts:2:7', 'leaks/not-exported b.ts:2:11'],
  missing: ['files/syntax e.ts:2:7', 'missing/file index.ts:1:1', 'missing/name index.ts:2:10'],
  unused: ['files/syntax e.ts:2:7', 'unused/dependency package.json:2:20', 'unused/export b.ts:4:14', 'unused/file e.ts:1:1'],
  cycles: ['cycles/cycle b.ts:1:1', 'files/syntax e.ts:2:7'],
});

/** @param {string} stdout @returns {any[]} the results of a log that has one run */
function resultsOf(stdout) {
  const log = JSON.parse(stdout);
  checkSarif(log);
  return log.runs[0].results;
}

/** What SARIF 2.1.0 requires and allows of the objects that are written, by the schema: required properties, then others. */
const OBJECTS = /** @type {Record<string, [string[], string[]]>} */ ({
  log: [['version', 'runs'], ['$schema']],
  run: [['tool'], ['columnKind', 'invocations', 'results']],
  tool: [['driver'], []],
  toolComponent: [['name'], ['version', 'rules']],
  reportingDescriptor: [['id'], ['shortDescription', 'defaultConfiguration']],
  invocation: [['executionSuccessful'], ['exitCode', 'toolExecutionNotifications']],
  notification: [['message'], ['level']],
  result: [['message'], ['ruleId', 'ruleIndex', 'level', 'locations', 'partialFingerprints']],
});

/** @param {string} kind @param {any} it */
function checkObject(kind, it) {
  const [required, others] = OBJECTS[kind];
  for (const name of required) assert.ok(Object.hasOwn(it, name), `${kind} lacks ${name}`);
  for (const name of Object.keys(it)) assert.ok(required.includes(name) || others.includes(name), `${kind} has ${name}`);
}

/** @param {any} result @param {any[]} rules */
function checkResult(result, rules) {
  checkObject('result', result);
  assert.ok(['none', 'note', 'warning', 'error'].includes(result.level));
  assert.equal(typeof result.message.text, 'string');
  assert.equal(rules[result.ruleIndex].id, result.ruleId);
  const [{ physicalLocation: { artifactLocation: { uri }, region } }] = result.locations;
  // the URI is one, relative or absolute, with nothing that has to be escaped
  assert.match(uri, /^[\w.~!$&'()*+;=@:/%-]+$/);
  assert.doesNotMatch(uri, /%(?![\dA-F]{2})/);
  for (const it of [region.startLine, region.startColumn]) assert.ok(Number.isInteger(it) && it >= 1);
  assert.ok(Object.values(result.partialFingerprints).every((it) => typeof it === 'string'));
}

/** @param {any} log */
function checkSarif(log) {
  checkObject('log', log);
  assert.equal(log.version, '2.1.0');
  assert.equal(new URL(log.$schema).protocol, 'https:');
  const [run] = log.runs;
  checkObject('run', run);
  checkObject('tool', run.tool);
  checkObject('toolComponent', run.tool.driver);
  assert.ok(['utf16CodeUnits', 'unicodeCodePoints'].includes(run.columnKind));
  for (const it of run.invocations) {
    checkObject('invocation', it);
    assert.equal(typeof it.executionSuccessful, 'boolean');
    it.toolExecutionNotifications.forEach((/** @type {any} */ one) => checkObject('notification', one));
  }
  for (const it of run.tool.driver.rules) checkObject('reportingDescriptor', it);
  assert.equal(new Set(run.tool.driver.rules.map((/** @type {any} */ it) => it.id)).size, run.tool.driver.rules.length);
  for (const it of run.results) checkResult(it, run.tool.driver.rules);
  assert.equal(new Set(run.results.map((/** @type {any} */ it) => it.partialFingerprints['symdir/v1'])).size, run.results.length);
}

/** @param {string} text @returns {{ command: string, properties: Record<string, string>, message: string }[]} workflow commands, as GitHub's runner reads them */
function commandsIn(text) {
  const plain = (/** @type {string} */ it) => it.replaceAll('%0D', '\r').replaceAll('%0A', '\n').replaceAll('%3A', ':').replaceAll('%2C', ',').replaceAll('%25', '%');
  return text.trimEnd().split('\n').filter((it) => it !== '').map((line) => {
    const [, command, list, message] = /** @type {RegExpExecArray} */ (/^::(error|warning|notice) ([^:]*)::(.*)$/.exec(line) ?? assert.fail(line));
    const properties = Object.fromEntries(list.split(',').map((it) => [it.slice(0, it.indexOf('=')), plain(it.slice(it.indexOf('=') + 1))]));
    return { command, properties, message: message.replaceAll('%0D', '\r').replaceAll('%0A', '\n').replaceAll('%25', '%') };
  });
}

test('each command reports the same findings in each format, and ends with 1', () => {
  const folder = folderOf(FAULTY);
  for (const name of COMMANDS) {
    const run = (/** @type {string} */ format) => {
      const { status, stdout } = symdir([name, '.', format], { cwd: folder });
      assert.equal(status, 1, `${name} ${format}`);
      return stdout;
    };
    const results = resultsOf(run('--sarif'));
    const places = results.map(({ ruleId, locations: [{ physicalLocation: { artifactLocation: { uri }, region } }] }) => `${ruleId} ${uri}:${region.startLine}:${region.startColumn}`);
    assert.deepEqual(places.sort(), WANTED[name], name);
    const commands = commandsIn(run('--annotations')).map(({ properties: { file, line, col, title } }) => `${title.replace('symdir ', '')} ${file}:${line}:${col}`);
    assert.deepEqual(commands.sort(), WANTED[name], name);
    const markdown = run('--markdown');
    for (const it of WANTED[name]) assert.ok(markdown.includes(`\`${it.split(' ')[1]}\``), `${it} in ${markdown}`);
  }
});

test('an unresolved name is placed in its own file, where the path of another ends alike', () => {
  const files = { 'a/index.ts': 'export * from "../none";\n\n  export { x } from "./gone";\n', 'index.ts': '\nexport { x } from "./gone";\n  export { y } from "./m";\n', 'm.ts': '', 'a/m.ts': '' };
  const { stdout } = symdir(['api', '.', '--entry', 'index.ts', '--annotations'], { cwd: folderOf(files) });
  assert.deepEqual(commandsIn(stdout).map(({ properties: { file, line, col } }) => `${file}:${line}:${col}`).sort(), ['index.ts:2:1', 'index.ts:3:12']);
});

test('diff and api --check report changes at what changed, or at the entry', () => {
  const old = { 'index.ts': 'export * from "./a";\n', 'a.ts': 'export const a = 1;\nexport class C { m(): void {} n(): void {} }\n' };
  const now = { 'index.ts': 'export * from "./a";\n', 'a.ts': 'export class C {\n  m(x: 1): void {} }\nexport const b = 1;\n' };
  const [before, after] = [folderOf(old), folderOf(now)];
  const wanted = ['diff/major a.ts:2:3', 'diff/major index.ts:1:1', 'diff/major index.ts:1:1', 'diff/minor a.ts:3:14'];
  const file = path.join(folderOf({}), 'api.txt');
  symdir(['api', before, '--save', file]);
  for (const words of [['diff', before, after], ['diff', before, '.'], ['diff', file, '.'], ['api', '.', '--check', file]]) {
    const { status, stdout } = symdir([...words, '--annotations'], { cwd: after });
    assert.equal(status, 1);
    assert.deepEqual(commandsIn(stdout).map(({ properties: { file: it, line, col, title } }) => `${title.replace('symdir ', '')} ${it}:${line}:${col}`).sort(), wanted);
    assert.equal(resultsOf(symdir([...words, '--sarif'], { cwd: after }).stdout).length, 4);
    assert.match(symdir([...words, '--markdown'], { cwd: after }).stdout, /^\*\*major: 2 removed, 1 added, 1 changed.*\*\*\n\n\| version \| name \| change \| reason \|\n/);
  }
  assert.deepEqual(symdir(['diff', before, before, '--markdown']), { status: 0, stdout: '**the 2 public names and their members are the same**\n', stderr: '' });
});

test('changes in Markdown are of a name, and of its entry too where several have changes', () => {
  const files = (/** @type {string} */ text) => folderOf({ 'package.json': '{"exports":{".":"./a.ts","./b":"./b.ts"}}', 'a.ts': text, 'b.ts': text });
  const [before, after] = [files('export class C { m(): void {} }\n'), files('export class C {}\nexport const d = 1;\n')];
  const names = (/** @type {string[]} */ ...words) => symdir(['diff', before, after, ...words, '--markdown']).stdout.split('\n').flatMap((it) => /^\| (?:major|minor) \| `(.*?)` \|/.exec(it)?.[1] ?? []);
  assert.deepEqual(names('--entry', 'a.ts'), ['C#m', 'd']);
  assert.deepEqual(names().sort(), ['a.ts: C#m', 'a.ts: d', 'b.ts: C#m', 'b.ts: d']);
});

test('paths are relative to the current directory, and absolute elsewhere', () => {
  const folder = folderOf({ 'sub/index.ts': 'export * from "./gone";\n', 'other/x': '' });
  const file = (/** @type {string} */ cwd) => commandsIn(symdir(['missing', path.join(folder, 'sub'), '--annotations'], { cwd })[/** @type {const} */ ('stdout')])[0].properties.file;
  assert.equal(file(folder), 'sub/index.ts');
  assert.equal(file(path.join(folder, 'other')), path.join(folder, 'sub/index.ts'));
  const [{ locations }] = resultsOf(symdir(['missing', path.join(folder, 'sub'), '--sarif'], { cwd: path.join(folder, 'other') }).stdout);
  assert.equal(locations[0].physicalLocation.artifactLocation.uri, new URL(`file://${folder}/sub/index.ts`).href);
});

test('nothing found: reports without findings, and the status 0', () => {
  const folder = folderOf({ 'index.ts': 'export const a = 1;\n' });
  for (const name of COMMANDS) {
    assert.deepEqual(symdir([name, folder, '--annotations']), { status: 0, stdout: '', stderr: '' });
    const { status, stdout } = symdir([name, folder, '--sarif']);
    assert.deepEqual([status, resultsOf(stdout)], [0, []]);
    assert.equal(symdir([name, folder, '--markdown']).status, 0);
  }
});

test('hostile names, paths and comments: workflow commands and SARIF keep each finding whole', () => {
  const folder = folderOf(FILES);
  const found = answer(['missing', folder]).missing;
  assert.deepEqual(found.map((/** @type {any} */ it) => it.text), [`./gone/${NAME}`]);
  for (const [name, wanted] of /** @type {[string, string][]} */ ([['missing', 'index.ts'], ['leaks', FILE], ['unused', LEFT]])) {
    const { stdout } = symdir([name, '.', '--annotations'], { cwd: folder });
    const commands = commandsIn(stdout);
    const results = resultsOf(symdir([name, '.', '--sarif'], { cwd: folder }).stdout);
    assert.equal(commands.length, results.length);
    assert.deepEqual(commands.map(({ properties }) => properties.file), [wanted]);
    assert.deepEqual(results.map(({ message }) => message.text), commands.map(({ message }) => message));
    assert.deepEqual(results.map((it) => decodeURIComponent(it.locations[0].physicalLocation.artifactLocation.uri)), commands.map(({ properties }) => properties.file));
  }
  assert.equal(commandsIn(symdir(['missing', '.', '--annotations'], { cwd: folder }).stdout)[0].message, `export * "./gone/${NAME}" resolves to no file`);
});

test('hostile names, paths and comments: Markdown has the rows and cells of a table, and no element but code', () => {
  const folder = folderOf(FILES);
  for (const words of [['api', folder], ['leaks', folder], ['missing', folder], ['unused', folder], ['diff', folderOf({ 'index.ts': 'export const a = 1;\n' }), folder]]) {
    const { stdout } = symdir([...words, '--markdown']);
    const lines = stdout.split('\n');
    const rows = lines.filter((it) => it.startsWith('| '));
    const cells = rows.map((it) => it.replace(/`[^`|]*`/g, 'code').split('|').length);
    assert.ok(rows.length > 2 && cells.every((it) => it === cells[0]), words[0]);
    const text = stdout.replace(/`[^`\n]*`/g, '').replace(/<\/?code>/g, '');
    assert.doesNotMatch(text, /<|@(?!&#8203;)|\]\(|\u202e/);
  }
});

test('code and text in Markdown', () => {
  assert.equal(code('a<b> & *c*'), '`a<b> & *c*`');
  assert.equal(code('a|b`c\\_'), '<code>a&#124;b&#96;c&#92;&#95;</code>');
  assert.equal(code(' a\n\t b\u2028'), '`a b`');
  assert.equal(code(''), '');
  assert.equal(prose('*a* `b|` @c #1 <d> www.e'), '&#42;a&#42; <code>b&#124;</code> @&#8203;c &#35;&#8203;1 &#60;d&#62; www&#46;e');
  // what Markdown of GitHub reads as more than itself stands as a reference: that tells its code, in decimal digits
  for (const it of '\\`*_[]<>#|~&') assert.equal(prose(`a ${it}b`), `a &#${it.charCodeAt(0)};b`, it);
  assert.equal(prose('~~a~~ ~b~'), '&#126;&#126;a&#126;&#126; &#126;b&#126;');
});

test('a row of each public name, with the first sentence about it, and words for one without definition', () => {
  const folder = folderOf({ 'index.ts': '/** Does it. And more. */\nexport function f(a: number): void {}\nexport { gone } from "./a";\n', 'a.ts': '' });
  assert.equal(symdir(['api', folder, '--markdown']).stdout.split('\n\n').slice(0, 2).join('\n'), '### `index.ts`: 2 public names\n| name | kind | defined in | description |\n| --- | --- | --- | --- |\n'
    + '| `f(a: number): void` | function | `index.ts:2:17` | Does it. |\n| `gone` |  | name: gone |  |');
});

/** So many rows are too long for a comment. */
const COUNT = 300;

test('a long table is cut where a comment of GitHub ends, and says so', () => {
  const text = Array.from({ length: COUNT }, (_, i) => `/** The number ${i}${' of many'.repeat(25)}. */\nexport const name${i} = ${i};\n`).join('');
  const folder = folderOf({ 'index.ts': text });
  const { stdout } = symdir(['api', folder, '--markdown']);
  assert.ok(stdout.length < 65_536);
  const [, rest] = /** @type {RegExpExecArray} */ (/\n\nand (\d+) more \(`--all` lists them\)\n$/.exec(stdout));
  assert.equal(stdout.split('\n').filter((it) => it.startsWith('| `name')).length + Number(rest), COUNT);
  assert.equal(symdir(['api', folder, '--markdown', '--all']).stdout.split('\n').filter((it) => it.startsWith('| `name')).length, COUNT);
  assert.deepEqual(table(['a'], [['b'], ['c']], true, 0), ['| a |', '| --- |', '| b |', '| c |']);
  // and of findings alike
  const unused = folderOf({ 'index.ts': 'import "./a";\n', 'a.ts': Array.from({ length: 1000 }, (_, i) => `export const name${i} = ${i};\n`).join('') });
  const findings = symdir(['unused', unused, '--markdown']).stdout;
  const [, rows, others] = /** @type {RegExpExecArray} */ (/^\*\*2 modules, 1 entry: 1000 exports unused\*\*\n\n(\| rule \| place \| finding \|\n.*)\n\nand (\d+) more \(`--all` lists them\)\n$/s.exec(findings));
  assert.ok(rows.length > 59_000 && rows.length <= 60_000, `${rows.length}`);
  assert.equal(rows.match(/ name\d+ /g)?.length, 1000 - Number(others));
  assert.equal(symdir(['unused', unused, '--markdown', '--all']).stdout.match(/ name\d+ /g)?.length, 1000);
  // a table of 60,000 characters is whole, line ends between its lines included
  const lengths = [60_000, 60_001].map((it) => table(['a'], [['b'.repeat(it - '| a |\n| --- |\n|  |'.length)]], false).length);
  assert.deepEqual(lengths, [3, 4]);
});

test('tables of several entries are cut so that all together fit into a comment', () => {
  const text = (/** @type {number} */ from) => Array.from({ length: 60 }, (_, i) => `/** ${'x'.repeat(600)} */\nexport const name${from + i} = 1;\n`).join('');
  const folder = folderOf({ 'package.json': '{"exports":{"./a":"./a.ts","./b":"./b.ts","./c":"./c.ts"}}', 'a.ts': text(100), 'b.ts': text(200), 'c.ts': text(300) });
  const { stdout } = symdir(['api', folder, '--markdown']);
  const rows = ['1', '2', '3'].map((it) => stdout.match(new RegExp(`^\\| \`name${it}\\d\\d`, 'gm'))?.length ?? 0);
  const more = [...stdout.matchAll(/^and (\d+) more /gm)].map((it) => Number(it[1]));
  assert.deepEqual([rows[0], rows[1] + more[0], rows[2] + more[1], more.length], [60, 60, 60, 2]);
  // as many rows as fit, of which each has over six hundred characters
  assert.ok(stdout.length > 55_000 && stdout.length <= 60_000, `${stdout.length}`);
});

test('--out writes the report, and says how many findings it has', () => {
  const folder = folderOf(FAULTY);
  for (const format of ['--json', '--markdown', '--sarif', '--html']) {
    const file = path.join(folderOf({}), 'report');
    const plain = symdir(['api', folder, format]);
    assert.deepEqual(symdir(['api', folder, format, '-o', file]), { status: 1, stdout: `${file}: 3 findings\n`, stderr: plain.stderr });
    assert.equal(readFileSync(file, 'utf8'), plain.stdout);
  }
  assert.deepEqual(symdir(['api', folder, '--json', '-o', '/none/report']).status, 3);
});

test('formats can\'t be combined, nor with what writes something else', () => {
  const folder = folderOf({ 'index.ts': '' });
  const said = (/** @type {string[]} */ ...words) => {
    const { status, stdout, stderr } = symdir(words);
    assert.deepEqual([status, stdout], [2, '']);
    return stderr;
  };
  assert.equal(said('api', folder, '--json', '--sarif'), 'symdir: --json and --sarif can\'t be combined\n');
  const formats = ['--json', '--markdown', '--html', '--sarif', '--annotations'];
  formats.forEach((one, i) => formats.slice(i + 1).forEach((other) => {
    assert.ok([[one, other], [other, one]].some((it) => said('api', folder, one, other) === `symdir: ${it.join(' and ')} can't be combined\n`), `${one} ${other}`);
  }));
  assert.equal(said('api', folder, '--html', '--check', 'x'), 'symdir: --check and --html can\'t be combined\n');
  assert.equal(said('api', folder, '--save', 'x', '--markdown'), 'symdir: --save and --markdown can\'t be combined\n');
  assert.equal(said('leaks', folder, '--annotations', '-o', 'x'), 'symdir: --annotations and --out can\'t be combined\n');
  assert.equal(said('leaks', folder, '-o', 'x'), 'symdir: --out needs --json, --markdown, --sarif or, for api, --html\n');
  assert.match(said('leaks', folder, '--html'), /^symdir: Unknown option '--html'/);
  assert.match(said('where', folder, 'index.ts:1', '--sarif'), /^symdir: Unknown option '--sarif'/);
});

test('each rule has a level and a text', () => {
  for (const [id, { level, text }] of Object.entries(RULES)) assert.ok(/^[a-z]+\/[a-z-]+$/.test(id) && ['error', 'warning', 'note'].includes(level) && text.length > 10);
  const idsOf = (/** @type {string} */ wanted) => Object.keys(RULES).filter((it) => RULES[it].level === wanted).sort();
  // what fails where it is used is an error, what only may be meant otherwise a warning, and what breaks nobody a note
  assert.deepEqual(idsOf('error'), ['api/unresolved', 'diff/major', 'files/syntax', 'files/unreadable', 'missing/file', 'missing/name', 'missing/package']);
  assert.deepEqual(idsOf('note'), ['diff/minor', 'diff/patch']);
});

test('an unresolved name is placed where it is taken of the module that lacks it, and not where others have the name', () => {
  const folder = folderOf({ 'index.ts': 'import { x as y } from "./other";\nimport "./m";\nexport { z, x } from "./m";\nexport { y };\n', 'other.ts': 'export const x = 1;\n', 'm.ts': 'export const z = 1;\n' });
  assert.match(symdir(['api', folder, '--annotations']).stdout, /^::error file=[^,]*index\.ts,line=3,col=13\b[^\n]*\n$/);
});

/** @param {Record<string, string>} files @param {string[]} words behind which the directory is the current one @returns {string[]} what workflow commands say */
function told(files, ...words) {
  return symdir([...words, '--annotations'], { cwd: folderOf(files) }).stdout.split('\n').slice(0, -1);
}

test('what is missing, in words', () => {
  const files = { 'index.ts': 'import { a } from "./gone";\nimport "unknown";\n  import { nope } from "./m";\n', 'm.ts': 'export * from "./p";\nexport * from "./q";\n', 'p.ts': 'export const x = 1;\n', 'q.ts': 'export const x = 2;\n', 'bad.ts': 'export const a = ;\n' };
  assert.deepEqual(told(files, 'missing', '.', '--strict'), [
    '::error file=bad.ts,line=1,col=18,title=symdir files/syntax::Expression expected.',
    '::error file=index.ts,line=1,col=1,title=symdir missing/file::import "./gone" resolves to no file',
    '::error file=index.ts,line=2,col=1,title=symdir missing/package::import "unknown": the package is neither installed nor listed in package.json',
    '::error file=index.ts,line=3,col=12,title=symdir missing/name::m.ts has no export nope',
    '::warning file=m.ts,line=2,col=1,title=symdir missing/ambiguous::x is re-exported via export * from several modules: p.ts, q.ts']);
  assert.deepEqual(told(files, 'api', '.', '--strict', '--entry', 'm.ts').slice(-1), [
    '::warning file=m.ts,line=1,col=1,title=symdir api/ambiguous::x is re-exported via export * from several modules: p.ts, q.ts']);
});

test('what is unresolved, leaks or isn\'t used, in words', () => {
  const index = 'export * from "./gone";\nexport { x } from "./none";\nexport { y as z } from "./m";\n';
  assert.deepEqual(told({ 'index.ts': index, 'm.ts': 'export {};\n' }, 'api', '.').sort(), [
    '::error file=index.ts,line=1,col=1,title=symdir api/unresolved::export * from "./gone" resolves to no file',
    '::error file=index.ts,line=2,col=1,title=symdir api/unresolved::x of index.ts: unresolved: index.ts imports "./none", which resolves to no file',
    '::error file=index.ts,line=3,col=10,title=symdir api/unresolved::z of index.ts: unresolved: m.ts has no export y']);
  const needing = (/** @type {string} */ type, /** @type {number} */ count) => Array.from({ length: count }, (_, i) => `${type.toLowerCase()}${i + 1}: ${type}`).join(', ');
  assert.deepEqual(told({ 'index.ts': `export declare const ${needing('S', 4)}, ${needing('T', 6)};\ntype S = 1;\ninterface T {}\n` }, 'leaks', '.'), [
    '::warning file=index.ts,line=3,col=11,title=symdir leaks/not-exported::interface T is referenced by t1, t2, t3, t4 and 2 more, and no entry exports it',
    '::warning file=index.ts,line=2,col=6,title=symdir leaks/not-exported::type S is referenced by s1, s2, s3, s4, and no entry exports it']);
  const unused = { 'package.json': '{\n"main": "index.ts", "dependencies": { "lost": "1" } }', 'index.ts': 'import "./a";\n', 'a.ts': 'export const a = 1;\nexport class B { c = a }\nexport { gone } from "./none";\n', 'b.ts': '' };
  assert.deepEqual(told(unused, 'unused', '.'), [
    '::warning file=b.ts,line=1,col=1,title=symdir unused/file::no root reaches the file',
    '::warning file=a.ts,line=1,col=14,title=symdir unused/export::const a is exported and not used elsewhere; its own file uses it',
    '::warning file=a.ts,line=2,col=14,title=symdir unused/export::class B is exported and not used elsewhere',
    '::warning file=a.ts,line=3,col=10,title=symdir unused/export::gone is exported and not used elsewhere',
    '::warning file=package.json,line=2,col=39,title=symdir unused/dependency::no module imports the dependency lost']);
});

test('cycles and changes, in words', () => {
  const pair = (/** @type {string} */ a, /** @type {string} */ b, more = '') => ({ [`${a}.ts`]: `import "./${b}";\n`, [`${b}.ts`]: `import "./${a}";\n${more}` });
  assert.deepEqual(told({ ...pair('a', 'b'), ...pair('c', 'd', 'import "./e";\n'), 'e.ts': 'import "./d";\n' }, 'cycles', '.'), [
    '::warning file=c.ts,line=1,col=1,title=symdir cycles/cycle::3 modules import each other (c.ts > d.ts > c.ts); without this import 1 module is in no cycle: import "./d"',
    '::warning file=a.ts,line=1,col=1,title=symdir cycles/cycle::2 modules import each other (a.ts > b.ts > a.ts); without this import there is no cycle: import "./b"']);
  const old = folderOf({ 'index.ts': 'export const gone = 1, a = 1;\nexport let b: 1;\nexport function f(a: 1): 1;\n' });
  const now = { 'index.ts': 'export const came = 1, a: 1 = 1;\nexport let b = 1;\nexport function f(b: 1): 1;\n' };
  assert.deepEqual(told(now, 'diff', old, '.'), [
    '::notice file=index.ts,line=1,col=24,title=symdir diff/patch::a: signature: inferred -> : 1 (patch: its type is written out, and was inferred, which isn\'t compared)',
    '::notice file=index.ts,line=2,col=12,title=symdir diff/patch::b: signature: : 1 -> inferred (patch: its type is no more written out, but inferred, which isn\'t compared)',
    '::notice file=index.ts,line=1,col=14,title=symdir diff/minor::came: added: const index.ts (minor: existing uses still work)',
    '::notice file=index.ts,line=3,col=17,title=symdir diff/patch::f: signature: (a: 1): 1 -> (b: 1): 1 (patch: parameters were renamed)',
    '::error file=index.ts,line=1,col=1,title=symdir diff/major::gone: removed: const index.ts (major: existing uses break)']);
  assert.equal(symdir(['diff', old, folderOf(now), '--markdown']).stdout, `**major: 1 removed, 1 added, 3 changed**

| version | name | change | reason |
| --- | --- | --- | --- |
| major | \`gone\` | removed: \`const index.ts\` | existing uses break |
| minor | \`came\` | added: \`const index.ts\` | existing uses still work |
| patch | \`a\` | signature: inferred → \`: 1\` | its type is written out, and was inferred, which isn't compared |
| patch | \`b\` | signature: \`: 1\` → inferred | its type is no more written out, but inferred, which isn't compared |
| patch | \`f\` | signature: \`(a: 1): 1\` → \`(b: 1): 1\` | parameters were renamed |
`);
});

test('a log of SARIF, whole', () => {
  const folder = folderOf({ 'a b.ts': 'import "./gone";\nimport "./gone";\n', 'accepted.json': '{"findings":[{"rule":"missing/name","file":"x.ts","name":"y"}]}' });
  const { version } = JSON.parse(readFileSync(new URL('../package.json', import.meta.url), 'utf8'));
  const { runs, ...log } = JSON.parse(symdir(['missing', '.', '--sarif', '--baseline', 'accepted.json'], { cwd: folder }).stdout);
  assert.deepEqual(log, { $schema: 'https://docs.oasis-open.org/sarif/sarif/v2.1.0/errata01/os/schemas/sarif-schema-2.1.0.json', version: '2.1.0' });
  const result = (/** @type {number} */ line, /** @type {number} */ count) => ({
    ruleId: 'missing/file', ruleIndex: 0, level: 'error', message: { text: 'import "./gone" resolves to no file' },
    locations: [{ physicalLocation: { artifactLocation: { uri: 'a%20b.ts' }, region: { startLine: line, startColumn: 1 } } }],
    partialFingerprints: { 'symdir/v1': createHash('sha256').update(`["missing/file","a b.ts","./gone"] ${count}`).digest('hex') } });
  assert.deepEqual(runs, [{
    tool: { driver: { name: 'symdir', version, rules: [{ id: 'missing/file', shortDescription: { text: 'An import or re-export resolves to no file' }, defaultConfiguration: { level: 'error' } }] } },
    columnKind: 'utf16CodeUnits',
    invocations: [{ executionSuccessful: true, exitCode: 1, toolExecutionNotifications: [{ level: 'note', message: {
      text: 'accepted.json: 0 findings accepted, 1 no longer occurs (--save-baseline updates it):\n  missing/name  x.ts  y' } }] }],
    results: [result(1, 0), result(2, 1)] }]);
});
