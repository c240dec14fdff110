import assert from 'node:assert/strict';
import { readFileSync, readdirSync } from 'node:fs';
import path from 'node:path';
import test from 'node:test';

import { CATEGORIES, FIELDS } from '../lib/check/kinds.js';
import { kindsOf } from '../lib/check/faults.js';
import { wordsOf } from '../lib/commands/check.js';
import { languageOf } from '../lib/language.js';
import { convert } from '../lib/tree/convert.js';
import { folderOf, program, symdir } from './helper.js';

const GRAPH = readFileSync(new URL('../../docs/GRAPH.md', import.meta.url), 'utf8');
const FORMS = new URL('../../tests/forms/', import.meta.url);

/** @param {string} from @param {string} to @param {RegExp} row @returns {RegExpMatchArray[]} the rows of tables between two headings */
function rows(from, to, row) {
  return [...GRAPH.slice(GRAPH.indexOf(from), GRAPH.indexOf(to)).matchAll(row)];
}

test('the kinds and their fields are those of docs/GRAPH.md', () => {
  const found = rows('## Kinds', '## Categories', /^\| `(\w+)` \|.*\| (.*?) \|$/gm);
  assert.deepEqual(FIELDS, Object.fromEntries(found.map(([, kind, fields]) => [kind, fields.replaceAll('`', '')])));
  assert.ok(found.length > 70);
});

test('the categories are those of docs/GRAPH.md', () => {
  const found = rows('## Categories', '## Rules of shape', /^\| (\w+) \| (.*?) \|$/gm).filter(([, it]) => it !== 'category');
  /** @param {string} category @returns {Set<string>} */
  const wanted = (category) => {
    const [, , text] = found.find(([, it]) => it === category) ?? [];
    if (text === undefined) return new Set([category]);
    const [words, but] = text.split(' but for ');
    const kinds = new Set(words.split(', ').flatMap((it) => (it.startsWith('`') ? [it.slice(1, -1)] : [...wanted(it)])));
    if (but) kinds.delete(but.slice(1, -1));
    return kinds;
  };
  for (const [, category] of found.filter(([, it]) => it !== 'Any')) assert.deepEqual([...kindsOf(category)].sort(), [...wanted(category)].sort(), category);
  assert.equal(kindsOf('Any').size, Object.keys(FIELDS).length - 1 - 8);
  assert.deepEqual(kindsOf('VarDeclarator'), new Set(['VarDeclarator']));
  assert.ok(Object.keys(CATEGORIES).length > 25);
});

test('of each stored form words are told where symq refuses it, and none where it reads it', () => {
  let count = 0;
  for (const name of readdirSync(FORMS)) {
    for (const line of readFileSync(new URL(name, FORMS), 'latin1').split('\n').filter((it) => it !== '' && !it.startsWith('#'))) {
      const [status, said, ...graph] = line.split('\t');
      const words = wordsOf(Buffer.from(graph.join('\t'), 'latin1'));
      assert.equal(words.length > 0, status === '4' || status === '5', `${name}: ${line}\n${words.join('\n')}`);
      const named = /^symq: graph refused: 7 (\S+) [3-7] (\d+)$/.exec(said);
      if (named) assert.ok(words.some((it) => it.startsWith(`module ${named[1]}, node ${named[2]} (`)), `${line}\n${words.join('\n')}`);
      count++;
    }
  }
  assert.ok(count > 300);
});

test('words for each fault', () => {
  const words = (/** @type {unknown} */ it) => wordsOf(Buffer.from(typeof it === 'string' ? it : JSON.stringify(it)));
  const tree = (/** @type {unknown[]} */ ...nodes) => words({ modules: [{ specifier: 'm', kind: 'esm', text: 'é', tree: { nodes } }] });
  const program = { kind: 'Program', range: [0, 2] };
  assert.match(words('{"modules":[}')[0], /^1:13: it isn't valid JSON: Unexpected token '}'$/);
  assert.deepEqual(words('\ufeff{}'), ['1:1: it begins with a byte order mark, which isn\'t allowed']);
  assert.deepEqual(words('{\n"x": 1.5}'), ['2:6: 1.5 is no whole number of 64 bits, written in digits alone']);
  assert.deepEqual(words('[]'), ['a graph is an object, and this is []']);
  assert.deepEqual([19, 20, 21].map((it) => words(`[${Array(it).fill('1.5')}]`).length), [19, 20, 20]);
  assert.deepEqual(words({ modules: [{ kind: 'esm' }] }), ['module 0 of the list: "specifier" has to be there, a text', 'module 0 of the list: "text" has to be there, a text']);
  assert.deepEqual(tree({ kind: 'Ident', range: [0, 1] }), ['module m, node 0 (Ident): "sym" has to be there']);
  assert.deepEqual(tree({ kind: 'Idnt', range: [0, 1] }), ['module m, node 0 (Idnt): there is no kind "Idnt"']);
  // what each sort of a field's value has to be
  const method = { kind: 'ClassMethod', range: [0, 0], key: 1, function: 1, method_kind: 'method' };
  const odd = /** @type {[object, string][]} */ ([[{ kind: 'Ident', range: [0, 0], sym: ['a'] }, 'node 0 (Ident): "sym" has to be [name, scope], a text and a number, and is ["a"]'],
    [{ kind: 'Ident', range: [0, 0], sym: ['a', 2 ** 32] }, '"sym" has to be [name, scope], a text and a number'],
    [{ kind: 'Ident', range: [0, 0], sym: { 0: 'a', 1: 1, length: 2 } }, '"sym" has to be [name, scope], a text and a number'],
    [{ kind: 'Ident', range: [0, 0], sym: ['a', 1, 2] }, '"sym" has to be [name, scope], a text and a number'], [{ kind: 'Ident', range: [0, 0], sym: [1, 1] }, '"sym" has to be [name, scope], a text and a number'],
    [{ kind: 'Str', range: [0, 0], value: 1 }, 'node 0 (Str): "value" has to be a text, and is 1'], [{ kind: 'Arrow', range: [0, 0], body: 1, is_block: 1 }, '"is_block" has to be true or false, and is 1'],
    [{ ...method, accessibility: 'own' }, '"accessibility" has to be "public", "protected" or "private", and is "own"'], [{ ...method, method_kind: 'set' }, '"method_kind" has to be "method", "getter" or "setter", and is "set"'],
    [{ ...method, key: 'a' }, '"key" has to be the number of a node, and is "a"'], [{ kind: 'Program', range: [0, 0], body: 1 }, '"body" has to be a list']]);
  for (const [node, wanted] of odd) assert.ok(tree(node).some((it) => it.includes(wanted)), `${tree(node)} | ${wanted}`);
  for (const it of ['public', 'protected', 'private']) assert.ok(!tree({ ...method, accessibility: it }).some((one) => one.includes('accessibility')), it);
  for (const it of ['method', 'getter', 'setter']) assert.ok(!tree({ ...method, method_kind: it }).some((one) => one.includes('method_kind')), it);
  assert.deepEqual([tree(), tree({ kind: 'Str', range: [0, 0], value: '' }), tree({ kind: 'Str', range: [0, 0], value: '' }, program)],
    [['module m, the tree has no node'], ['module m, node 0 has to be a Program'], ['module m, node 0 has to be a Program']]);
  for (const kind of [undefined, null, 1]) assert.deepEqual(tree(program, { kind, range: [0, 0] }), ['module m, node 1: "kind" has to be there, a text']);
  assert.deepEqual(tree({ ...program, body: [1] }, { kind: 'Ident', range: [0, 2], sym: ['a', 1] }), ['module m, node 0 (Program): "body" takes an Item, and node 1 is of the kind Ident']);
  assert.deepEqual(tree({ ...program, body: [1] }, { kind: 'ExprStmt', range: [0, 2], expr: 2 }, { kind: 'Ident', range: [0, 2], sym: ['a', 2 ** 32 - 1] }), []);
  const query = [{ ...program, body: [1] }, { kind: 'Other', range: [0, 2], children: [2] }, { kind: 'TsImportType', range: [0, 0], arg: 'a', type_args: 3 }, { kind: 'Str', range: [0, 0], value: '' }];
  assert.deepEqual(tree(...query), ['module m, node 2 (TsImportType): "type_args" takes a TypeArgs, and node 3 is of the kind Str']);
  assert.deepEqual(tree({ ...program, body: [4] }), ['module m, node 0 (Program): "body" names node 4, and there are 1']);
  assert.deepEqual(tree({ ...program, range: [0, 1] }), ['module m, node 0 (Program): the range [0, 1] cuts a character: ranges count bytes of UTF-8, and 1 is within one']);
  assert.deepEqual(tree({ ...program, range: [0, 5] }), ['module m, node 0 (Program): the range [0, 5] ends after the text, which has 2 bytes']);
  assert.deepEqual(words({ redirects: [['a', 'b'], ['b', 'c']] }), ['the redirect from a leads to b, which is redirected: name the last target']);
  // each list of the graph is one, and what stands twice in it is named
  for (const key of ['modules', 'redirects', 'resolutions']) assert.deepEqual(words({ [key]: 5 }), [`"${key}" has to be a list, and is 5`]);
  assert.deepEqual(words({ redirects: [['a', 'b'], ['a', 'c']] }), ['two redirects have the "from" a']);
  assert.deepEqual(words({ redirects: [['a', 'b'], ['b', 'c']] }), ['the redirect from a leads to b, which is redirected: name the last target']);
  assert.deepEqual(words({ resolutions: [['a', 'b', 'c'], ['a', 'b', 'd']] }), ['two resolutions have the referrer and the text a b']);
  assert.deepEqual(words({ modules: [1, 2].map(() => ({ specifier: 'a', kind: 'external' })) }), ['two modules have the specifier a']);
  assert.deepEqual(words({ modules: null, redirects: null, resolutions: null }), []);
});

test('words for a module or a tree that has another form than docs/GRAPH.md says', () => {
  const of = (/** @type {unknown} */ module) => wordsOf(Buffer.from(JSON.stringify({ modules: [module] })));
  const module = (/** @type {object} */ more) => of({ specifier: 'm', kind: 'esm', text: '', ...more });
  assert.deepEqual([module({}), module({ types: 'n' }), module({ tree: null }), module({ kind: 'json' }), of({ specifier: 'm', kind: 'external' })], [[], [], [], [], []]);
  assert.deepEqual(of(5), ['module 0 of the list: it has to be an object, and is 5']);
  /** @type {[object, string][]} */
  const faulty = [[{ kind: 'cjs' }, '"kind" has to be "esm", "json" or "external", and is "cjs"'], [{ kind: 'json', text: 5 }, '"text" has to be there, a text'], [{ types: 5 }, '"types" has to be a text, and is 5'],
    [{ tree: [] }, '"tree" has to be an object, and is []'], [{ tree: { declaration: 1 } }, '"declaration" has to be true or false, and is 1'], [{ tree: { nodes: {} } }, '"nodes" has to be a list, and is {}']];
  for (const [more, wanted] of faulty) assert.deepEqual(module(more), [`module m: ${wanted}`]);
  const nodes = (/** @type {unknown[]} */ ...all) => module({ tree: { nodes: all } });
  assert.deepEqual(nodes(5), ['module m, node 0: it has to be an object, and is 5']);
  assert.deepEqual(nodes({ range: [0, 0] }), ['module m, node 0: "kind" has to be there, a text']);
  for (const it of [null, [0], [0, 0, 0], [0, '0']]) assert.deepEqual(nodes({ kind: 'Program', range: it }), [`module m, node 0 (Program): "range" has to be [start, end], two numbers, and is ${JSON.stringify(it)}`]);
});

test('the tree of each piece of syntax has no fault', () => {
  const text = readFileSync(new URL('./texts/syntax.txt', import.meta.url), 'utf8');
  for (const it of [text, 'class A { constructor(public a = 1, private b: B, c = 1) {} }', 'export { a, b as c }; import d = e.f; import g = require("g");']) {
    const { tree } = convert('a.ts', it, { ...languageOf('a.ts'), bodies: true, ambient: false });
    const nodes = JSON.parse(String(Buffer.concat(tree ?? [])));
    assert.deepEqual(wordsOf(Buffer.from(JSON.stringify({ modules: [{ specifier: 'm', kind: 'esm', text: it, tree: { nodes } }] }))), []);
  }
});

test('the command: what symq says, and the words', () => {
  const folder = folderOf({
    'good.json': '{}', 'bad.json': '{"modules":[{"specifier":"m","kind":"esm","text":"","tree":{"nodes":[{"kind":"Program","range":[0,9]}]}}]}' });
  const check = (/** @type {string} */ name) => symdir(['graph', '--check', name], { cwd: folder });
  assert.deepEqual(check('good.json'), { status: 0, stdout: 'good.json: accepted by symq\n', stderr: '' });
  assert.deepEqual(check('bad.json'), { status: 1, stderr: '', stdout: `symq: graph refused: 7 m 5 0
bad.json: module m, node 0 (Program): the range [0, 9] ends after the text, which has 0 bytes
` });
  assert.deepEqual(check(path.join('none', 'x.json')), { status: 3, stdout: '', stderr: 'symdir: none/x.json can\'t be read (ENOENT)\n' });
});

test('the command: a program that neither takes nor refuses the graph is a failure, told by its words or its status', () => {
  const folder = folderOf({ 'g.json': '{}' });
  const check = (/** @type {string} */ text) => symdir(['graph', '--check', 'g.json', '--symq', program({}, 'symq', `#!/bin/sh\n${text}\n`)], { cwd: folder });
  assert.deepEqual(check('echo "symq: no memory" >&2; exit 7'), { status: 3, stdout: '', stderr: 'symdir: symq: no memory\n' });
  assert.deepEqual(check('exit 7'), { status: 3, stdout: '', stderr: 'symdir: symq exited with status 7\n' });
  assert.deepEqual(symdir(['graph', '.', '--check', 'g.json'], { cwd: folder }), { status: 2, stdout: '', stderr: 'symdir: --check takes a graph and no directory, not .\n' });
  for (const status of [4, 5]) assert.deepEqual(check(`echo "symq: refused" >&2; exit ${status}`), { status: 1, stdout: 'symq: refused\n', stderr: '' });
  assert.deepEqual(check('exit 0'), { status: 0, stdout: 'g.json: accepted by symq\n', stderr: '' });
  assert.match(symdir(['graph', '--check', 'g.json', '--symq', './g.json'], { cwd: folder }).stderr, /^symdir: can't start \.\/g\.json: [^\n]*EACCES\n$/);
});

test('what stands in a wrong place is shown up to forty characters', () => {
  const words = (/** @type {string} */ specifier) => wordsOf(Buffer.from(JSON.stringify({ modules: [specifier] })));
  const [whole, cut] = [words('a'.repeat(38)), words('a'.repeat(39))];
  assert.ok(whole[0].endsWith(` "${'a'.repeat(38)}"`), whole[0]);
  assert.ok(cut[0].endsWith(` "${'a'.repeat(39)}..`), cut[0]);
});

test('lists and objects may be nested 127 deep, in texts brackets are none', () => {
  const nested = (/** @type {number} */ depth, open = '[', close = ']') => wordsOf(Buffer.from(`{"a":\n${open.repeat(depth - 1)}${close.repeat(depth - 1)}}`));
  assert.deepEqual([nested(127), nested(127, '{"b":', '}').length], [[], 1]);
  assert.deepEqual(nested(128), ['2:127: lists and objects are nested more than 127 deep']);
  const objects = (/** @type {number} */ depth) => wordsOf(Buffer.from(`${'{"a":'.repeat(depth)}1${'}'.repeat(depth)}`));
  assert.deepEqual([objects(127), objects(128)], [[], ['1:636: lists and objects are nested more than 127 deep']]);
  // what was odd before is told too
  assert.deepEqual(wordsOf(Buffer.from(`[1.5,${'['.repeat(127)}${']'.repeat(128)}`)).map((it) => it.replace(/:.*?:/, '')), ['1 1.5 is no whole number of 64 bits, written in digits alone', '1 lists and objects are nested more than 127 deep']);
  assert.deepEqual(wordsOf(Buffer.from(`{"a":"${'['.repeat(200)}"}`)), []);
  // those that stand beside one another aren't nested
  assert.deepEqual(wordsOf(Buffer.from(`{"a":[${'[],{},'.repeat(200)}[]]}`)), []);
});

test('a node lies 4,096 deep at most, the program and what nothing holds at 1', () => {
  const chain = (/** @type {number} */ count, /** @type {any[]} */ more = []) => ({ modules: [{ specifier: 'm', kind: 'esm', text: '', tree: { nodes: [{ kind: 'Program', range: [0, 0], body: [1] }, { kind: 'ExprStmt', range: [0, 0], expr: 2 },
    ...Array.from({ length: count - 2 }, (_, i) => ({ kind: 'Other', range: [0, 0], ...(i < count - 3 && { children: [i + 3] }) })), ...more] } }] });
  const words = (/** @type {object} */ graph) => wordsOf(Buffer.from(JSON.stringify(graph)));
  assert.deepEqual(words(chain(4096)), []);
  assert.deepEqual(words(chain(4097)), ['module m, node 4096 (Other): it lies more than 4096 deep']);
  // two further nodes, of which one holds the other
  assert.deepEqual(words(chain(4096, [{ kind: 'Other', range: [0, 0], children: [4097] }, { kind: 'Other', range: [0, 0] }])), []);
});
