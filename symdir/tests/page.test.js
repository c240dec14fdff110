// The page of `api --html`: its search by itself, and what stands in its text.
import assert from 'node:assert/strict';
import { createHash } from 'node:crypto';
import { readFileSync } from 'node:fs';
import path from 'node:path';
import test from 'node:test';
import { Script } from 'node:vm';

import { docHtml } from '../lib/report/doc-html.js';
import { hashOf, queryOf, search } from '../lib/report/page/search.js';
import { inlined } from '../lib/report/picture.js';
import { folderOf, program, symdir } from './helper.js';
import { EXPORTED, FILES } from './hostile.js';

const ROWS = [
  { name: 'Widget', kind: 'class+namespace', entry: 'index.ts', files: ['src/a.ts'], members: ['Widget#attach', 'Widget.IOptions#layout', 'Widget constructor'] },
  { name: 'TabBarWidget', kind: 'class', entry: 'index.ts', files: ['src/b/c.ts'], members: [] },
  { name: 'widgetOf', kind: 'function', entry: 'more.ts', files: ['src/a.ts', 'src/d.ts'], members: [] },
  { name: 'getElement', kind: 'function', entry: 'more.ts', files: ['x.ts'], members: [] },
  { name: 'a.b', kind: 'const', entry: 'more.ts', files: [''], members: [] },
];

/** @param {string} text @param {Partial<import('../lib/report/page/search.js').Query>} [filters] @returns {string[]} names with the members by which they are found */
function found(text, filters = {}) {
  const hits = search(ROWS, { text, kind: '', entry: '', file: '', ...filters });
  return hits.map(({ index, members }) => [ROWS[index].name, ...members.map((it) => ROWS[index].members[it])].join(' '));
}

test('names are found by all of them, by their beginning, words, initials and parts, in this order', () => {
  assert.deepEqual(found('Widget'), ['Widget', 'widgetOf', 'TabBarWidget']);
  assert.deepEqual(found(' widgetof '), ['widgetOf']);
  assert.deepEqual(found('idge'), ['Widget', 'TabBarWidget', 'widgetOf']);
  assert.deepEqual(found('tbw'), ['TabBarWidget']);
  assert.deepEqual(found('gE'), ['getElement', 'Widget', 'TabBarWidget', 'widgetOf']);
  assert.deepEqual(found('.b'), ['a.b']);
  assert.deepEqual(found('none'), []);
  assert.deepEqual(found(''), ROWS.map((it) => it.name));
});

test('names are found by their members, by a part of these or with what they are members of', () => {
  assert.deepEqual(found('attach'), ['Widget Widget#attach']);
  assert.deepEqual(found('layout'), ['Widget Widget.IOptions#layout']);
  assert.deepEqual(found('widget.att'), ['Widget Widget#attach']);
  assert.deepEqual(found('Widget#att'), ['Widget Widget#attach']);
  assert.deepEqual(found('construct'), ['Widget Widget constructor']);
});

test('filters by kind, entry, file and directory', () => {
  assert.deepEqual(found('', { kind: 'class' }), ['Widget', 'TabBarWidget']);
  assert.deepEqual(found('', { kind: 'namespace' }), ['Widget']);
  assert.deepEqual(found('widget', { entry: 'more.ts' }), ['widgetOf']);
  assert.deepEqual(found('', { file: 'src/a.ts' }), ['Widget', 'widgetOf']);
  assert.deepEqual(found('', { file: 'src/' }), ['Widget', 'TabBarWidget', 'widgetOf']);
  assert.deepEqual(found('', { file: 'src/b/', kind: 'function' }), []);
  assert.deepEqual(found('', { file: '/' }).length, 5);
});

test('of members the best are told, and rows go by their own names first', () => {
  const row = (/** @type {string} */ name, /** @type {string[]} */ members = []) => ({ name, kind: 'class', entry: 'index.ts', files: ['a.ts'], members });
  const told = (/** @type {string} */ text, /** @type {ReturnType<typeof row>[]} */ ...rows) => search(rows, { text, kind: '', entry: '', file: '' })
    .map(({ index, members }) => [rows[index].name, ...members.map((it) => rows[index].members[it])].join(' '));
  // all of it, its beginning, one of its words, the first letters of these, a part: each with those of the next two sorts
  const members = ['A#to', 'A#toString', 'A#goTo', 'A#tableOf', 'A#into'];
  const from = (/** @type {number} */ i) => told('to', row('A', members.slice(i))).join();
  assert.deepEqual([0, 1, 2, 3, 4, 5].map(from), [
    'A A#to A#toString', 'A A#toString A#goTo A#tableOf', 'A A#goTo A#tableOf A#into', 'A A#tableOf A#into', 'A A#into', '']);
  assert.deepEqual(told('to', row('A', ['A#TO', 'A#goTo', 'A#tableOf'])), ['A A#TO A#goTo']);
  // where the name itself has it as a word, its members aren't looked at
  for (const it of ['to', 'TO', 'toA', 'goTo']) assert.deepEqual(told('to', row(it, [`${it}#to`])), [it]);
  for (const it of ['tableOf', 'into']) assert.deepEqual(told('to', row(it, [`${it}#to`])), [`${it} ${it}#to`]);
  assert.deepEqual(told('to', row('B', ['B#into']), row('C', ['C#to']), row('into'), row('to'), row('D', ['D#to'])), ['to', 'into', 'C C#to', 'D D#to', 'B B#into']);
  assert.deepEqual([told('to', row('TO'), row('to')), told('TO', row('to'), row('TO'))], [['to', 'TO'], ['TO', 'to']]);
  assert.deepEqual(told('bar', row('foobar'), row('foo_bar'), row('fooBar')), ['foo_bar', 'fooBar', 'foobar']);
  assert.deepEqual([found('tb'), told('gon', row('get-own-name')), told('b64u', row('base64Url'))], [['TabBarWidget'], ['get-own-name'], ['base64Url']]);
});

test('a filter takes a whole file, entry or kind, or a directory by its slash', () => {
  assert.deepEqual([found('', { file: 'src/a' }), found('', { file: 'src' }), found('', { entry: 'more' }), found('', { kind: 'name' })], [[], [], [], []]);
});

test('a search is kept in the address', () => {
  const none = { text: '', kind: '', entry: '', file: '' };
  assert.deepEqual([{ text: ' a ' }, { kind: 'b' }, { entry: 'c' }, { file: 'd' }].map((it) => hashOf({ ...none, ...it })), ['#q=a', '#kind=b', '#entry=c', '#file=d']);
  const query = { text: 'a b&c=#%', kind: 'class', entry: 'x/y.ts', file: 'ø/' };
  assert.deepEqual(queryOf(hashOf(query)), query);
  assert.equal(hashOf({ text: ' ', kind: '', entry: '', file: '' }), '');
  assert.deepEqual(queryOf(''), { text: '', kind: '', entry: '', file: '' });
});

const TAGS = new Set(('html head meta title style body header h1 h2 h3 p code form label input div select option button output kbd main section ul li details summary span pre dl dt dd strong '
  + 'svg g a polygon path polyline ellipse text script').split(' '));
const ATTRIBUTES = /^(lang|charset|name|content|http-equiv|class|id|role|type|autocomplete|spellcheck|autofocus|for|value|hidden|tabindex|aria-[a-z]+|data-(name|kind|entry|files|tip)|href|width|height|viewbox|transform|fill|stroke|stroke-width|stroke-dasharray|points|d|cx|cy|rx|ry|x|y|text-anchor|font-family|font-size|font-weight)$/;

/** @param {string} html @returns {{ tag: string, attributes: Record<string, string> }[]} its elements, as far as they are what the page is made of; the content of style and script is left out */
function elementsOf(html) {
  const all = [];
  const rest = html.replace(/^<!doctype html>/, '').replace(/(<style>)[^]*?(<\/style>)/, '$1$2').replace(/(<script type="module">)[^]*?(<\/script>)/, '$1$2');
  for (const [, text] of rest.matchAll(/<([^>]*)>/g)) {
    const [, tag, list] = /** @type {RegExpExecArray} */ (/^\/?([a-z0-9]+)((?:\s+[\w:-]+(?:="[^"<]*")?)*)\s*\/?$/.exec(text) ?? assert.fail(text));
    const attributes = Object.fromEntries([...list.matchAll(/([\w:-]+)(?:="([^"]*)")?/g)].map(([, name, value]) => [name, value ?? '']));
    all.push({ tag, attributes });
  }
  assert.doesNotMatch(rest.replace(/<[^>]*>/g, ''), /[<>]/);
  return all;
}

/** Elements that have no end. */
const WITHOUT_END = new Set(['meta', 'input', 'br', 'hr']);

/** @param {string} html @returns {string[]} the elements that aren't ended, or the first end of another one */
function openIn(html) {
  const open = [];
  for (const [, end, tag, isEmpty] of html.replace(/<(script|style)\b[^>]*>[^]*?<\/\1>/g, '').matchAll(/<(\/?)([a-z]\w*)\b[^<>]*?(\/?)>/gi)) {
    if (!end && !isEmpty && !WITHOUT_END.has(tag)) open.push(tag);
    if (end && open.pop() !== tag) return [`/${tag}`];
  }
  return open;
}

test('the page has the elements and attributes that it is made of alone, whatever names and comments say', () => {
  const { status, stdout, stderr } = symdir(['api', folderOf(FILES), '--html']);
  assert.deepEqual([status, stderr], [1, '']);
  for (const { tag, attributes } of elementsOf(stdout)) {
    assert.ok(TAGS.has(tag), tag);
    for (const [name, value] of Object.entries(attributes)) {
      assert.ok(ATTRIBUTES.test(name.toLowerCase()), `${tag} ${name}`);
      if (name === 'href') assert.match(value, /^#/);
    }
  }
  assert.equal(stdout.match(/<script/g)?.length, 1);
  assert.deepEqual(openIn(stdout), []);
  const decoded = stdout.replace(/&#(\d+);/g, (_, code) => String.fromCharCode(Number(code)));
  assert.ok(decoded.includes(`<code class="name">${EXPORTED}</code>`));
});

test('the page needs no network, and its policy allows its own script and style alone', () => {
  const { stdout } = symdir(['api', folderOf(FILES), '--html']);
  const [, policy] = /http-equiv="Content-Security-Policy" content="([^"]*)"/.exec(stdout) ?? assert.fail();
  const hash = (/** @type {RegExp} */ part) => `'sha256-${createHash('sha256').update(/** @type {RegExpExecArray} */ (part.exec(stdout))[1]).digest('base64')}'`;
  assert.deepEqual(policy.split('; '), ["default-src 'none'", "base-uri 'none'", "form-action 'none'", `style-src ${hash(/<style>([^]*?)<\/style>/)}`, `script-src ${hash(/<script type="module">([^]*?)<\/script>/)}`]);
  const script = /<script type="module">([^]*?)<\/script>/.exec(stdout)?.[1] ?? '';
  const functions = (/** @type {string} */ text) => [...text.matchAll(/^function (\w+)/gm)].map(([, name]) => name);
  const modules = ['search.js', 'page.js'].map((it) => readFileSync(new URL(`../lib/report/page/${it}`, import.meta.url), 'utf8').replace(/^export /gm, ''));
  assert.deepEqual(functions(script), modules.flatMap(functions));
  assert.ok(new Script(`(function () {${script}})`));
  // elements have no attribute that loads something, as the test above holds them to
  assert.doesNotMatch(/<style>([^]*?)<\/style>/.exec(stdout)?.[1] ?? '', /@import|url\(/i);
  assert.doesNotMatch(script, /\b(fetch|XMLHttpRequest|import)\b|innerHTML/);
});

test('the page has no path of the machine it was made on, and is the same each time', () => {
  const folder = folderOf({ 'index.ts': 'export * from "./a";\nexport * from "./gone";\n', 'a.ts': '/** Of a. */\nexport const a = 1;\n' });
  const first = symdir(['api', folder, '--html']).stdout;
  assert.ok(!first.includes(path.dirname(folder)));
  assert.equal(symdir(['api', folder, '--html']).stdout, first);
  assert.match(first, /<svg /);
  assert.match(first, /href="#file=a\.ts"/);
  assert.match(first, /<p>Of a\.<\/p>/);
  assert.match(first, /<h2>1 finding<\/h2>/);
});

test('without Graphviz the page says that its picture lacks', () => {
  const dot = program({}, 'dot', '#!/bin/sh\nread line\necho "Error: no fonts" >&2\nexit 1\n');
  const { status, stdout, stderr } = symdir(['api', folderOf({ 'index.ts': 'export const a = 1;\n' }), '--html'], { env: { PATH: `${path.dirname(dot)}:${process.env.PATH}` } });
  assert.deepEqual([status, stderr], [0, 'symdir: the page has no picture: Graphviz exited with status 1: Error: no fonts\n']);
  assert.match(stdout, /has no picture/);
  assert.doesNotMatch(stdout, /<svg/);
});

test('of a picture what isn\'t known is left out', () => {
  const svg = '<?xml version="1.0"?><svg width="1pt" onload="x()"><script>a</script><g id="n"><!-- <b> --><a xlink:href="javascript:x()" xlink:title="t&lt;"><text x="1">a &lt; b</text></a><a xlink:href="#file=x"><image href="y"/></a> < </g></svg>';
  assert.equal(inlined(svg), '<svg width="1pt">a<g id="n"><a data-tip="t&lt;"><text x="1">a &lt; b</text></a><a href="#file=x"></a> &#60; </g></svg>');
});

test('doc comments as HTML', () => {
  assert.equal(docHtml(''), '');
  assert.equal(docHtml('a - b * c'), '<div class="doc"><p>a - b * c</p></div>');
  assert.equal(docHtml('One `<b>`\ntwo & {@link C}.\n\nThree:\n- a\n- b\n  c'), '<div class="doc"><p>One <code>&#60;b&#62;</code> two &#38; <code>C</code>.</p><p>Three:</p><ul><li>a</li><li>b c</li></ul></div>');
  assert.equal(docHtml('@param a - The *a*.\n@example\nf();\n@deprecated'), '<div class="doc"><dl><dt>@param <code>a</code></dt><dd><p>The *a*.</p></dd><dt>@example</dt><dd><pre><code>f();</code></pre></dd><dt>@deprecated</dt><dd></dd></dl></div>');
  assert.equal(docHtml('#### Notes\nText\n```ts\n@x <y>\n```\nend'), '<div class="doc"><p><strong>Notes</strong></p><p>Text</p><pre><code>@x &#60;y&#62;</code></pre><p>end</p></div>');
  assert.equal(docHtml('```\nopen'), '<div class="doc"><pre><code>open</code></pre></div>');
});

test('lists, headings, fences and tags of doc comments', () => {
  const rows = {
    '- a - b\n* c\n  - d': '<ul><li>a - b</li><li>c</li><li>d</li></ul>', 'a - b': '<p>a - b</p>', 'a\n\n\nb\nc': '<p>a</p><p>b c</p>',
    '# One\n\n###### Six ##\nseven': '<p><strong>One</strong></p><p><strong>Six</strong></p><p>seven</p>', '####### Seven': '<p>####### Seven</p>', '#eight': '<p>#eight</p>',
    'a\n```js\nb <c>\n\n- d\n```\n- e': '<p>a</p><pre><code>b &#60;c&#62;\n\n- d</code></pre><ul><li>e</li></ul>', '`a` `b` {@link c|d} {@link e}': '<p><code>a</code> <code>b</code> d <code>e</code></p>',
  };
  for (const [text, html] of Object.entries(rows)) assert.equal(docHtml(text), `<div class="doc">${html}</div>`, text);
  const tags = {
    '@param {string} [a.b] - The *a*.': '<dt>@param <code>[a.b]</code></dt><dd><p>The *a*.</p></dd>', '@typeParam T - Of it.': '<dt>@typeParam <code>T</code></dt><dd><p>Of it.</p></dd>',
    '@template T': '<dt>@template <code>T</code></dt><dd></dd>', '@property {a} b c\nd': '<dt>@property <code>b</code></dt><dd><p>c d</p></dd>', '@returns a - b': '<dt>@returns</dt><dd><p>a - b</p></dd>',
    '@parameter a - b': '<dt>@parameter</dt><dd><p>a - b</p></dd>', '@example\n```ts\nf();\n```': '<dt>@example</dt><dd><pre><code>f();</code></pre></dd>', '@example': '<dt>@example</dt><dd></dd>',
    '@since 1\n```\n@param a\n```\n@x-y z': '<dt>@since</dt><dd><p>1</p><pre><code>@param a</code></pre></dd><dt>@x-y</dt><dd><p>z</p></dd>',
  };
  for (const [text, html] of Object.entries(tags)) assert.equal(docHtml(`A.\n\n${text}`), `<div class="doc"><p>A.</p><dl>${html}</dl></div>`, text);
});

test('of a picture each element and each attribute stays that Graphviz writes, and no other', () => {
  for (const it of ['svg', 'g', 'polygon', 'path', 'polyline', 'ellipse', 'text', 'title', 'a']) assert.equal(inlined(`<svg><${it} x="1"/></svg>`), `<svg><${it} x="1"/></svg>`, it);
  for (const it of ['script', 'image', 'use', 'style', 'animate', 'foreignObject', 'set', 'textPath', 'xsvg', 'b', 'linearGradient']) assert.equal(inlined(`<svg><${it} x="1"/></svg>`), '<svg></svg>', it);
  const kept = 'id class transform fill stroke stroke-width stroke-dasharray points d cx cy rx ry x y text-anchor font-family font-size font-weight width height viewBox'.split(' ');
  for (const it of kept) assert.equal(inlined(`<svg ${it}="a"></svg>`), `<svg ${it}="a"></svg>`, it);
  assert.equal(inlined('<svg id="a"  x="1"\n y="2" onload="b" d="<"><g x="1" onload="b" y="2"></g><g id="c" x="1"></g></svg>'), '<svg id="a" x="1" y="2" d="&#60;"><g x="1" y="2"></g><g id="c" x="1"></g></svg>');
  for (const it of ['onload', 'style', 'href', 'src', 'xlink', 'xmlns', 'xml:space', 'target', 'fill-rule', 'data-id']) assert.equal(inlined(`<svg ${it}="#a"></svg>`), '<svg></svg>', it);
});

test('the page says why names aren\'t listed', () => {
  const folder = folderOf({ 'index.ts': 'export * from "./bad";\nexport * from "./c.js";\nexport const n = 1;\n', 'bad.ts': 'export const = ;\n', 'c.js': 'module.exports = 1;\n' });
  const { stdout } = symdir(['api', folder, '--entry', 'index.ts', '--entry', 'c.js', '--html']);
  assert.match(stdout, /<li>index\.ts:1:1: export \* from &#34;\.\/bad&#34; isn&#39;t analyzed, and its names are public too<\/li>/);
  assert.match(stdout, /<li>c\.js is CommonJS: its names aren&#39;t known<\/li>/);
});

test('words before a member are told before its name, and its type behind it', () => {
  const text = 'export abstract class A {\n  protected a: 1;\n  protected static readonly b?: 2;\n  protected abstract c(d: 3): 4;\n  protected get e(): 5;\n  protected: 6;\n  protect(): 7;\n}\n';
  const { stdout } = symdir(['api', folderOf({ 'index.ts': text }), '--html']);
  const members = [...stdout.matchAll(/<li data-name="A[^"]*">(.*?) <span class="kind">/g)].map(([, head]) => head.replaceAll('</code><code class="signature">', '').replace(/<[^>]*>/g, ''));
  assert.deepEqual(members.sort(), ['protected A#a: 1', 'protected static readonly A.b?: 2', 'protected abstract A#c(d: 3): 4', 'protected get A#e(): 5', 'A#protected: 6', 'A#protect(): 7'].sort());
});

test('a row of the page has the kind of its name, whether it is a type alone or deprecated, its place and its entry', () => {
  const folder = folderOf({
    'package.json': '{"name":"@s/shop","version":"1.2.3","exports":{".":"./index.ts","./more":"./more.ts"},"dependencies":{"far":"1"}}', 'more.ts': 'export { B } from "./a";\n',
    'index.ts': 'export type { A } from "./a";\nexport { B } from "./a";\nexport { far } from "far";\n/** @deprecated Use B. */\nexport const old = 1;\n',
    'a.ts': 'export class A {\n  /** Of a. */ static a?: 1;\n}\nexport interface B { b: 1 }\nexport function B(): 1;\nexport namespace B { export type C = 1 }\n' });
  const { stdout } = symdir(['api', folder, '--html']);
  const rows = [...stdout.matchAll(/<li class="row" data-name="(.*?)" data-kind="(.*?)" data-entry="(.*?)" data-files="(.*?)">(.*)<\/li>/g)].map(([, name, kind, entry, files, rest]) => {
    const [, end] = /<span class="end">(.*?)<\/span><\/summary>/.exec(rest) ?? assert.fail(rest);
    return [name, kind, entry, files, ...[...end.matchAll(/<span class="(kind|place|entry)">(.*?)<\/span>/g)].map(([, what, text]) => `${what} ${text}`)];
  });
  assert.deepEqual(rows, [
    ['A', 'class', 'index.ts', 'a.ts', 'kind class', 'kind type-only', 'place a.ts:1:14', 'entry index.ts'],
    ['B', 'interface+function+namespace', 'index.ts', 'a.ts', 'kind interface+function+namespace', 'place a.ts:4:18 +2', 'entry index.ts'],
    ['B', 'interface+function+namespace', 'more.ts', 'a.ts', 'kind interface+function+namespace', 'place a.ts:4:18 +2', 'entry more.ts'],
    ['far', 'external', 'index.ts', '', 'kind external', 'place in npm:far, an external module', 'entry index.ts'],
    ['old', 'const', 'index.ts', 'index.ts', 'kind const', 'kind deprecated', 'place index.ts:5:14', 'entry index.ts']]);
  assert.match(stdout, /<title>@s\/shop 1\.2\.3: public API<\/title>/);
  assert.match(stdout, /<p class="about">5 public names of <code>index\.ts<\/code>, <code>more\.ts<\/code><\/p>/);
  const options = (/** @type {string} */ id) => [...(new RegExp(`<select id="${id}">(.*?)</select>`).exec(stdout)?.[1] ?? '').matchAll(/<option value="(.*?)">/g)].map(([, it]) => it);
  assert.deepEqual([options('kind'), options('entry')], [['', 'class', 'const', 'external', 'function', 'interface', 'namespace'], ['', 'index.ts', 'more.ts']]);
  assert.match(stdout, /<h3>1 member<\/h3><ul class="members"><li data-name="A\.a"><code class="signature">static<\/code> <code class="name">A\.a<\/code><code class="signature">\?: 1<\/code> <span class="kind">property<\/span> <span class="place">a\.ts:2:\d+<\/span><div class="doc"><p>Of a\.<\/p><\/div><\/li><\/ul>/);
  assert.match(stdout, /<dt>leads to<\/dt><dd>in npm:far, an external module<\/dd>/);
  // of one entry alone there is nothing to choose
  const single = symdir(['api', folder, '--entry', 'more.ts', '--html']).stdout;
  assert.doesNotMatch(single, /id="entry"|class="entry"/);
  assert.doesNotMatch(single, /<h2>(\d+ findings?|Public names)<\/h2>/);
});

test('a name of the page has its whole signature, where it is defined and by what it comes; of many entries there is their number', () => {
  const entries = ['e1', 'e2', 'e3', 'e4'];
  const folder = folderOf({ 'package.json': JSON.stringify({ exports: Object.fromEntries(entries.map((it) => [`./${it}`, `./${it}.ts`])) }), ...Object.fromEntries(entries.map((it) => [`${it}.ts`, 'export const n = 1;\n'])),
    'e1.ts': 'export * from "./a";\nexport * as all from "./a";\n', 'a.ts': 'export function f(a: 1): 2;\n' });
  const { stdout } = symdir(['api', folder, '--html']);
  assert.match(stdout, /<p class="about">5 public names of 4 entry points<\/p>/);
  const bodyOf = (/** @type {string} */ name) => new RegExp(`<li class="row" data-name="${name}".*?<div class="body">(.*?)</div></details>`).exec(stdout)?.[1].replaceAll('&#34;', '"');
  const facts = (/** @type {string[]} */ ...rows) => `<dl class="facts">${rows.map((it) => it.replace(/^(.*?): (.*)$/, '<dt>$1</dt><dd>$2</dd>')).join('')}</dl>`;
  assert.equal(bodyOf('f'), `<pre class="whole"><code>f(a: 1): 2</code></pre>${facts('defined in: a.ts:1:17', 'via: export * from "./a" in e1.ts', 'exported by: e1.ts')}`);
  assert.ok(bodyOf('all')?.startsWith(facts('defined in: a.ts:1:1, by export * as all from "./a" in e1.ts:2:8', 'exported by: e1.ts')));
  assert.equal(bodyOf('n'), facts('defined in: e2.ts:1:14', 'exported by: e2.ts'));
});

test('a click on a box of the page\'s picture leads to the names that its file defines', () => {
  const { stdout } = symdir(['api', folderOf({ 'index.ts': 'export * from "./sub/a b";\nexport const c = 1;\n', 'sub/a b.ts': 'export const a = 1;\n' }), '--html']);
  const links = [...stdout.matchAll(/<a href="([^"]*)" data-tip="([^"]*)"/g)].map(([, href, tip]) => `${href} ${tip}`);
  assert.deepEqual([...new Set(links)].filter((it) => it.startsWith('#file=')).sort(), ['#file=index.ts c', '#file=sub%2Fa+b.ts a']);
  assert.deepEqual(openIn(stdout), []);
});
