// The boxes and arrows of the picture of re-exports, and what stands in them.
import assert from 'node:assert/strict';
import test from 'node:test';

import { Drawing } from '../lib/web/draw.js';
import { answer, folderOf } from './helper.js';

test('what isn\'t read has a box without names, and a name that may be there is one of its module', () => {
  const { modules, edges, lost } = answer(['web', folderOf({ 'index.ts': 'export { far } from "npm:far";\nexport * from "npm:all";\nexport { gone } from "./gone";\nexport { b } from "./b.cjs";\nexport { none } from "./c";\n',
    'b.cjs': 'exports.b = 1;\n', 'c.ts': 'export const c = 1;\n' })]);
  assert.deepEqual(Object.fromEntries(modules.map((/** @type {any} */ it) => [it.file, it.names])), { 'index.ts': [], 'npm:far': [], 'npm:all': [], 'b.cjs': ['b'], 'c.ts': [] });
  assert.deepEqual(edges.map((/** @type {any} */ it) => [it.to, it.star, it.names]).sort(), [['b.cjs', false, ['b']], ['c.ts', false, ['none']], ['npm:all', true, ['*']]]);
  assert.deepEqual(lost.map((/** @type {any} */ it) => [it.file, it.text, it.star]).sort(), [['c.ts', 'no none', false], ['index.ts', './gone', false]]);
});

/**
 * @param {Record<string, string[]>} owned the names that each module defines
 * @param {[from: string, to: string, isStar: boolean, names: string[]][]} edges
 * @param {{ entries?: string[], lost?: { module: string, text: string, isStar: boolean }[], unread?: string[], linkTo?: (below: string) => string }} [more]
 * @returns {string} the text for Graphviz
 */
function drawn(owned, edges, more = {}) {
  const { entries = ['index.ts'], lost = [], unread = [], linkTo } = more;
  const modules = new Map([...Object.keys(owned), ...entries].filter((it) => !unread.includes(it)).map((it) => [it, { file: `/shop/${it}` }]));
  const folder = { short: (/** @type {string} */ it) => it, sources: { folder: '/shop', modules } };
  const web = { entries, edges: edges.map(([from, to, isStar, names]) => ({ from, to, isStar, names: new Set(names) })), lost,
    owned: new Map(Object.entries(owned).map(([module, names]) => [module, new Map(names.map((it) => [it, 1]))])) };
  return new Drawing(/** @type {any} */ (folder), /** @type {any} */ (web), linkTo).text();
}

/** @template T @param {number} count @param {(i: number) => T} make @returns {T[]} */
const list = (count, make) => Array.from({ length: count }, (_, i) => make(i));
/** @param {string} text for Graphviz @returns {string[]} its boxes, one a line */
const boxesIn = (text) => text.split('\n').filter((it) => /^n\d+ \[label=</.test(it));
/** @param {string} text @returns {string[]} what stands in small letters */
const smallIn = (text) => [...text.matchAll(/<FONT[^>]*>(.*?)<\/FONT>/g)].flatMap(([, it]) => it.split('<BR/>'));

test('three modules of a directory that are re-exported alike share a box, and others don\'t', () => {
  const alike = (/** @type {number} */ count, /** @type {string} */ at = 'x/') => list(count, (i) => `${at}m${i}.ts`);
  const web = (/** @type {string[]} */ modules, isStar = (/** @type {number} */ _) => true) => boxesIn(drawn(Object.fromEntries(modules.map((it) => [it, ['a']])),
    modules.map((it, i) => ['index.ts', it, isStar(i), ['a']]))).length;
  assert.deepEqual([web(alike(2)), web(alike(3)), web(alike(9))], [3, 2, 2]);
  assert.equal(web([...alike(2), 'y/m.ts']), 4);
  assert.equal(web(alike(3), (i) => i > 0), 4);
  // whichever of the arrows that lead there comes first
  const twice = alike(3).flatMap((it, i) => [['index.ts', it, true, ['a']], ['z.ts', it, false, ['a']]].sort(() => (i > 0 ? 1 : -1)));
  assert.equal(boxesIn(drawn(Object.fromEntries(alike(3).map((it) => [it, ['a']])), [['index.ts', 'z.ts', true, ['a']], .../** @type {any[]} */ (twice)])).length, 3);
  // one that re-exports itself, an entry and one that lacks something stand alone
  const owned = Object.fromEntries(alike(4).map((it) => [it, ['a']]));
  const edges = /** @type {[string, string, boolean, string[]][]} */ (alike(4).map((it) => ['index.ts', it, true, ['a']]));
  assert.equal(boxesIn(drawn({ ...owned, 'z.ts': ['a'] }, [...edges, ['x/m0.ts', 'z.ts', true, ['a']]])).length, 4);
  assert.equal(boxesIn(drawn(owned, edges, { entries: ['index.ts', 'x/m0.ts'] })).length, 3);
  assert.equal(boxesIn(drawn(owned, edges, { lost: [{ module: 'x/m0.ts', text: './gone', isStar: true }] })).length, 3);
});

test('a box of several modules has fourteen rows, and says how many more there are', () => {
  const web = (/** @type {number} */ count) => drawn(Object.fromEntries(list(count, (i) => [`x/m${i}.ts`, ['a', 'b']])),
    list(count, (i) => ['index.ts', `x/m${i}.ts`, true, ['a', 'b']]));
  const [, box] = boxesIn(web(14));
  assert.deepEqual(smallIn(box), list(14, (i) => [`m${i}.ts`, 'a, b']).flat());
  assert.match(box, /<B>x\/ {2}14 modules<\/B>/);
  const [, more] = boxesIn(web(16));
  assert.deepEqual(smallIn(more).slice(-3), ['m13.ts', 'a, b', '+ 2 modules with 4 names']);
  // as many names as fit in forty characters, and how many more
  const names = list(9, (i) => `name${i}`);
  const [, full] = boxesIn(drawn({ 'x/a.ts': names.slice(0, 5), 'x/b.ts': names, 'x/c.ts': ['n'.repeat(41), 'm'] }, ['a', 'b', 'c'].map((it) => ['index.ts', `x/${it}.ts`, true, ['a']])));
  assert.deepEqual(smallIn(full), ['a.ts', 'name0, name1, name2, name3, name4', 'b.ts', 'name0, name1, name2, name3 + 5', 'c.ts', '2 names']);
});

test('a box of one module has six lines at most, and three where there are over forty boxes', () => {
  const long = list(9, (i) => String(i).repeat(30));
  const linesOf = (/** @type {number} */ boxes) => {
    const others = list(boxes - 2, (i) => `d${i}/m.ts`);
    const text = drawn(Object.fromEntries(/** @type {[string, string[]][]} */ ([['a.ts', long], ...others.map((it) => [it, ['b']])])), [['index.ts', 'a.ts', true, long], ...others.map((it) => /** @type {any} */ (['index.ts', it, true, ['b']]))]);
    assert.equal(boxesIn(text).length, boxes);
    return { lines: smallIn(/** @type {string} */ (boxesIn(text).find((it) => it.includes('<B>a.ts</B>')))), apart: /nodesep=([\d.]+), ranksep=([\d.]+)/.exec(text)?.slice(1) };
  };
  assert.deepEqual(linesOf(40), { lines: [...long.slice(0, 5), '+ 4 more'], apart: ['0.25', '0.7'] });
  assert.deepEqual(linesOf(41), { lines: [...long.slice(0, 2), '+ 7 more'], apart: ['0.12', '0.9'] });
  const six = drawn({ 'a.ts': long.slice(0, 6) }, [['index.ts', 'a.ts', true, long]]);
  assert.deepEqual(smallIn(six), long.slice(0, 6));
});

test('as many names stand in a line as fit: 34 characters where a module has a box, 40 where several share one', () => {
  const names = (/** @type {number[]} */ ...lengths) => lengths.map((it, i) => String(i).repeat(it));
  const alone = (/** @type {string[]} */ all) => smallIn(drawn({ 'a.ts': all }, [['index.ts', 'a.ts', true, all]]));
  assert.deepEqual(alone(['b']), ['b']);
  const [fit, wide] = [names(16, 16), names(17, 16)];
  assert.deepEqual([alone(fit), alone(wide)], [[fit.join(', ')], wide]);
  const shared = (/** @type {string[]} */ all) => {
    const owned = { 'x/a.ts': all, 'x/b.ts': [], 'x/c.ts': [] };
    return smallIn(drawn(owned, Object.keys(owned).map((it) => ['index.ts', it, true, ['n']])))[1];
  };
  assert.equal(shared(names(12, 12, 12)), names(12, 12, 12).join(', '));
  // the number of those that are left out takes eight characters
  assert.equal(shared(names(13, 12, 12)), `${names(13, 12).join(', ')} + 1`);
  assert.equal(shared(names(15, 15, 15)), `${names(15, 15).join(', ')} + 1`);
  assert.equal(shared(names(16, 15, 15)), `${names(16)} + 2`);
});

test('a frame is around boxes of one directory where there are others', () => {
  const edges = /** @type {[string, string, boolean, string[]][]} */ ([['x/index.ts', 'x/a.ts', true, ['a']], ['x/a.ts', 'x/b.ts', true, ['b']]]);
  const frames = (/** @type {string[]} */ ...more) => (
    drawn({ 'x/a.ts': ['a'], 'x/b.ts': ['b'] }, [...edges, ...more.map((it) => /** @type {typeof edges[0]} */ (['x/a.ts', it, true, ['c']]))], { entries: ['x/index.ts'] }).match(/subgraph/g)?.length ?? 0);
  assert.deepEqual([frames(), frames('y/c.ts'), frames('y/c.ts', 'y/d.ts'), frames('c.ts', 'd.ts')], [0, 1, 2, 1]);
});

test('boxes are titled by the file, or by its path where another has its name, and colored by what they are', () => {
  const text = drawn({ 'x/a.ts': ['a'], 'y/a.ts': ['b'], 'y/b.ts': ['c'], 'far.ts': ['d'] }, [['index.ts', 'x/a.ts', true, ['a']], ['x/a.ts', 'y/a.ts', true, ['b']], ['x/a.ts', 'y/b.ts', false, ['c']], ['index.ts', 'far.ts', false, ['d']]], { unread: ['far.ts'] });
  assert.deepEqual([...text.matchAll(/BGCOLOR="(#\w+)"><B>(.*?)<\/B>( \(entry\))?/g)].map(([, ...it]) => it.join(' ')).sort(), [
    '#e6e6e6 far.ts ', '#e8eef8 b.ts ', '#e8eef8 x/a.ts ', '#e8eef8 y/a.ts ', '#ffe9a8 index.ts  (entry)']);
  // the two boxes of a directory have a frame around them
  assert.deepEqual([...text.matchAll(/subgraph cluster_\d+ \{ label="(.*?)"/g)].map(([, it]) => it), ['y/']);
  assert.match(text, /href="file:\/\/\/shop\/x\/a\.ts"/);
  assert.match(text, /href="far\.ts"/);
  const own = drawn({ 'x/a.ts': ['a'], 'x/b.ts': ['b'], 'x/c.ts': ['c'] }, ['a', 'b', 'c'].map((it) => ['index.ts', `x/${it}.ts`, true, [it]]), { linkTo: (it) => `#file=${it}` });
  assert.match(own, /href="#file=index\.ts"/);
  assert.match(own, /href="#file=x\/"/);
  assert.match(own, /HREF="#file=x\/b\.ts"/);
  assert.match(own, /labelloc=t/);
  // the look of all boxes and arrows that say no other
  assert.deepEqual([...text.matchAll(/^(node|edge) \[(.*)\];$/gm)].map(([, what, list]) => `${what}: ${list.match(/\w+(?==)/g)}`), ['node: shape,fontname,fontsize', 'edge: color,arrowsize,fontname,fontsize']);
  assert.doesNotMatch(own, /An arrow leads/);
  assert.match(text, /label="shop: 5 modules that entries reach\\nAn arrow leads from a module to the one whose names it re-exports/);
});

test('arrows: thick for `export *`, by the number of names, thin for names one by one; dashed boxes for what is unresolved', () => {
  const arrows = (/** @type {string} */ text) => text.split('\n').filter((it) => it.includes(' -> '));
  const names = (/** @type {number} */ count) => list(count, (i) => `n${i}`);
  const text = drawn({ 'a.ts': names(20), 'b.ts': names(500), 'c.ts': ['c'], 'd.ts': [] }, [['index.ts', 'a.ts', true, names(20)], ['index.ts', 'b.ts', true, names(500)], ['index.ts', 'c.ts', false, ['c']],
    ['index.ts', 'd.ts', false, ['*']], ['index.ts', 'index.ts', true, ['own']]], { lost: [{ module: 'a.ts', text: './gone', isStar: true }, { module: 'b.ts', text: 'no <x>', isStar: false }] });
  const found = arrows(text);
  assert.deepEqual(found.map((it) => it.replace(/, edgetooltip.*/, '')), [
    'n0 -> n1 [penwidth=2.1, label="20 names"', 'n0 -> n2 [penwidth=5.0, label="500 names"', 'n0 -> n3 [penwidth=0.7, color="#999999", arrowhead=empty, label="1 name"',
    'n0 -> n4 [penwidth=0.7, color="#999999", arrowhead=empty, label=""', 'n1 -> x0 [color=red, style=solid, penwidth=1.6];', 'n2 -> x1 [color=red, style=dashed, penwidth=0.8];']);
  assert.deepEqual([...text.matchAll(/style=dashed, color=red, fontcolor=red, label="(.*?)"/g)].map(([, it]) => it), ['./gone', 'no &#60;x&#62;']);
  // each forty names are a point more, up to five points
  const wide = (/** @type {number} */ count) => /penwidth=([\d.]+), label/.exec(drawn({ 'a.ts': names(count) }, [['index.ts', 'a.ts', true, names(count)]]))?.[1];
  assert.deepEqual([40, 120, 132, 136, 140].map(wide), ['2.6', '4.6', '4.9', '5.0', '5.0']);
  // what is told of an arrow is cut at 900 characters
  const [, told] = /edgetooltip="(n0, n1.*?)"/.exec(found[1]) ?? assert.fail();
  assert.equal(told, names(500).join(', ').slice(0, 900));
  // one arrow for all between two boxes
  const several = drawn({ 'x/a.ts': ['a'], 'x/b.ts': ['b'], 'x/c.ts': ['c', 'a'] }, [['index.ts', 'x/a.ts', true, ['a']], ['index.ts', 'x/b.ts', true, ['b']], ['index.ts', 'x/c.ts', true, ['c', 'a']]]);
  assert.deepEqual(arrows(several).map((it) => it.replace(/, edgetooltip.*/, '')), ['n0 -> n1 [penwidth=1.7, label="3 names from 3 modules"']);
});
