// The page of `api --html` in headless Chromium: by keys, at two widths, light and dark; and Markdown as GitHub's own library reads it.
import assert from 'node:assert/strict';
import { spawnSync } from 'node:child_process';
import { mkdirSync, writeFileSync } from 'node:fs';
import path from 'node:path';
import test from 'node:test';

import { answer, folderOf, symdir } from '../tests/helper.js';
import { EXPORTED, FILES, TEXT } from '../tests/hostile.js';
import { Chromium, findChromium } from './chromium.js';
import { PACKAGES, sourcesOf } from './sources.js';

const chromium = findChromium();
const skip = chromium === null && 'Chromium is not there: the page is not looked at';
const LOOKS = [{ width: 1280, isDark: false }, { width: 1280, isDark: true }, { width: 400, isDark: false }, { width: 400, isDark: true }];

/** @param {string} folder @returns {string} the file of its page */
function pageOf(folder) {
  const file = path.join(folderOf({}), 'api.html');
  symdir(['api', folder, '--html', '-o', file]);
  return file;
}

/** @param {(browser: Chromium) => Promise<void>} act */
async function withBrowser(act) {
  const browser = new Chromium(/** @type {string} */ (chromium));
  try {
    await act(browser);
    const said = browser.events.filter((it) => /exceptionThrown|entryAdded|consoleAPICalled|javascriptDialogOpening/.test(it.method));
    assert.deepEqual(said, [], 'what the page complains of');
    assert.deepEqual(browser.events.filter((it) => it.method === 'Network.requestWillBeSent' && !it.params.request.url.startsWith('file:')), [], 'what it asks the network for');
  } finally {
    browser.close();
  }
}

const VISIBLE = '[...document.querySelectorAll("li.row")].filter((it) => it.checkVisibility()).map((it) => it.dataset.name)';
const FOCUSED = 'document.activeElement.id || document.activeElement.querySelector(".name")?.textContent';

/** @param {string} color as `rgb(1, 2, 3)` @returns {number} its luminance, as WCAG has it */
function luminance(color) {
  const [r, g, b] = /** @type {string[]} */ (color.match(/[\d.]+/g)).slice(0, 3).map((it) => Number(it) / 255).map((it) => (it <= 0.04045 ? it / 12.92 : ((it + 0.055) / 1.055) ** 2.4));
  return 0.2126 * r + 0.7152 * g + 0.0722 * b;
}

test('by keys alone a name is found, opened and left', { skip }, () => withBrowser(async (browser) => {
  const widgets = PACKAGES[0];
  const folder = path.join(sourcesOf({ ...widgets, isTaken: (it) => it.startsWith('widgets/') && widgets.isTaken(it) }), 'widgets');
  const names = answer(['api', folder]).names.map((/** @type {any} */ it) => it.name);
  await browser.open(pageOf(folder), LOOKS[0]);
  assert.equal(await browser.evaluate(FOCUSED), 'search');
  assert.deepEqual((await browser.evaluate(VISIBLE)).sort(), names.sort());
  await browser.type('accordionp');
  assert.deepEqual(await browser.evaluate(VISIBLE), ['AccordionPanel']);
  assert.equal(await browser.evaluate('document.getElementById("count").textContent'), `1 of ${names.length} names`);
  assert.equal(await browser.evaluate('location.hash'), '#q=accordionp');
  await browser.press('Enter');
  assert.equal(await browser.evaluate(FOCUSED), 'AccordionPanel');
  assert.equal(await browser.evaluate('document.activeElement.parentElement.open'), true);
  assert.match(await browser.evaluate('document.activeElement.parentElement.innerText'), /extends SplitPanel[^]*src\/accordionpanel\.ts:\d+:\d+[^]*exported by\s+src\/index\.ts[^]*members/);
  await browser.press('Escape');
  assert.deepEqual([await browser.evaluate(FOCUSED), (await browser.evaluate(VISIBLE)).length], ['search', names.length]);
  await browser.press('ArrowDown');
  await browser.press('ArrowDown');
  const [, second] = await browser.evaluate(VISIBLE);
  assert.equal(await browser.evaluate(FOCUSED), second);
  await browser.press('/');
  assert.equal(await browser.evaluate(FOCUSED), 'search');
  await browser.type('restoreL');
  assert.deepEqual((await browser.evaluate(VISIBLE)).sort(), ['DockLayout', 'DockPanel']);
  assert.match(await browser.evaluate('document.querySelector("li.row:not([hidden]) .hits").textContent'), /#restoreLayout/);
  await browser.type('x');
  assert.equal(await browser.evaluate('document.getElementById("none").checkVisibility()'), true);
}));

test('a box of the picture leads to the names of its file', { skip }, () => withBrowser(async (browser) => {
  const folder = folderOf({ 'index.ts': 'export * from "./a";\nexport * from "./b";\n', 'a.ts': 'export const a = 1;\n', 'b.ts': 'export const b = 1, c = 2;\n' });
  await browser.open(pageOf(folder), LOOKS[0]);
  await browser.evaluate('document.querySelector("#picture a[href*=b]").dispatchEvent(new MouseEvent("click", { bubbles: true }))');
  await browser.evaluate('new Promise((resolve) => setTimeout(resolve, 200))');
  for (let i = 0; i < 40 && (await browser.evaluate('location.hash')) === ''; i++) await new Promise((resolve) => setTimeout(resolve, 50));
  assert.deepEqual(await browser.evaluate(VISIBLE), ['b', 'c']);
  assert.equal(await browser.evaluate('document.getElementById("file").textContent'), 'in b.ts ×');
  await browser.evaluate('document.getElementById("file").click()');
  assert.deepEqual(await browser.evaluate(VISIBLE), ['a', 'b', 'c']);
}));

test('at each width and in each scheme: nothing is wider than the page, and text stands out from what is behind it', { skip }, () => withBrowser(async (browser) => {
  const file = pageOf(sourcesOf(PACKAGES[2]));
  const pictures = process.env.SYMDIR_PICTURES;
  if (pictures) mkdirSync(pictures, { recursive: true });
  for (const look of LOOKS) {
    await browser.open(file, look);
    await browser.type('graphqlsch');
    await browser.press('Enter');
    assert.equal(await browser.evaluate(FOCUSED), 'GraphQLSchema');
    assert.deepEqual(await browser.evaluate(`(() => {
      const { top, bottom, left, right } = document.activeElement.getBoundingClientRect();
      return [document.activeElement.parentElement.open, top >= 0 && top < innerHeight && bottom > 0, left >= 0 && right <= innerWidth];
    })()`), [true, true, true], `${look.width}`);
    const { wide, window, back, colors } = await browser.evaluate(`({
      wide: document.documentElement.scrollWidth, window: innerWidth, back: getComputedStyle(document.body).backgroundColor,
      colors: [...document.querySelectorAll("h1, .about, label, output, #keys, summary .name, summary .signature, .place, .kind, .doc p, dt, dd, button")].map((it) => [it.className || it.tagName, getComputedStyle(it).color]) })`);
    assert.ok(wide <= window, `${wide} at ${look.width}`);
    assert.equal(luminance(back) < 0.2, look.isDark);
    for (const [what, color] of colors) {
      if (what === 'BUTTON') continue;
      const [low, high] = [luminance(color), luminance(back)].sort((a, b) => a - b);
      assert.ok((high + 0.05) / (low + 0.05) >= 4.5, `${what} ${color} on ${back}`);
    }
    if (pictures) writeFileSync(path.join(pictures, `page-${look.width}-${look.isDark ? 'dark' : 'light'}.png`), await browser.picture());
  }
}));

test('hostile names and comments are text on the page', { skip }, () => withBrowser(async (browser) => {
  await browser.open(pageOf(folderOf(FILES)), LOOKS[0]);
  assert.deepEqual(await browser.evaluate(VISIBLE), [EXPORTED, 'first', 'Odd'].sort((a, b) => a.toLowerCase().localeCompare(b.toLowerCase(), 'en')));
  assert.deepEqual(await browser.evaluate('[document.scripts.length, document.images.length, document.querySelectorAll("b, i, iframe, object, embed").length]'), [1, 0, 0]);
  const doc = await browser.evaluate('document.querySelector("li.row[data-name=first] .doc").textContent');
  assert.equal(doc, `${TEXT.replaceAll('``x``', '`x`').replaceAll('`tick`', 'tick').replaceAll('`x`', '`x`')} second line`);
  await browser.type('first');
  assert.deepEqual(await browser.evaluate(VISIBLE), ['first']);
}));

/** @param {string} markdown @returns {string} as GitHub's library makes it HTML */
function rendered(markdown) {
  const { status, stdout, error } = spawnSync('cmark-gfm', ['--unsafe', '-e', 'table', '-e', 'autolink', '-e', 'strikethrough', '-e', 'tagfilter'], { input: markdown, encoding: 'utf8' });
  assert.deepEqual([status, error], [0, undefined]);
  return stdout;
}

/** @param {string} html @returns {string[][]} the cells of its tables, as text */
function cellsOf(html) {
  const text = (/** @type {string} */ it) => it.replace(/<\/?code>/g, '').replace(/&lt;/g, '<').replace(/&gt;/g, '>').replace(/&quot;/g, '"').replace(/&amp;/g, '&').replaceAll('\u200b', '');
  return html.split('<tr>').slice(1).map((row) => [...row.matchAll(/<t[hd]>([^]*?)<\/t[hd]>/g)].map(([, cell]) => text(cell)));
}

const CMARK = spawnSync('cmark-gfm', ['--version']).status === 0 || spawnSync('apt-get', ['install', '-y', '--no-install-recommends', 'cmark-gfm']).status === 0;

test('Markdown: each cell is the text that it was made of', { skip: !CMARK && 'cmark-gfm is not there: Markdown is not rendered' }, () => {
  const folder = folderOf(FILES);
  const html = rendered(symdir(['api', folder, '--markdown']).stdout);
  assert.doesNotMatch(html.replace('<strong>1 finding</strong>', ''), /<(a|em|strong|del|img|script|b|i)\b/);
  const [head, ...rows] = cellsOf(html);
  assert.deepEqual(head, ['name', 'kind', 'defined in', 'description']);
  const one = (/** @type {string} */ it) => it.replace(/\s+/g, ' ').replaceAll('\u202e', '\ufffd').trim();
  assert.deepEqual(rows.map(([name]) => name), [EXPORTED, 'first: "</style>|`"', 'Odd'].map(one).sort((a, b) => a.toLowerCase().localeCompare(b.toLowerCase(), 'en')));
  assert.equal(rows.find(([name]) => name === 'Odd')?.[3], one(TEXT).replaceAll('`tick`', 'tick'));
  const { missing } = answer(['missing', folder]);
  const findings = cellsOf(rendered(symdir(['missing', folder, '--markdown']).stdout)).slice(1);
  assert.deepEqual(findings.map((it) => it[2]), missing.map((/** @type {any} */ it) => one(`${it.how} "${it.text}" resolves to no file`)));
});

for (const it of PACKAGES) {
  test(`${it.name}: Markdown lists each public name with its signature`, { skip: !CMARK && 'cmark-gfm is not there: Markdown is not rendered' }, () => {
    const folder = sourcesOf(it);
    const { names } = answer(['api', folder, '--docs']);
    const cells = cellsOf(rendered(symdir(['api', folder, '--markdown', '--all']).stdout)).filter(([name]) => name !== 'name').map(([name]) => name);
    const wanted = names.map((/** @type {any} */ one) => one.name + (/^[(<:?]/.test(one.signature) || one.signature === '' ? '' : ' ') + one.signature).map((/** @type {string} */ one) => one.replace(/\s+/g, ' '));
    assert.deepEqual(cells.sort(), wanted.sort());
  });
}
