// The script of the page, on elements as far as it uses them: what it shows for a search, and what keys and clicks do.
import assert from 'node:assert/strict';
import { readFileSync } from 'node:fs';
import test from 'node:test';
import { runInNewContext } from 'node:vm';

const PARTS = ['search.js', 'page.js'].map((it) => readFileSync(new URL(`../lib/report/page/${it}`, import.meta.url), 'utf8'));
const SCRIPT = PARTS.map((it) => it.replace(/^import .*\n/gm, '').replace(/^export /gm, '')).join('\n');

/** An element with what the script asks of one. */
class Element {
  /** @param {string} tag @param {Page} page @param {Record<string, any>} [more] */
  constructor(tag, page, more = {}) {
    this.tagName = tag.toUpperCase();
    this.page = page;
    this.id = '';
    this.value = '';
    this.textContent = '';
    this.hidden = false;
    this.open = false;
    /** @type {Record<string, string>} */
    this.dataset = {};
    /** @type {Element[]} */
    this.children = [];
    /** @type {Set<string>} */
    this.classes = new Set();
    /** @type {Record<string, string>} */
    this.attributes = {};
    /** @type {Record<string, (event: any) => void>} */
    this.listeners = {};
    /** @type {Element | null} */
    this.parentElement = null;
    Object.assign(this, more);
    const toggle = (/** @type {string} */ name, isOn = !this.classes.has(name)) => (isOn ? this.classes.add(name) : this.classes.delete(name), isOn);
    this.classList = { toggle };
  }

  /** @param {Element} it */
  append(it) {
    this.children = [...this.children.filter((one) => one !== it), it];
  }

  /** @param {Element} it */
  prepend(it) {
    this.children.unshift(it);
  }

  /** @param {string} name */
  getAttribute(name) {
    return this.attributes[name];
  }

  /** @param {string} name @param {string} value */
  setAttribute(name, value) {
    this.attributes[name] = value;
  }

  /** @param {string} name @param {(event: any) => void} listener */
  addEventListener(name, listener) {
    this.listeners[name] = listener;
  }

  focus() {
    this.page.active = this;
  }

  select() {
    this.focus();
    this.page.selected++;
  }

  /** @param {string} selector @returns {Element} */
  querySelector(selector) {
    assert.equal(selector, '.hits');
    return /** @type {any} */ (this).hits;
  }

  /** @param {string} selector @returns {Element[]} */
  querySelectorAll(selector) {
    if (selector === '.members > li') return /** @type {any} */ (this).members;
    assert.equal(selector, 'li.row:not([hidden]) > details > summary');
    return this.children.filter((it) => !it.hidden).map((it) => /** @type {any} */ (it).summary);
  }
}

class Page {
  /** @param {[name: string, kind: string, file: string, members: string[]][]} rows @param {{ hash?: string, hasEntry?: boolean }} [how] */
  constructor(rows, how = {}) {
    const { hash = '', hasEntry = false } = how;
    /** @type {Record<string, Element>} */
    this.byId = {};
    this.selected = 0;
    this.scrolled = 0;
    const one = (/** @type {string} */ id, /** @type {string} */ tag) => (this.byId[id] = new Element(tag, this, { id }));
    for (const [id, tag] of Object.entries({ search: 'input', file: 'button', names: 'ul', none: 'p', count: 'output', controls: 'form', kind: 'select', fit: 'button', picture: 'div', ...(hasEntry && { entry: 'select' }) })) one(id, tag);
    this.body = new Element('body', this);
    this.active = this.body;
    this.rows = rows.map(([name, kind, files, members]) => {
      const details = new Element('details', this);
      const summary = new Element('summary', this, { parentElement: details });
      return new Element('li', this, { dataset: { name, kind, entry: 'index.ts', files }, summary, details, hits: new Element('span', this), members: members.map((it) => new Element('li', this, { dataset: { name: it } })) });
    });
    this.byId.names.children = [...this.rows];
    this.tip = new Element('g', this, { attributes: { 'data-tip': 'a, b' } });
    this.location = { hash, pathname: '/page.html', search: '?x' };
    /** @type {string[]} addresses that were put in place */
    this.addresses = [];
    /** @type {Record<string, (event?: any) => void>} */
    this.listeners = {};
    const page = this;
    const document = {
      getElementById: (/** @type {string} */ id) => this.byId[id] ?? null,
      addEventListener: (/** @type {string} */ name, /** @type {any} */ it) => (this.listeners[name] = it),
      querySelectorAll: (/** @type {string} */ selector) => (assert.equal(selector, '#picture [data-tip]'), [this.tip]),
      createElementNS: (/** @type {string} */ _, /** @type {string} */ tag) => new Element(tag, this),
      get activeElement() { return page.active; },
    };
    runInNewContext(`(function () {'use strict';${SCRIPT}})()`, { document, location: this.location, URLSearchParams, scrollTo: () => this.scrolled++,
      history: { replaceState: (/** @type {any} */ _, /** @type {any} */ __, /** @type {string} */ to) => this.addresses.push(to) },
      addEventListener: (/** @type {string} */ name, /** @type {any} */ it) => (this.listeners[name] = it) });
  }

  /** @returns {string[]} names that are shown, in their order, with what is told behind them */
  get shown() {
    return this.byId.names.children.filter((it) => !it.hidden).map((it) => `${it.dataset.name}${/** @type {any} */ (it).hits.textContent}`);
  }

  /** @param {string} text */
  type(text) {
    this.byId.search.value = text;
    this.byId.search.listeners.input({});
  }

  /** @param {string} key @param {object} [more] @returns {boolean} whether the script takes it */
  press(key, more = {}) {
    let isTaken = false;
    this.listeners.keydown({ key, ctrlKey: false, metaKey: false, altKey: false, ...more, preventDefault: () => (isTaken = true) });
    return isTaken;
  }

  /** @returns {string} the name whose row has the focus, or what else has it */
  get focused() {
    return this.rows.find((it) => /** @type {any} */ (it).summary === this.active)?.dataset.name ?? (this.active.id || this.active.tagName);
  }
}

/** @type {[string, string, string, string[]][]} */
const ROWS = [['Shape', 'class', 'src/a.ts', ['Shape#at', 'Shape#atAll', 'Shape#attach', 'Shape#attend', 'Shape#move']], ['shapeOf', 'function', 'src/b.ts', []], ['Point', 'interface', 'src/b.ts', ['Point#x']]];

test('a search shows what fits, the best first, counts it and is kept in the address', () => {
  const page = new Page(ROWS);
  assert.deepEqual([page.shown, page.byId.count.textContent, page.byId.none.hidden, page.addresses], [['Shape', 'shapeOf', 'Point'], '3 names', true, []]);
  page.type('point');
  assert.deepEqual([page.shown, page.byId.count.textContent, page.addresses], [['Point'], '1 of 3 names', ['#q=point']]);
  page.type('nothing');
  assert.deepEqual([page.shown, page.byId.count.textContent, page.byId.none.hidden], [[], '0 of 3 names', false]);
  page.type('');
  assert.deepEqual([page.shown.length, page.byId.none.hidden, page.addresses.at(-1)], [3, true, '/page.html?x']);
  assert.equal(new Page(ROWS.slice(0, 1)).byId.count.textContent, '1 name');
  page.byId.kind.value = 'interface';
  page.byId.kind.listeners.change({});
  assert.deepEqual([page.shown, page.addresses.at(-1)], [['Point'], '#kind=interface']);
});

test('of members that fit three are told, and how many more', () => {
  const page = new Page(ROWS);
  page.type('#at');
  assert.deepEqual(page.shown, ['Shape#at #atAll #attach and 1 more']);
  const marked = (/** @type {number} */ i) => /** @type {any} */ (page.rows[i]).members.map((/** @type {Element} */ it) => it.classes.has('hit'));
  assert.deepEqual(marked(0), [true, true, true, true, false]);
  page.type('#att');
  assert.deepEqual([page.shown, marked(0)], [['Shape#attach #attend'], [false, false, true, true, false]]);
  const three = new Page([['One', 'class', 'a.ts', ['One#b1', 'One#b2', 'One#b3']]]);
  three.type('b');
  assert.deepEqual(three.shown, ['One#b1 #b2 #b3']);
});

test('the address fills the search, when the page is opened and when it changes', () => {
  const page = new Page(ROWS, { hash: '#q=sh&kind=class&file=src%2F', hasEntry: true });
  assert.deepEqual([page.shown, page.byId.search.value, page.byId.kind.value, page.byId.entry.value], [['Shape'], 'sh', 'class', '']);
  assert.deepEqual([page.byId.file.hidden, page.byId.file.textContent, page.byId.file.attributes['aria-label']], [false, 'in src/ ×', 'in src/: show all files']);
  page.byId.file.listeners.click({});
  assert.deepEqual([page.byId.file.hidden, page.focused, page.addresses], [true, 'search', ['#q=sh&kind=class']]);
  page.active = page.body;
  page.location.hash = '#file=src%2Fb.ts&entry=index.ts';
  page.listeners.hashchange();
  assert.deepEqual([page.shown, page.byId.search.value, page.byId.entry.value, page.focused, page.scrolled], [['shapeOf', 'Point'], '', 'index.ts', 'search', 1]);
});

test('keys: search, move, open and clear', () => {
  const page = new Page(ROWS);
  assert.deepEqual([page.press('/'), page.focused, page.selected], [true, 'search', 1]);
  // in the search it is a character
  assert.deepEqual([page.press('/'), page.press('ArrowUp'), page.focused], [false, false, 'search']);
  const after = (/** @type {string} */ key) => [page.press(key), page.focused];
  assert.deepEqual(['ArrowDown', 'ArrowDown', 'ArrowDown', 'ArrowDown', 'ArrowUp', 'ArrowUp', 'ArrowUp'].map(after), [
    [true, 'Shape'], [true, 'shapeOf'], [true, 'Point'], [true, 'Point'], [true, 'shapeOf'], [true, 'Shape'], [true, 'search']]);
  page.active = page.body;
  assert.deepEqual([after('ArrowUp'), after('Enter')], [[true, 'BODY'], [false, 'BODY']]);
  assert.deepEqual(after('ArrowDown'), [true, 'Shape']);
  page.type('point');
  page.active = page.byId.search;
  assert.deepEqual([page.press('Enter'), page.focused, page.rows.map((it) => /** @type {any} */ (it).details.open)], [true, 'Point', [false, false, true]]);
  assert.deepEqual([page.press('Escape'), page.focused, page.byId.search.value, page.shown.length], [true, 'search', '', 3]);
  page.type('nothing');
  assert.deepEqual([page.press('Enter'), page.press('ArrowDown'), page.focused], [true, true, 'search']);
  assert.equal(page.press('a'), false);
});

test('keys with others beside them, and those for a choice or the picture, are left alone but for Escape', () => {
  const page = new Page(ROWS);
  for (const it of ['ctrlKey', 'metaKey', 'altKey']) assert.equal(page.press('/', { [it]: true }), false, it);
  for (const it of ['kind', 'picture']) {
    page.active = page.byId[it];
    assert.deepEqual([page.press('ArrowDown'), page.press('/'), page.focused], [false, false, it]);
    assert.deepEqual([page.press('Escape'), page.focused], [true, 'search']);
  }
  page.active = new Element('textarea', page);
  assert.equal(page.press('/'), false);
  page.active = page.byId.fit;
  assert.equal(page.press('/'), true);
});

test('the picture fits by a click and tells what an arrow stands for, and the form isn\'t sent', () => {
  const page = new Page(ROWS);
  const click = () => page.byId.fit.listeners.click({ currentTarget: page.byId.fit });
  click();
  assert.deepEqual([page.byId.picture.classes.has('fit'), page.byId.fit.attributes['aria-pressed']], [true, 'true']);
  click();
  assert.deepEqual([page.byId.picture.classes.has('fit'), page.byId.fit.attributes['aria-pressed']], [false, 'false']);
  assert.deepEqual(page.tip.children.map((it) => [it.tagName, it.textContent]), [['TITLE', 'a, b']]);
  let isStopped = false;
  page.byId.controls.listeners.submit({ preventDefault: () => (isStopped = true) });
  assert.ok(isStopped);
});
