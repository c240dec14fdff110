// The page's script: searches the names, and moves among them by keys.
/// <reference lib="dom" />
/// <reference lib="dom.iterable" />
import { hashOf, queryOf, search } from './search.js';

/** @typedef {import('./search.js').Query} Query */

/** @template {HTMLElement} T @param {string} id @returns {T} */
const at = (id) => /** @type {T} */ (document.getElementById(id));
/** @type {HTMLInputElement} */
const input = at('search');
/** @type {HTMLButtonElement} */
const fileButton = at('file');
const list = at('names');
const elements = /** @type {HTMLLIElement[]} */ ([...list.children]);
const members = elements.map((it) => /** @type {HTMLLIElement[]} */ ([...it.querySelectorAll('.members > li')]));
const rows = elements.map((it, i) => ({
  name: it.dataset.name ?? '', kind: it.dataset.kind ?? '', entry: it.dataset.entry ?? '', files: (it.dataset.files ?? '').split('\n'),
  members: members[i].map((one) => one.dataset.name ?? ''),
}));
const selects = /** @type {const} */ (['kind', 'entry']).map((id) => /** @type {HTMLSelectElement | null} */ (document.getElementById(id)));
let file = '';

/** @returns {Query} as it stands on the page */
function current() {
  const [kind, entry] = selects.map((it) => it?.value ?? '');
  return { text: input.value, kind, entry, file };
}

/** @param {Query} query shows it on the page */
function fill(query) {
  input.value = query.text;
  selects.forEach((it, i) => it && (it.value = [query.kind, query.entry][i]));
  file = query.file;
}

/** @param {number} count @param {string} word */
const counted = (count, word) => `${count} ${word}${count === 1 ? '' : 's'}`;

/** Shows what fits, the best first. */
function show() {
  const query = current();
  const hits = search(rows, query);
  const found = new Set(hits.map((it) => it.index));
  elements.forEach((it, i) => (it.hidden = !found.has(i)));
  for (const { index, members: some } of hits) {
    list.append(elements[index]);
    const names = some.slice(0, 3).map((it) => rows[index].members[it].slice(rows[index].name.length));
    const hint = names.join(' ') + (some.length > 3 ? ` and ${some.length - 3} more` : '');
    /** @type {HTMLElement} */ (elements[index].querySelector('.hits')).textContent = hint;
    const isHit = new Set(some);
    members[index].forEach((it, i) => it.classList.toggle('hit', isHit.has(i)));
  }
  at('none').hidden = hits.length > 0;
  at('count').textContent = hits.length === rows.length ? counted(rows.length, 'name') : `${hits.length} of ${counted(rows.length, 'name')}`;
  fileButton.hidden = file === '';
  fileButton.textContent = `in ${file} ×`;
  fileButton.setAttribute('aria-label', `in ${file}: show all files`);
}

/** Shows what fits, and puts it into the page's address. */
function update() {
  show();
  history.replaceState(null, '', hashOf(current()) || location.pathname + location.search);
}

/** @returns {HTMLElement[]} what can be opened, in its order */
function summaries() {
  return [...list.querySelectorAll('li.row:not([hidden]) > details > summary')].map((it) => /** @type {HTMLElement} */ (it));
}

/** @param {number} step */
function move(step) {
  const all = summaries();
  const now = all.indexOf(/** @type {any} */ (document.activeElement));
  const next = now + step;
  if (now < 0 && step < 0) return;
  if (next < 0) input.focus();
  else all[Math.min(next, all.length - 1)]?.focus();
}

/** @returns {boolean} whether keys are for a control other than the search */
function isElsewhere() {
  return /^(SELECT|TEXTAREA)$/.test(document.activeElement?.tagName ?? '') || document.activeElement?.id === 'picture';
}

/** Empties the search and the filters. */
function clear() {
  fill({ text: '', kind: '', entry: '', file: '' });
  update();
  input.focus();
}

/** @param {KeyboardEvent} event @returns {boolean} whether it is taken */
function take({ key }) {
  const isTyping = document.activeElement === input;
  if (key === '/' && !isTyping) input.select();
  else if (key === 'Escape') clear();
  else if (key === 'ArrowDown') move(1);
  else if (key === 'ArrowUp' && !isTyping) move(-1);
  else if (key === 'Enter' && isTyping) open();
  else return false;
  return true;
}

/** Opens the first name that fits. */
function open() {
  const [first] = summaries();
  if (!first) return;
  /** @type {HTMLDetailsElement} */ (first.parentElement).open = true;
  first.focus();
}

document.addEventListener('keydown', (event) => {
  if (event.ctrlKey || event.metaKey || event.altKey || (isElsewhere() && event.key !== 'Escape')) return;
  if (take(event)) event.preventDefault();
});
input.addEventListener('input', update);
selects.forEach((it) => it?.addEventListener('change', update));
at('controls').addEventListener('submit', (event) => event.preventDefault());
fileButton.addEventListener('click', () => {
  file = '';
  update();
  input.focus();
});
document.getElementById('fit')?.addEventListener('click', (event) => {
  const isFit = at('picture').classList.toggle('fit');
  /** @type {HTMLElement} */ (event.currentTarget).setAttribute('aria-pressed', `${isFit}`);
});
document.querySelectorAll('#picture [data-tip]').forEach((it) => {
  const title = document.createElementNS('http://www.w3.org/2000/svg', 'title');
  title.textContent = it.getAttribute('data-tip');
  it.prepend(title);
});
addEventListener('hashchange', () => {
  fill(queryOf(location.hash));
  show();
  input.focus();
  scrollTo(0, 0);
});
fill(queryOf(location.hash));
show();
