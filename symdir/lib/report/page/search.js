// Finds names on the page. It knows nothing of the page itself, so that tests run it.

/**
 * A public name as it is searched.
 * @typedef {object} Row
 * @property {string} name
 * @property {string} kind
 * @property {string} entry
 * @property {string[]} files where it is defined
 * @property {string[]} members their names, with that of what they are members of
 */

/** @typedef {{ text: string, kind: string, entry: string, file: string }} Query what is typed, and the filters, of which empty ones let all pass; a directory ends with a slash */

/** @typedef {{ index: number, members: number[] }} Hit a row, and the members by which it was found */

/** @param {string} name @returns {string} the first letters of its words, as `gE` of `getElement` */
function initials(name) {
  return name.replace(/[^\p{L}\p{N}]+(\p{L})/gu, (_, letter) => letter.toUpperCase()).replace(/(?<!^)[^\p{Lu}\p{N}]/gu, '');
}

/** @param {string} name @param {string} text what is looked for @returns {number} how well it fits, from 0 on; Infinity if it doesn't */
function rank(name, text) {
  if (name === text) return 0;
  const [small, wanted] = [name.toLowerCase(), text.toLowerCase()];
  if (small === wanted) return 1;
  if (small.startsWith(wanted)) return 2;
  const at = small.indexOf(wanted);
  if (at > 0 && (/[^\p{L}\p{N}]/u.test(name[at - 1]) || /\p{Lu}/u.test(name[at]))) return 3;
  if (wanted.length > 1 && initials(name).toLowerCase().startsWith(wanted)) return 4;
  return at > 0 ? 5 : Infinity;
}

/** @param {string} member @param {string} text @returns {number} by the name that it has itself, or by all of it where a dot is typed */
function memberRank(member, text) {
  const isFull = /[.#]/.test(text);
  const own = isFull ? member.replaceAll('#', '.') : member.split(/[.#]| (?=\w+$)/).pop() ?? member;
  return rank(own, isFull ? text.replaceAll('#', '.') : text);
}

/** @param {Row} row @param {Query} query @returns {boolean} whether the filters let it pass */
function passes({ kind, entry, files }, query) {
  const isIn = (/** @type {string} */ file) => file === query.file || (query.file.endsWith('/') && (query.file === '/' || file.startsWith(query.file)));
  return (query.kind === '' || kind.split('+').includes(query.kind)) && (query.entry === '' || entry === query.entry) && (query.file === '' || files.some(isIn));
}

/**
 * The rows that fit, the best first; without text all that pass the filters, in their order.
 * @param {Row[]} rows
 * @param {Query} query
 * @returns {Hit[]}
 */
export function search(rows, query) {
  const text = query.text.trim();
  /** @type {(Hit & { rank: number })[]} */
  const found = [];
  rows.forEach((row, index) => {
    if (!passes(row, query)) return;
    const own = text === '' ? 0 : rank(row.name, text);
    const ranks = text === '' || own < 4 ? [] : row.members.map((it) => memberRank(it, text));
    const best = Math.min(Infinity, ...ranks);
    const members = ranks.flatMap((it, i) => (it < 6 && it <= best + 2 ? [i] : []));
    const rest = Math.min(own, best + 10);
    if (rest < Infinity) found.push({ index, members, rank: rest });
  });
  return found.sort((a, b) => a.rank - b.rank || a.index - b.index).map(({ index, members }) => ({ index, members }));
}

/** @param {string} hash of the page's address @returns {Query} */
export function queryOf(hash) {
  const all = new URLSearchParams(hash.replace(/^#/, ''));
  return { text: all.get('q') ?? '', kind: all.get('kind') ?? '', entry: all.get('entry') ?? '', file: all.get('file') ?? '' };
}

/** @param {Query} query @returns {string} */
export function hashOf({ text, kind, entry, file }) {
  const all = Object.entries({ q: text.trim(), kind, entry, file }).filter(([, value]) => value !== '');
  return all.length > 0 ? `#${new URLSearchParams(all)}` : '';
}
