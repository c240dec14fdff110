// What differs between two answers of a command: of those with `--json` the items of each list, of others lines.

/** @typedef {{ removed: Record<string, unknown[]>, added: Record<string, unknown[]> }} Difference without lists that stayed the same */

/** @typedef {{ items: unknown[], keys: string[] }} List with a text of each item */

/** @param {List} list @param {List} others @returns {unknown[]} the items that the others lack, each as often as it is more often here */
function lacking({ items, keys }, others) {
  /** @type {Map<string, number>} */
  const counts = new Map();
  for (const it of others.keys) counts.set(it, (counts.get(it) ?? 0) + 1);
  return items.filter((_, i) => {
    const left = counts.get(keys[i]) ?? 0;
    counts.set(keys[i], left - 1);
    return left <= 0;
  });
}

/** @type {WeakMap<unknown[], string[]>} by list of an answer, which is compared with the one before and with the one after it */
const KEYS = new WeakMap();

/** @param {unknown[]} items of an answer, which stay as they are @returns {string[]} a text of each */
function keysOf(items) {
  const known = KEYS.get(items) ?? items.map((it) => JSON.stringify(it));
  KEYS.set(items, known);
  return known;
}

/** @param {unknown} value @returns {List} what is no list as its only item, and nothing as none */
function listOf(value) {
  const items = Array.isArray(value) ? value : value === undefined ? [] : [value];
  return { items, keys: keysOf(items) };
}

/** @param {Record<string, unknown>} before @param {Record<string, unknown>} now @returns {Difference} of answers of `--json` */
export function differenceOf(before, now) {
  const keys = [...new Set([...Object.keys(before), ...Object.keys(now)])];
  const all = keys.map((it) => ({ it, old: listOf(before[it]), fresh: listOf(now[it]) }));
  const withItems = (/** @type {[string, unknown[]][]} */ rows) => Object.fromEntries(rows.filter(([, items]) => items.length > 0));
  return {
    removed: withItems(all.map(({ it, old, fresh }) => [it, lacking(old, fresh)])),
    added: withItems(all.map(({ it, old, fresh }) => [it, lacking(fresh, old)])),
  };
}

/** @typedef {{ text: string, head: string }} Line with the one that it stands under, if it is indented */

/** @param {string[]} lines @returns {Line[]} without the spaces of columns, which are as wide as others need it */
function plain(lines) {
  let head = '';
  return lines.map((line) => {
    const start = line.length - line.trimStart().length;
    const text = line.slice(0, start) + line.slice(start).replace(/ {2,}/g, '  ');
    if (start === 0) head = text;
    return { text, head: start === 0 ? '' : head };
  });
}

/** @param {string} head @returns {string} without the numbers that it counts, which change with what stands under it */
function nameOf(head) {
  return head.replace(/: \d.*$/, '');
}

/** @param {Line[]} lines @returns {string[]} each with the name of its head */
function lineKeys(lines) {
  return lines.map(({ text, head }) => `${nameOf(head)}\n${text}`);
}

/** @param {Line[]} lines @param {Line[]} others @returns {Set<number>} the places of those that the others lack */
function lackingLines(lines, others) {
  const rows = lineKeys(lines);
  /** @type {Map<string, number>} */
  const counts = new Map();
  for (const it of lineKeys(others)) counts.set(it, (counts.get(it) ?? 0) + 1);
  return new Set(rows.flatMap((it, i) => {
    const left = counts.get(it) ?? 0;
    counts.set(it, left - 1);
    return left <= 0 ? [i] : [];
  }));
}

/** @param {Line[]} lines @param {Set<number>} places @param {string} sign @returns {{ group: string, head: string, text: string }[]} these lines, by the name of the line that they stand under or are */
function signed(lines, places, sign) {
  return [...places].map((i) => ({ group: nameOf(lines[i].head || lines[i].text), head: lines[i].head, text: `${sign} ${lines[i].text}` }));
}

/** @param {string[]} before @param {string[]} now lines of an answer @returns {string[]} those that differ, with `-` or `+`; indented ones under the line that they belong to */
export function differentLines(before, now) {
  const [old, fresh] = [plain(before), plain(now)];
  const rows = [...signed(old, lackingLines(old, fresh), '-'), ...signed(fresh, lackingLines(fresh, old), '+')];
  return [...new Set(rows.map((it) => it.group))].flatMap((group) => {
    const mine = rows.filter((it) => it.group === group);
    const heads = mine.filter((it) => it.head === '');
    const under = mine.filter((it) => it.head !== '');
    const context = heads.length === 0 && under.length > 0 ? [`  ${under[under.length - 1].head}`] : [];
    return [...context, ...heads, ...under].map((it) => (typeof it === 'string' ? it : it.text));
  });
}
