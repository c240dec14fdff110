// A public surface as a text to keep beside the code: a line each, without places, so that it changes only where they do.
import { Failure } from '../failure.js';
import { itemText } from './compare.js';

/** @typedef {import('./surface.js').Item} Item */

const HEAD = '# public names, their members and signatures; `symdir api DIR --check` compares, `--save` writes';
/** Snapshots that begin so have no members and no signatures. */
const NAMES_ONLY = '# public names: entry';

/** @param {string} text @returns {boolean} whether `--save` wrote it, or nothing is there */
export function isSnapshot(text) {
  return /^(# public names|$)/.test(text);
}

/** @param {string} name @returns {string} in quotes where a space or a quote stands in it */
function quoted(name) {
  return /[\s"]/.test(name) ? JSON.stringify(name) : name;
}

/** @param {Item} it @returns {string} `ENTRY: NAME KIND FILES  SIGNATURE` */
function line(it) {
  return `${quoted(it.entry)}: ${quoted(it.name)} ${itemText(it)}${it.signature ? `  ${it.signature}` : ''}`;
}

/** @param {Item[]} items @returns {string} */
export function surfaceText(items) {
  return `${[HEAD, ...[...new Set(items.map(line))].sort()].join('\n')}\n`;
}

const LINE = /^("(?:[^"\\]|\\.)*"|\S+): ("(?:[^"\\]|\\.)*"|[^\s"]+) ([^\s,]+)(,type-only)? (.+?)(?: {2}(.+))?$/;

/** @param {string} name as it stands in a line @returns {string} */
function unquoted(name) {
  return name.startsWith('"') ? JSON.parse(name) : name;
}

/**
 * @param {string} text
 * @param {string} file that has it
 * @returns {{ items: Item[], isWhole: boolean }} whether it has members and signatures
 */
export function readSurface(text, file) {
  const isWhole = !text.startsWith(NAMES_ONLY);
  const items = text.split(/\r?\n/).flatMap((it, i) => {
    if (it === '' || it.startsWith('#')) return [];
    const parts = LINE.exec(it);
    if (!parts) {
      const advice = isSnapshot(text) ? `; \`--save ${file}\` rewrites it` : '';
      throw new Failure(`${file}:${i + 1}:1: not a line of a snapshot, \`ENTRY: NAME KIND FILES\`${advice}`);
    }
    const [, entry, name, kind, isType, files, signature] = parts;
    return [{ entry: unquoted(entry), name: unquoted(name), kind, isType: isType !== undefined, files: files.split(', '), signature: isWhole ? signature ?? '' : null }];
  });
  return { items, isWhole };
}

/** @param {Item[]} items @returns {Item[]} names alone, as snapshots without members have them */
export function withoutMembers(items) {
  const names = new Set(items.map((it) => `${it.entry}\n${it.name}`));
  return items.filter(({ entry, name }) => {
    for (let at = name.length - 1; at > 0; at--) if (/[.#[ ]/.test(name[at]) && names.has(`${entry}\n${name.slice(0, at)}`)) return false;
    return true;
  });
}
