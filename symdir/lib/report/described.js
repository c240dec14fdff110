// Public names with what is written of them: signatures, doc comments, members.
import { wrapped } from '../output.js';
import { Docs, firstSentence } from '../surface/docs.js';
import { surfaceAndTrees } from '../surface/surface.js';

/** @typedef {import('../folder/folder.js').Folder} Folder */
/** @typedef {import('../surface/surface.js').Item} Item */
/** @typedef {import('../commands/api.js').PublicName} PublicName */

/**
 * A member of a public name, as `--json` writes it.
 * @typedef {object} Member
 * @property {string} name with that of what it is a member of, as `Shape#at`
 * @property {string} kind
 * @property {string} signature
 * @property {string} doc
 * @property {string} file
 * @property {number} line
 * @property {number} column
 */

/** @typedef {PublicName & { isType: boolean, signature: string, doc: string, members: Member[] }} Described */

/** @param {Folder} folder @param {Docs} docs @param {Item} item @returns {Member} */
function memberOf(folder, docs, { name, kind, files, signature, definitions = [] }) {
  const { file, line, column } = definitions[0] ? folder.defined(definitions[0]) : { file: files[0], line: 1, column: 1 };
  return { name, kind, signature: signature ?? '', doc: docs.ofAll(definitions), file, line, column };
}

/** @param {Folder} folder @param {Promise<{ names: PublicName[] }>} asked @returns {Promise<Described[]>} */
export async function described(folder, asked) {
  const [{ items, signatures }, { names }] = await Promise.all([surfaceAndTrees(folder), asked]);
  const docs = new Docs(signatures);
  /** @type {Map<string, Item[]>} by the entry and the name that it exports */
  const groups = new Map();
  for (const it of items) {
    const key = `${it.entry}\n${it.top}`;
    const group = groups.get(key);
    if (group) group.push(it);
    else groups.set(key, [it]);
  }
  return names.map((it) => {
    const [own, ...members] = groups.get(`${it.entry}\n${it.name}`) ?? [];
    return {
      ...it, isType: own?.isType ?? false, signature: own?.signature ?? '', doc: docs.ofAll(own?.definitions ?? []),
      members: members.map((member) => memberOf(folder, docs, member)) };
  });
}

const MODIFIERS = /^((?:(?:static|readonly|const|abstract|protected|declare|accessor|get|set)\b ?)*)([^]*)$/;

/** @param {string} signature @returns {{ before: string, after: string }} what is written before the name, with a space behind it, and what after, with one before it if it takes one */
export function aroundName(signature) {
  if (/^[(<:?]/.test(signature)) return { before: '', after: signature };
  const [, words, rest] = /** @type {RegExpExecArray} */ (MODIFIERS.exec(signature));
  return { before: words === '' ? '' : `${words.trim()} `, after: /^[(<:?]/.test(rest) || rest === '' ? rest : ` ${rest}` };
}

/** @param {string} name @param {string} signature @returns {string} as it is written together */
export function withName(name, signature) {
  const { before, after } = aroundName(signature);
  return before + name + after;
}

/** How wide text is, and where it begins. */
const WIDTH = 92;
const INDENT = ' '.repeat(6);

/** @param {Described} it @returns {string[]} its signature and the first sentence of its doc comment, below its line */
export function docLines({ name, signature, doc }) {
  const text = firstSentence(doc);
  return [...(signature ? wrapped(withName(name, signature), WIDTH) : []), ...(text ? wrapped(text, WIDTH) : [])].map((it) => INDENT + it);
}
