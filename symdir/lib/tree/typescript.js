// What of TypeScript parses, loaded once in each thread that does. Decoding and compiling that takes longer than parsing most
// folders, so its text in ASCII and its compiled form are kept under the user's cache folder.
import { closeSync, mkdirSync, openSync, readFileSync, readSync } from 'node:fs';
import Module, { createRequire } from 'node:module';
import path from 'node:path';
import { Script } from 'node:vm';

import { findTypeScript } from '../typescript.js';
import { replaceFile } from '../write.js';
import { growFor, optimize, saveMemory } from './budget.js';
import { LONG_TEXT } from './memory.js';
import { usedTypeScript } from './which.js';

/** Where the last block of the parser begins, and what each block ends with. */
const LAST_BLOCK = '\n    (function (IncrementalParser) {';
const BLOCK_END = '\n})(ts || (ts = {}));\n';
/** What stands in version 6 one behind the other: the beginning, what is exported, the version, and the part that parses. */
const FUNCTION = ['var ts = {}; ((module) => {\n', '\nmodule.exports = __toCommonJS(', '\nvar versionMajorMinor = "6.', '\n// src/compiler/parser.ts\n'];
/** What each part begins with, and the end of all. */
const PART = '\n// src/';
const FUNCTION_END = '\n})({ get exports() { return ts; }, set exports(v) { ts = v; module.exports = v; } })\n';
/** All up to the parser's end is shorter than this. */
const FIRST_BYTES = 4_000_000;

/** @param {string} text @param {string[]} words @returns {number} where the last of them stands behind the others, in this order; -1 where it doesn't */
function follow(text, words) {
  return words.reduce((at, it) => (at < 0 ? at : text.indexOf(it, at)), 0);
}

/**
 * @param {string} text of TypeScript, as a module of CommonJS
 * @returns {string | null} what of it is needed to parse, a quarter of all: of 4.8 and 4.9, where each file is a block that adds to `ts`,
 * the blocks up to that of the parser; of 6, which is one function where each file is a part, the parts up to that; null of others
 */
export function parserOf(text) {
  const block = follow(text, [LAST_BLOCK, BLOCK_END]);
  if (block >= 0) return `${text.slice(0, block + BLOCK_END.length)}module.exports = ts;\n`;
  const parser = follow(text, FUNCTION);
  const part = parser < 0 ? -1 : text.indexOf(PART, parser + 1);
  return part < 0 ? null : text.slice(0, part) + FUNCTION_END;
}

/** @param {string} file @param {BufferEncoding} encoding @returns {string} what of it parses, or all */
function readParser(file, encoding) {
  const bytes = Buffer.allocUnsafe(FIRST_BYTES);
  const open = openSync(file, 'r');
  const count = readSync(open, bytes, 0, FIRST_BYTES, 0);
  closeSync(open);
  return parserOf(bytes.toString(encoding, 0, count)) ?? readFileSync(file, encoding);
}

/** @param {string} text @returns {string} with an escape for each of its units */
function escaped(text) {
  return Array.from({ length: text.length }, (_, i) => `\\u${text.charCodeAt(i).toString(16).padStart(4, '0')}`).join('');
}

/**
 * @param {string} bytes of a text in UTF-8, a character each
 * @returns {string | null} the text in ASCII: an escape means the same in names, strings, patterns and comments, but for one at the
 * front and one behind a backslash, where this is null
 */
export function inAscii(bytes) {
  let isSame = true;
  const text = bytes.replace(/[\x80-\xff]+/g, (it, /** @type {number} */ at) => {
    isSame &&= at > 0 && bytes[at - 1] !== '\\';
    return escaped(Buffer.from(it, 'latin1').toString());
  });
  return isSame ? text : null;
}

/** @param {string | undefined} file without its ending @returns {{ text: string, compiled: Buffer } | null} */
function readStored(file) {
  try {
    return file === undefined ? null : { text: readFileSync(`${file}.js`, 'latin1'), compiled: readFileSync(`${file}.compiled`) };
  } catch {
    return null;
  }
}

/** @param {string} file @param {string} text a module of CommonJS, with its wrapper @param {Buffer} [compiled] which is refused where it is another version's */
function load(file, text, compiled) {
  const script = new Script(text, { filename: file, cachedData: compiled });
  const module = { exports: {} };
  script.runInThisContext()(module.exports, createRequire(file), module, file, path.dirname(file));
  return { script, value: module.exports };
}

/** @type {import('./which.js').Which} */
const which = usedTypeScript()?.it ?? { typescript: findTypeScript(process.cwd()).file };
const kept = readStored(which.kept);
await usedTypeScript()?.when;
if (!which.isGuest) optimize(true);
/** @param {string} text that will be parsed, until `expectNone` is called: for a long one it is worth it that V8 optimizes as usual, and looks for garbage seldom */
export function expect(text) {
  if (text.length < LONG_TEXT || which.isGuest) return;
  optimize(false);
  growFor(text.length);
}

/** @param {string} text that is parsed */
export function expectNone(text) {
  if (text.length >= LONG_TEXT && !which.isGuest) saveMemory();
}

const ascii = kept ? null : inAscii(readParser(which.typescript, 'latin1'));
const text = kept?.text ?? Module.wrap(ascii ?? readParser(which.typescript, 'utf8'));
const loaded = load(which.typescript, text, kept?.compiled);

/** What is called often is taken out of it once: to look up one of its thousands of names takes longer than most of these calls. */
/** @type {typeof import('typescript')} */
export const ts = /** @type {any} */ (loaded.value);
export const K = ts.SyntaxKind;

/** Where a node starts, behind comments. */
/** @type {(node: import('typescript').Node, file: import('typescript').SourceFile) => number} */
export const startOf = /** @type {any} */ (ts).getTokenPosOfNode ?? ((node, file) => node.getStart(file));

/** Keeps the text, and the compiled form with what was compiled of it while files were parsed, where they aren't kept yet. */
export function storeCompiled() {
  if (!which.kept || (kept ? !loaded.script.cachedDataRejected : ascii === null)) return;
  try {
    mkdirSync(path.dirname(which.kept), { recursive: true });
    if (!kept) replaceFile(`${which.kept}.js`, [Buffer.from(text)]);
    // V8 takes it only where it is set as it was then
    if (!which.isGuest) optimize(true);
    replaceFile(`${which.kept}.compiled`, [loaded.script.createCachedData()]);
    if (!which.isGuest) saveMemory();
  } catch {
    // a cache folder that can't be written costs time alone
  }
}
