// What is wrong with the form of a graph: words for what `symq` tells by the status 4.
import { FIELDS } from './kinds.js';

/** The largest number of a node or a scope. */
const LARGEST = 2 ** 32 - 1;
/** How deep lists and objects may be nested. */
const NESTED = 127;
const TOKEN = /"(?:[^"\\]|\\.)*"|-?\d+(?:\.\d+)?(?:[eE][+-]?\d+)?|[[\]{}]|\n/g;

/** @param {string} text @param {number} at @returns {string} `LINE:COLUMN` */
function placeIn(text, at) {
  const before = text.slice(0, at).split('\n');
  return `${before.length}:${before[before.length - 1].length + 1}`;
}

/** @param {string} token @returns {boolean} whether it is a number that a graph can't have */
function isOdd(token) {
  if (/^-|^\d+[.eE]/.test(token)) return true;
  return /^\d{20,}$/.test(token) && BigInt(token) >= 2n ** 64n;
}

/** @param {string} token a text with its quotes @returns {boolean} */
function hasLoneSurrogate(token) {
  return /[\ud800-\udbff](?![\udc00-\udfff])|(?<![\ud800-\udbff])[\udc00-\udfff]/.test(JSON.parse(token));
}

/** @param {string} text @returns {string[]} numbers that aren't whole, and nests that are too deep, each with its place */
function oddTokens(text) {
  const found = [];
  let depth = 0;
  for (const { 0: token, index = 0 } of text.matchAll(TOKEN)) {
    if (token === '[' || token === '{') depth++;
    else if (token === ']' || token === '}') depth--;
    else if (/^[-\d]/.test(token) && !Number.isFinite(Number(token))) found.push(`${placeIn(text, index)}: ${token} is too large for a float`);
    else if (/\\ud[89a-f]/i.test(token) && hasLoneSurrogate(token)) found.push(`${placeIn(text, index)}: a text has a lone surrogate`);
    else if (isOdd(token)) found.push(`${placeIn(text, index)}: ${token} is no whole number of 64 bits, written in digits alone`);
    if (depth > NESTED) return [...found, `${placeIn(text, index)}: lists and objects are nested more than ${NESTED} deep`];
    if (found.length >= 20) return found;
  }
  return found;
}

/** @param {any} value @returns {number[]} each number in it */
function numbersIn(value) {
  if (typeof value === 'number') return [value];
  if (value === null || typeof value !== 'object') return [];
  const found = [];
  for (const it of Object.values(value)) for (const number of numbersIn(it)) found.push(number);
  return found;
}

/** @param {string} text @param {any} value @returns {string[]} what isn't taken of a text that is JSON; of a key that stands twice the last counts */
function oddParts(text, value) {
  const odd = oddTokens(text);
  if (odd.length === 0) return odd;
  const numbers = numbersIn(value);
  const count = [...text.matchAll(TOKEN)].filter(({ 0: it }) => /^[-\d]/.test(it)).length;
  const isPlain = numbers.every((it) => Number.isInteger(it) && it >= 0 && it < 2 ** 64 && !Object.is(it, -0));
  return count > numbers.length && isPlain ? odd.filter((it) => /nested|too large|surrogate/.test(it)) : odd;
}

/** @param {string} text that is no JSON @returns {number} where it ceases to be the beginning of one */
function faultIn(text) {
  const isBeginning = (/** @type {number} */ length) => {
    try {
      JSON.parse(text.slice(0, length));
      return true;
    } catch (error) {
      const { message } = /** @type {Error} */ (error);
      return /end of JSON|Unterminated|after minus|missing/.test(message) || Number(/position (\d+)/.exec(message)?.[1]) >= length;
    }
  };
  let [low, high] = [0, text.length + 1];
  while (high - low > 1) {
    const middle = (low + high) >> 1;
    if (isBeginning(middle)) low = middle;
    else high = middle;
  }
  return low;
}

/** @param {Buffer} bytes @returns {{ value?: any, words: string[] }} */
export function readJson(bytes) {
  if (bytes[0] === 0xef && bytes[1] === 0xbb && bytes[2] === 0xbf) {
    return { words: ['1:1: it begins with a byte order mark, which isn\'t allowed'] };
  }
  const text = bytes.toString('utf8');
  if (!Buffer.from(text).equals(bytes)) return { words: ['it isn\'t valid UTF-8'] };
  try {
    const value = JSON.parse(text);
    return { value, words: oddParts(text, value) };
  } catch (error) {
    const message = /** @type {Error} */ (error).message;
    const why = message.replace(/ in JSON at position.*| \(line.*|, .* is not valid JSON/s, '');
    return { words: [`${placeIn(text, faultIn(text))}: it isn't valid JSON: ${why}`] };
  }
}

/** @param {unknown} it @returns {string} */
function shown(it) {
  const text = JSON.stringify(it) ?? 'absent';
  return text.length > 40 ? `${text.slice(0, 40)}..` : text;
}

const isText = (/** @type {unknown} */ it) => typeof it === 'string';
const isNumber = (/** @type {unknown} */ it) => Number.isInteger(it) && /** @type {number} */ (it) >= 0 && /** @type {number} */ (it) <= LARGEST;
const isObject = (/** @type {unknown} */ it) => typeof it === 'object' && it !== null && !Array.isArray(it);
const isOneOf = (/** @type {string[]} */ ...words) => (/** @type {unknown} */ it) => words.includes(/** @type {string} */ (it));

/** What stands behind a field that holds no children: its test, and its words. */
/** @type {Record<string, [(it: unknown) => boolean, string]>} */
const VALUES = {
  text: [isText, 'a text'],
  flag: [(it) => typeof it === 'boolean', 'true or false'],
  name: [(it) => Array.isArray(it) && it.length === 2 && isText(it[0]) && isNumber(it[1]), '[name, scope], a text and a number'],
  access: [isOneOf('public', 'protected', 'private'), '"public", "protected" or "private"'],
  'method kind': [isOneOf('method', 'getter', 'setter'), '"method", "getter" or "setter"'],
};

/** @typedef {{ key: string, mark: '' | '?' | '*', what: string }} Field */

/** @param {string} kind @returns {Field[]} */
export function fieldsOf(kind) {
  return FIELDS[kind].split(', ').map((it) => {
    const [, key, mark, what] = /** @type {RegExpExecArray} */ (/^(\w+)([*?]?) (.+)$/.exec(it));
    return { key, mark: /** @type {Field['mark']} */ (mark), what };
  });
}

/** @param {any} node @param {Field} field @returns {string | null} what is wrong */
function fieldFault(node, { key, mark, what }) {
  const value = node[key] ?? null;
  if (value === null) return mark === '' && what !== 'flag' ? `"${key}" has to be there` : null;
  if (VALUES[what]) return VALUES[what][0](value) ? null : `"${key}" has to be ${VALUES[what][1]}, and is ${shown(value)}`;
  if (mark !== '*') return isNumber(value) ? null : `"${key}" has to be the number of a node, and is ${shown(value)}`;
  return Array.isArray(value) && value.every(isNumber) ? null : `"${key}" has to be a list of numbers of nodes, and is ${shown(value)}`;
}

/** @param {any} node @returns {string[]} */
function nodeFaults(node) {
  if (!isObject(node)) return [`it has to be an object, and is ${shown(node)}`];
  if (!isText(node.kind)) return ['"kind" has to be there, a text'];
  if (!FIELDS[node.kind]) return [`there is no kind "${node.kind}"`];
  const range = node.range;
  const isRange = Array.isArray(range) && range.length === 2 && range.every((it) => Number.isInteger(it) && it >= 0);
  const own = isRange ? [] : [`"range" has to be [start, end], two numbers, and is ${shown(range)}`];
  return [...own, ...fieldsOf(node.kind).map((it) => fieldFault(node, it)).filter((it) => it !== null)].map(String);
}

/** @param {any} module @param {number} i @returns {string} */
export function moduleName(module, i) {
  return isText(module?.specifier) ? `module ${module.specifier}` : `module ${i} of the list`;
}

/** @param {any} tree @param {string} name @returns {string[]} */
function treeFaults(tree, name) {
  if (tree === undefined || tree === null) return [];
  if (!isObject(tree)) return [`${name}: "tree" has to be an object, and is ${shown(tree)}`];
  const flag = tree.declaration ?? false;
  const own = typeof flag === 'boolean' ? [] : [`${name}: "declaration" has to be true or false, and is ${shown(flag)}`];
  const nodes = tree.nodes ?? [];
  if (!Array.isArray(nodes)) return [...own, `${name}: "nodes" has to be a list, and is ${shown(nodes)}`];
  return [...own, ...nodes.flatMap((node, i) => {
    const kind = isText(node?.kind) ? ` (${node.kind})` : '';
    return nodeFaults(node).map((it) => `${name}, node ${i}${kind}: ${it}`);
  })];
}

/** @param {any} module @param {number} i @returns {string[]} */
function moduleFaults(module, i) {
  const name = moduleName(module, i);
  if (!isObject(module)) return [`${name}: it has to be an object, and is ${shown(module)}`];
  const found = isText(module.specifier) ? [] : [`${name}: "specifier" has to be there, a text`];
  if (!['esm', 'json', 'external'].includes(module.kind)) {
    return [...found, `${name}: "kind" has to be "esm", "json" or "external", and is ${shown(module.kind)}`];
  }
  if (module.kind === 'external') return found;
  if (!isText(module.text)) found.push(`${name}: "text" has to be there, a text`);
  if (module.kind === 'json') return found;
  if (!isText(module.types ?? '')) found.push(`${name}: "types" has to be a text, and is ${shown(module.types)}`);
  return [...found, ...treeFaults(module.tree, name)];
}

/** @param {any} value @param {string} key @param {number} length @param {string} form @returns {string[]} */
function rowFaults(value, key, length, form) {
  const rows = value[key] ?? [];
  if (!Array.isArray(rows)) return [`"${key}" has to be a list, and is ${shown(rows)}`];
  const isRow = (/** @type {any} */ it) => Array.isArray(it) && it.length === length && it.every(isText);
  return rows.flatMap((it, i) => (isRow(it) ? [] : [`${key}[${i}] has to be ${form}, and is ${shown(it)}`]));
}

/** @param {any} value of the graph's text @returns {string[]} */
export function formFaults(value) {
  if (!isObject(value)) return [`a graph is an object, and this is ${shown(value)}`];
  const modules = value.modules ?? [];
  const own = Array.isArray(modules) ? modules.flatMap(moduleFaults) : [`"modules" has to be a list, and is ${shown(modules)}`];
  return [
    ...own,
    ...rowFaults(value, 'redirects', 2, '[from, to], two texts'),
    ...rowFaults(value, 'resolutions', 3, '[referrer, text, to], three texts'),
  ];
}
