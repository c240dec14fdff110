// Writes nodes as JSON, into bytes: a huge file has millions of them, and texts that are put together cost more than parsing. What each
// node begins with, and names of fields, are written eight bytes at a time, and numbers four digits at a time.

import { memoryFor, unaccounted } from './memory.js';
import { END, FIELDS, FIELD_NAMES, KIND, KIND_NAMES, LIST, NEXT, NODE, SIZE, SORT, SORT_BITS, START, SYMBOL, TEXT, TRUE } from './nodes.js';

/** @typedef {import('./nodes.js').Made} Made */
/** @typedef {import('./nodes.js').Nodes} Nodes */

/** So many bytes are written before the next piece begins. */
const PIECE = 1 << 20;
/** So many bytes most texts become for each of their units, of which this part is for what stands before: the text itself, and the numbers of items. */
const [BYTES_OF_A_UNIT, PART_BEFORE] = [24, 3];
/** More than a number has, with what stands around it and what is written behind it and then over. */
const NUMBER_ROOM = 20;
/** More than a node has without its lists and texts. */
const NODE_ROOM = 1024;
/** The most bytes that a unit of a text becomes. */
const UNIT_ROOM = 6;
const [QUOTE, COMMA, ZERO, CLOSE, CLOSE_NODE, BACKSLASH] = [...'",0]}\\'].map((it) => it.charCodeAt(0));
const FIRST_PLAIN = 32;
const LAST_PLAIN = 126;
/** The largest number of two groups of digits. */
const LARGEST = 99_999_999;
/** The numbers of four digits, each digit a byte and the first one in front. */
const GROUP = 10_000;
const DIGITS = Uint32Array.from({ length: GROUP }, (_, i) => (
  (ZERO + ((i / 1000) | 0)) + (ZERO + (((i / 100) | 0) % 10)) * 0x100 + (ZERO + (((i / 10) | 0) % 10)) * 0x10000 + (ZERO + (i % 10)) * 0x1000000));

/** The most words that a text in a table has, and how many texts a table has at most. */
const [WORDS, TEXTS] = [8, 1024];

/** Texts of ASCII by their numbers. Their words stand in one list, since to look up an object for each text costs more than to write it. */
class Table {
  /** @param {(number: number) => string} textOf a number */
  constructor(textOf) {
    this.textOf = textOf;
    /** In bytes; 0 of what wasn't written yet. */
    this.lengths = new Uint8Array(TEXTS);
    /** Eight bytes each. No text of ASCII is one that is no number. */
    this.words = new Float64Array(TEXTS * WORDS);
  }

  /** @param {number} number of a text that wasn't written yet @returns {number} how many bytes it has */
  fill(number) {
    const bytes = Buffer.from(this.textOf(number));
    if (number >= TEXTS || bytes.length > 8 * WORDS) throw new RangeError(`no room for ${bytes}`);
    const whole = Buffer.alloc(8 * WORDS);
    bytes.copy(whole);
    for (let i = 0; i < WORDS; i++) this.words[WORDS * number + i] = whole.readDoubleLE(8 * i);
    this.lengths[number] = bytes.length;
    return bytes.length;
  }

  /** @param {DataView} view @param {number} at @param {number} number of a text, for which there is room, and for two words more @returns {number} where it ends */
  put(view, at, number) {
    const length = this.lengths[number] || this.fill(number);
    const { words } = this;
    const word = WORDS * number;
    view.setFloat64(at, words[word], true);
    view.setFloat64(at + 8, words[word + 1], true);
    for (let i = 16; i < length; i += 8) view.setFloat64(at + i, words[word + (i >> 3)], true);
    return at + length;
  }
}

/** What nodes begin with, by the number of their kind. */
const HEADS = new Table((kind) => `,{"kind":"${KIND_NAMES[kind]}","range":[`);
/** What fields of each sort begin with, or all of one. */
const BEGINNINGS = { [TEXT]: '"', [TRUE]: 'true', [NODE]: '', [LIST]: '[', [SYMBOL]: '["' };
/** How fields begin, by what their rows begin with. */
const NAMES = new Table((field) => `,"${FIELD_NAMES[field >> SORT_BITS]}":${BEGINNINGS[field & SORT]}`);

/** @param {DataView} view @param {number} at @param {number} value of four digits at most @returns {number} where it ends */
function putGroup(view, at, value) {
  const zeros = value < 10 ? 3 : value < 100 ? 2 : value < 1000 ? 1 : 0;
  view.setUint32(at, DIGITS[value] >>> (8 * zeros), true);
  return at + 4 - zeros;
}

/** @param {DataView} view @param {number} at @param {number} value of more than two groups of digits @returns {number} where it ends */
function putLong(view, at, value) {
  const high = Math.floor(value / GROUP);
  const from = putNumber(view, at, high);
  view.setUint32(from, DIGITS[value - high * GROUP], true);
  return from + 4;
}

/** @param {DataView} view @param {number} at @param {number} value a whole number @returns {number} where it ends */
function putNumber(view, at, value) {
  if (value < GROUP) return putGroup(view, at, value);
  if (value > LARGEST) return putLong(view, at, value);
  const high = (value / GROUP) | 0;
  const from = putGroup(view, at, high);
  view.setUint32(from, DIGITS[value - high * GROUP], true);
  return from + 4;
}

/** @param {DataView} view @param {number} at @param {number} kind @param {number} start @param {number} end of the node's range @returns {number} where it ends */
function putHead(view, at, kind, start, end) {
  const comma = putNumber(view, HEADS.put(view, at, kind), start);
  view.setUint8(comma, COMMA);
  const close = putNumber(view, comma + 1, end);
  view.setUint8(close, CLOSE);
  return close + 1;
}

/** @type {Buffer | null} the first piece of a tree that was copied: V8 counts its memory, and would collect garbage early for one of each file */
let spare = null;

/** @param {number} count of bytes @returns {Buffer} memory for the first piece of a tree, with so many bytes at least */
function firstPiece(count) {
  const found = spare;
  if (found === null || found.length < count) return Buffer.allocUnsafeSlow(Math.max(PIECE, count));
  spare = null;
  return found;
}

/** @param {string[]} texts @returns {number} how many bytes they have */
function bytesOf(texts) {
  return texts.reduce((sum, it) => sum + Buffer.byteLength(it), 0);
}

export class TreeWriter {
  /** @param {number} [length] of the text */
  constructor(length = 0) {
    const memory = memoryFor(length, BYTES_OF_A_UNIT);
    this.bytes = memory ? Buffer.from(memory) : Buffer.allocUnsafeSlow(0);
    /** Where the first piece begins, in memory for all of a long text. */
    this.from = Math.floor(this.bytes.length / PART_BEFORE);
    this.view = new DataView(this.bytes.buffer);
    this.at = this.from;
    /** @type {Buffer | null} the first piece of a text that isn't long */
    this.first = null;
    /** @type {Buffer[]} */
    this.full = [];
    /** @type {Made[]} nodes that are written next, level by level, and how many they are */
    this.waiting = [];
    this.count = 0;
  }

  /** @returns {Buffer} what is written of the piece */
  last() {
    return this.bytes.subarray(this.full.length > 0 ? 0 : this.from, this.at);
  }

  /** @returns {Buffer[]} what is written: a comma before each node */
  pieces() {
    return [...this.full, this.last()];
  }

  /** @param {string[]} before @param {string} behind @returns {Buffer} what is written, between these, after which nothing more is: that of a long text isn't copied */
  between(before, behind) {
    const start = this.from - bytesOf(before);
    if (this.full.length > 0 || start < 0 || this.at + bytesOf([behind]) > this.bytes.length) {
      const all = Buffer.concat([...before.map((it) => Buffer.from(it)), ...this.pieces(), Buffer.from(behind)]);
      this.free();
      return all;
    }
    let { from } = this;
    for (let i = before.length - 1; i >= 0; i--) this.bytes.write(before[i], from -= Buffer.byteLength(before[i]));
    return this.bytes.subarray(start, this.at + this.bytes.write(behind, this.at));
  }

  /** Has the first piece's memory used for the next tree: what was written is copied, and nothing more is. */
  free() {
    if (this.first !== null) spare = this.first;
  }

  /** @param {number} count of bytes that are written next */
  room(count) {
    if (this.at + count > this.bytes.length) this.begin(count);
  }

  /** @param {number} count of bytes that the next piece has at least, which begins */
  begin(count) {
    const isFirst = this.bytes.length === 0;
    this.full.push(this.last());
    if (isFirst) this.bytes = this.first = firstPiece(count);
    else this.bytes = Buffer.from(unaccounted(Math.max(PIECE, count)));
    this.view = new DataView(this.bytes.buffer);
    this.at = 0;
  }

  /** @param {string} text whose first quote is written. There is room for the next field then. */
  text(text) {
    this.room(text.length * UNIT_ROOM + NODE_ROOM);
    const { bytes } = this;
    let { at } = this;
    for (let i = 0; i < text.length; i++) {
      const unit = text.charCodeAt(i);
      if (unit < FIRST_PLAIN || unit > LAST_PLAIN || unit === QUOTE || unit === BACKSLASH) {
        this.at += this.bytes.write(JSON.stringify(text).slice(1), this.at);
        return;
      }
      bytes[at++] = unit;
    }
    bytes[at++] = QUOTE;
    this.at = at;
  }

  /** @param {Nodes} nodes @param {Made} root @param {number} number of the root: what it holds has the next ones, each before what that holds */
  tree(nodes, root, number) {
    const { waiting } = this;
    // of each level which one is next, and where they end: behind them stand those that the last one written holds
    const nexts = [0];
    const ends = [1];
    let next = number;
    waiting[0] = root;
    for (let level = 0; level >= 0;) {
      const i = nexts[level]++;
      const end = ends[level];
      if (i === end) level--;
      else {
        this.count = end;
        this.node(nodes, waiting[i], ++next);
        if (this.count > end) {
          level++;
          nexts[level] = end;
          ends[level] = this.count;
        }
      }
    }
  }

  /** @param {Nodes} nodes @param {Made} made @param {number} next the number of the first that it holds */
  node(nodes, made, next) {
    const { words } = nodes;
    const end = words[made + NEXT];
    this.room(NODE_ROOM);
    let { view, at } = this;
    at = putHead(view, at, words[made + KIND], words[made + START], words[made + END]);
    let free = next;
    for (let field = made + FIELDS; field < end;) {
      const sort = words[field] & SORT;
      at = NAMES.put(view, at, words[field++]);
      if (sort === NODE) {
        const child = words[field++];
        at = putNumber(view, at, free);
        free += words[child + SIZE];
        this.waiting[this.count++] = child;
      } else if (sort !== TRUE) {
        this.at = at;
        if (sort === LIST) free = this.list(words, field, free);
        else this.text(nodes.texts[words[field]]);
        if (sort === SYMBOL) this.scope(words[field + 1] >>> 0);
        field += sort === LIST ? 1 + words[field] : sort === SYMBOL ? 2 : 1;
        ({ view, at } = this);
      }
    }
    view.setUint8(at, CLOSE_NODE);
    this.at = at + 1;
  }

  /** @param {number} scope of a symbol, behind its name */
  scope(scope) {
    const { view } = this;
    view.setUint8(this.at, COMMA);
    const close = putNumber(view, this.at + 1, scope);
    view.setUint8(close, CLOSE);
    this.at = close + 1;
  }

  /** @param {Int32Array} words @param {number} from where the length of the list stands, which isn't empty @param {number} free @returns {number} which is free behind it. There is room for the next field then. */
  list(words, from, free) {
    const count = words[from];
    this.room(count * NUMBER_ROOM + NODE_ROOM);
    const { view, waiting } = this;
    let { at, count: last } = this;
    let next = free;
    for (let i = from + 1; i <= from + count; i++) {
      const made = words[i];
      at = putNumber(view, at, next);
      view.setUint8(at++, COMMA);
      waiting[last++] = made;
      next += words[made + SIZE];
    }
    view.setUint8(at - 1, CLOSE);
    this.at = at;
    this.count = last;
    return next;
  }
}
