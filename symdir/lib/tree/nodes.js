// Nodes while a text is converted: rows of numbers, each behind what it holds. A huge text has millions of nodes, and collecting as many
// objects costs more than parsing. V8's texts have less than 2 ** 29 units, so a place in bytes has 31 bits. A scope's number has 32.
import { memoryFor, unaccounted } from './memory.js';
import { TreeNode } from './node.js';

/** @typedef {number} Made a node that is made: where it stands, and never 0 */
/** @typedef {string | boolean | null | undefined | [string, number] | Made | Made[]} Given of a field: nothing, `false` and an empty list aren't kept */

/** What a row begins with: the kind's number, the range, how many nodes there are from there on down, how many lie below one another, the row's end. */
export const [KIND, START, END, SIZE, HEIGHT, NEXT, FIELDS] = [0, 1, 2, 3, 4, 5, 6];
/** The sorts of fields. What a field begins with is its name's number and its sort, in so many bits. */
export const [TEXT, TRUE, NODE, LIST, SYMBOL] = [0, 1, 2, 3, 4];
export const SORT_BITS = 3;
export const SORT = (1 << SORT_BITS) - 1;
/** More words than a row has without the numbers of its lists. */
const ROOM = 64;
const FIRST_WORDS = 4096;
/** So many bytes of rows most texts become for each of their units, if they are one statement. */
const BYTES_OF_A_UNIT = 8;

/** @type {string[]} by number */
export const KIND_NAMES = [];
/** @type {string[]} by number */
export const FIELD_NAMES = [];
/** @typedef {{ number: number, keys: string[], names: number[] }} Form of a kind: which field came first at each place, and the numbers of their names */
/** @type {Map<string, Form>} by kind */
const FORMS = new Map();
/** @type {Map<string, number>} */
const NAME_NUMBERS = new Map();

/** @param {string} kind @returns {Form} */
function newForm(kind) {
  const form = { number: KIND_NAMES.push(kind) - 1, keys: [], names: [] };
  FORMS.set(kind, form);
  return form;
}

/** @param {string} kind @returns {Form} */
export function formOf(kind) {
  return FORMS.get(kind) ?? newForm(kind);
}

/** @param {string} key @returns {number} */
export function nameNumber(key) {
  const number = NAME_NUMBERS.get(key) ?? FIELD_NAMES.push(key) - 1;
  NAME_NUMBERS.set(key, number);
  return number;
}

/** @param {Form} form @param {number} i which of the fields it is @param {string} key @returns {number} the name's number */
function nameOf(form, i, key) {
  if (form.keys[i] === key) return form.names[i];
  const number = nameNumber(key);
  form.keys[i] ??= key;
  form.names[i] ??= number;
  return number;
}

export class Nodes {
  /** @param {number} [length] of the text */
  constructor(length = 0) {
    this.words = new Int32Array(memoryFor(length, BYTES_OF_A_UNIT) ?? new ArrayBuffer(4 * FIRST_WORDS));
    /** Where the next row begins. */
    this.at = 1;
    /** @type {string[]} what texts and symbols stand for, as far as `count` */
    this.texts = [];
    this.count = 0;
    /** Of the row that is written. */
    this.size = 0;
    this.height = 0;
  }

  /** Leaves out all that was made. */
  clear() {
    this.at = 1;
    this.count = 0;
  }

  /** @param {number} count of words that are written next */
  room(count) {
    if (this.at + count <= this.words.length) return;
    const more = new Int32Array(unaccounted(8 * (this.at + count)));
    more.set(this.words.subarray(0, this.at));
    this.words = more;
  }

  /** @param {Made} made @returns {string} */
  kindOf(made) {
    return KIND_NAMES[this.words[made + KIND]];
  }

  /** @param {Made} made @returns {number} */
  startOf(made) {
    return this.words[made + START];
  }

  /** @param {Made} made @returns {number} */
  endOf(made) {
    return this.words[made + END];
  }

  /** @param {Form} form @param {number} start @param {number} end in bytes @returns {Made} whose fields are written next */
  begin(form, start, end) {
    this.room(ROOM);
    const { words, at } = this;
    words[at + KIND] = form.number;
    words[at + START] = start;
    words[at + END] = end;
    this.size = 1;
    this.height = 0;
    this.at = at + FIELDS;
    return at;
  }

  /** @param {Made} made whose fields are written @returns {Made} it */
  end(made) {
    const { words } = this;
    words[made + SIZE] = this.size;
    words[made + HEIGHT] = this.height + 1;
    words[made + NEXT] = this.at;
    return made;
  }

  /** @param {string} kind @param {number} start @param {number} end in bytes @param {Record<string, Given>} fields @returns {Made} */
  add(kind, start, end, fields) {
    const form = formOf(kind);
    const made = this.begin(form, start, end);
    let i = 0;
    for (const key in fields) {
      const value = fields[key];
      if (value !== null && value !== undefined && value !== false) this.field(nameOf(form, i, key), value);
      i++;
    }
    return this.end(made);
  }

  /** @param {number} name @param {string | true | [string, number] | Made | Made[]} value */
  field(name, value) {
    if (typeof value === 'number') this.node(name, value);
    else if (typeof value === 'string') this.text(name, value);
    else if (value === true) this.words[this.at++] = (name << SORT_BITS) | TRUE;
    else if (typeof value[0] === 'string') this.symbol(name, value[0], /** @type {number} */ (value[1]));
    else this.list(name, /** @type {Made[]} */ (value));
  }

  /** @param {number} name @param {Made} value */
  node(name, value) {
    const { words } = this;
    words[this.at++] = (name << SORT_BITS) | NODE;
    words[this.at++] = value;
    this.hold(value);
  }

  /** @param {number} name @param {string} value */
  text(name, value) {
    this.words[this.at++] = (name << SORT_BITS) | TEXT;
    this.words[this.at++] = this.count;
    this.texts[this.count++] = value;
  }

  /** @param {number} name @param {string} text @param {number} scope */
  symbol(name, text, scope) {
    this.words[this.at++] = (name << SORT_BITS) | SYMBOL;
    this.words[this.at++] = this.count;
    this.words[this.at++] = scope;
    this.texts[this.count++] = text;
  }

  /** @param {number} name @param {(Made | null | undefined | false | '')[]} list of which what is none is left out */
  list(name, list) {
    this.room(ROOM + list.length);
    const from = this.at;
    const { words } = this;
    let at = from + 2;
    for (let i = 0; i < list.length; i++) {
      const made = list[i];
      if (!made) continue;
      words[at++] = made;
      this.hold(made);
    }
    if (at === from + 2) return;
    words[from] = (name << SORT_BITS) | LIST;
    words[from + 1] = at - from - 2;
    this.at = at;
  }

  /** @param {Made} made that the row holds */
  hold(made) {
    const { words } = this;
    this.size += words[made + SIZE];
    const height = words[made + HEIGHT];
    if (height > this.height) this.height = height;
  }

  /** @param {Made} root @returns {TreeNode} the same with all that it holds, as objects */
  tree(root) {
    /** @type {Map<Made, TreeNode>} */
    const found = new Map();
    for (let made = 1; made <= root; made = this.words[made + NEXT]) {
      found.set(made, new TreeNode(this.kindOf(made), this.startOf(made), this.endOf(made), this.fieldsOf(made, found)));
    }
    return /** @type {TreeNode} */ (found.get(root));
  }

  /** @param {Made} made @param {Map<Made, TreeNode>} found what it holds, and more @returns {Record<string, import('./node.js').Field>} */
  fieldsOf(made, found) {
    const { words, texts } = this;
    /** @type {Record<string, import('./node.js').Field>} */
    const fields = {};
    const nodeAt = (/** @type {number} */ at) => /** @type {TreeNode} */ (found.get(words[at]));
    for (let at = made + FIELDS; at < words[made + NEXT];) {
      const key = FIELD_NAMES[words[at] >> SORT_BITS];
      const sort = words[at++] & SORT;
      if (sort === TRUE) fields[key] = true;
      else if (sort === TEXT) fields[key] = texts[words[at++]];
      else if (sort === NODE) fields[key] = nodeAt(at++);
      else if (sort === SYMBOL) {
        fields[key] = [texts[words[at]], words[at + 1] >>> 0];
        at += 2;
      } else {
        const from = at + 1;
        at = from + words[at];
        fields[key] = Array.from({ length: at - from }, (_, i) => nodeAt(from + i));
      }
    }
    return fields;
  }

  /** @param {TreeNode[]} list numbered from the first on, each before what it holds @returns {Made} the first */
  of(list) {
    const [{ number: first }] = list;
    /** @type {Made[]} */
    const made = [];
    const given = (/** @type {any} */ it) => (it instanceof TreeNode ? made[it.number - first] : it);
    for (let i = list.length - 1; i >= 0; i--) {
      const { kind, start, end, fields } = list[i];
      made[i] = this.add(kind, start, end, Object.fromEntries(Object.entries(fields).map(([key, it]) => [key, Array.isArray(it) ? it.map(given) : given(it)])));
    }
    return made[0];
  }
}
