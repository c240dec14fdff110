// The text of a tree that is made item by item.
import { CUT_DEPTH, numbered } from './node.js';
import { HEIGHT, SIZE } from './nodes.js';
import { TreeWriter } from './treewriter.js';

/** @typedef {import('./nodes.js').Made} Made */
/** @typedef {import('./nodes.js').Nodes} Nodes */

export class TreeText {
  /** @param {number} [length] of the text */
  constructor(length = 0) {
    /** How many nodes there are, with the program. */
    this.count = 1;
    this.isTooDeep = false;
    /** @type {number[]} the numbers of the items */
    this.body = [];
    this.writer = new TreeWriter(length);
  }

  /** @param {Nodes} nodes @param {Made} item of the program */
  add(nodes, item) {
    if (this.isTooDeep) return;
    const made = nodes.words[item + HEIGHT] + 1 < CUT_DEPTH ? item : this.cut(nodes, item);
    this.body.push(this.count);
    if (made === null) return;
    this.writer.tree(nodes, made, this.count);
    this.count += nodes.words[made + SIZE];
  }

  /** @param {Nodes} nodes @param {Made} item of which parts may have to be left out @returns {Made | null} what is left; null where it is too deep */
  cut(nodes, item) {
    const all = numbered(nodes.tree(item), this.count, 1);
    this.isTooDeep = all === null;
    return all && nodes.of(all);
  }

  /** @param {{ start: number, end: number }} program @returns {string} how the JSON text of the list of all nodes begins */
  head({ start, end }) {
    const body = this.body.length > 0 ? `,"body":[${this.body.join(',')}]` : '';
    return `[{"kind":"Program","range":[${start},${end}]${body}}`;
  }

  /** @param {{ start: number, end: number }} program @returns {Buffer[]} the JSON text of the list of all nodes, in pieces */
  whole(program) {
    return [Buffer.from(this.head(program)), ...this.writer.pieces(), Buffer.from(']')];
  }

  /** @param {{ start: number, end: number }} program @param {string[]} before @param {string} behind @returns {Buffer} the JSON text of that list between these, after which nothing is added */
  between(program, before, behind) {
    return this.writer.between([...before, this.head(program)], `]${behind}`);
  }

  /** Has the memory of the text used for another tree, once it is copied. */
  free() {
    this.writer.free();
  }
}
