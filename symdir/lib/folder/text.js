// The text of a file, and places in it.
import { readFileSync } from 'node:fs';

import { wellFormed } from '../wellformed.js';
import { hashOf } from './kept.js';

/** @param {Buffer} bytes @returns {string} of UTF-8, or of UTF-16 where its mark says so, in either order; well formed, without a mark */
export function decoded(bytes) {
  const mark = bytes.length > 1 ? bytes.readUInt16BE() : 0;
  if (mark === 0xfeff) return decoded(Buffer.from(bytes.subarray(0, bytes.length & ~1)).swap16());
  const text = mark === 0xfffe ? wellFormed(bytes.toString('utf16le')) : bytes.toString('utf8');
  return text.charCodeAt(0) === 0xfeff ? text.slice(1) : text;
}

/** Lines and columns of places in a text, which are told in bytes of UTF-8. */
export class Places {
  /** @param {string | Buffer} text */
  constructor(text) {
    this.bytes = typeof text === 'string' ? Buffer.from(text) : text;
    /** @type {string | undefined} of the text, where that is asked for */
    this.hash = undefined;
    /** @type {number[]} */
    this.starts = [0];
    for (let at = this.bytes.indexOf(10); at >= 0; at = this.bytes.indexOf(10, at + 1)) this.starts.push(at + 1);
  }

  /** @param {string} file @returns {Places} of nothing where the file can't be read */
  static of(file) {
    try {
      return new Places(decoded(readFileSync(file)));
    } catch {
      return new Places('');
    }
  }

  /** @param {string} hash of a file's bytes @returns {boolean} whether these places are surely those of that file: it may have been another one when it was read for them */
  isOf(hash) {
    this.hash ??= hashOf(this.bytes);
    return this.hash === hash;
  }

  /** @param {number} at @returns {{ line: number, column: number }} both from 1, the column in UTF-16 units as editors count */
  place(at) {
    let low = 0;
    let high = this.starts.length;
    while (high - low > 1) {
      const middle = (low + high) >> 1;
      if (this.starts[middle] <= at) low = middle;
      else high = middle;
    }
    return { line: low + 1, column: this.bytes.toString('utf8', this.starts[low], at).length + 1 };
  }

  /** @param {number} at in bytes @param {string} word @returns {boolean} whether it stands there, and doesn't go on */
  hasWord(at, word) {
    const bytes = Buffer.byteLength(word);
    return this.bytes.toString('utf8', at, at + bytes) === word && !/^[\p{ID_Continue}$]/u.test(this.bytes.toString('utf8', at + bytes, at + bytes + 4));
  }

  /** @param {number} line from 1 @returns {[number, number] | null} where it starts and ends, in bytes */
  line(line) {
    if (line < 1 || line > this.starts.length) return null;
    return [this.starts[line - 1], this.starts[line] ?? this.bytes.length];
  }

  /** @param {number} line @param {number} column @returns {number | null} in bytes */
  offset(line, column) {
    const range = this.line(line);
    if (!range) return null;
    const before = this.bytes.toString('utf8', ...range).slice(0, column - 1);
    return range[0] + Buffer.byteLength(before);
  }
}
