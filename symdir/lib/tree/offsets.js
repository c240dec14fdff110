// Bytes of UTF-8 for places in a JavaScript string.

/**
 * @param {string} text well formed
 * @returns {(at: number) => number} from a place in UTF-16 units to the place in bytes
 */
export function byteOffsets(text) {
  const length = text.length;
  if (Buffer.byteLength(text) === length) return (at) => at;
  let first = 0;
  while (text.charCodeAt(first) < 128) first++;
  const map = new Uint32Array(length + 1 - first);
  let bytes = first;
  for (let i = first; i < length; i++) {
    map[i - first] = bytes;
    const unit = text.charCodeAt(i);
    if (unit < 0x80) bytes += 1;
    else if (unit < 0x800) bytes += 2;
    else if (unit >= 0xd800 && unit < 0xdc00 && i + 1 < length) {
      map[i + 1 - first] = bytes;
      bytes += 4;
      i++;
    } else bytes += 3;
  }
  map[length - first] = bytes;
  return (at) => (at < first ? at : map[at - first]);
}

export { wellFormed } from '../wellformed.js';
