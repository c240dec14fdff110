// Memory for what a text becomes. V8 counts most memory, and looks anew through all that the parser made as it grows; what threads can share
// it doesn't count. What is taken at once costs nothing until it is written, and less than pieces then, which are copied as they grow.

/** The length of a text from which on it is worth it that memory for all that it becomes is taken at once. */
export const LONG_TEXT = 1_000_000;
/** A longer text is given as much as this one. */
const LONGEST = 1 << 25;

/** @param {number} count of bytes @returns {SharedArrayBuffer} memory that V8 doesn't count */
export function unaccounted(count) {
  return new SharedArrayBuffer(count);
}

/** @param {number} length of a text @param {number} each how many bytes it becomes for each of its units @returns {SharedArrayBuffer | null} memory for all of it; null where it isn't long, or the system has no such piece */
export function memoryFor(length, each) {
  if (length < LONG_TEXT) return null;
  try {
    return unaccounted(each * Math.min(length, LONGEST));
  } catch {
    return null;
  }
}
