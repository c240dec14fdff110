// What paths end at, however long they are.
import { isDefinition } from '../folder/folder.js';
import { endsOf } from '../folder/paths.js';

export { endsOf };

/** @typedef {import('../folder/folder.js').Definition} Definition */

/** @param {any[]} entries of paths @returns {Definition[]} */
export function definitionsOf(entries) {
  return endsOf(entries).filter(isDefinition);
}
