// When V8's optimizing compiler sets in, and how far memory grows. Most runs end before what the compiler makes pays for itself, in each of
// a few threads even more so: a function has to run several times as long as it is set to by itself before it is compiled anew. A third of
// a run on kept trees is saved. Likewise most memory is in use until a run ends, and to look through it for what isn't takes a twentieth.
import v8 from 'node:v8';

const LATE = 750_000;
/** What V8 sets it to by itself. */
const USUAL = 135_168;
/** By how many percent what is in use grows before V8 looks through it again. */
const GROWTH = 1000;
/** By so many at most V8 has it grow by itself. */
const USUAL_GROWTH = 300;
/** So many bytes of objects the parser makes of a unit of a text. */
const BYTES_OF_A_UNIT = 64;

/** @param {number} percent from then on in all threads, where 0 leaves it to V8 */
function grow(percent) {
  v8.setFlagsFromString(`--heap-growing-percent=${percent}`);
}

/** @param {boolean} isLate or as usual, from then on in all threads: the compiler, and the search for memory */
export function optimize(isLate) {
  v8.setFlagsFromString(`--interrupt-budget=${isLate ? LATE : USUAL}`);
  grow(isLate ? GROWTH : 0);
}

/** Has V8 look for memory as usual, from then on in all threads: where much is in use it must not grow so far. */
export function saveMemory() {
  grow(0);
}

/**
 * Has V8 look for memory again when as much is in use as the tree of a text will take: nothing of that is free while it is made, and each
 * look costs as much as there is.
 * @param {number} length of the text
 */
export function growFor(length) {
  const percent = Math.floor((100 * length * BYTES_OF_A_UNIT) / v8.getHeapStatistics().used_heap_size);
  grow(percent > USUAL_GROWTH ? percent : 0);
}
