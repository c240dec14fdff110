// How a run begins: which files the folder has, what is kept of them, threads for those of which nothing is, and symq over the graph that
// was asked last, where all files have kept trees. This loads little, so that these start before what is needed later is loaded.
import { isJavaScript } from '../language.js';
import { optimize } from '../tree/budget.js';
import { useTypeScript } from '../tree/which.js';
import { findTypeScript } from '../typescript.js';
import { Files } from './files.js';
import { Kept, madeOf } from './kept.js';

/** @typedef {import('./pool.js').Pool} Pool */
/** @typedef {import('../symq.js').Symq} Symq */
/** @typedef {import('./results.js').Results} Results */
/** @typedef {import('./kept.js').Parsed} Parsed */
/** @typedef {import('../typescript.js').Found} Found */

/**
 * @typedef {object} Reading
 * @property {string} folder absolute
 * @property {RegExp[]} skip
 * @property {boolean} bodies
 * @property {boolean} ambient
 * @property {boolean} javascript whether JavaScript is read where declarations stand beside it
 * @property {boolean} packages whether modules of installed packages are read
 * @property {boolean} cache whether trees are kept
 * @property {Found} [typescript] that of the process, which is another program's: V8 is left as it is
 * @property {(text: string) => void} progress is told what is under way, and nothing where that has ended
 */

/**
 * Who is asked.
 * @typedef {object} Asked
 * @property {string} symq the program
 * @property {boolean} [strict] whether shared names are told
 * @property {string} [result] what of the answer is kept, in a word
 */

/** @typedef {Map<string, Map<string, Parsed>>} Trees of folders that are read one after the other: by how they are made, the last one of each specifier */

/**
 * @typedef {object} Begun
 * @property {Reading} reading
 * @property {Files} files
 * @property {Kept | null} kept the trees that are kept
 * @property {() => Promise<Pool>} pool which isn't loaded where all trees are kept
 * @property {Asked | null} asked null where nobody is
 * @property {Symq | null} last what answers on the graph that was asked last
 * @property {Results | null} results what is kept of answers
 * @property {Map<string, Parsed>} [others] trees of folders before, by specifier, which is given those of this one
 * @property {import('./resolve.js').Resolver} [resolver] which resolved the imports of these files before
 */

/** @param {Reading} reading @param {Found} typescript @returns {import('../tree/which.js').Which} */
function whichOf({ cache, typescript: ofProcess }, typescript) {
  return { typescript: typescript.file, kept: cache ? madeOf(typescript) : undefined, isGuest: ofProcess !== undefined };
}

/** @param {Reading} reading @param {Found} typescript @returns {Promise<Pool>} */
export async function poolOf(reading, typescript) {
  const { Pool } = await import('./pool.js');
  const { bodies, ambient } = reading;
  return new Pool({ ...whichOf(reading, typescript), bodies, ambient });
}

/** @param {Kept | null} kept @param {Asked | null} asked @param {Results | null} results @returns {Promise<Symq | null>} which starts at once where no result is kept */
async function lastOf(kept, asked, results) {
  const graph = asked ? kept?.lastGraph() : null;
  if (!asked || !graph) return null;
  const { Symq } = await import('../symq.js');
  const last = new Symq(asked.symq, graph);
  if (!results?.read()) last.start();
  return last;
}

/** @param {Kept | null} kept @param {Asked | null} asked @returns {Promise<Results | null>} */
async function resultsOf(kept, asked) {
  return kept && asked?.result ? (await import('./results.js')).Results.of(kept, asked) : null;
}

/** @param {Trees | undefined} trees @param {string} how they are made @returns {Map<string, Parsed> | undefined} */
function othersOf(trees, how) {
  if (trees && !trees.has(how)) trees.set(how, new Map());
  return trees?.get(how);
}

/** @param {Reading} reading @param {Asked | null} asked null where nobody is @param {Trees} [trees] of folders before @returns {Promise<Begun>} */
export async function begin(reading, asked, trees) {
  const { folder, skip, bodies, ambient, cache, javascript } = reading;
  const typescript = reading.typescript ?? findTypeScript(folder);
  useTypeScript(whichOf(reading, typescript));
  const kept = cache ? new Kept(JSON.stringify([folder, typescript.version, bodies, ambient])) : null;
  const files = new Files(folder, skip);
  /** @type {Promise<Pool> | undefined} */
  let made;
  const pool = () => (made ??= poolOf(reading, typescript));
  const fresh = files.code().filter((it) => !kept?.modules.has(it) && (javascript || !isJavaScript(it)));
  const others = othersOf(trees, JSON.stringify([typescript.version, bodies, ambient]));
  // files of a folder are mostly as they were in another one before it
  if (fresh.length > 0 && !others?.size) (await pool()).begin(fresh);
  else if (!reading.typescript) optimize(true);
  const results = await resultsOf(kept, asked);
  const last = fresh.length > 0 ? null : await lastOf(kept, asked, results);
  return { reading, files, kept, pool, asked, last, results, others };
}
